# parallel.sh [JOBS [OPTION..]]
jobs=${1:-jobs}
[ $# -eq 0 ] || shift
parallel "$@" -j "${at_once:-4}" --joblog joblog --colsep ' ' sh run.sh '{1}' '{2}' :::: "$jobs"
