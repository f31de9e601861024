# xargs.sh [JOBS]
xargs -r -P "${at_once:-4}" -n 2 sh run.sh < "${1:-jobs}"
