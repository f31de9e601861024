# pending.sh [JOBS]: the lines of JOBS (jobs) that have no line in `ended`
awk 'FILENAME == "ended" { ended[$1, $2]; next } !(($1, $2) in ended)' ended "${1:-jobs}"
