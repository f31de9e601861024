# run.sh SOLVER PROBLEM: lets solvers/SOLVER answer problems/PROBLEM, and adds limits and machine to `conditions`, and
# to `ended` the line SOLVER PROBLEM STATUS START ELAPSED USER SYSTEM MEMORY
solver=$1 problem=$2 raw=raw/$1/$2
[ -f "solvers/$solver" ] && [ -f "problems/$problem" ] ||
  { echo "run.sh: no solvers/$solver or no problems/$problem" >&2; exit 4; }
mkdir -p "raw/$solver" "answers/$solver"
rm -rf "$raw" "$raw.err" "answers/$solver/$problem"
measured=$(mktemp) || exit 5
: "${seconds:=300}" "${grace:=10}" "${signal:=TERM}" "${memory:=$(ulimit -v)}"
set -- timeout ${anytime:+--preserve-status} -s "$signal" -k "$grace" "$seconds" \
  sh "solvers/$solver" "problems/$problem" "$raw"
if [ -x "${timer:=/usr/bin/time}" ]; then
  set -- "$timer" -q -o "$measured" -f '%e %U %S %M' "$@"
fi
start=$(date +%s)
(
  ulimit -f 524288
  ulimit -v "$memory"
  exec "$@" < /dev/null > "$raw.err" 2>&1
)
status=$?
used=$(cat "$measured")
rm "$measured"
# without the program time, or of a solver that had to be killed, there is no more than this
if [ -z "$used" ]; then used="$(($(date +%s) - start)) - - -"; fi
if [ $status -eq 137 ]; then used="${used%% *} - - -"; fi
if [ $status -lt 124 ] && [ -f "$raw" ] && [ -r "$raw" ]; then cp "$raw" "answers/$solver/$problem" || exit 5; fi
# locked, since runs end at once
{
  flock 9
  echo "$solver $problem $status $start $used" >&9
  echo "$signal after $seconds s, KILL $grace s later, ulimit -v $memory; $(uname -sm)," \
    "$(nproc) processors, $(sed -n '/^model name/{s/^[^:]*: //p; q}' /proc/cpuinfo)" >> conditions
} 9>> ended
