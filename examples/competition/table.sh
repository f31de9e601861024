# table.sh [LIST]: how each solver did on each problem, by LIST, which may be paranoid (as without one) or trendy
export LC_ALL=C
list=${1:-paranoid}
case $list in
  paranoid) list=-removed,-changed ;;
  trendy) list=-removed,-notuptodate,-unsat_recommends,-new ;;
esac
# of an empty problem the status is 2, unless the list is wrong or there is no cudf_check
cudf_check score --criteria="$list" - < /dev/null > /dev/null
[ $? -eq 2 ] || exit 4
folder=answers
[ ! -d solvers ] || folder=solvers
sh names.sh $folder problems || exit
solvers=$(ls $folder)

# how the run of solver $1 on problem $2 ended
state() {
  [ -e ended ] || return 0
  awk -v solver="$1" -v problem="$2" '
    ($1 "") == solver "" && ($2 "") == problem "" { seen = 1; status = $3 }
    END { if (!seen) print "pending"; else if (status >= 124) print "stopped" }' ended
}

# why the file $1 can't be read
why() {
  if [ -d "$1" ]; then echo folder
  elif [ ! -e "$1" ]; then echo missing
  elif [ "$(find -L "$1" -size +268435456c)" ]; then echo long
  else echo unread; fi
}

# a line for each answer to problem $1: the solver, and its place or another word
places() {
  problem=$1
  set --
  for solver in $solvers; do
    answer=answers/$solver/$problem
    word=$(state "$solver" "$problem")
    if [ -z "$word" ]; then
      cudf_check check "problems/$problem" "$answer" --limit 1 > /dev/null 2>&1
      case $? in
        0 | 1 | 3) set -- "$@" "$answer"; continue ;;
        2) word=faulty ;;
        *) word=$(why "$answer") ;;
      esac
    fi
    echo "$solver $word"
  done
  # what fails.sh has shown
  fail=$([ "$plain" ] || sed -n '$s/^no solution exists$/right/p; $s/^solution yes$/wrong/p' "judged/$problem" 2> /dev/null)
  [ $# -eq 0 ] || cudf_check rank --criteria="$list" "problems/$problem" "$@" | awk -v files="$*" -v fail="${fail:-FAIL}" '
    { split(files, file); split(file[$3], part, "/"); told = substr($0, index($0, $4))
      if (told != before) place = $1
      before = told; print part[2], $4 == "yes" ? place : $4 == "FAIL" ? fail : $4 }'
}

{
  echo "$list" $solvers
  for problem in $(ls problems); do
    rows=$(cudf_check lint "problems/$problem" > /dev/null && places "$problem")
    printf '%s\n' "$rows" | awk -v problem="$problem" -v solvers="$solvers" '
      { word[$1] = $2 }
      END { n = split(solvers, solver); printf "%s", problem
        for (i = 1; i <= n; i++) printf " %s", solver[i] in word ? word[solver[i]] : "unranked"
        print "" }'
  done
} | sh align.sh
