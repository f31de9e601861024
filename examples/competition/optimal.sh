# optimal.sh [TABLE] > optima: is the best answer to each problem of TABLE (table) optimal by its list? A line for each problem:
# optimal, better (a solution that is better is in better/, with a report), or undecided. The status is 5 after an error
export LC_ALL=C
cudf_check --version > /dev/null || exit
table=${1:-table}
[ -r "$table" ] || { echo "optimal.sh: $table can't be read: sh table.sh > table makes it" >&2; exit 5; }
mkdir -p better
status=0
for best in $(awk 'NR == 1 { split($0, solver); list = $1; next }
  { for (i = 2; i <= NF; i++) if ($i == "1") { print $1 "/" solver[i] "/" list; next } }' "$table"); do
  problem=${best%%/*} list=${best##*/} solver=${best#*/} solver=${solver%/*}
  rm -f "better/$problem"
  sh fail.sh "problems/$problem" "better/$problem" "answers/$solver/$problem" "$list" > "better/$problem.report" 2>&1
  case $? in
    0) echo "$problem optimal" ;;
    1) echo "$problem better" ;;
    3) echo "$problem undecided" ;;
    *) echo "$problem: $(tail -n 1 "better/$problem.report")" >&2; status=5 ;;
  esac
done
exit $status
