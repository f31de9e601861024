# fails.sh: is FAIL right? Reports go to judged/, for table.sh; the status is 5 if fail.sh couldn't tell because of an error
cudf_check --version > /dev/null || exit
table=$(plain=yes sh table.sh) || exit
mkdir -p judged
status=0
for problem in $(echo "$table" | awk 'NR > 1 { name = $1; $1 = ""; if (/ FAIL/) print name }'); do
  sh fail.sh "problems/$problem" "judged/$problem.witness" > "judged/$problem" 2>&1
  case $? in
    0) echo "$problem right" ;;
    1) echo "$problem wrong" ;;
    3) echo "$problem not decided" ;;
    *) echo "$problem: $(tail -n 1 "judged/$problem")" >&2; status=5 ;;
  esac
done
exit $status
