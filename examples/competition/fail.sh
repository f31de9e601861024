# fail.sh PROBLEM [WITNESS]: is the answer FAIL to this problem right? PROBLEM is a file. The last line and the exit status:
#   no solution exists   0   FAIL is right; the lines before say why
#   solution yes         1   FAIL is wrong; the file WITNESS (default: witness) is a solution
#   not decided          3   cadical had no answer within $seconds (300), or one that cudf_check rejects
# Any other status is an error: 2 a file is malformed, 4 wrong arguments, 5 cadical failed, 5 and 6 as of cudf_check,
# 127 cadical isn't installed
# fail.sh PROBLEM WITNESS ANSWER LIST: is the solution ANSWER optimal by LIST? As above: 0 is `no better solution exists`, and with
# 1 WITNESS is a better one; 4 if ANSWER is no solution
case $# in
  1 | 2 | 4) ;;
  *) echo "usage: fail.sh PROBLEM [WITNESS [ANSWER LIST]]" >&2; exit 4 ;;
esac
problem=$1 witness=${2:-witness} answer=$3 list=$4
set --
[ -z "$list" ] || set -- --better-than="$answer" --criteria="$list"
command -v cadical > /dev/null || { echo "fail.sh: cadical isn't installed" >&2; exit 127; }
folder=$(mktemp -d) || exit 5
trap 'rm -rf "$folder"' EXIT
trap 'exit 129' HUP INT TERM

# as `rank` says, if an answer is given
is_better() {
  [ -n "$list" ] || return 0
  case $(cudf_check rank --criteria="$list" -- "$problem" "$answer" "$folder/witness") in
    "1 solution 2 yes "*) return 0 ;;
  esac
  return 1
}

cudf_check cnf "$@" -- "$problem" > "$folder/cnf" || {
  status=$?
  cat "$folder/cnf"
  case $status in 1 | 3) exit 4 ;; *) exit $status ;; esac
}
# with these phases a model has few packages
cadical -q -t "${seconds:-300}" --lucky=0 --phase=0 --lrat --no-binary "$folder/cnf" "$folder/proof" > "$folder/model"
case $? in
  20) cudf_check refute "$@" -- "$problem" "$folder/proof" && exit 0 ;;
  10)
    awk 'NR == FNR { if ($1 == "c") { place = substr($2, 2); name[place] = $3; version[place] = $4 }; next }
      $1 == "v" { for (i = 2; i <= NF; i++) if ($i in name)
        printf "package: %s\nversion: %s\ninstalled: true\n\n", name[$i], version[$i] }' \
      "$folder/cnf" "$folder/model" > "$folder/witness"
    if cudf_check check -- "$problem" "$folder/witness" && is_better; then
      cp -- "$folder/witness" "$witness" || exit 5
      exit 1
    fi ;;
  0) ;;
  *) echo "fail.sh: cadical failed; version 1.7 or later is needed" >&2; exit 5 ;;
esac
echo "not decided"
exit 3
