# totals.sh [--csv] [TABLE]: a line for each solver of TABLE (table), the best first
export LC_ALL=C
form() { sh align.sh; }
if [ "$1" = --csv ]; then
  form() { tr ' ' ,; }
  shift
fi
table=${1:-table}
[ -r "$table" ] || { echo "totals.sh: $table can't be read: sh table.sh > table makes it" >&2; exit 5; }
ended=$(ls ended 2> /dev/null)
{
  echo solver points solved best FAIL stopped no faulty seconds
  sh points.sh "$table" | awk '
    kind == "ended" { seconds[$1, $2] = $5; known = 1; next }
    FNR == 1 { n = NF; for (i = 2; i <= n; i++) solver[i] = $i; next }
    kind == "points" { for (i = 2; i <= n; i++) points[i] += $i; next }
    { for (i = 2; i <= n; i++) {
        if ($i == "pending") { pending++; continue }
        if ($i == "unranked") continue
        time[i] += seconds[solver[i], $1]
        if ($i ~ /^(1|right)$/) best[i]++
        if ($i ~ /^([0-9]+|right)$/) solved[i]++
        else if ($i == "FAIL") fail[i]++
        else if ($i == "stopped" || $i == "missing") stopped[i]++
        else if ($i ~ /^(no|wrong)$/) no[i]++
        else faulty[i]++
      } }
    END {
      for (i = 2; i <= n; i++)
        print solver[i], points[i] + 0, solved[i] + 0, best[i] + 0, fail[i] + 0, stopped[i] + 0, no[i] + 0, faulty[i] + 0, known ? sprintf("%.2f", time[i]) : "-"
      if (pending) print "totals.sh: " pending " runs are pending" > "/dev/stderr"
    }' kind=ended $ended kind=points - kind=table "$table" | sort -k 2,2n -k 9,9n -k 1,1
} | form
