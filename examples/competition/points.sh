# points.sh [TABLE]: the points for each cell of TABLE (table). The next line is for the page:
# of n solvers a place counts its number, right 1, FAIL 2n, stopped and missing 3n, pending and unranked 0, all else 4n
awk 'NR == 1 { n = NF - 1; print; next }
  { for (i = 2; i <= NF; i++) {
      if ($i ~ /^[0-9]+$/) continue
      else if ($i == "right") $i = 1
      else if ($i == "FAIL") $i = 2 * n
      else if ($i == "stopped" || $i == "missing") $i = 3 * n
      else if ($i == "pending" || $i == "unranked") $i = 0
      else $i = 4 * n
    }
    print }' "${1:-table}" | sh align.sh
