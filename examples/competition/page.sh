# page.sh TITLE DATE [TABLE] > index.html: totals, TABLE (table) and plots in one file, without scripts. Where optimal.sh has left
# the file `optima`, TABLE has its column
export LC_ALL=C
[ $# -eq 2 ] || [ $# -eq 3 ] || { echo "usage: page.sh TITLE DATE [TABLE] > index.html" >&2; exit 4; }
table=${3:-table}
folder=$(mktemp -d) || exit 5
trap 'rm -rf "$folder"' EXIT
sh totals.sh "$table" > "$folder/totals" || exit

# text as HTML
html() { sed 's/&/\&amp;/g; s/</\&lt;/g; s/>/\&gt;/g; s/"/\&quot;/g'; }

# the columns of the file $1 as HTML, each cell with its word as a class
columns() {
  html < "$1" | awk '
    NR == 1 { print "<table><thead>" }
    { printf "<tr>"
      for (i = 1; i <= NF; i++)
        if (NR == 1 || i == 1) printf "<th scope=%s>%s</th>", NR == 1 ? "col" : "row", $i
        else printf "<td class=is-%s>%s</td>", $i, $i
      print "</tr>" }
    NR == 1 { print "</thead><tbody>" }
    END { print "</tbody></table>" }'
}

# the table, with a column of what is known of the best answers
cells() {
  if [ ! -e optima ]; then cat "$table"; return; fi
  awk 'kind == "optima" { word[$1] = $2; next }
    { print $0, FNR == 1 ? "best" : $1 in word ? word[$1] : "-" }' kind=optima optima kind=table "$table"
}

# the figure $1 with the caption $2, by the commands of gnuplot on standard input
figure() {
  echo "<figure>"
  { echo "set terminal svg size 720,480 dynamic noenhanced background 'white' font 'sans-serif,14' name '$1'"; cat; } |
    (cd "$folder" && "$gnuplot") | sed "/^<?xml/d; s/id=['\"]/&$1-/; s/='#/&$1-/"
  echo "<figcaption>$2</figcaption></figure>"
}

# a line for each run: the place of its solver, the solver, the problem, seconds, and 1 where it is solved
runs() {
  awk '
    kind == "ended" { seconds[$1, $2] = $5 < 0.01 ? 0.01 : $5; next }
    kind == "totals" { if (FNR > 1) place[$1] = FNR - 1; next }
    FNR == 1 { for (i = 2; i <= NF; i++) solver[i] = $i; next }
    { for (i = 2; i <= NF; i++) if ((solver[i], $1) in seconds)
        print place[solver[i]], solver[i], $1, seconds[solver[i], $1], $i ~ /^([0-9]+|right)$/ ? 1 : 0 }
  ' kind=ended ended kind=totals "$folder/totals" kind=table "$table" | tr -cd 'A-Za-z0-9._+ \n-'
}

plots() {
  if ! command -v "${gnuplot:=gnuplot}" > /dev/null; then echo "<p>No plots: gnuplot isn't installed.</p>"; return; fi
  if [ -e ended ]; then runs > "$folder/runs"; fi
  if ! grep -q ' 1$' "$folder/runs" 2> /dev/null; then echo "<p>No plots: nothing is solved, or times are unknown.</p>"; return; fi
  grep ' 1$' "$folder/runs" | sort -k 1,1n -k 4,4n | awk '
    $1 != before { if (NR > 1) print "\n"; print "solved", $2; before = $1; n = 0 }
    { print ++n, $4 }' > "$folder/cactus"
  figure cactus "The seconds of each solver's n-th fastest solved problem" << END
set xlabel "problems solved"; set ylabel "seconds"; set logscale y; set grid; set key outside
set xrange [0:*]; $(grep -q '^10 ' "$folder/cactus" || echo "set xtics 1")
plot for [i = 0:$(grep -c solved "$folder/cactus") - 1] "cactus" index i using 1:2 with linespoints title columnheader(2)
END
  awk '$1 > 2 { next }
    !seen[$3]++ { problem[++n] = $3 }
    { name[$1] = $2; at[$1, $3] = $5 ? $4 : 0 }
    $5 { if ($4 > most) most = $4; if (!least || $4 < least) least = $4 }
    # axes end at powers of ten, the only numbers that gnuplot writes at them
    END { low = 0.001; while (low * 10 <= least / 1.2) low *= 10
      high = 0.1; while (high < most * 1.2) high *= 10
      print name[1], name[2], low, high
      for (i = 1; i <= n; i++) {
        p = problem[i]
        if (((1, p) in at) && ((2, p) in at) && at[1, p] + at[2, p])
          print at[1, p] ? at[1, p] : high, at[2, p] ? at[2, p] : high
      } }' "$folder/runs" > "$folder/scatter"
  read -r one two least most < "$folder/scatter"
  if [ "$(wc -l < "$folder/scatter")" -eq 1 ]; then return; fi
  figure scatter "The first two solvers, a dot for each problem; on the outer edge if one of them didn't solve it" << END
set xlabel "$one, seconds"; set ylabel "$two, seconds"; set logscale xy; set grid; set size square; unset key
set xrange [$least:$most]; set yrange [$least:$most]
plot x with lines title "equal", "scatter" every ::1 using 1:2 with points pointtype 7 title "problems"
END
}

cat << END
<!DOCTYPE html>
<html lang="en">
<head>
<meta charset="utf-8">
<meta name="viewport" content="width=device-width">
<title>$(printf '%s' "$1" | html)</title>
<style>
body { font: 16px/1.5 sans-serif; margin: 2em auto; max-width: 60em; padding: 0 1em; color: #222; background: #fff }
div, pre { overflow-x: auto }
table { border-collapse: collapse; margin: 1em 0; font-variant-numeric: tabular-nums }
th, td { padding: .2em .7em; text-align: right; border-bottom: 1px solid #ddd; white-space: nowrap }
thead th { border-bottom: 2px solid #888 }
tbody th { font-weight: normal }
th:first-child { text-align: left }
.cells .is-1, .is-right, .is-optimal { background: #c9ecc9; font-weight: bold }
.is-FAIL, .is-better { background: #fbe7b2 }
.is-stopped, .is-missing { background: #e2e2e2 }
.is-wrong, .is-no, .is-faulty, .is-folder, .is-long, .is-unread { background: #f6c6c6 }
figure { margin: 1em 0 }
svg { max-width: 45em; width: 100%; height: auto }
</style>
</head>
<body>
<h1>$(printf '%s' "$1" | html)</h1>
<p>$(printf '%s' "$2" | html)</p>
<pre>$(sh judge.sh | html)</pre>
<h2>Totals</h2>
<div>
$(columns "$folder/totals")
</div>
<h2>Problems</h2>
<div class=cells>
$(cells > "$folder/cells"; columns "$folder/cells")
<p>The corner has the list of criteria, a number is a solution's place by it: <b class=is-1>1</b> is the best, ties share one.
<b class=is-right>right</b>: FAIL, and a checked proof says that there is no solution; <b class=is-wrong>wrong</b>: FAIL,
but there is one; <b class=is-FAIL>FAIL</b>: not decided. <b class=is-no>no</b>: not a solution; <b class=is-faulty>faulty</b>:
malformed; <b class=is-stopped>stopped</b>: out of time, or crashed; <b class=is-missing>missing</b>: no answer; pending: not
run; unranked: the problem is malformed.$([ ! -e optima ] || echo " best: <b class=is-optimal>optimal</b>: a checked proof says
that no solution is better than those in place 1; <b class=is-better>better</b>: one is; undecided: neither is known.") Points: $(sed -n '2s/^# //p' points.sh | html). Seconds are elapsed ones, of all runs.</p>
</div>
<h2>Times</h2>
$(plots)
</body>
</html>
END
