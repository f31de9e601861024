# align.sh: makes columns of lines of words
awk '{ for (i = 1; i <= NF; i++) { word[NR, i] = $i; if (length($i) > wide[i]) wide[i] = length($i) } }
  END { for (line = 1; line <= NR; line++)
    for (i = 1; i <= NF; i++) printf "%" wide[i] "s%s", word[line, i], i < NF ? "  " : "\n" }'
