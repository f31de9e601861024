# lint.sh: names each malformed problem with its error; the status is 1 if there is one
status=0
for problem in problems/*; do
  told=$(cudf_check lint "$problem" --explain 2>&1) || { echo "$problem: $told"; status=1; }
done
exit $status
