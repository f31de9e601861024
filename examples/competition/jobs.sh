# jobs.sh: writes `jobs`, a line for each solver and problem; from now on a run without a line in `ended` is pending
export LC_ALL=C
sh names.sh solvers problems || exit
for solver in $(ls solvers); do
  for problem in $(ls problems); do echo "$solver $problem"; done
done > jobs
touch ended
