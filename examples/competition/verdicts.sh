# verdicts.sh [JOBS]: judges each answer to each problem
parallel -j "${at_once:-4}" --joblog verdicts --results reports --colsep ' ' \
  cudf_check check --limit 1000 'problems/{2}' 'answers/{1}/{2}' :::: "${1:-jobs}" > /dev/null
