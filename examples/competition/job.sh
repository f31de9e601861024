#!/bin/sh
#SBATCH --array=1-100%4 --time=1:00:00 --output=job.out --open-mode=append
# job.sh [JOBS]: task K of N does the lines K, K+N, K+2N, .. of JOBS
awk -v k="$SLURM_ARRAY_TASK_ID" -v n="$SLURM_ARRAY_TASK_COUNT" 'NR % n == k % n' "${1:-jobs}" |
  while read -r solver problem; do sh run.sh "$solver" "$problem"; done
