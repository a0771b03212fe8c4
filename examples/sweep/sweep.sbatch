#!/usr/bin/env bash
#SBATCH --job-name=sercos-sweep
#SBATCH --array=0-3
#SBATCH --time=00:05:00
# Runs the sweep on many machines, as a Slurm array of any number of tasks that begins with 0: each task takes its share of
# the points. Submit it in this folder.
set -euo pipefail
mkdir -p results
./points |
    awk -v task="$SLURM_ARRAY_TASK_ID" -v tasks="$SLURM_ARRAY_TASK_COUNT" 'NR % tasks == task' |
    xargs -n 3 ./one > "results/$SLURM_ARRAY_TASK_ID.csv"
