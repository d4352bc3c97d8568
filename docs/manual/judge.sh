#!/bin/bash
#SBATCH --job-name=subttx
#SBATCH --output=log/%a.txt
# A job of an array of Slurm: sbatch judge.sh. It judges its line of the file `list`, by the words
# that --batch takes there and under the name that it has there; no shell evaluates them.
subttx-qc --batch list --line "$SLURM_ARRAY_TASK_ID" --option auto -o out
case $? in 0 | 1 | 3) ;; *) exit 1 ;; esac  # judged; anything else is tried again
