#!/bin/sh
#SBATCH --job-name=acas-sweeps
#SBATCH --nodes=1
#SBATCH --output=/dev/null
# One job of tools/sweeps, as a task of a job array of Slurm: `sbatch --array=NUMBERS sweeps.slurm FOLDER PROGRAM`. The
# number of the task is that of the line in FOLDER/jobs. FOLDER and PROGRAM stand at the same path on each node.

folder=$1
program=$2
at=$SLURM_ARRAY_TASK_ID
words=$(sed -n "${at}s/^[0-9]* //p" "$folder/jobs")
exec >"$folder/$at" 2>"$folder/$at.err"
case $words in
many) exec "$program" many <"$folder/part.$at" ;;
*) exec "$program" $words ;;
esac
