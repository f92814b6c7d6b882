#!/bin/sh
#SBATCH --job-name=ising2d
#SBATCH --array=0-9
#SBATCH --ntasks=1
#SBATCH --mem=200M
#SBATCH --time=00:10:00
#SBATCH --output=slurm-%A-%a.out
# Ten lots as a job array, one lot for each job, in the folder where it is handed in:
#
#   sbatch --export=ALL,QUEUES=/path/to/examples/queues /path/to/examples/queues/slurm.sh
#   /path/to/examples/queues/sums.sh
#
# Handed in again, it does the lots that are missing.
set -eu

: "${QUEUES:?is to be the folder of lot.sh: sbatch runs a copy of this script, which cannot know it}"
exec "$QUEUES/lot.sh" "$SLURM_ARRAY_TASK_ID" "$SLURM_SUBMIT_DIR"
