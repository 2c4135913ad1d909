#!/bin/sh
#SBATCH --job-name=raim_fleet
#SBATCH --ntasks=1
#SBATCH --cpus-per-task=1
# Runs one file of routes as a task of a Slurm job array, on nodes that see the same files under the same paths.
#
#     sbatch --array=1-BATCHES slurm_array.sh RUN_BATCH PROGRAM LIMITS ALMANAC OUTAGES REPORTS FOLDER
#
# BATCHES is the number of the files in FOLDER, and RUN_BATCH the path of run_batch.py, since Slurm runs a copy of this script
# from a folder of its own. Task k runs the k-th file. Submit it again to go on.
[ $# -eq 7 ] || { sed -n '5,10s/^# \{0,1\}//p' -- "$0" >&2; exit 64; }
batch=$(printf '%s/%04d.routes' "$7" "${SLURM_ARRAY_TASK_ID:?}")
exec "$1" "$2" "$3" "$4" "$5" "$6" "$batch"
