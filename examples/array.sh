#!/usr/bin/env bash
# array.sh INSTANCES ANSWERS: one task of an array of jobs. It takes the instance whose place in the list of INSTANCES/*.sfm is
# the number of the task, counted from 1, and ends as one.sh does, or with 64 where there is no such number. On a cluster with
# Slurm, at the top of the repository, for 100 instances, 20 at a time:
#
#     sbatch --array=1-100%20 --mem=1G examples/array.sh INSTANCES ANSWERS
#
# and when all are done: sort slurm-*.out
# Slurm runs a copy of this file from elsewhere, so one.sh is looked for below the folder in which sbatch was called.
[ $# -eq 2 ] || { echo "usage: array.sh INSTANCES ANSWERS" >&2; exit 64; }
here=${SLURM_SUBMIT_DIR:+$SLURM_SUBMIT_DIR/examples}
here=${here:-$(dirname "$0")}
shopt -s nullglob
files=("$1"/*.sfm)
task=$SLURM_ARRAY_TASK_ID
if ! [[ $task =~ ^[1-9][0-9]{0,8}$ ]] || [ "$task" -gt "${#files[@]}" ]; then
  echo "array.sh: SLURM_ARRAY_TASK_ID is '$task', and $1 has ${#files[@]} instances, counted from 1" >&2
  exit 64
fi
mkdir -p "$2" || exit 3
exec bash "$here/one.sh" "${files[task - 1]}" "$2"
