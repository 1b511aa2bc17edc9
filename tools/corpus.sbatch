#!/usr/bin/env bash
# A Slurm array over the scripts below a folder: each task does its part of them by corpus.sh, on the processors that it
# is given. From the top of the checkout, with FOLDER and OUT on a disk that all nodes see:
#
#     sbatch --array=1-100 tools/corpus.sbatch FOLDER OUT [OPTION ..]
#     tools/compare.py OUT
#
# A task that was broken off goes on where it was when it is given to sbatch again with its number: `--array=17`, and
# `--export=ALL,PARTS=100`, since Slurm counts the tasks of the present array alone.
#SBATCH --job-name=corpus
#SBATCH --cpus-per-task=4
#SBATCH --mem-per-cpu=4G
set -eu
[ $# -ge 2 ] || { echo "usage: sbatch --array=1-N tools/corpus.sbatch FOLDER OUT [OPTION ..]" >&2; exit 2; }
folder=$1 out=$2
shift 2
exec tools/corpus.sh --jobs "${SLURM_CPUS_PER_TASK:-100%}" "$@" \
    --shard "$SLURM_ARRAY_TASK_ID/${PARTS:-$SLURM_ARRAY_TASK_COUNT}" "$folder" "$out"
