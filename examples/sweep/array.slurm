#!/usr/bin/env bash
#SBATCH --job-name=rv_sim
#SBATCH --ntasks=1
#SBATCH --time=00:05:00
#SBATCH --output=sweep-%a.out
# The same for a cluster that has Slurm, from the root of the repository, with one task for each description, counted from 0:
#
#   sbatch --array=0-3 examples/sweep/array.slurm [--limit N] PROGRAM DESCRIPTION..
options=()
if [ "$1" = --limit ]; then
  options=(--limit "$2")
  shift 2
fi
program=$1
shift
descriptions=("$@")
: "${SLURM_ARRAY_TASK_ID:?is set in a task of an array: sbatch --array=.. starts one}"
examples/sweep/sweep --one "${options[@]}" "$program" "${descriptions[$SLURM_ARRAY_TASK_ID]}"
