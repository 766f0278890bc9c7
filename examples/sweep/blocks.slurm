#!/usr/bin/env bash
#SBATCH --job-name=rv_sim
#SBATCH --ntasks=1
#SBATCH --time=00:30:00
#SBATCH --output=blocks-%a.out
# A sweep on a cluster that has Slurm, from the root of the repository; the folder must be one that all its machines see. The first command
# says how many blocks there are, and the second counts them from 0:
#
#   examples/sweep/table --prepare SWEEP FOLDER
#   sbatch --array=0-23 examples/sweep/blocks.slurm FOLDER
#   examples/sweep/table --join FOLDER > TABLE
#
# An array has at most 1001 tasks where Slurm's MaxArraySize does not say otherwise. Of more blocks the others are counted from a number
# after the folder on: sbatch --array=0-499 examples/sweep/blocks.slurm FOLDER 1000
: "${SLURM_ARRAY_TASK_ID:?is set in a task of an array: sbatch --array=.. starts one}"
examples/sweep/table --block "$1" $((${2:-0} + SLURM_ARRAY_TASK_ID))
