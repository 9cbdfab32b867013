#!/bin/bash
#SBATCH --requeue
#SBATCH --open-mode=append
# part.sbatch LEVEL WORK: one task of an array, for examples/slurm/compact. Compacts the part in
# the line of its number. A task that loses its node is run again, and makes the same bytes.
set -eu
level=$1 work=$2 out=$2/$SLURM_ARRAY_TASK_ID
read -r part first dir < <(sed -n "${SLURM_ARRAY_TASK_ID}p" "$work/tasks")
if [[ -e $out/EDIT ]]; then
    exit
fi
rm -rf "$out"
status=0
sedvokt -q compact "$dir" --level "$level" --no-verify --part "$part" --out "$out" \
    --first-number "$first" --workers "${SLURM_CPUS_PER_TASK:-1}" || status=$?
# So is one whose process was killed, or had a device fail, up to three times.
if ((status > 2 && ${SLURM_RESTART_COUNT:-0} < 3)); then
    scontrol requeue "$SLURM_JOB_ID"
fi
exit "$status"
