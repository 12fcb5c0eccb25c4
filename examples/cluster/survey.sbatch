#!/bin/sh
# `sbatch --array=0-K survey.sbatch N WORDS`: task T plays N seeds from T N + 1 on of the family of WORDS, unless that part is
# complete. Once all its lines are written, their file is named FIRST..LAST.jsonl, in the folder that PARTS names (or parts/).
#SBATCH --cpus-per-task=4
#SBATCH --requeue
#SBATCH --output=survey-%A-%a.log
set -eu
each=$1
shift
parts=${PARTS:-parts}
first=$((SLURM_ARRAY_TASK_ID * each + 1))
seeds=$(echo "$first" | examples/cluster/missing "$each" "$@")
# (what earlier jobs left when they were killed)
rm -f "$parts"/."$first"..*
[ "$seeds" ] || exit 0
mkdir -p "$parts"
lines=$(mktemp "$parts/.$seeds.XXXXXX")
trap 'rm -f "$lines"' EXIT
trap 'exit 143' TERM
crates/surveyor/out/surveyor "$@" --lines --seeds "$seeds" >"$lines"
chmod +rw "$lines"
mv "$lines" "$parts/$seeds.jsonl"
