#!/bin/sh
# For reduce.sh: runs each line of standard input by Slurm, as a job of an array. An array has at
# most 1,000 jobs, unless MaxArraySize is raised. What the jobs print is printed if one fails.
folder=$(mktemp -d ./slurm.XXXXXX) || exit 1
trap 'rm -rf "$folder"' EXIT
cat > "$folder/lines"
sbatch --wait --array="1-$(wc -l < "$folder/lines")" --output="$folder/%a" \
    --wrap "sed -n \"\${SLURM_ARRAY_TASK_ID}p\" $folder/lines | sh" || {
    cat "$folder"/[0-9]* >&2
    exit 1
}
