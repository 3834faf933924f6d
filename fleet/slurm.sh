#!/bin/sh
# fleet/slurm.sh INSTANCE DIR [--seeds A-B] [--moves N] [--conflicts N] [--jobs N] [--minutes N] [--wait]: asks Slurm for
# the tries that have no answer in DIR yet, as job arrays, N tasks at once (--jobs) and each for at most so many minutes
# (60); a task that its node lost is asked again. A job behind all of them runs best.sh. --wait: until that has ended. DIR,
# the program and this folder have to lie where all nodes see them. Further wishes, as a partition, are said by the
# variables of sbatch, as SBATCH_PARTITION.
set -u
usage="$0 INSTANCE DIR [--seeds A-B] [--moves N] [--conflicts N] [--jobs N] [--minutes N] [--wait]"
takes_minutes=yes
# shellcheck source=fleet/common.sh
. "$(dirname "$0")/common.sh"
read_words "$@"
prepare

# quoted WORD: as a shell reads it back.
quoted() {
    printf "'%s'" "$(printf '%s\n' "$1" | sed "s/'/'\\\\''/g")"
}

# An array has numbers below this one.
size=$(scontrol show config | awk '$1 == "MaxArraySize" { print $3 }')
is_number "$size" && [ "$size" -gt 0 ] || fail 6 "no Slurm answers"

# The missing seeds as lines `FIRST LIST`: the numbers of LIST count from the seed FIRST, as 0-3,7, and stay below the
# size. A line has at most 1,000 ranges.
arrays() {
    missing | awk -v size="$size" '
        function range() { list = list (list == "" ? "" : ",") (from == to ? from : from "-" to); ranges++ }
        function array() { if (from != "") { range(); print first, list } }
        from == "" || $1 - first >= size || ranges >= 1000 { array(); first = $1; from = to = ranges = 0; list = ""; next }
        $1 - first == to + 1 { to++; next }
        { range(); from = to = $1 - first }
        END { array() }
    '
}

# ask WORD ..: by sbatch, and says the number of the job.
ask() {
    sbatch --parsable --requeue --ntasks=1 --cpus-per-task=1 --chdir="$dir" --output=slurm.log --open-mode=append "$@" |
        sed 's/;.*//'
}

program="ROBIN=$(quoted "$robin")"
behind=''
while read -r seed list && [ -n "$list" ]; do
    job=$(ask --job-name=robin-tries --time="$minutes" --array="$list${jobs:+%$jobs}" \
        --wrap="trap : HUP INT TERM
$program $(quoted "$here/try.sh") $(quoted "$dir") \$(($seed + SLURM_ARRAY_TASK_ID))
status=\$?
[ ! -e $(quoted "$dir/refutation.log") ] || scancel \$SLURM_ARRAY_JOB_ID
case \$status in 0 | 4 | 5) exit 0 ;; *) exit \$status ;; esac" </dev/null)
    [ -n "$job" ] || fail 6 "sbatch refused: the same command asks for the seeds that are missing"
    echo "job $job: seeds from $seed on, $list"
    behind=$behind:$job
done <<END
$(arrays)
END
[ -n "$behind" ] || echo "each seed has an answer in $dir"
# shellcheck disable=SC2086
job=$(ask $wait --job-name=robin-best --time="$minutes" ${behind:+--dependency=afterany$behind} \
    --wrap="$program $(quoted "$here/best.sh") $(quoted "$dir")" </dev/null)
[ -n "$job" ] || fail 6 "sbatch refused the job that judges: run best.sh by hand"
echo "job $job: best.sh; $dir/slurm.log has what is said"
[ -z "$wait" ] || [ -z "$(missing)" ] || [ -e "$dir/refutation.log" ] ||
    fail 1 "answers are missing: the same command asks for them"
