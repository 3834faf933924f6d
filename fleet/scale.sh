#!/bin/sh
# fleet/scale.sh INSTANCE SECONDS [--moves N] [--conflicts N]: what 1, 2 and 4 processes make of one league in the same
# wall time, each time in an empty folder, on an otherwise idle machine. A row of a table for each: processes, tries (also
# those that the end of the time cut short), their processor seconds, those of a try, and the best objective that `validate`
# says.
set -u
here=$(cd "$(dirname "$0")" && pwd) || exit 6
[ $# -ge 2 ] || { echo "usage: $0 INSTANCE SECONDS [--moves N] [--conflicts N]" >&2 && exit 2; }
instance=$1
seconds=$2
shift 2
folder=$(mktemp -d) || exit 6
run=''
trap '[ -z "$run" ] || kill "$run" 2>/dev/null; wait; rm -rf "$folder"' EXIT
trap 'exit 143' HUP INT TERM
parallel --version 2>/dev/null | grep -q '^GNU parallel' || { echo "$0: GNU parallel isn't there" >&2 && exit 6; }

echo "| Processes | Tries | Processor seconds | A try | Best objective |"
echo "|---|---|---|---|---|"
for jobs in 1 2 4; do
    dir=$folder/$jobs
    # Far more seeds than can be tried, in the same order each time.
    "$here/tries.sh" "$instance" "$dir" --seeds 0-9999 --jobs "$jobs" "$@" 2>"$folder/errors" >&2 &
    run=$!
    sleep "$seconds"
    kill "$run" 2>/dev/null
    wait "$run"
    run=''
    best=$("$here/best.sh" "$dir" | sed -n 's/^best: objective \([0-9]*\),.*/\1/p')
    awk -v jobs="$jobs" -v best="${best:-none}" '
        NR > 1 && $4 != "-" { tries++; total += $4 }
        END { printf "| %d | %d | %.1f | %.2f | %s |\n", jobs, tries, total, (tries ? total / tries : 0), best }
    ' "$dir/table.txt"
done
