#!/bin/sh
# bench/leagues.sh PROGRAM [SEEDS [OPTIONS OF solve]]: solves the nine leagues made like a competition's, with each of the
# seeds 0 to SEEDS - 1, and writes for each run its status, the objective and the processor seconds. Each season is
# given to `validate`.
here=$(cd "$(dirname "$0")" && pwd)
program=$1
seeds=${2:-1}
[ $# -gt 2 ] && shift 2 || set --
found=$(mktemp) || exit 1
trap 'rm -f "$found" "$found.time"' EXIT
for league in "$here"/leagues/*.xml; do
    seed=0
    while [ "$seed" -lt "$seeds" ]; do
        /usr/bin/env bash -c 'TIMEFORMAT=%U; time "$@" >"$0"' "$found" \
            "$program" solve "$league" --seed "$seed" "$@" 2>"$found.time"
        status=$?
        objective=$(sed -n 's/.*objective="\([0-9]*\)".*/\1/p' "$found")
        if [ -n "$objective" ]; then
            "$program" validate "$league" "$found" | grep -q '^feasible yes' || objective="$objective NOT ACCEPTED"
        fi
        echo "$(basename "$league" .xml) seed $seed status $status objective ${objective:-none} seconds $(tail -n 1 "$found.time")"
        seed=$((seed + 1))
    done
done
