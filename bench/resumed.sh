#!/bin/sh
# bench/resumed.sh PROGRAM [OPTIONS of resume]: a league of forty teams with 1,000 soft constraints, whose season of the
# circle method misses one hard constraint in slot 70, is resumed with 39 and with 60 slots played, with `--near` and
# without it. For each run it writes the status, the objective, what the comment says, and the processor seconds. Each
# season is given to `validate`.
here=$(cd "$(dirname "$0")" && pwd)
program=$1
shift
folder=$(mktemp -d) || exit 1
trap 'rm -rf "$folder"' EXIT
"$program" circle 40 >"$folder/season" || exit 1
home=$(sed -n 's/.*home="\([0-9]*\)" .*slot="70".*/\1/p' "$folder/season" | head -n 1)
fallen="<CA1 teams=\"$home\" min=\"0\" max=\"0\" mode=\"H\" slots=\"70\" type=\"HARD\" penalty=\"1\"/>"
sed 's/type="HARD"/type="SOFT"/' "$here/validate-mixed-1000.xml" |
    awk -v fallen="$fallen" '/<CA1/ && !done { print fallen; done = 1 } { print }' >"$folder/league"
for played in 39 60; do
    for near in "" --near; do
        # $near is one word or none.
        # shellcheck disable=SC2086
        /usr/bin/env bash -c 'TIMEFORMAT=%U; time "$@" >"$0"' "$folder/found" \
            "$program" resume "$folder/league" "$folder/season" "$played" $near "$@" 2>"$folder/time"
        status=$?
        objective=$(sed -n 's/.*objective="\([0-9]*\)".*/\1/p' "$folder/found")
        if [ -n "$objective" ]; then
            "$program" validate "$folder/league" "$folder/found" | grep -q '^feasible yes' || objective="$objective NOT ACCEPTED"
        fi
        comment=$(sed -n 's/^<!-- \(changed=.*\) -->$/\1/p' "$folder/found")
        echo "played $played ${near:-plain} status $status objective ${objective:-none} ${comment:+$comment }seconds $(tail -n 1 "$folder/time")"
    done
done
