#!/bin/sh
# bench/search.sh PROGRAM [SECONDS]: refutes leagues with too few breaks, beside clasp on the rows that `rows` writes, in
# one run: conflicts or steps, and processor seconds. Needs clasp.
program=$1
seconds=${2:-60}
folder=$(mktemp -d) || exit 1
trap 'rm -rf "$folder"' EXIT

# A league of n teams in two phases with at most k breaks.
league() {
    awk -v n="$1" -v k="$2" 'BEGIN {
        print "<Instance><Structure><Format leagueIds=\"0\"><numberRoundRobin>2</numberRoundRobin>"
        print "<compactness>C</compactness><gameMode>P</gameMode></Format></Structure><Resources><Teams>"
        for (i = 0; i < n; i++) { print "<team id=\"" i "\"/>"; teams = teams (i ? ";" : "") i }
        print "</Teams><Slots>"
        for (s = 0; s < 2 * n - 2; s++) { print "<slot id=\"" s "\"/>"; slots = slots (s ? ";" : "") s }
        print "</Slots></Resources><Constraints><BreakConstraints>"
        print "<BR2 teams=\"" teams "\" intp=\"" k "\" slots=\"" slots "\" type=\"HARD\" penalty=\"1\"/>"
        print "</BreakConstraints></Constraints></Instance>"
    }'
}

user() {
    bash -c 'TIMEFORMAT=%U; time timeout "$0" "$@"' "$@" 2>&1 >"$folder/out" | tail -n 1
}

for case in "4 3" "6 2" "6 6" "8 11"; do
    set -- $case
    league "$1" "$2" >"$folder/league.xml"
    "$program" rows "$folder/league.xml" >"$folder/rows.opb"
    ours=$(user "$seconds" "$program" solve "$folder/league.xml" --conflicts all)
    steps=$(($(wc -l <"$folder/out") - 2))
    theirs=$(user "$seconds" clasp "$folder/rows.opb" --stats)
    conflicts=$(awk '/^c Conflicts/ { print $4 }' "$folder/out")
    echo "$1 teams, at most $2 breaks: robin $steps steps $ours s; clasp ${conflicts:-?} conflicts $theirs s"
done
