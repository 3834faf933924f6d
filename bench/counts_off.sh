#!/usr/bin/env bash
# bench/counts_off.sh PROGRAM [SECONDS [LEAGUE ..]]: robin's searches without any counts, by clauses and by planes, beside
# clasp and minisat+ on the rows that `rows` writes, in one run. Each may take so many seconds of processor time (120).
# Without a league: phased leagues of n teams with at most k breaks, for the CASES n-k (6-2 6-6 8-2). Each log is given to
# `check`. Needs cargo and python3; SOLVERS names the ones to be asked, and PLAIN a program that is built already.
here=$(cd "$(dirname "$0")" && pwd)
program=$(realpath "$1")
seconds=${2:-120}
leagues=$(realpath "${@:3}" 2>/dev/null)
folder=$(mktemp -d) || exit 1
trap 'rm -rf "$folder"' EXIT
cd "$folder" || exit 1
TIMEFORMAT=%U

# The searches of the crates as plain Rust.
built() {
    python3 "$here/plain/to_rust.py" package && cargo build --quiet --release --offline --manifest-path package/Cargo.toml >&2 &&
        echo "$folder/package/target/release/plain"
}

# A league of n teams in two phases with at most k breaks.
few_breaks() {
    awk -v n="$1" -v k="$2" 'BEGIN {
        print "<Instance><Structure><Format leagueIds=\"0\"><numberRoundRobin>2</numberRoundRobin>"
        print "<compactness>C</compactness><gameMode>P</gameMode></Format></Structure><Resources><Teams>"
        for (i = 0; i < n; i++) { print "<team id=\"" i "\"/>"; teams = teams (i ? ";" : "") i }
        print "</Teams><Slots>"
        for (s = 0; s < 2 * n - 2; s++) { print "<slot id=\"" s "\"/>"; slots = slots (s ? ";" : "") s }
        print "</Slots></Resources><Constraints><BreakConstraints>"
        print "<BR2 teams=\"" teams "\" intp=\"" k "\" slots=\"" slots "\" type=\"HARD\" penalty=\"1\"/>"
        print "</BreakConstraints></Constraints></Instance>"
    }'
}

# limited LIMIT COMMAND ..: runs it with so many seconds of processor time; `out` has what it says, `user` its user seconds.
limited() {
    (
        ulimit -St "$1"
        ulimit -Ht $(($1 + 2))
        time "${@:2}" >out 2>errors
    ) 2>times
    user=$(tail -n 1 times)
}

# by_robin WAY NAME: searches by clauses or by planes.
by_robin() {
    rm -f log
    limited $((seconds + 5)) "$plain" league.xml "$1" --seconds "$seconds" --log log
    said=$(sed 's/, [0-9.]* s//' out)
    [ ! -f log ] || said="$said, $("$program" check league.xml log | head -n 1)"
    echo "$2: robin by $1: ${said:-spent}, $user s"
}

# by_other SOLVER NAME: asks it about the rows.
by_other() {
    case $1 in
    clasp) limited "$seconds" clasp rows.opb --stats ;;
    minisat+) limited "$seconds" stdbuf -oL minisat+ -a plain.opb ;;
    esac
    verdict=spent
    ! grep -qE '^s (SATIS|OPTIMUM)' out || verdict=found
    ! grep -q '^s UNSAT' out || verdict=refuted
    conflicts=$(sed -nE 's/^c Conflicts *: ([0-9]+).*/\1/p; s/^(c )?conflicts *: ([0-9]+).*/\2/p' out errors | tail -n 1)
    echo "$2: $1: $verdict, ${conflicts:-?} conflicts, $user s"
}

# compared NAME: league.xml by each.
compared() {
    "$program" rows league.xml >rows.opb && python3 "$here/../second/plain.py" <rows.opb >plain.opb || return
    by_robin clauses "$1"
    by_robin planes "$1"
    for solver in ${SOLVERS-clasp minisat+}; do
        ! command -v "$solver" >/dev/null || by_other "$solver" "$1"
    done
}

plain=$(realpath "${PLAIN:-$(built)}") || exit 1
echo "at most $seconds s each, load $(cut -d ' ' -f 1 /proc/loadavg)"
if [ -n "$leagues" ]; then
    for league in $leagues; do
        grep -v 'type="SOFT"' "$league" >league.xml
        compared "$(basename "$league" .xml)"
    done
else
    for case in ${CASES:-6-2 6-6 8-2}; do
        few_breaks "${case%-*}" "${case#*-}" >league.xml
        compared "$case"
    done
fi
