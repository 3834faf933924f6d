#!/usr/bin/env bash
# bench/peers.sh PROGRAM [SECONDS [PART ..]]: robin beside the other solvers that are installed (clasp, minisat+, sat4j, z3,
# toulbar2, cbc and glpsol), each on the rows that `rows` writes, in one run. The parts are refute, find, objective and
# leagues; where none is said, all. Each run may take so many seconds of processor time (60). A line for each run: what it
# answered, its user seconds, and the machine's load. Needs python3. SOLVERS names the solvers to be asked. CASES names the
# leagues of refute, TEAMS those of find and objective, LEAGUES those of leagues. toulbar2 may take all memory.
here=$(cd "$(dirname "$0")" && pwd)
program=$(realpath "$1")
seconds=${2:-60}
[ $# -gt 2 ] && parts=${*:3} || parts="refute find objective leagues"
folder=$(mktemp -d) || exit 1
trap 'rm -rf "$folder"' EXIT
cd "$folder" || exit 1
jar=/usr/share/java/org.sat4j.pb.jar
TIMEFORMAT=%U

installed() {
    for solver in ${SOLVERS:-clasp minisat+ sat4j z3 toulbar2 cbc glpsol}; do
        if [ "$solver" = sat4j ]; then [ -f $jar ] && command -v java; else command -v "$solver"; fi >/dev/null && echo "$solver"
    done
}

# limited LIMIT COMMAND ..: runs it with so many seconds of processor time; `out` has what it says, `user` its user seconds.
limited() {
    local limit=$1
    shift
    (
        ulimit -St "$limit"
        ulimit -Ht $((limit + 2))
        time "$@" >out 2>errors
    ) 2>times
    status=$?
    user=$(tail -n 1 times)
    return 0
}

# rows [--objective]: the league's rows, in the forms that the installed solvers read. Where they can't be written the
# peers aren't asked.
rows() {
    rm -f rows.opb plain.opb rows.lp
    "$program" rows league.xml $1 >rows.opb || return 1
    ! installed | grep -qE 'minisat|z3|toulbar2' || python3 "$here/../second/plain.py" <rows.opb >plain.opb || return 1
    ! installed | grep -qE 'cbc|glpsol' || python3 "$here/../second/plain.py" --lp <rows.opb >rows.lp
}

# ask SOLVER LIMIT: asks it about the rows; `verdict` is found, best, none, spent or gave up, and `least` the objective that it says last.
ask() {
    local limit=$2
    rm -f answer
    case $1 in
    clasp) limited "$limit" clasp rows.opb ;;
    minisat+) limited "$limit" stdbuf -oL minisat+ -a plain.opb ;;
    sat4j) limited "$limit" java -XX:+UseSerialGC -jar $jar rows.opb ;;
    z3) limited "$limit" z3 -v:1 opt.dump_models=true plain.opb && cat errors >>out ;;
    toulbar2) limited "$limit" stdbuf -oL toulbar2 plain.opb -w=answer ;;
    cbc) limited "$((limit + 5))" cbc rows.lp -sec "$limit" -timeMode cpu -solve -solution answer ;;
    glpsol) limited "$limit" stdbuf -oL glpsol --lp rows.lp -o answer ;;
    esac
    verdict=spent
    [ "$status" != 152 ] && awk -v user="$user" -v limit="$limit" 'BEGIN { exit !(2 * user < limit) }' &&
        verdict="gave up, status $status"
    if grep -qE '^(s UNSATISFIABLE|unsat|No solution)|PROBLEM HAS NO|proven infeasible|Problem is infeasible' out; then
        verdict=none
    elif grep -qE '^(s OPTIMUM|sat$|Optimum:)|INTEGER OPTIMAL|Result - Optimal' out; then
        verdict=best
    elif grep -qE '^(s SATIS|o |New solution)|>>>>>|^Objective value:' out; then
        verdict=found
    fi
    least=$(sed -n -e 's/^o \(-\?[0-9]*\).*/\1/p' -e 's/^New solution: \([0-9]*\).*/\1/p' \
        -e 's/^Objective value: *\([0-9.]*\).*/\1/p' -e 's/^   \([0-9]*\)$/\1/p' -e 's/^c Optimal solution: \([0-9]*\)$/\1/p' \
        -e 's/.*>>>>> *\([0-9.e+]*\) .*/\1/p' out | tail -n 1)
    [ -n "$least" ] && least=$(printf '%.0f' "$least")
}

# The true variables of an answer, as lines `v x1 x2`.
answered() {
    case $1 in
    z3) awk '/define-fun k!/ { split($2, part, "!"); id = part[2] } /^ *true\)/ { print "v x" id }' out ;;
    toulbar2) tr ' ' '\n' <answer | awk '/[01]/ { at++; if ($1 == 1) print "v x" at }' ;;
    cbc) awk '{ for (i = 1; i < NF; i++) if ($i ~ /^x[0-9]+$/ && $(i + 1) > 0.5) print "v", $i }' answer ;;
    glpsol) awk '$2 ~ /^x[0-9]+$/ && $4 == 1 { print "v", $2 }' answer ;;
    *) grep '^v ' out ;;
    esac
}

judged() {
    "$program" validate league.xml "$1" | grep -q '^feasible yes' && echo "accepted" || echo "NOT ACCEPTED"
}

say() {
    echo "$1: $2, $user s, load $(cut -d ' ' -f 1 /proc/loadavg)"
}

# by_robin NAME OPTIONS ..: solves with the seeds 0, 1 .. until a season is found or refuted, or the seconds are used up.
by_robin() {
    local name=$1 seed=0 used=0 left=$seconds
    shift
    while :; do
        limited "$left" "$program" solve league.xml --seed $seed "$@"
        used=$(awk -v a="$used" -v b="$user" 'BEGIN { print a + b }')
        left=$(awk -v a="$seconds" -v b="$used" 'BEGIN { print int(a - b) }')
        [ "$status" = 5 ] && [ "$left" -ge 1 ] || break
        seed=$((seed + 1))
    done
    user=$used
    case $status in
    0) cp out season.xml && say "$name robin" "found $(judged season.xml), seed $seed" ;;
    4) say "$name robin" "none, $(($(wc -l <out) - 2)) steps" ;;
    *) say "$name robin" "spent, status $status, seed $seed" ;;
    esac
}

# decide NAME OPTIONS ..: whether the league accepts a season: by robin with these options of `solve`, and by each peer.
decide() {
    local name=$1 solver
    shift
    by_robin "$name" "$@"
    rows || { echo "$name rows not written" && return; }
    for solver in $(installed); do
        ask "$solver" "$seconds"
        if [ "$verdict" = found ] || [ "$verdict" = best ]; then
            answered "$solver" >said
            "$program" values league.xml said >season.xml
            verdict="found $(judged season.xml)"
        fi
        say "$name $solver" "$verdict"
    done
}

# A league of n teams in two phases with at most k breaks.
few_breaks() {
    awk -v n="$1" -v k="$2" 'BEGIN {
        print "<Instance><Structure><Format leagueIds=\"0\"><numberRoundRobin>2</numberRoundRobin>"
        print "<compactness>C</compactness><gameMode>P</gameMode></Format></Structure><Resources><Teams>"
        for (i = 0; i < n; i++) { print "<team id=\"" i "\"/>"; teams = teams (i ? ";" : "") i }
        print "</Teams><Slots>"
        for (s = 0; s < 2 * n - 2; s++) { print "<slot id=\"" s "\"/>"; slots = slots (s ? ";" : "") s }
        print "</Slots></Resources><Constraints><BreakConstraints>"
        print "<BR2 teams=\"" teams "\" intp=\"" k "\" slots=\"" slots "\" type=\"HARD\" penalty=\"1\"/>"
        print "</BreakConstraints></Constraints></Instance>"
    }'
}

# The hard part of a made league of n teams, in which team 0 isn't at home where the circle method has its first home game.
dropped() {
    local slot
    slot=$("$program" circle "$1" | sed -n 's/.*home="0" .*slot="\([0-9]*\)".*/\1/p' | head -n 1)
    "$program" make "$1" "$2" | grep -v 'type="SOFT"' | sed "s|<CapacityConstraints>|&\n<CA1 teams=\"0\" min=\"0\" max=\"0\" \
mode=\"H\" slots=\"$slot\" type=\"HARD\" penalty=\"1\"/>|"
}

# descend NAME LIMIT: the objective of the run with the most moves, doubled from 25 on, that ends within the limit.
descend() {
    local moves=25 tries=2 best=none took=0 said
    while :; do
        limited "$2" "$program" solve league.xml --conflicts 0 --patterns 0 --moves $moves --tries $tries
        [ "$status" = 0 ] || break
        cp out season.xml
        best=$(sed -n 's/.*objective="\([0-9]*\)".*/\1/p' out) took=$user said="--moves $moves --tries $tries"
        awk -v took="$took" -v limit="$2" 'BEGIN { exit !(2 * took > limit) }' && break
        if [ $moves -lt 10000 ]; then moves=$((2 * moves)); else tries=$((2 * tries)); fi
        [ $tries -gt 100 ] && break
    done
    user=$took
    say "$1 robin" "objective $best $said $(judged season.xml)"
}

refute() {
    local case
    for case in ${CASES:-4-3 6-2 6-6}; do
        set -- ${case/-/ }
        few_breaks "$1" "$2" >league.xml
        decide "$1 teams, at most $2 breaks," --conflicts all
    done
}

find_seasons() {
    local teams
    for teams in ${TEAMS:-4 6 8 10 12 14 16 18 20}; do
        dropped "$teams" "${SEED:-1}" >league.xml
        decide "make $teams ${SEED:-1} with a CA1,"
    done
}

objectives() {
    local teams limit solver peers
    for teams in ${TEAMS:-16 20 40}; do
        "$program" make "$teams" "${SEED:-1}" >league.xml
        peers=$(rows --objective && installed) || echo "make $teams ${SEED:-1} rows not written"
        for limit in $([ "$seconds" -gt 10 ] && echo 10) "$seconds"; do
            descend "make $teams ${SEED:-1}, $limit s," "$limit"
            for solver in $peers; do
                ask "$solver" "$limit"
                say "make $teams ${SEED:-1}, $limit s, $solver" "$verdict, objective ${least:-none}"
            done
        done
    done
}

leagues() {
    local league
    for league in "$here"/leagues/${LEAGUES:-*}.xml; do
        grep -v 'type="SOFT"' "$league" >league.xml
        decide "$(basename "$league" .xml),"
    done
}

echo "solvers: robin $(installed | tr '\n' ' ')with $seconds s each, $(date -u +%H:%M)"
for part in $parts; do
    case $part in
    refute) refute ;;
    find) find_seasons ;;
    objective) objectives ;;
    leagues) leagues ;;
    esac
done
