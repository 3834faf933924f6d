#!/bin/sh
# fleet/next.sh INSTANCE DIR [--seconds N] [--keep K] [--seeds A-B] [--moves N] [--conflicts N] [--jobs N]: rounds of tries
# for so many seconds (3600), or until a season costs nothing. The first round is that of tries.sh. The tries of each later
# one begin at the K best seasons (4) of the round before it, one of each objective, and take further seeds. DIR/1, DIR/2
# and so on are the rounds, each a folder of tries.sh; DIR/best.xml is the best season of all, and DIR/best.txt its report.
# A signal ends the rounds as the time does. The same command goes on with the last round. The status is that of best.sh: 0
# where there is a season, 4 where the league is refuted, 5 where there is neither; or 1 where a round's answers are missing
# before the time is over.
set -u
usage="$0 INSTANCE DIR [--seconds N] [--keep K] [--seeds A-B] [--moves N] [--conflicts N] [--jobs N]"
takes_minutes=''
takes_rounds=yes
# shellcheck source=fleet/common.sh
. "$(dirname "$0")/common.sh"
read_words "$@"
prepare_league
export ROBIN="$robin"
end=$(($(date +%s) + seconds))
count=$((last - first + 1))
trap 'end=0' HUP INT TERM

is_over() {
    [ "$(date +%s)" -ge "$end" ]
}

# The best seasons of the round before this one, one of each objective, or else those at which it began.
best_before() {
    before=$((round - 1))
    seeds=$(awk '$2 == "season"' "$dir/$before/table.txt" | LC_ALL=C sort -k 3,3n -k 1,1n |
        awk '!had[$3]++ { print $1 }' | head -n "$keeps")
    if [ -n "$seeds" ]; then
        echo "$seeds" | sed "s|.*|../$before/&.xml|"
    elif [ -e "$dir/$before/starts" ]; then
        cat "$dir/$before/starts"
    fi
}

# Leaves a list of these in this round, where there are such and it has no list yet.
# shellcheck disable=SC2030,SC2031
leave_starts() {
    starts=$(best_before)
    mkdir -p "$dir/$round" || fail 7 "the round can't be written"
    [ -z "$starts" ] || (dir=$dir/$round && echo "$starts" | keep starts) || [ -e "$dir/$round/starts" ] ||
        fail 7 "the starts can't be written"
}

# The tries of this round that have no answer yet, until the time is over. Sets tried to the status of tries.sh.
try_round() {
    above=$(((round - 1) * count))
    "$here/tries.sh" "$dir/league.xml" "$dir/$round" --seeds "$((first + above))-$((last + above))" \
        --moves "$moves" --conflicts "$conflicts" ${jobs:+--jobs "$jobs"} &
    run=$!
    told=''
    while kill -0 "$run" 2>/dev/null; do
        sleep 1
        [ -n "$told" ] || ! is_over || { told=yes && kill "$run" 2>/dev/null; }
    done
    wait "$run"
    tried=$?
}

# The best season of all rounds, by their reports.
best_of_all() {
    for folder in "$dir"/[0-9]*; do
        [ -r "$folder/best.txt" ] && echo "$(sed -n 's/^objective //p' "$folder/best.txt") ${folder##*/}"
    done | LC_ALL=C sort -k 1,1n -k 2,2n | sed -n "1s|^[0-9]* \\(.*\\)|\\1/best.xml|p"
}

# Judges this round, and leaves the best season of all, which is judged once more. Ends where there can be no better one.
judge_round() {
    judged=$("$here/best.sh" "$dir/$round")
    status=$?
    echo "round $round: $(echo "$judged" | tail -n 1)"
    case $status in
    0 | 5) ;;
    *) exit "$status" ;;
    esac
    best=$(best_of_all)
    leave_season "${best:+$dir/$best}"
}

round=1
while [ -d "$dir/$((round + 1))" ]; do
    round=$((round + 1))
done
while :; do
    [ "$round" -eq 1 ] || leave_starts
    try_round
    judge_round
    [ "$least" != 0 ] && ! is_over || break
    [ "$tried" -eq 0 ] || fail "$tried" "round $round isn't whole: the same command goes on with it"
    round=$((round + 1))
done
[ -n "$least" ] || exit 5
echo "best: objective $least, $dir/best.xml"
