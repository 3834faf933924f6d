#!/bin/sh
# fleet/best.sh DIR: judges each season of the folder by `validate` and each log by `check`, whatever they say of
# themselves, and prints a table: seed, status, objective, processor seconds. It leaves the table in DIR/table.txt, the best
# season that was ever judged there in DIR/best.xml, and its report in DIR/best.txt; or the refutation in
# DIR/refutation.log. The status is 0 where there is a season, 4 where the league is refuted, 5 where there is neither, 1
# where both are accepted, which can't be.
set -u
# shellcheck source=fleet/common.sh
. "$(dirname "$0")/common.sh"
[ $# -eq 1 ] && [ -r "$1/league.xml" ] || fail 2 "usage: $0 DIR, a folder that tries.sh or slurm.sh made"
dir=$(cd "$1" && pwd) || exit 6
table=$dir/.table.$host.$$.part
trap 'rm -f "$dir"/.*".$host.$$.part"' EXIT
trap 'exit 143' HUP INT TERM
"$robin" --version >/dev/null || fail 6 "$robin doesn't run"

# judge_log LOG: sets status. A log that is spent has steps that follow, and no empty clause.
judge_log() {
    said=$("$robin" check "$dir/league.xml" "$1" 2>/dev/null)
    case "$? $said" in
    '0 '*) status=refuted ;;
    '1 '*NoEmptyClause) status=spent ;;
    '1 '*) status=rejected ;;
    '3 '*) status=broken ;;
    *) status=unjudged ;;
    esac
}

# The answers of numbers alone, by their seeds.
answers() {
    find "$dir/." ! -name . -prune -name '[0-9]*' \( -name '*.xml' -o -name '*.log' \) |
        sed 's|.*/||' | LC_ALL=C sort -n
}

# A line for each answer.
judge_all() {
    answers | while IFS= read -r name; do
        seed=${name%.*}
        is_number "$seed" || continue
        objective=-
        case $name in
        *.xml) judge "$dir/$name" ;;
        *) judge_log "$dir/$name" ;;
        esac
        seconds=-
        [ -r "$dir/$seed.seconds" ] && read -r seconds <"$dir/$seed.seconds"
        echo "$seed $status $objective $seconds"
    done
}

{ echo "seed status objective seconds" && judge_all; } >"$table" || fail 7 "the table can't be written"
cat "$table"
mv "$table" "$dir/table.txt" || fail 7 "the table can't be renamed"

not_accepted=$(awk '$2 == "rejected" || $2 == "broken" || $2 == "unjudged" { printf " %s", $1 }' "$dir/table.txt")
[ -z "$not_accepted" ] ||
    echo "$(basename "$0"): no answer of these seeds counts:$not_accepted; where its file is taken away it is tried again" >&2

# Leaves the refutation, and says whether there is one.
leave_refutation() {
    seed=$(awk '$2 == "refuted" { print $1; exit }' "$dir/table.txt")
    if [ -n "$seed" ]; then
        part=$dir/.refutation.$host.$$.part
        { cp "$dir/$seed.log" "$part" && mv "$part" "$dir/refutation.log"; } || fail 7 "the refutation can't be written"
    fi
    [ -e "$dir/refutation.log" ] || return 1
    judge_log "$dir/refutation.log"
    [ "$status" = refuted ]
}

# Leaves the best season, and says whether there is one.
leave_best() {
    seed=$(awk '$2 == "season"' "$dir/table.txt" | LC_ALL=C sort -k 3,3n -k 1,1n | sed -n '1s/ .*//p')
    leave_season "${seed:+$dir/$seed.xml}"
}

if leave_refutation; then
    leave_best && fail 1 "a season and a refutation are both accepted, which can't be: was league.xml changed?"
    echo "refuted: the league accepts no season, $dir/refutation.log"
    exit 4
fi
if leave_best; then
    echo "best: objective $least, $dir/best.xml"
    exit 0
fi
echo "open: neither a season nor a refutation"
exit 5
