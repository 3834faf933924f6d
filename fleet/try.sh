#!/bin/sh
# fleet/try.sh DIR SEED: one try, in a folder that tries.sh or slurm.sh made: `solve` with this seed. A season becomes
# DIR/SEED.xml, a log DIR/SEED.log, each written under another name and renamed; DIR/SEED.seconds has the processor
# seconds. An accepted refutation becomes DIR/refutation.log too, and then no further try begins. A signal ends `solve`
# early: the season that it then writes is the answer, but a log of what it had learnt so far is none. The status is that of
# `solve`, or 143 where a signal left no answer.
set -u
[ $# -eq 2 ] || { echo "usage: $0 DIR SEED" >&2 && exit 2; }
# shellcheck source=fleet/common.sh
. "$(dirname "$0")/common.sh"
dir=$1
seed=$2
is_number "$seed" || fail 2 "SEED is a number"
has_answer "$seed" && exit 0
[ -e "$dir/refutation.log" ] && exit 4
found=$dir/.$seed.$host.$$.part
time=$dir/.$seed.time.$host.$$.part
seconds=$dir/.$seed.seconds.$host.$$.part
read -r words <"$dir/words" || fail 6 "$dir has no words"
signals=0
run=''
trap 'rm -f "$found" "$time" "$seconds"' EXIT
trap 'signals=$((signals + 1)); [ -z "$run" ] || kill "$run" 2>/dev/null' HUP INT TERM

# The season at which the try begins, where the folder has a list of such: they are taken in turn.
start() {
    [ -s "$dir/starts" ] || return 0
    name=$(sed -n "$((seed % $(grep -c '' "$dir/starts") + 1))p" "$dir/starts")
    case $name in
    /*) echo "$name" ;;
    *) echo "$dir/$name" ;;
    esac
}

# Runs the program in place of this shell. A signal that waits ends `solve` with the best season that it has. Both variables
# hold numbers and options.
# shellcheck disable=SC2086
solve() {
    waits='--default-signal=INT --block-signal=INT --block-signal=TERM --block-signal=HUP'
    env $waits true 2>/dev/null || waits=''
    exec env $waits "$robin" solve "$dir/league.xml" $words "$@" --seed "$seed"
}

from=$(start)
solve ${from:+--from "$from"} >"$found" </dev/null &
run=$!
[ "$signals" -eq 0 ] || kill "$run"
# A signal cuts the waiting short, and then it begins again.
status=143
until
    before=$signals
    wait "$run"
    got=$?
    # 127: it had ended before.
    [ "$got" -eq 127 ] || status=$got
    [ "$signals" -eq "$before" ]
do :; done
case $status in
0) answer=$dir/$seed.xml ;;
4 | 5) answer=$dir/$seed.log ;;
*) fail "$status" "seed $seed: no answer, status $status" ;;
esac
[ "$status" -ne 5 ] || [ "$signals" -eq 0 ] || fail 143 "seed $seed: no answer before a signal"
# The second line of `times` is the time of the processes that were waited for.
times >"$time" && awk -F '[ms ]' 'NR == 2 { printf "%.2f\n", 60 * $1 + $2 + 60 * $4 + $5 }' "$time" >"$seconds" &&
    mv "$seconds" "$dir/$seed.seconds" && mv "$found" "$answer" || fail 7 "seed $seed: the answer can't be written"
if [ "$status" -eq 4 ] && "$robin" check "$dir/league.xml" "$answer" >/dev/null; then
    keep refutation.log <"$answer"
fi
exit "$status"
