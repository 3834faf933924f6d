#!/bin/sh
# fleet/tries.sh INSTANCE DIR [--seeds A-B] [--moves N] [--conflicts N] [--jobs N]: tries the seeds A to B (0-9) that
# have no answer in DIR yet, each by a process of its own, N at once (as many as there are processors), by GNU parallel, or
# by xargs where that isn't there. The status is 0 where each seed has an answer then, 4 where the league is refuted, 1
# where answers are missing: the same command goes on with these.
set -u
usage="$0 INSTANCE DIR [--seeds A-B] [--moves N] [--conflicts N] [--jobs N]"
takes_minutes=''
# shellcheck source=fleet/common.sh
. "$(dirname "$0")/common.sh"
read_words "$@"
prepare
jobs=${jobs:-$(processors)}

# The shells of both engines outlive a signal, so that try.sh can keep what it has.
try='trap : HUP INT TERM; [ $# -eq 0 ] || "$FLEET_TRY" "$FLEET_DIR" "$1"; [ -e "$FLEET_DIR/refutation.log" ]'

# A job that ends well ends all: one behind which there is a refutation.
by_parallel() {
    bar=''
    # At a second signal parallel ends the tries that run.
    trap '[ -z "${!:-}" ] || { kill "$!"; sleep 1; kill "$!" 2>/dev/null; wait "$!"; }; exit 143' HUP INT TERM
    [ -t 2 ] && bar=--bar
    missing | PARALLEL_SHELL=/bin/sh parallel --jobs "$jobs" --ungroup --halt now,success=1 --termseq TERM,10000,KILL,25 $bar \
        "set -- {}; $try" &
    wait "$!"
    trap - HUP INT TERM
}

# A status of 255 lets xargs begin no further one, and so does a signal. The tries that run go on to their end.
by_xargs() {
    trap '[ -z "${!:-}" ] || { kill "$!" 2>/dev/null; wait "$!"; }; exit 143' HUP INT TERM
    missing | xargs -n 1 -P "$jobs" sh -c "$try && exit 255" try &
    wait "$!"
    trap - HUP INT TERM
}

export ROBIN="$robin" FLEET_TRY="$here/try.sh" FLEET_DIR="$dir"
if parallel --version 2>/dev/null | grep -q '^GNU parallel'; then by_parallel; else by_xargs; fi
if [ -e "$dir/refutation.log" ]; then
    echo "the league accepts no season: $dir/refutation.log is an accepted refutation"
    exit 4
fi
left=$(missing | wc -l)
echo "$((last - first + 1 - left)) of $((last - first + 1)) seeds have an answer in $dir"
[ "$left" -eq 0 ] || fail 1 "the others have none yet: the same command goes on with them"
