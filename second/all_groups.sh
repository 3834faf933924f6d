#!/bin/sh
# second/all_groups.sh PROGRAM [TOTAL]: runs all groups of second/hostile.py, the signals of `stopped` too, and the groups
# that draw their cases until there are TOTAL (1000000) in all. It prints a table of groups, cases, differences and seconds;
# the inputs of differences stay in ./differs. SEED=N (0) draws others. The status is 1 where something differs.
set -u
here=$(cd "$(dirname "$0")" && pwd) || exit 2
[ $# -ge 1 ] && [ $# -le 2 ] && [ -x "$1" ] || {
    echo "usage: $0 PROGRAM [TOTAL]" >&2
    exit 2
}
scratch=/dev/shm
[ -w "$scratch" ] || scratch=${TMPDIR:-/tmp}
groups=$(python3 "$here/hostile.py" "$1" --names) || exit 2
# Each name is a word of its own.
# shellcheck disable=SC2086
exec python3 "$here/hostile.py" "$1" $groups --cases 20000 --seed "${SEED:-0}" --total "${2:-1000000}" \
    --scratch "$scratch" --keep differs
