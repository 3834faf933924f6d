#!/bin/sh
# bench/judging.sh PROGRAM [PROGRAM ..]: instructions (millions) of `validate` on the season of `circle 40`, by class,
# counted by callgrind, so that the machine's load doesn't matter. Needs valgrind.
here=$(cd "$(dirname "$0")" && pwd)
season=$(mktemp) || exit 1
trap 'rm -f "$season"' EXIT
"$1" circle 40 >"$season"
for class in CA1 CA2 CA3 CA4 GA1 BR1 BR2 FA2 SE1 mixed-1000; do
    printf '%s' "$class"
    for program in "$@"; do
        valgrind --tool=callgrind --callgrind-out-file=/dev/null \
            "$program" validate "$here/validate-$class.xml" "$season" 2>&1 >/dev/null |
            awk '/Collected/ { printf " %.1f", $NF / 1e6 }'
    done
    echo
done
