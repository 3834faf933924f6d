# What the scripts of this folder share; each of them reads it. `usage` is the caller's own text.
# shellcheck shell=sh disable=SC2034,SC2154
here=$(cd "$(dirname "$0")" && pwd) || exit 6
robin=${ROBIN:-$here/../robin}
# A program that is named by a path is found from everywhere.
case $robin in
*/*) robin=$(cd "$(dirname "$robin")" && pwd)/$(basename "$robin") || exit 6 ;;
esac
host=$(uname -n)

fail() {
    status=$1
    shift
    echo "$(basename "$0"): $*" >&2
    exit "$status"
}

# is_number WORD: whether it is a number that a shell can count with: at most 15 digits, without a leading zero.
is_number() {
    case $1 in
    '' | *[!0-9]* | 0?* | ????????????????*) return 1 ;;
    esac
}

processors() {
    nproc 2>/dev/null || getconf _NPROCESSORS_ONLN
}

# read_words WORD ..: sets instance, dir, first, last, moves, conflicts, jobs, minutes, wait, seconds and keeps.
read_words() {
    instance='' dir='' first=0 last=9 moves=10000 conflicts=2000 jobs='' minutes=60 wait='' seconds=3600 keeps=4
    while [ $# -gt 0 ]; do
        case $1 in
        --seeds)
            span=${2-}
            first=${span%%-*} last=${span#*-}
            is_number "$first" && is_number "$last" && [ "$first" -le "$last" ] || fail 2 "--seeds takes A-B, as 0-99"
            shift
            ;;
        --moves)
            is_number "${2-}" || fail 2 "--moves takes a number"
            moves=$2
            shift
            ;;
        --conflicts)
            [ "${2-}" = all ] || is_number "${2-}" || fail 2 "--conflicts takes a number, or all"
            conflicts=$2
            shift
            ;;
        --jobs)
            is_number "${2-}" && [ "${2-}" -gt 0 ] || fail 2 "--jobs takes a number from 1"
            jobs=$2
            shift
            ;;
        --minutes)
            [ -n "$takes_minutes" ] && is_number "${2-}" && [ "${2-}" -gt 0 ] || fail 2 "usage: $usage"
            minutes=$2
            shift
            ;;
        --wait)
            [ -n "$takes_minutes" ] || fail 2 "usage: $usage"
            wait=--wait
            ;;
        --seconds)
            [ -n "${takes_rounds-}" ] && is_number "${2-}" || fail 2 "usage: $usage"
            seconds=$2
            shift
            ;;
        --keep)
            [ -n "${takes_rounds-}" ] && is_number "${2-}" && [ "${2-}" -gt 0 ] || fail 2 "usage: $usage"
            keeps=$2
            shift
            ;;
        -*) fail 2 "usage: $usage" ;;
        *)
            [ -z "$dir" ] || fail 2 "usage: $usage"
            if [ -z "$instance" ]; then instance=$1; else dir=$1; fi
            ;;
        esac
        shift
    done
    [ -n "$dir" ] || fail 2 "usage: $usage"
}

# keep NAME: puts standard input into the folder under this name, whole, unless the name is there; and says whether the
# folder then has these bytes under it. Where a folder takes no links, a file is renamed.
keep() {
    if [ -e "$dir/$1" ]; then
        cmp -s - "$dir/$1"
        return
    fi
    part=$dir/.$1.$host.$$.part
    copy=$dir/.$1.copy.$host.$$.part
    cat >"$part" && {
        [ -e "$dir/$1" ] || ln "$part" "$dir/$1" 2>/dev/null || [ -e "$dir/$1" ] ||
            { cp "$part" "$copy" && mv "$copy" "$dir/$1"; }
    } && cmp -s "$part" "$dir/$1"
    kept=$?
    rm -f "$part" "$copy"
    return "$kept"
}

# Makes the folder with the league, or finds it there. The front of a file, under another name, is taken away: what processes
# of this machine left that are no more, and at its end what this one left.
prepare_league() {
    [ -r "$instance" ] || fail 6 "can't read $instance"
    mkdir -p "$dir" && dir=$(cd "$dir" && pwd) || fail 6 "can't make the folder"
    trap 'rm -f "$dir"/.*".$host.$$.part"' EXIT
    trap 'exit 143' HUP INT TERM
    for part in "$dir"/.*."$host".*.part; do
        process=${part%.part}
        process=${process##*.}
        is_number "$process" && ! kill -0 "$process" 2>/dev/null && rm -f "$part"
    done
    keep league.xml <"$instance" || fail 6 "$dir isn't of this league, or can't be written: take another folder"
    "$robin" --version >/dev/null || fail 6 "$robin doesn't run"
}

# Makes the folder of tries, with the league and the options of `solve`, or finds them there. Where the league is refuted
# there already, the caller ends.
prepare() {
    prepare_league
    echo "--moves $moves --conflicts $conflicts" | keep words ||
        fail 6 "$dir has tries with $(cat "$dir/words"): say the same, or take another folder"
    if [ -e "$dir/refutation.log" ]; then
        "$robin" check "$dir/league.xml" "$dir/refutation.log" >/dev/null ||
            fail 6 "$dir/refutation.log isn't accepted: take it away"
        echo "the league accepts no season: $dir/refutation.log is an accepted refutation"
        exit 4
    fi
}

# judge SEASON: sets status, and the objective of a season that the league accepts.
judge() {
    said=$("$robin" validate "$dir/league.xml" "$1" 2>/dev/null)
    case $? in
    0)
        status=season
        objective=${said##*objective }
        objective=${objective%%[!0-9]*}
        ;;
    1) status=rejected ;;
    3) status=broken ;;
    *) status=unjudged ;;
    esac
}

# leave_season FILE: makes a copy of this season the best one of the folder, unless the one that is there costs no more, and
# sets least, to nothing where there is none. The report is made of the season that lies there then, until it is that one's,
# also where another run puts a better one there meanwhile.
leave_season() {
    season=$dir/.best.$host.$$.part
    report=$dir/.report.$host.$$.part
    status=none
    [ -e "$dir/best.xml" ] && judge "$dir/best.xml"
    if [ "$status" = season ]; then least=$objective; else least=''; fi
    if [ -n "$1" ]; then
        cp "$1" "$season" || fail 7 "the best season can't be written"
        judge "$season"
        if [ "$status" = season ] && { [ -z "$least" ] || [ "$objective" -lt "$least" ]; }; then
            mv "$season" "$dir/best.xml" || fail 7 "the best season can't be renamed"
            least=$objective
        fi
        rm -f "$season"
    fi
    [ -n "$least" ] || return 1
    for time in 1 2 3 4 5 6 7 8 9; do
        "$robin" validate "$dir/league.xml" "$dir/best.xml" >"$report" || fail 7 "the report can't be written"
        cmp -s "$report" "$dir/best.txt" && rm -f "$report" && return
        mv "$report" "$dir/best.txt" || fail 7 "the report can't be renamed"
    done
    fail 7 "$dir/best.xml changed $time times meanwhile"
}

has_answer() {
    [ -e "$dir/$1.xml" ] || [ -e "$dir/$1.log" ]
}

# The seeds without an answer, each on a line.
missing() {
    seed=$first
    while [ "$seed" -le "$last" ]; do
        has_answer "$seed" || echo "$seed"
        seed=$((seed + 1))
    done
}
