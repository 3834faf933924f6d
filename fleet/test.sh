#!/bin/sh
# fleet/test.sh [PART ..]: tries the scripts of this folder for real, on one machine and under a Slurm of its own: munged,
# slurmctld and slurmd on the loopback address, in a folder of its own, ended by their process ids. As root it first installs
# by apt-get what is missing. The status is 0 where all is as it should be, 1 where something isn't, 77 where nothing is wrong
# but a part couldn't be tried here, which it says. The parts are parallel, xargs, broken, rounds, disk and slurm (none: all).
set -u
here=$(cd "$(dirname "$0")" && pwd) || exit 1
examples=$here/../examples
leagues=$here/../bench/leagues
# A league in which a try finds a season in a second, and the options of a try that goes on for minutes.
easy=$leagues/easy-16-phased.xml
long='--moves 10000000 --conflicts 0'
FLEET_PROGRAM=${ROBIN:-$here/../robin}
parts=$*
wrong=0
skipped=0
folder=$(mktemp -d) && chmod 755 "$folder" || exit 1
daemons=''
mounted=''

say() {
    echo "fleet/test.sh: $*"
}

skip() {
    say "SKIPPED: $*"
    skipped=$((skipped + 1))
}

# wants PART: whether this part is to be tried.
wants() {
    case " ${parts:-$1} " in
    *" $1 "*) ;;
    *) return 1 ;;
    esac
}

# Waits up to so many seconds until a command is well.
await() {
    left=$1
    shift
    until "$@" >/dev/null 2>&1; do
        [ "$left" -gt 0 ] || return 1
        left=$((left - 1))
        sleep 1
    done
}

gone() {
    ! kill -0 "$1" 2>/dev/null
}

# The daemons end in the order of the list, each by the process id that it wrote.
finish() {
    for file in $daemons; do
        process=$(cat "$folder/$file" 2>/dev/null) || continue
        kill "$process" 2>/dev/null
        await 15 gone "$process" || kill -KILL "$process" 2>/dev/null
    done
    daemons=''
    [ -z "$mounted" ] || umount "$mounted"
    mounted=''
    rm -rf "$folder"
}
trap finish EXIT
trap 'exit 1' HUP INT TERM

# expect WHAT COMMAND ..: says whether it is so.
expect() {
    what=$1
    shift
    if "$@"; then
        say "ok: $what"
    else
        say "WRONG: $what"
        wrong=$((wrong + 1))
    fi
}

# gives STATUS COMMAND ..: whether it ends with this status; what it says is in $folder/said.
gives() {
    awaited=$1
    shift
    "$@" >"$folder/said" 2>&1
    got=$?
    [ "$got" -eq "$awaited" ] || { sed 's/^/    /' "$folder/said" && echo "    status $got" && false; }
}

# whole DIR A B: whether each of these seeds has an answer that is a season, and nothing is left under another name.
whole() {
    seed=$2
    while [ "$seed" -le "$3" ]; do
        "$FLEET_PROGRAM" validate "$1/league.xml" "$1/$seed.xml" >"$folder/report" || return 1
        seed=$((seed + 1))
    done
    [ -z "$(find "$1" -name '.*.part')" ]
}

# best_is DIR OBJECTIVE: whether the best season is accepted, costs this, and has its own report.
best_is() {
    "$FLEET_PROGRAM" validate "$1/league.xml" "$1/best.xml" >"$folder/report" && cmp -s "$folder/report" "$1/best.txt" &&
        grep -qx "objective $2" "$1/best.txt"
}

# calls SEED: how often `solve` began with this seed.
calls() {
    grep -c " $1\$" "$folder/calls"
}

has_calls() {
    [ "$(wc -l <"$folder/calls")" -eq "$1" ]
}

# runs SEED: whether a try of this seed runs; sets process to its id.
runs() {
    process=$(sed -n "s/ $1\$//p" "$folder/calls" | tail -n 1)
    [ -n "$process" ] && kill -0 "$process" 2>/dev/null
}

tries() {
    "$here/tries.sh" "$league" "$@" --moves 100
}

# twice COMMAND ..: the same command twice at once; whether both end well.
twice() {
    "$@" >"$folder/first" 2>&1 &
    other=$!
    "$@" >"$folder/second" 2>&1
    status=$?
    wait "$other" && [ "$status" -eq 0 ] || { sed 's/^/    /' "$folder/first" "$folder/second" && false; }
}

install_missing() {
    if command -v parallel && command -v sbatch && command -v slurmctld && command -v slurmd && command -v munged; then
        return
    fi >/dev/null
    [ "$(id -u)" -eq 0 ] && command -v apt-get >/dev/null || return
    apt-get update -qq >"$folder/apt" 2>&1 && DEBIAN_FRONTEND=noninteractive apt-get install -y -qq \
        --no-install-recommends slurm-wlm munge parallel >>"$folder/apt" 2>&1 || tail -n 5 "$folder/apt"
}

# The program of the tests: it notes each `solve` with its process id and its seed, and waits before it, so that a try can
# be ended in its middle.
make_program() {
    cat >"$folder/slow" <<'END'
#!/bin/sh
# Without commands as far as may be, since some shells forget at the first which signals are to wait.
folder=${0%/*}
read -r program <"$folder/program"
read -r delay <"$folder/delay"
if [ "$1" = solve ]; then
    for seed; do :; done
    echo "$$ $seed" >>"$folder/calls"
    [ "$delay" = 0 ] || sleep "$delay"
fi
exec "$program" "$@"
END
    chmod 755 "$folder/slow"
    case $FLEET_PROGRAM in
    */*) FLEET_PROGRAM=$(cd "$(dirname "$FLEET_PROGRAM")" && pwd)/$(basename "$FLEET_PROGRAM") ;;
    *) FLEET_PROGRAM=$(command -v "$FLEET_PROGRAM") ;;
    esac
    echo "$FLEET_PROGRAM" >"$folder/program"
    echo 0 >"$folder/delay"
    : >"$folder/calls"
    export ROBIN="$folder/slow"
}

# The lowest objective of the seasons that `validate` accepts among the files.
least() {
    for file in "$1"/[0-9]*.xml; do
        "$FLEET_PROGRAM" validate "$1/league.xml" "$file" 2>/dev/null | grep -q '^feasible yes' &&
            "$FLEET_PROGRAM" validate "$1/league.xml" "$file" | sed -n 's/^objective //p'
    done | sort -n | head -n 1
}

on_one_machine() {
    dir="$folder/$1 isn't one word"
    expect "$1: a try for each seed" gives 0 tries "$dir" --seeds 0-3 --jobs 2
    expect "$1: whole answers" whole "$dir" 0 3
    expect "$1: the best is found" gives 0 "$here/best.sh" "$dir"
    expect "$1: and is the least that is accepted" best_is "$dir" "$(least "$dir")"
    : >"$folder/calls"
    expect "$1: once more, and with two seeds more" gives 0 tries "$dir" --seeds 0-5 --jobs 2
    expect "$1: these alone are tried" [ "$(wc -l <"$folder/calls")" -eq 2 ]
    expect "$1: another league is refused" gives 6 "$here/tries.sh" "$examples/four-teams.xml" "$dir" --moves 100
    expect "$1: other options are refused" gives 6 "$here/tries.sh" "$league" "$dir" --moves 101

    dir=$folder/$1-killed
    echo 3 >"$folder/delay"
    tries "$dir" --seeds 10-13 --jobs 4 >"$folder/said" 2>&1 &
    run=$!
    expect "$1: a try runs" await 20 runs 12
    kill -KILL "$process"
    wait "$run"
    expect "$1: the run says that an answer is missing" [ $? -eq 1 ]
    expect "$1: the killed try alone has none" [ "$(find "$dir" -name '1?.xml' | wc -l)" -eq 3 ]
    : >"$folder/calls"
    echo 0 >"$folder/delay"
    expect "$1: the same command goes on" gives 0 tries "$dir" --seeds 10-13 --jobs 4
    expect "$1: with that try" [ "$(calls 12) of $(wc -l <"$folder/calls")" = "1 of 1" ]
    expect "$1: whole answers" whole "$dir" 10 13

    dir=$folder/$1-twice
    echo 1 >"$folder/delay"
    expect "$1: the same command twice at once" twice tries "$dir" --seeds 20-25 --jobs 2
    echo 0 >"$folder/delay"
    expect "$1: whole answers" whole "$dir" 20 25
    expect "$1: judged twice at once" twice "$here/best.sh" "$dir"
    expect "$1: the best is the least" best_is "$dir" "$(least "$dir")"

    dir=$folder/$1-refuted
    echo 1 >"$folder/delay"
    expect "$1: a refutation ends all" gives 4 "$here/tries.sh" "$examples/one-home-game.xml" "$dir" --seeds 0-99 --jobs 2
    expect "$1: few were tried" [ "$(find "$dir" -name '[0-9]*.log' | wc -l)" -le 4 ]
    expect "$1: and it is accepted" gives 0 "$FLEET_PROGRAM" check "$dir/league.xml" "$dir/refutation.log"
    expect "$1: the judge says so" gives 4 "$here/best.sh" "$dir"
    echo 0 >"$folder/delay"
}

# A run that is ended in its middle, by parallel.
interrupted() {
    dir=$folder/interrupted
    echo 3 >"$folder/delay"
    : >"$folder/calls"
    # By its own name, so that the process is that of the script.
    "$here/tries.sh" "$league" "$dir" --moves 100 --seeds 30-35 --jobs 2 >"$folder/said" 2>&1 &
    run=$!
    await 20 has_calls 2
    kill -TERM "$run"
    wait "$run"
    expect "interrupted: the run ends" [ $? -eq 143 ]
    expect "interrupted: nothing is left under another name" [ -z "$(find "$dir" -name '.*.part')" ]
    expect "interrupted: no further try begins" has_calls 2
    echo 0 >"$folder/delay"
    expect "interrupted: the same command goes on" gives 0 tries "$dir" --seeds 30-35 --jobs 2
    expect "interrupted: whole answers" whole "$dir" 30 35
}

# has_worked: whether the process has had a second of processor time.
has_worked() {
    [ "$(awk '{ print $14 }' "/proc/$process/stat")" -ge 100 ]
}

# stops SEED STATUS COMMAND ..: whether a command that tries this seed, and gets a signal after some work, ends soon and with
# this status.
stops() {
    : >"$folder/calls"
    try=$1
    awaited=$2
    shift 2
    "$@" >"$folder/said" 2>&1 &
    run=$!
    await 60 runs "$try" && await 60 has_worked && kill -TERM "$run" && await 30 gone "$run" || kill -KILL "$process"
    wait "$run"
    got=$?
    [ "$got" -eq "$awaited" ] || { sed 's/^/    /' "$folder/said" && echo "    status $got" && false; }
}

# Long tries that are told to end: one that has a season, one that has none, and one whose search has no limit.
stopped() {
    dir=$folder/stopped
    mkdir "$dir" && cp "$easy" "$dir/league.xml" && echo "$long" >"$dir/words"
    expect "stopped: a try ends" stops 1 0 "$here/try.sh" "$dir" 1
    expect "stopped: and leaves its season" whole "$dir" 1 1
    cp "$leagues/tight-20.xml" "$dir/league.xml"
    expect "stopped: a try without a season ends" stops 2 143 "$here/try.sh" "$dir" 2
    echo "--moves 0 --conflicts all" >"$dir/words"
    expect "stopped: a search without a limit ends" stops 3 143 "$here/try.sh" "$dir" 3
    expect "stopped: neither leaves an answer" [ -z "$(find "$dir" -name '[23].*' -o -name '.*.part')" ]
}

# Long tries, all told to end.
long_tries() {
    dir=$folder/long
    # The words are options.
    # shellcheck disable=SC2086
    expect "parallel: long tries end" stops 1 143 "$here/tries.sh" "$easy" "$dir" $long --seeds 0-5 --jobs 2
    expect "parallel: and leave their seasons" whole "$dir" 0 1
    expect "parallel: no further try began" has_calls 2
}

# Answers that lie about themselves, or are no answers.
broken_answers() {
    dir=$folder/broken
    expect "broken: tries" gives 0 tries "$dir" --seeds 0-1
    head -c 300 "$dir/0.xml" >"$dir/2.xml"
    sed 's|<Solution>|&<MetaData><ObjectiveValue infeasibility="0" objective="0"/></MetaData>|' \
        "$examples/refused-season.xml" >"$dir/3.xml"
    : >"$dir/4.xml"
    # Accepted, and dearer than it says.
    sed 's|<Solution>|&<MetaData><ObjectiveValue infeasibility="0" objective="0"/></MetaData>|' \
        "$examples/accepted-season.xml" >"$dir/8.xml"
    printf 'refutation 1\nend\n' >"$dir/5.log"
    printf 'refutation 1\n0 1 0\nend\n' >"$dir/6.log"
    echo "accepted steps 1" >"$dir/7.log"
    expect "broken: judged" gives 0 "$here/best.sh" "$dir"
    expect "broken: each by what it is" [ "$(sed -n 's/^\([2-8] [a-z]*\) .*/\1/p' "$dir/table.txt" | tr '\n' ' ')" = \
        "2 broken 3 rejected 4 broken 5 spent 6 rejected 7 broken 8 season " ]
    expect "broken: and by what it costs" grep -q '^8 season 25 ' "$dir/table.txt"
    expect "broken: the best is the least that is accepted" best_is "$dir" "$(least "$dir")"
    cp "$dir/3.xml" "$dir/best.xml"
    expect "broken: judged with a wrong best season there" gives 0 "$here/best.sh" "$dir"
    expect "broken: which goes" best_is "$dir" "$(least "$dir")"
    cp "$dir/6.log" "$dir/refutation.log"
    expect "broken: a wrong refutation refutes nothing" gives 0 "$here/best.sh" "$dir"
    expect "broken: and no try begins behind it" gives 6 tries "$dir" --seeds 0-9
}

# A disk with ever less room, down to none.
full_disk() {
    mkdir "$folder/small"
    if ! mount -t tmpfs -o size=256k fleet-test "$folder/small" 2>"$folder/said"; then
        skip "a full disk: $(cat "$folder/said")"
        return
    fi
    mounted=$folder/small
    dir=$folder/small/tries
    expect "full disk: tries while there is room" gives 0 tries "$dir" --seeds 0-1
    expect "full disk: judged" gives 0 "$here/best.sh" "$dir"
    for room in 3 2 1 0; do
        # The block size of a page.
        rm -f "$mounted/fill"
        dd if=/dev/zero of="$mounted/fill" bs=4096 2>/dev/null
        pages=$(($(wc -c <"$mounted/fill") / 4096 - room))
        rm -f "$mounted/fill"
        dd if=/dev/zero of="$mounted/fill" bs=4096 count="$pages" 2>/dev/null
        tries "$dir" --seeds 0-3 --jobs 2 >"$folder/said" 2>&1
        "$here/best.sh" "$dir" >"$folder/said" 2>&1
        bad=''
        for file in "$dir"/*.xml; do
            [ "$file" = "$dir/league.xml" ] || "$FLEET_PROGRAM" validate "$dir/league.xml" "$file" >/dev/null || bad=$file
        done
        expect "full disk: each answer is whole, $room pages left" [ -z "$bad" ]
        expect "full disk: the best is right" best_is "$dir" "$(least "$dir")"
    done
    expect "full disk: the run said that answers are missing" gives 1 tries "$dir" --seeds 0-3
    rm -f "$mounted/fill"
    expect "full disk: with room the same command goes on" gives 0 tries "$dir" --seeds 0-3
    expect "full disk: whole answers" whole "$dir" 0 3
    rm -r "$dir"
    dir=$mounted/rounds
    rounds_of --seconds 600 >"$folder/said" 2>&1
    status=$?
    expect "full disk: rounds end, since answers or the table can't be written" [ "$status" -eq 1 -o "$status" -eq 7 ]
    expect "full disk: no season costs more than its start" no_dearer
    expect "full disk: the best is accepted" gives 0 "$FLEET_PROGRAM" validate "$dir/league.xml" "$dir/best.xml"
    umount "$mounted"
    mounted=''
}

# start_slurm: whether a Slurm of one node answers; why not is said.
start_slurm() {
    for program in munged slurmctld slurmd sbatch; do
        command -v "$program" >/dev/null || { echo "$program isn't there" && return 1; }
    done
    name=$(uname -n | cut -d . -f 1)
    user=$(id -un)
    mkdir -p "$folder/slurm/state" "$folder/slurm/spool" "$folder/slurm/log" "$folder/munge" || return 1
    dd if=/dev/urandom of="$folder/munge/key" bs=1024 count=1 2>/dev/null && chmod 400 "$folder/munge/key" || return 1
    cat >"$folder/slurm/slurm.conf" <<END
ClusterName=fleet
SlurmctldHost=$name(127.0.0.1)
SlurmUser=$user
SlurmdUser=$user
AuthType=auth/munge
AuthInfo=socket=$folder/munge/socket,cred_expire=5
StateSaveLocation=$folder/slurm/state
SlurmdSpoolDir=$folder/slurm/spool
SlurmctldPidFile=$folder/slurm/ctld.pid
SlurmdPidFile=$folder/slurm/d.pid
SlurmctldLogFile=$folder/slurm/log/ctld
SlurmdLogFile=$folder/slurm/log/d
ProctrackType=proctrack/linuxproc
TaskPlugin=task/none
SelectType=select/cons_tres
SelectTypeParameters=CR_Core
SchedulerParameters=sched_interval=1,bf_interval=1
ReturnToService=2
KillWait=10
SlurmctldPort=16817
SlurmdPort=16818
MpiDefault=none
NodeName=$name NodeAddr=127.0.0.1 CPUs=$(nproc) State=UNKNOWN
PartitionName=all Nodes=$name Default=YES MaxTime=INFINITE State=UP
END
    export SLURM_CONF="$folder/slurm/slurm.conf"
    as=''
    if [ "$user" = root ]; then
        chown -R munge: "$folder/munge" || return 1
        as='runuser -u munge --'
    fi
    daemons='slurm/d.pid slurm/ctld.pid munge/pid'
    $as munged --socket="$folder/munge/socket" --key-file="$folder/munge/key" --pid-file="$folder/munge/pid" \
        --log-file="$folder/munge/log" --seed-file="$folder/munge/seed" || return 1
    slurmctld -f "$SLURM_CONF" || return 1
    slurmd -f "$SLURM_CONF" -N "$name" || return 1
    await 30 node_is idle || { tail -n 5 "$folder"/slurm/log/* && sinfo -N -l && return 1; }
}

node_is() {
    [ "$(sinfo -h -n "$name" -o %t)" = "$1" ]
}

by_slurm() {
    "$here/slurm.sh" "$league" "$@" --moves 100 --minutes 5
}

no_jobs() {
    [ -z "$(squeue -h)" ]
}

under_slurm() {
    dir="$folder/slurm isn't one word"
    expect "Slurm: an array, and the job behind it" gives 0 by_slurm "$dir" --seeds 0-5 --wait
    expect "Slurm: whole answers" whole "$dir" 0 5
    expect "Slurm: the best was found by that job" best_is "$dir" "$(least "$dir")"
    : >"$folder/calls"
    rm "$dir/2.xml" "$dir/4.xml"
    expect "Slurm: once more" gives 0 by_slurm "$dir" --seeds 0-5 --wait
    expect "Slurm: the missing ones alone are tried" [ "$(calls 2) $(calls 4) of $(wc -l <"$folder/calls")" = "1 1 of 2" ]

    dir=$folder/slurm-killed
    echo 5 >"$folder/delay"
    expect "Slurm: asked" gives 0 by_slurm "$dir" --seeds 10-12
    expect "Slurm: a task runs" await 60 runs 11
    kill -KILL "$process"
    expect "Slurm: all ends" await 60 no_jobs
    expect "Slurm: the killed task alone has no answer" [ "$(find "$dir" -name '1?.xml' | wc -l)" -eq 2 ]
    echo 0 >"$folder/delay"
    expect "Slurm: the same command goes on" gives 0 by_slurm "$dir" --seeds 10-12 --wait
    expect "Slurm: whole answers" whole "$dir" 10 12
    expect "Slurm: the best is the least" best_is "$dir" "$(least "$dir")"

    dir=$folder/slurm-cancelled
    # The words are options.
    # shellcheck disable=SC2086
    expect "Slurm: a long try" gives 0 "$here/slurm.sh" "$easy" "$dir" --seeds 15-15 $long
    job=$(sed -n 's/^job \([0-9]*\): seeds .*/\1/p' "$folder/said")
    expect "Slurm: it runs" await 60 runs 15
    await 60 has_worked
    scancel "$job"
    expect "Slurm: it is cancelled, and all ends" await 60 no_jobs
    expect "Slurm: and leaves its season" whole "$dir" 15 15

    dir=$folder/slurm-drained
    echo 5 >"$folder/delay"
    : >"$folder/calls"
    expect "Slurm: one at a time" gives 0 by_slurm "$dir" --seeds 20-22 --jobs 1
    expect "Slurm: the first runs" await 60 runs 20
    scontrol update NodeName="$name" State=DRAIN Reason=test
    expect "Slurm: the node is drained" await 60 node_is drain
    expect "Slurm: what ran has its answer, the others wait" [ "$(find "$dir" -name '2?.xml' | wc -l)" -eq 1 ]
    echo 1 >"$folder/delay"
    scontrol update NodeName="$name" State=RESUME
    expect "Slurm: the node comes back, and all ends" await 90 no_jobs
    expect "Slurm: whole answers" whole "$dir" 20 22
    expect "Slurm: the best is the least" best_is "$dir" "$(least "$dir")"

    dir=$folder/slurm-lost
    echo 5 >"$folder/delay"
    : >"$folder/calls"
    expect "Slurm: asked" gives 0 by_slurm "$dir" --seeds 30-31
    expect "Slurm: a task runs" await 60 runs 30
    scontrol update NodeName="$name" State=DOWN Reason=test
    await 10 gone "$process"
    echo 0 >"$folder/delay"
    # Where the node has come back by itself this is refused.
    scontrol update NodeName="$name" State=RESUME 2>/dev/null
    expect "Slurm: a node is lost and comes back, and all ends" await 180 no_jobs
    expect "Slurm: the lost task was asked again" [ "$(calls 30)" -ge 2 ]
    expect "Slurm: whole answers" whole "$dir" 30 31
    expect "Slurm: the best is the least" best_is "$dir" "$(least "$dir")"

    dir=$folder/slurm-twice
    echo 1 >"$folder/delay"
    expect "Slurm: the same command twice at once" twice by_slurm "$dir" --seeds 40-43 --wait
    expect "Slurm: all ends" await 60 no_jobs
    expect "Slurm: whole answers" whole "$dir" 40 43
    expect "Slurm: the best is the least" best_is "$dir" "$(least "$dir")"

    dir=$folder/slurm-refuted
    expect "Slurm: a refutation ends all" gives 0 "$here/slurm.sh" "$examples/one-home-game.xml" "$dir" --seeds 0-99 --jobs 2 --wait
    expect "Slurm: all ends" await 60 no_jobs
    expect "Slurm: few were tried" [ "$(find "$dir" -name '[0-9]*.log' | wc -l)" -le 8 ]
    expect "Slurm: and the judge says so" gives 4 "$here/best.sh" "$dir"
    echo 0 >"$folder/delay"
}


# start_of SEASON: the season at which the try that found it began.
start_of() {
    seed=${1##*/}
    seed=${seed%.xml}
    echo "${1%/*}/$(sed -n "$((seed % $(wc -l <"${1%/*}/starts") + 1))p" "${1%/*}/starts")"
}

objective_of() {
    "$FLEET_PROGRAM" validate "$dir/league.xml" "$1" | sed -n 's/^objective //p'
}

# no_dearer: whether each season of the rounds is accepted, and costs no more than the one at which it began.
no_dearer() {
    for file in "$dir"/[0-9]*/[0-9]*.xml; do
        cost=$(objective_of "$file")
        [ -n "$cost" ] || return 1
        [ ! -e "${file%/*}/starts" ] || [ "$cost" -le "$(objective_of "$(start_of "$file")")" ] || return 1
    done
}

rounds_of() {
    "$here/next.sh" "$league" "$dir" --moves 100 --seeds 0-3 --jobs 2 --keep 2 "$@"
}

# The lowest objective of all rounds.
least_of_all() {
    for folder_of_tries in "$dir"/[0-9]*; do
        least "$folder_of_tries"
    done | sort -n | head -n 1
}

# rounds_at_once NAME ..: for each name a run of the same rounds, told to end when a third round has begun; whether all then
# end well.
rounds_at_once() {
    all=''
    for name_of_run; do
        # By its own name, so that the process is that of the script.
        "$here/next.sh" "$league" "$dir" --moves 100 --seeds 0-3 --jobs 2 --keep 2 --seconds 600 >"$folder/said.$name_of_run" 2>&1 &
        all="$all $!"
    done
    ended=0
    await 300 [ -d "$dir/3" ] || ended=1
    for run in $all; do
        kill -TERM "$run"
    done
    for run in $all; do
        wait "$run" || ended=1
    done
    [ "$ended" -eq 0 ] || { sed 's/^/    /' "$folder"/said.* && false; }
}

# Rounds, of which each begins at the best seasons of the one before it.
rounds() {
    dir="$folder/rounds aren't one word"
    : >"$folder/calls"
    expect "rounds: a third one begins, and a signal ends them as the time does" rounds_at_once one
    expect "rounds: the second begins at the best of the first" [ "$(objective_of "$(start_of "$dir/2/4.xml")")" = "$(least "$dir/1")" ]
    expect "rounds: with other seeds" [ "$(calls 0) $(calls 4)" = "1 1" ]
    expect "rounds: no season costs more than its start" no_dearer
    expect "rounds: the best is the least of all" best_is "$dir" "$(least_of_all)"
    : >"$folder/calls"
    expect "rounds: the same command goes on for some seconds" gives 0 rounds_of --seconds 3
    expect "rounds: and not from the beginning" [ "$(calls 0) $(calls 4)" = "0 0" ]
    expect "rounds: another league is refused" gives 6 "$here/next.sh" "$examples/four-teams.xml" "$dir"
    expect "rounds: a league that is refuted ends them" gives 4 "$here/next.sh" "$examples/one-home-game.xml" "$folder/rounds-refuted"

    dir=$folder/rounds-long
    # The words are options.
    # shellcheck disable=SC2086
    expect "rounds: long tries end" stops 1 0 "$here/next.sh" "$easy" "$dir" $long --seeds 0-5 --jobs 2
    expect "rounds: and leave the best of their seasons" best_is "$dir" "$(least_of_all)"

    dir=$folder/rounds-twice
    expect "rounds: the same command twice at once" rounds_at_once one another
    expect "rounds: no season costs more than its start" no_dearer
    expect "rounds: the best is the least of all" best_is "$dir" "$(least_of_all)"
    expect "rounds: nothing is left under another name" [ -z "$(find "$dir" -name '.*.part')" ]
}

with_parallel() {
    parallel --version 2>/dev/null | grep -q '^GNU parallel' || { skip "GNU parallel isn't there" && return; }
    on_one_machine parallel
    interrupted
    stopped
    long_tries
}

# By a `parallel` that isn't GNU's, as another package has one, so that xargs is taken.
with_xargs() {
    mkdir "$folder/bin" && printf '#!/bin/sh\nexit 1\n' >"$folder/bin/parallel" && chmod 755 "$folder/bin/parallel"
    before=$PATH
    PATH=$folder/bin:$PATH
    on_one_machine xargs
    PATH=$before
}

with_slurm() {
    if start_slurm >"$folder/said" 2>&1; then
        under_slurm
    else
        skip "Slurm doesn't run here: $(cat "$folder/said")"
    fi
}

install_missing
"$FLEET_PROGRAM" --version || exit 1
make_program
league=$examples/nine-classes.xml
! wants parallel || with_parallel
! wants xargs || with_xargs
! wants broken || broken_answers
! wants rounds || rounds
! wants disk || full_disk
! wants slurm || with_slurm
say "$wrong wrong, $skipped skipped"
[ "$wrong" -eq 0 ] || exit 1
[ "$skipped" -eq 0 ] || exit 77
