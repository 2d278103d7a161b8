# Trials, which `rows/run` reads, of the script, the streams and what is held: names of directories, streams that are closed, two runs at once,
# files that may not grow.

# A directory's name may have blanks, and be reached from elsewhere, by the script and through a link to it.
trial_script() {
    local came status
    fresh 'a directory with  blanks'
    ln -sf -- "$script" "$work/linked"
    came=$(cd -- "$work" && "$script" 'a directory with  blanks' run --partitions 1; printf .)
    same 'the script from another folder' "$SUM." "$came"
    came=$(cd / && "$work/linked" "$work/a directory with  blanks" run --partitions 1; printf .)
    same 'the script through a link' "$SUM." "$came"
    (cd -- "$work" && "$script" 'a directory with  blanks' run --partitions '1 ' >/dev/null 2>&1)
    same 'a word with a blank' 1 $?
    (cd -- "$work" && "$script" 'no such directory' run --partitions 1 >/dev/null 2>&1)
    same 'the status of the script' 2 $?
}

# first_start WHAT STATUS OUTPUT ERRORS: a first start of the script in a home of its own, whose `rt` is the script of standard input. It
# ends so, and leaves no process of `rt`.
first_start() {
    local home=$work/home came status
    rm -rf -- "$home"
    mkdir -p -- "$home/bin" "$home/crates/netherite_cli/src" "$home/crates/low/src"
    cp -r -- "$script" "$here/../tools" "$home/"
    printf 'low:\nnetherite_cli: low\n' >"$home/crates.txt"
    echo '// low' >"$home/crates/low/src/lib.rt"
    { echo '#!/usr/bin/env bash'; cat; } >"$home/bin/rt"
    chmod +x -- "$home/bin/rt"
    came=$(PATH=$home/bin:$PATH timeout 60 "$home/netherite" some words 2>"$work/stderr"; echo "status $?")
    status=${came##*status }
    same "$1: status" "$2" "$status"
    same "$1: stdout" "$3" "${came%status *}"
    same "$1: stderr" "netherite: building the program; a first build proves everything and takes half an hour or more"$'\n'"$4" "$(cat -- "$work/stderr")"
    same "$1: processes left" '' "$(pgrep -f "$home/bin/rt")"
}

# The first start proves all crates and then builds and runs the program; it ends at the first error, or where `rt` does.
trial_first_start() {
    first_start 'a first start' 0 $'the program some words\n' 'netherite: built' <<'END'
case "$*" in
'all check --jobs '*)
    printf '== low\n== netherite_cli\n'
    ;;
run)
    mkdir -p out
    printf '#!/bin/sh\necho the program "$@"\n' >out/netherite_cli
    chmod +x out/netherite_cli
    echo 'rt: running out/netherite_cli'
    ;;
esac
END
    first_start 'an error in the code' 1 '' 'netherite: the build failed in crates/low: /home/crates/low/src/lib.rt:1:1: error: wrong' <<'END'
echo '/home/crates/low/src/lib.rt:1:1: error: wrong'
sleep 50
END
    first_start 'a crate that is not proved' 1 '' 'netherite: the build failed in crates/low: src/lib.rt:1:1: error: no proof' <<'END'
printf '== low\nsrc/lib.rt:1:1: error: no proof\n'
sleep 50
END
    first_start 'no program' 1 '' 'netherite: the build failed in crates/netherite_cli: rt ended before the program was built' <<'END'
printf '== low\n== netherite_cli\n'
END
    first_start 'proofs that end with a fault' 1 '' 'netherite: the build failed in crates/low: rt ended before the program was built' <<'END'
echo '== low'
exit 1
END
}

# An empty word for the directory is this one, and `.` is too.
trial_here() {
    local came
    fresh d
    came=$(cd -- "$work/d" && "$program" . run --partitions 1; printf .)
    same 'the directory .' "$SUM." "$came"
}

# closed WHAT STATUS REDIRECTION: the run with these streams ends so, no file but the log changes, and what was committed is
# there for the next run.
closed() {
    local before status
    fresh d
    before=$(digests "$work/d")
    (eval "exec $3"; exec "$program" "$work/d" run --partitions 1)
    status=$?
    same "$1: status" "$2" "$status"
    same "$1: the files" "$before" "$(digests "$work/d")"
    sum_runs "$1: again" "$work/d"
    # the same on a directory where all is committed
    (eval "exec $3"; exec "$program" "$work/d" run --partitions 1)
    same "$1: the files again" "$before" "$(digests "$work/d")"
    sum_runs "$1: once more" "$work/d"
}

trial_closed_streams() {
    exec 8>/dev/null
    closed 'stdin' 0 '0<&- >/dev/null 2>/dev/null'
    closed 'stdout' 6 '>&- 2>/dev/null'
    closed 'stderr' 0 '>/dev/null 2>&-'
    closed 'stdin and stdout' 6 '0<&- >&- 2>/dev/null'
    closed 'stdin and stderr' 0 '0<&- >/dev/null 2>&-'
    closed 'stdout and stderr' 6 '>&- 2>&-'
    closed 'all three' 6 '0<&- >&- 2>&-'
    closed 'a full device' 6 '>/dev/full 2>/dev/null'
}

# A reader that is gone before anything is said.
trial_closed_pipe() {
    local before status
    fresh d
    before=$(digests "$work/d")
    mkfifo "$work/pipe"
    (exec 9<>"$work/pipe"; exec 8>"$work/pipe"; exec 9>&-; trap '' PIPE; exec "$program" "$work/d" run --partitions 1 >&8 2>/dev/null)
    status=$?
    same 'status' 6 "$status"
    same 'the files' "$before" "$(digests "$work/d")"
    sum_runs 'again' "$work/d"
}

# Of two runs at once at least one does the work, the other does it too or is told that the directory is held, and the
# directory is good afterwards.
trial_two_at_once() {
    local i one other
    for i in $(seq 100); do
        fresh d
        "$program" "$work/d" run --partitions 1 >"$work/one" 2>&1 &
        "$program" "$work/d" run --partitions 1 >"$work/other" 2>&1
        other=$?
        wait $!
        one=$?
        case "$one $other" in
        '0 0' | '0 5' | '5 0') ok ;;
        *) wrong "pair $i: statuses $one and $other" ;;
        esac
        sum_runs "after pair $i" "$work/d"
    done
}

# A run that finds the directory held, however, ends at once and says why.
trial_held() {
    local way
    for way in --exclusive --shared; do
        fresh d
        exec 7<"$work/d"
        flock "$way" 7
        same "held $way" "netherite: site fault
  another run holds the directory $work/d" "$("$program" "$work/d" run --partitions 1 2>&1)"
        "$program" "$work/d" run --partitions 1 >/dev/null 2>&1
        same "held $way: its status" 5 $?
        exec 7<&-
        sum_runs "held $way, afterwards" "$work/d"
    done
}

# Two directories have one log, by a hard link. Of two runs on them at once at least one does its work, the other does it too or is told
# that the log is held, and the log is good afterwards: each says again what it has said.
trial_two_names_of_a_log() {
    local i name n one other
    for i in $(seq 100); do
        fresh d
        sum_runs first "$work/d"
        rm -rf -- "$work/e"
        cp -al -- "$work/d" "$work/e"
        for name in d e; do
            rm -- "$work/$name/requests.jsonl"
            for n in 1 2 3 4 5 6; do
                printf '{"client":"%s","n":%d,"start":"Sum/%s%d"}\n' "$name" "$n" "$name" "$n"
            done >"$work/$name/requests.jsonl"
        done
        "$program" "$work/d" run --partitions 1 >"$work/d.said" 2>"$work/d.why" &
        "$program" "$work/e" run --partitions 1 >"$work/e.said" 2>"$work/e.why"
        other=$?
        wait $!
        one=$?
        case "$one $other" in
        '0 0' | '0 5' | '5 0') ok ;;
        *) wrong "pair $i: statuses $one and $other" ;;
        esac
        for name in d e; do
            if [ -s "$work/$name.why" ]; then
                same "pair $i: the reason" $'netherite: site fault\n  p00.log0: another run holds this file' "$(cat -- "$work/$name.why")"
                same "pair $i: what is said" . "$(text_of "$work/$name.said")"
            else
                same "pair $i: what was said" "$(text_of "$work/$name.said")" "$("$program" "$work/$name" run --partitions 1 2>&1; printf .)"
            fi
        done
    done
}

# A log that another process holds is refused, and goes on once it is let go.
trial_held_log() {
    fresh d
    sum_runs first "$work/d"
    exec 7<"$work/d/p00.log0"
    flock --exclusive 7
    refused 'a held log' 5 'site fault' "$work/d" run --partitions 1
    same 'why' '  p00.log0: another run holds this file' "$(tail -n +2 "$work/stderr")"
    refused 'a held log that is shown' 5 'site fault' "$work/d" show --partitions 1
    exec 7<&-
    sum_runs 'afterwards' "$work/d"
}

# A limit on the length of files is told by the script's run as a fault, of a file and of standard output, and the run goes on once
# there is none.
trial_file_size_limit() {
    fresh d
    same 'no byte: why' $'netherite: site fault\n  p00.log0: File too large (os error 27)\n5' "$( (ulimit -f 0; "$script" "$work/d" run --partitions 1 2>&1; echo $?))"
    sum_runs 'no byte, afterwards' "$work/d"
    fresh d
    printf '%s\n' '{"flows":{"Calls":[["while",true,[["call","x","echo",0]]]]}}' >"$work/d/flows.json"
    printf '%s\n' '{"client":"a","n":1,"start":"Calls/x"}' '{"client":"a","n":2,"wait":"Calls/x"}' >"$work/d/requests.jsonl"
    same 'some bytes: why' $'a 1 started\nnetherite: site fault\n  p00.log0: File too large (os error 27)\n5' "$( (ulimit -f 2; "$script" "$work/d" run --partitions 1 2>&1; echo $?))"
    "$script" "$work/d" run --partitions 1 --steps 5 >"$work/stdout" 2>"$work/stderr"
    ended 'some bytes, afterwards' 4 $? long 5
    fresh d
    sum_runs 'a log' "$work/d"
    (ulimit -f 0; exec "$script" "$work/d" run --partitions 1 >"$work/stdout" 2>/dev/null)
    same 'standard output: status' 6 $?
}
