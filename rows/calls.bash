# Trials, which `rows/run` reads, of the calls on files: the program runs with `calls.c` between it and the system, which lists its
# calls, fails one of them, cuts them short or kills the program at one.

# through NAME=VALUE.. [WORD]: the program with the calls between it and the system, as calls.c says
through() {
    if [ ! -f "$work/calls.so" ]; then
        cc -shared -fPIC -O1 -o "$work/calls.so" "$here/calls.c" -ldl || exit 2
    fi
    local setting settings=() word=run
    for setting; do
        case $setting in
        *=*) settings+=("$setting") ;;
        *) word=$setting ;;
        esac
    done
    env "${settings[@]}" LD_PRELOAD="$work/calls.so" "$program" "$work/d" "$word" --partitions 1 >"$work/stdout" 2>"$work/stderr"
}

# Prints what is wrong with a run's calls: what is opened how, where each byte goes, and what is made safe before what. The directory
# is opened and locked first. An input is opened to be read, made safe before it is read, and its name with it. The log is locked as
# soon as it is opened or made; one that was there is made safe as it is opened, and again before it is read, its name with it; one
# that is made has its name safe before its bytes. The log is followed through a formatting (write the gate, sync, write the header,
# sync, write the gate, sync) and frame by frame (write length, payload and gate, sync, write the gate before, sync); a sync more is
# none too many. The gate that stands closed is at `gate`.
#     faults_of_calls DIRECTORY LOG STEP GATE LEAST CALLS: the calls begin at this step, and commit so many frames, or more
faults_of_calls() {
    awk '
        function wrong(why) { print NR ": " why ": " $0 }
        function is_step() {
            if (step == 0 || step == 4) return $1 == "write" && $3 == 0 && $4 == 1
            if (step == 2) return $1 == "write" && $3 == 1 && $4 == 33
            if (step == 6) return $1 == "write" && $3 == gate + 1 && $4 > 6
            if (step == 8) return $1 == "write" && $3 == gate && $4 == 1
            return $1 == "sync"
        }
        function goes_on() {
            if (step == 5) { step = 6; gate = 33; return }
            if (step == 6) size = $4
            if (step == 9) { step = 6; gate += size; commits++; return }
            step++
        }
        function is_safe(file) { return named && synced[file] >= (file == log_file && found ? 2 : 1) }
        $1 == "stat" { next }
        $1 == "open" && $2 == "null" && !locked { next }
        $1 == "open" && $2 == "." && !locked { opened = 1; next }
        $1 == "lock" && $2 == directory && opened { locked = 1; next }
        !locked { wrong("before the lock") }
        $1 == "open" && $2 == log_file { found = 1; if (!/ to write = ok$/) wrong("opened to be read"); next }
        $1 == "open" { if (!/ to read = ok$/) wrong("opened to be written"); next }
        $1 == "make" { made = 1; named = 0; if ($2 != log_file || found) wrong("made"); next }
        $1 == "lock" { held[$2] = 1; next }
        $1 == "print" { if (step != 6 || !commits && !found || found && !is_safe(log_file)) wrong("said before it is committed"); next }
        $1 == "sync" && $2 == directory { named = 1; next }
        $2 == log_file && !held[$2] { wrong("before its lock") }
        $1 == "sync" { synced[$2]++ }
        $1 == "read" { if (!is_safe($2)) wrong("read before it is safe"); next }
        $1 == "sync" && ($2 != log_file || step % 2 == 0) { next }
        $2 != log_file { wrong("not the log"); next }
        $1 == "sync" && made && !named { wrong("safe before its name is") }
        $1 == "write" && found && !is_safe($2) { wrong("written before it is safe") }
        { if (is_step()) goes_on(); else wrong("not step " step) }
        END {
            if (step != (made || found ? 6 : 0) || commits < least) print "ended at step " step " behind " commits + 0 " commits"
            if (found && !is_safe(log_file)) print "what was found is not safe"
        }
    ' directory="$1" log_file="$2" step="$3" gate="$4" least="$5" "$6"
}

# followed WHAT STEP GATE LEAST [WORD]: the calls of a run, or of what the word asks for, are in order
followed() {
    rm -f -- "$work/calls"
    through CALLS_LOG="$work/calls" "${5:-run}"
    same "$1: status" "${6:-0}" $?
    same "$1: the calls" '' "$(faults_of_calls d "${log_file:-p00.log0}" "$2" "$3" "$4" "$work/calls")"
}

# writes_nothing WHAT CALL..: of these calls, or of write and make, there is none
writes_nothing() {
    local what=$1
    shift
    same "$what: what it writes" '' "$(grep -E "^($(IFS='|'; echo "write|make${*:+|$*}")) " "$work/calls")"
}

size_of() {
    stat -c %s -- "$1"
}

# The calls of whole runs, one by one: of a directory without a log, with nothing new, with new requests, and on logs that another
# run has left; and what shows and what is refused.
trial_order_of_calls() {
    local log_file log=$work/d/p00.log0 more='{"client":"b","n":1,"start":"Sum/y"}'
    fresh d
    followed 'fresh' 0 '' 2
    same 'fresh: lines' "$SUM." "$(text_of "$work/stdout")"
    followed 'nothing new' 6 $(($(size_of "$log") - 1)) 0
    same 'nothing new: lines' "$SUM." "$(text_of "$work/stdout")"
    writes_nothing 'nothing new'
    followed 'shown' 6 $(($(size_of "$log") - 1)) 0 show
    same 'shown: lines' $'Sum/x done 5\n.' "$(text_of "$work/stdout")"
    writes_nothing 'shown'
    cp -- "$log" "$work/whole"
    printf '%s\n' "$more" >>"$work/d/requests.jsonl"
    followed 'new requests' 6 $(($(size_of "$log") - 1)) 1
    # what a crash has left: the last frame behind a closed gate, and rubbish behind that
    head -c 114 "$work/whole" >"$log"
    printf '\0\1\2\3' >>"$log"
    followed 'a frame that was lost' 6 114 1
    # a file that was made and not yet formatted, its gate closed
    head -c 100 /dev/zero >"$log"
    followed 'a file that is no log' 1 '' 2
    # and of one byte
    printf '\0' >"$log"
    followed 'a file of one byte' 0 '' 2
    # the second file has the log
    mv -- "$work/whole" "$work/d/p00.log1"
    rm -- "$log"
    log_file=p00.log1 followed 'the second log' 6 $(($(size_of "$work/d/p00.log1") - 1)) 1
}

# What is refused is told before anything is written, and what an input is refused for before a log is opened.
trial_order_of_refused_calls() {
    fresh d
    followed 'nothing to show' 0 '' 0 show
    writes_nothing 'nothing to show' print
    sum_runs first "$work/d"
    printf '\377' | dd of="$work/d/p00.log0" bs=1 seek=40 conv=notrunc status=none
    followed 'a damaged log' 6 0 0 run 8
    writes_nothing 'a damaged log' print
    followed 'a damaged log that is shown' 6 0 0 show 8
    writes_nothing 'a damaged log that is shown' print
    printf '{"client":"a","n":0}\n' >"$work/d/requests.jsonl"
    followed 'a refused request' 0 '' 0 run 2
    same 'a refused request: the log' '' "$(grep 'p00' "$work/calls")"
    printf '{' >"$work/d/flows.json"
    followed 'refused flows' 0 '' 0 run 2
    same 'refused flows: the log' '' "$(grep 'p00' "$work/calls")"
}

# Each call in turn fails: the run ends with its fault, says only what is committed, and the next one goes on from there.
trial_each_call_fails() {
    local name n status wanted
    for name in open lock stat sync make read write print; do
        wanted=5
        [ "$name" = print ] && wanted=6
        for n in $(seq 100); do
            fresh d
            through CALLS_FAIL="$name:$n"
            status=$?
            [ "$status" = 0 ] && break
            same "$name $n fails: status" "$wanted" "$status"
            case $SUM in
            "$(cat -- "$work/stdout")"*) ok ;;
            *) wrong "$name $n fails: said <$(cat -- "$work/stdout")>" ;;
            esac
            sum_runs "$name $n failed" "$work/d"
        done
        [ "$n" -gt 1 ] || wrong "no call of the name $name"
    done
}

# A write that moves nothing and says so is a fault, and not the end of what was to be written.
trial_write_of_nothing() {
    local n status
    for n in $(seq 100); do
        fresh d
        through CALLS_NONE="$n"
        status=$?
        [ "$status" = 0 ] && break
        same "write $n: status" 5 "$status"
        sum_runs "write $n moved nothing" "$work/d"
    done
    # three of a formatting, and two for each of at least two frames
    [ "$n" -gt 7 ] || wrong "the last write was $n"
}

# After a sync that failed none is made, however the next would end.
trial_failed_sync_sticks() {
    local n status
    for n in $(seq 100); do
        fresh d
        rm -f -- "$work/calls"
        through CALLS_LOG="$work/calls" CALLS_FAIL="sync:$n"
        status=$?
        [ "$status" = 0 ] && break
        same "sync $n: the syncs before" $((n - 1)) "$(grep -c ^sync "$work/calls")"
        same "sync $n: the fault" 'netherite: site fault' "$(head -n 1 "$work/stderr")"
        same "sync $n: its reason" 1 "$(grep -c '^  .*: Input/output error (os error 5)$' "$work/stderr")"
    done
    [ "$n" -gt 7 ] || wrong "the last sync was $n"
}

# The program is killed before and behind each call that changes something.
trial_killed_at_each_call() {
    local n side status
    for side in '' -; do
        for n in $(seq 200); do
            fresh d
            { through CALLS_KILL="$side$n"; } 2>/dev/null
            status=$?
            [ "$status" = 137 ] || break
            sum_runs "killed at $side$n" "$work/d"
        done
        # one makes the log, six format it, four commit each of at least two frames, two say the lines
        [ "$n" -gt 17 ] || wrong "the last call was $n"
    done
}

# However few bytes a call moves, and however often a signal cuts one off, the log is one that a whole run goes on from.
trial_short_calls() {
    local way log
    for way in CALLS_SHORT=1 CALLS_SHORT=7 CALLS_SIGNAL=1 'CALLS_SHORT=3 CALLS_SIGNAL=1'; do
        fresh d
        # shellcheck disable=SC2086
        through $way
        same "$way: lines" "$SUM." "$(text_of "$work/stdout")"
        log=$(sha256sum <"$work/d/p00.log0")
        sum_runs "$way: whole" "$work/d"
        # shellcheck disable=SC2086
        through $way
        same "$way: lines again" "$SUM." "$(text_of "$work/stdout")"
        same "$way: the log" "$log" "$(sha256sum <"$work/d/p00.log0")"
    done
}
