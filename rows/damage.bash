# Trials, which `rows/run` reads, of directories that no run leaves by itself: a log with a byte changed or cut short, links and pipes in
# place of files, what may not be read or written, a disk without room.

# changed_byte AT BYTE: a run on the sum's log with this byte at this place, whose status is then in `status`. Where it is refused,
# nothing is said, and the log stays as it was.
changed_byte() {
    cp -- "$work/whole" "$work/changed"
    printf "\\x$2" | dd of="$work/changed" bs=1 seek="$1" conv=notrunc status=none
    cp -- "$work/changed" "$work/d/p00.log0"
    "$program" "$work/d" run --partitions 1 >"$work/stdout" 2>"$work/stderr"
    status=$?
    case $status in
    0 | 3) ok ;;
    2 | 8 | 9 | 10 | 12)
        if [ ! -s "$work/stdout" ] && cmp -s -- "$work/changed" "$work/d/p00.log0"; then ok; else wrong "$2 at $1: said or changed"; fi
        ;;
    *) wrong "$2 at $1: status $status" ;;
    esac
}

# Each byte of the header that is changed gives the status of its field: an open first byte makes a log, and behind any other there is
# none. A log with another byte behind the header goes on, or it is refused.
trial_each_byte() {
    local bytes at byte from to wanted status
    fresh d
    sum_runs first "$work/d"
    cp -- "$work/d/p00.log0" "$work/whole"
    read -r -d '' -a bytes < <(od -An -v -tx1 -- "$work/whole")
    while read -r from to wanted; do
        for ((at = from; at < to; at++)); do
            for byte in 00 02 17 c3 ff; do
                [ "${bytes[at]}" = "$byte" ] && continue
                changed_byte "$at" "$byte"
                same "$byte at $at: status" "$wanted" "$status"
            done
        done
    done <<'TABLE'
0 1 0
1 9 8
9 13 8
13 17 10
17 25 10
25 33 8
TABLE
    for ((at = 33; at < ${#bytes[@]}; at++)); do
        for byte in 00 01 17 7f 80 c3 ff; do
            [ "${bytes[at]}" = "$byte" ] || changed_byte "$at" "$byte"
        done
    done
}

# A log that is cut at any length is one that the next run goes on from, or one that is refused and left alone.
trial_cut_logs() {
    local size length status before
    fresh d
    sum_runs first "$work/d"
    cp -- "$work/d/p00.log0" "$work/whole"
    size=$(stat -c %s "$work/whole")
    for length in $(seq 0 "$size"); do
        head -c "$length" "$work/whole" >"$work/d/p00.log0"
        before=$(sha256sum <"$work/d/p00.log0")
        "$program" "$work/d" run --partitions 1 >"$work/stdout" 2>"$work/stderr"
        status=$?
        case $status in
        0) same "cut at $length" "$SUM." "$(text_of "$work/stdout")" ;;
        8)
            same "cut at $length: said" . "$(text_of "$work/stdout")"
            same "cut at $length: the log" "$before" "$(sha256sum <"$work/d/p00.log0")"
            ;;
        *) wrong "cut at $length: status $status" ;;
        esac
    done
}

# A log that is cut behind a frame's closed gate goes on from the frames before: what a crash may leave. Those stay.
trial_cut_at_frames() {
    local gate size length kept
    fresh d
    sum_runs first "$work/d"
    cp -- "$work/d/p00.log0" "$work/whole"
    size=$(stat -c %s "$work/whole")
    gate=33
    while [ "$gate" -lt $((size - 1)) ]; do
        head -c "$gate" "$work/whole" >"$work/d/p00.log0"
        kept=$(sha256sum <"$work/d/p00.log0")
        printf '\0' >>"$work/d/p00.log0"
        sum_runs "cut at the gate $gate" "$work/d"
        same "cut at the gate $gate: what was committed" "$kept" "$(head -c "$gate" "$work/d/p00.log0" | sha256sum)"
        length=$((16#$(od -An -tx1 -j $((gate + 1)) -N 4 "$work/whole" | tr -d ' \n')))
        gate=$((gate + 5 + length))
    done
}

# A log that is an input by a link is refused, and the input stays as it is.
trial_linked_log() {
    local before
    for link in 'ln' 'ln -s'; do
        fresh d
        before=$(digests "$work/d")
        (cd -- "$work/d" && $link flows.json p00.log0)
        same "$link" "netherite: site fault
  p00.log0: the same file as flows.json" "$("$program" "$work/d" run --partitions 1 2>&1)"
        same "$link: the files" "$before" "$(digests "$work/d")"
    done
}

# What isn't a regular file is refused, and a pipe isn't waited for.
trial_special_files() {
    fresh d
    mkdir "$work/d/p00.log0"
    same 'a directory for a log' "netherite: site fault
  p00.log0: not a regular file" "$("$program" "$work/d" run --partitions 1 2>&1)"
    fresh d
    rm -- "$work/d/flows.json"
    mkfifo "$work/d/flows.json"
    same 'a pipe for an input' "netherite: site fault
  flows.json: not a regular file" "$(timeout 5 "$program" "$work/d" run --partitions 1 2>&1)"
}

# as_nobody WORD..: the program as a user whom permissions bind
as_nobody() {
    if [ "$(id -u)" = 0 ]; then
        setpriv --reuid=65534 --regid=65534 --clear-groups "$@"
    else
        "$@"
    fi
}

# What may not be read or written is named, with the system's reason.
trial_permissions() {
    chmod 755 "$work"
    cp -- "$program" "$work/copy"
    fresh d
    sum_runs first "$work/d"
    chmod 555 "$work/d"
    chmod 444 "$work/d"/*
    same 'a directory that can only be read, with nothing new' "$SUM." "$(as_nobody "$work/copy" "$work/d" run --partitions 1; printf .)"
    chmod 755 "$work/d"
    rm -f -- "$work/d/p00.log0"
    chmod 555 "$work/d"
    same 'a directory that can only be read' "netherite: site fault
  p00.log0: Permission denied (os error 13)" "$(as_nobody "$work/copy" "$work/d" run --partitions 1 2>&1)"
    chmod 755 "$work/d"
    chmod 000 "$work/d/requests.jsonl"
    same 'an input that may not be read' "netherite: site fault
  requests.jsonl: Permission denied (os error 13)" "$(as_nobody "$work/copy" "$work/d" run --partitions 1 2>&1)"
}

# A disk without room: the run says so, and goes on from what was committed once there is room.
trial_full_disk() {
    local status
    if ! mkdir "$work/small" || ! mount -t tmpfs -o size=16k none "$work/small" 2>/dev/null; then
        return 0
    fi
    cp -- "$home/examples/sum/flows.json" "$home/examples/sum/requests.jsonl" "$work/small/"
    head -c 100000 /dev/zero >"$work/small/filler" 2>/dev/null
    "$program" "$work/small" run --partitions 1 >/dev/null 2>"$work/stderr"
    status=$?
    same 'status' 5 "$status"
    same 'the fault' 'netherite: site fault' "$(head -n 1 "$work/stderr")"
    rm -- "$work/small/filler"
    sum_runs 'with room' "$work/small"
    umount "$work/small"
}
