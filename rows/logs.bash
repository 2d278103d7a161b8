# Trials, which `rows/run` reads, of what lies in a directory behind a run: the log, what a run and `show` change of it, a log that is full,
# and logs that are refused.

# A run on what is kept writes nothing.
trial_nothing_new_nothing_written() {
    local before
    fresh d
    sum_runs first "$work/d"
    before=$(stat -c '%s %y' "$work/d/p00.log0"; sha256sum "$work/d/p00.log0")
    sum_runs second "$work/d"
    same 'the log' "$before" "$(stat -c '%s %y' "$work/d/p00.log0"; sha256sum "$work/d/p00.log0")"
}

# A directory where nothing was to do holds the log without an entry: these 34 bytes.
trial_log_of_an_empty_run() {
    of_row empty_run
    same 'status' . "$("$program" "$work/d" run --partitions 1 2>&1; printf .)"
    same 'the log' 'c34e4554484c4f4701000000000000000108f44b07b5901a25000000000000000000' "$(od -An -tx1 -v "$work/d/p00.log0" | tr -d ' \n')"
}

# What shows makes no file, and changes none.
trial_show_writes_nothing() {
    local before
    fresh d
    same 'nothing to show' . "$("$program" "$work/d" show --partitions 1 2>&1; printf .)"
    same 'the files' 'flows.json requests.jsonl ' "$(ls "$work/d" | tr '\n' ' ')"
    sum_runs first "$work/d"
    before=$(stat -c '%s %y' "$work/d/p00.log0"; sha256sum "$work/d/p00.log0")
    rm -- "$work/d/requests.jsonl"
    same 'the instance' $'Sum/x done 5\n.' "$("$program" "$work/d" show --partitions 1 2>&1; printf .)"
    same 'the log' "$before" "$(stat -c '%s %y' "$work/d/p00.log0"; sha256sum "$work/d/p00.log0")"
}

# A log that is full ends the run before it is past its limit, and what was committed stays. Each call of the workflow needs
# a frame of its own, so they come to the limit; a text of 4,096 bytes can't even be taken.
trial_log_full() {
    local run size
    rm -rf -- "$work/d"
    mkdir -- "$work/d"
    printf '%s\n' '{"flows":{"Calls":[["while",true,[["call","x","echo",0]]]]}}' >"$work/d/flows.json"
    printf '%s\n' '{"client":"a","n":1,"start":"Calls/x"}' '{"client":"a","n":2,"wait":"Calls/x"}' >"$work/d/requests.jsonl"
    for run in first second; do
        "$program" "$work/d" run --partitions 1 --segment 4096 >"$work/stdout" 2>"$work/stderr"
        ended "$run" 12 $? 'full 0' 4096
        same "$run: said" $'a 1 started\n.' "$(text_of "$work/stdout")"
        size=$(stat -c %s "$work/d/p00.log0")
        [ "$size" -gt 3000 ] && [ "$size" -lt 4096 ] && ok || wrong "$run: the log has $size bytes"
    done
    rm -- "$work/d/p00.log0"
    printf '{"client":"a","n":1,"start":"Calls/x","arg":"%s"}\n' "$(head -c 4096 /dev/zero | tr '\0' x)" >"$work/d/requests.jsonl"
    "$program" "$work/d" run --partitions 1 --segment 4096 >"$work/stdout" 2>"$work/stderr"
    # 39 bytes around a first frame's payload, 20 of that around its item, 22 of the item around the text's 4,096
    ended 'a long text' 12 $? 'full 0' 4177
    same 'a long text: said' . "$(text_of "$work/stdout")"
    same 'a long text: the log' 34 "$(stat -c %s "$work/d/p00.log0")"
}

# A byte of a log that is changed is found where it breaks the grammar first.
trial_damaged() {
    local at byte place before
    fresh d
    sum_runs first "$work/d"
    cp -- "$work/d/p00.log0" "$work/whole"
    while read -r at byte place; do
        cp -- "$work/whole" "$work/d/p00.log0"
        printf "\\x$byte" | dd of="$work/d/p00.log0" bs=1 seek="$at" conv=notrunc status=none
        before=$(sha256sum <"$work/d/p00.log0")
        refused "byte $at" 8 "damaged 16 $place" "$work/d" run --partitions 1
        refused "byte $at, shown" 8 "damaged 16 $place" "$work/d" show --partitions 1
        same "byte $at: the log" "$before" "$(sha256sum <"$work/d/p00.log0")"
    done <<'TABLE'
3 00 3
8 02 8
25 80 25
32 01 40
34 7f 34
38 7f 38
39 00 38
47 01 40
56 7f 56
57 00 56
58 00 58
TABLE
}

# A log of one of the sum's runs is no log of other flows, and of no other number of partitions.
trial_other_logs() {
    fresh d
    sum_runs first "$work/d"
    printf '{}' >"$work/d/flows.json"
    "$program" "$work/d" run --partitions 1 >"$work/stdout" 2>"$work/stderr"
    same 'other flows: status' 10 $?
    same 'other flows: line' 'given 08f44b07b5901a25' "$(sed -n '1s/^netherite: digest [0-9a-f]\{16\} /given /p' "$work/stderr")"
    fresh e
    cp -- "$work/d/p00.log0" "$work/e/p00.log0"
    printf '\2' | dd of="$work/e/p00.log0" bs=1 seek=16 conv=notrunc status=none
    refused 'other partitions' 10 'partitions 2 1' "$work/e" run --partitions 1
    cp -- "$work/d/p00.log0" "$work/e/p00.log0"
    sum_runs 'the log itself' "$work/e"
}
