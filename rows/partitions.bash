# Trials, which `rows/run` reads, of logs of many partitions that are shown. What is owed of them `tools/partition_logs.py` works out by
# the rules, from the bytes; `rows/partitions.py` makes the files of each case and runs the program on them. In some each byte of three
# partitions' logs has its case; with EVERY=2 in the environment every second of these is tried.

# by_reader TRIAL OPTION..: each case of the trial is shown as the reader of logs owes
by_reader() {
    local told counted='^([0-9]+) passed, ([0-9]+) failed$' ended=0
    while IFS= read -r told; do
        if [[ $told =~ $counted ]]; then
            passed=$((passed + BASH_REMATCH[1]))
            failed=$((failed + BASH_REMATCH[2]))
            ended=1
        else
            printf 'row %s: %s\n' "$row" "$told"
        fi
    done < <(timeout 300 python3 "$here/partitions.py" "$program" "$@" 2>&1)
    same 'the trial came to its end' 1 "$ended"
}

trial_partitions_whole() {
    by_reader whole
}

trial_partitions_cut() {
    by_reader cut --every "${EVERY:-1}"
}

trial_partitions_bytes_00() {
    by_reader bytes_00 --every "${EVERY:-1}"
}

trial_partitions_bytes_c3() {
    by_reader bytes_c3 --every "${EVERY:-1}"
}

trial_partitions_bytes_ff() {
    by_reader bytes_ff --every "${EVERY:-1}"
}

trial_partitions_bytes_raised() {
    by_reader bytes_raised --every "${EVERY:-1}"
}

trial_partitions_headers() {
    by_reader headers
}

trial_partitions_second_files() {
    by_reader second_files
}

trial_partitions_emptied() {
    by_reader emptied
}

trial_partitions_walks() {
    by_reader walks
}

trial_partitions_two_faults() {
    by_reader two_faults
}

trial_partitions_two_faults_of_one() {
    by_reader two_faults_of_one
}

# A log of one partition is none of two, and a log of other flows none of these.
trial_partitions_other_shape() {
    fresh d
    sum_runs first "$work/d"
    refused 'two partitions' 10 'partitions 1 2' "$work/d" show --partitions 2
    of_row empty_run
    same 'an empty run' . "$("$program" "$work/d" run --partitions 1 2>&1; printf .)"
    cp -- "$home/examples/sum/flows.json" "$work/d/flows.json"
    refused 'other flows' 10 'digest 08f44b07b5901a25 ad694ba1be9fbd79' "$work/d" show --partitions 1
}

# A byte of a log is changed; and of two partitions, where client b lives in 0 and Sum/x in 1, the log of the first is lost.
trial_partitions_unclosed() {
    fresh d
    sum_runs first "$work/d"
    printf '\0' | dd of="$work/d/p00.log0" bs=1 seek=3 conv=notrunc status=none
    refused 'a damaged log' 8 'damaged 16 3' "$work/d" show --partitions 1
    rm -rf -- "$work/d"
    python3 "$home/tools/partition_logs.py" write "$work/d" 2 b:x
    same 'of two partitions' $'Sum/x done 5\n.' "$("$program" "$work/d" show --partitions 2 2>&1; printf .)"
    : >"$work/d/p00.log0"
    refused 'a log that is lost' 9 'unclosed 1 0 0 0' "$work/d" show --partitions 2
}
