# Trials, which `rows/run` reads, of runs over partitions and nodes: each mode, plans that move and stop, packets that come twice, late or not at
# all, what is refused, kills, calls that fail, streams that are closed, and two runs at once.

# Shapes of a run, a line each.
SHAPES='--partitions 1 --nodes 2 --mode none
--partitions 1 --nodes 8 --mode local
--partitions 1 --nodes 1 --seed 1
--partitions 3 --mode none
--partitions 3 --nodes 3 --mode local --batch 1
--partitions 3 --nodes 2
--partitions 32 --nodes 8 --mode none
--partitions 32 --mode local
--partitions 32 --nodes 4 --batch 64
--twice 1 --hold 3
--drop 2 --hold 2 --nodes 3
--drop 1 --mode local'

# over_shapes WANTED STATUS DIRECTORY [OPTION..]: over each shape the program on a copy of this directory tells each client these lines, now and
# again, and ends so
over_shapes() {
    local wanted=$1 status=$2 from=$3 shape came
    shift 3
    while IFS= read -r shape; do
        rm -rf -- "$work/s"
        cp -r -- "$from" "$work/s"
        for came in once again; do
            # shellcheck disable=SC2086
            "$program" "$work/s" run $shape "$@" >"$work/stdout" 2>"$work/stderr"
            same "$shape $came: status" "$status" $?
            same "$shape $came: lines" "$wanted" "$(by_client "$work/stdout")"
        done
    done <<<"$SHAPES"
}

# The sum, over each shape.
trial_sum_everywhere() {
    fresh d
    over_shapes "$SUM." 0 "$work/d"
}

# transfers DIRECTORY: two transfers between two accounts, by three clients
transfers() {
    rm -rf -- "${work:?}/$1"
    mkdir -p -- "$work/$1"
    cp -- "$home/examples/transfers/flows.json" "$work/$1/"
    cp -- "$home/examples/transfers/requests.jsonl" "$work/$1/"
}

# What is drawn: the digest of the seed, the node and the number of the run on it, 8 bytes each with the highest first, without its highest bit.
trial_draws_by_node() {
    local options drawn
    while read -r drawn options; do
        of_row draws
        # shellcheck disable=SC2086
        same "$options" $'a 1 started\n'"a 2 done $drawn"$'\n.' "$("$program" "$work/d" run $options 2>&1; printf .)"
    done <<'TABLE'
[131237531801625349,131236432289997138] --partitions 1 --nodes 2
[131237531801625349,131236432289997138] --partitions 4
[3673525379448171666,3673526478959799877] --partitions 1 --seed 1
[3673525379448171666,3673526478959799877] --partitions 4 --seed 1 --mode none
TABLE
}

# Locks that cross between partitions.
trial_transfers_everywhere() {
    local wanted
    transfers d
    cp -r -- "$work/d" "$work/alone"
    "$program" "$work/alone" run --partitions 1 >"$work/stdout" 2>"$work/stderr"
    same 'alone: status' 0 $?
    wanted=$(by_client "$work/stdout")
    over_shapes "$wanted" 0 "$work/d"
}

# Plans: what moves and what stops changes no line. The last lets one node run of eight.
trial_plans() {
    local plan
    while IFS= read -r plan; do
        fresh d
        printf '%s' "$plan" >"$work/d/plan.json"
        while IFS= read -r options; do
            rm -rf -- "$work/s"
            cp -r -- "$work/d" "$work/s"
            # shellcheck disable=SC2086
            same "$plan $options" "$SUM." "$("$program" "$work/s" run --nodes 8 $options 2>&1; printf .)"
            # shellcheck disable=SC2086
            same "$plan $options again" "$SUM." "$("$program" "$work/s" run --nodes 8 $options 2>&1; printf .)"
        done <<'OPTIONS'
--partitions 4
--partitions 4 --mode none
--partitions 4 --mode local --batch 1
--partitions 32 --drop 3
OPTIONS
    done <<'PLANS'
{}
{"moves":[],"stops":[]}
{"moves":[{"turn":1,"partition":0,"node":1},{"turn":9,"partition":0,"node":0},{"turn":12,"partition":3,"node":7}]}
{"stops":[{"turn":1,"node":0}]}
{"stops":[{"turn":7,"node":1},{"turn":8,"node":2},{"turn":20,"node":3},{"turn":21,"node":0}]}
{"moves":[{"turn":5,"partition":2,"node":3}],"stops":[{"turn":6,"node":3},{"turn":13,"node":2},{"turn":30,"node":0}]}
{"stops":[{"turn":3,"node":0},{"turn":6,"node":1},{"turn":9,"node":2},{"turn":12,"node":3},{"turn":15,"node":4},{"turn":18,"node":5},{"turn":21,"node":6}]}
PLANS
}

# A node stops at each turn of the store in a run whose packets all get lost, so that what is possible is done without them: the stop falls into
# that too, and each client is told the same.
trial_stops_at_each_turn() {
    local turn wanted
    transfers d
    cp -r -- "$work/d" "$work/alone"
    "$program" "$work/alone" run >"$work/stdout" 2>"$work/stderr"
    wanted=$(by_client "$work/stdout")
    for turn in $(seq 1 60); do
        rm -rf -- "$work/s"
        cp -r -- "$work/d" "$work/s"
        printf '{"stops":[{"turn":%d,"node":0}]}' "$turn" >"$work/s/plan.json"
        timeout --foreground -s KILL 20 "$program" "$work/s" run --nodes 2 --drop 1 >"$work/stdout" 2>"$work/stderr"
        same "turn $turn: status" 0 $?
        same "turn $turn: lines" "$wanted" "$(by_client "$work/stdout")"
    done
}

# Plans that are refused: nothing is said, and no log is made.
trial_bad_plans() {
    local place plan
    while read -r place plan; do
        fresh d
        printf '%s' "$plan" >"$work/d/plan.json"
        refused "$plan" 2 "plan ${place/-/ }" "$work/d" run --nodes 2
        same "$plan: no log" '' "$(cd -- "$work/d" && ls -d p0* 2>/dev/null)"
    done <<'PLANS'
whole []
whole {"moves":{}}
whole {"moves":[],"more":[]}
move-0 {"moves":[{"turn":0,"partition":0,"node":0}]}
move-0 {"moves":[{"turn":1,"partition":4,"node":0}]}
move-1 {"moves":[{"turn":1,"partition":3,"node":1},{"turn":1,"partition":0,"node":2}]}
stop-0 {"stops":[{"turn":1,"node":2}]}
stop-1 {"stops":[{"turn":1,"node":0},{"turn":5,"node":1}]}
PLANS
    fresh d
    printf '{"stops":[{"turn":1,"node":0}]}' >"$work/d/plan.json"
    refused 'the only node stops' 2 'plan stop 0' "$work/d" run
    refused 'the only node stops, alone' 2 'plan stop 0' "$work/d" run --partitions 1
}

# The example over partitions and nodes, by its plan, without it, and with packets that are lost.
trial_cluster_example() {
    local options wanted
    wanted=$(by_client "$home/examples/cluster/expected")
    for options in '--nodes 2' '--nodes 2 --mode none' '--nodes 2 --mode local' '--nodes 2 --drop 5 --twice 3 --hold 4' '--nodes 3 --partitions 8'; do
        rm -rf -- "$work/d"
        mkdir -- "$work/d"
        cp -- "$home/examples/cluster"/*.json* "$work/d/"
        # shellcheck disable=SC2086
        "$program" "$work/d" run $options >"$work/stdout" 2>&1
        same "$options: status" 0 $?
        same "$options: lines" "$wanted" "$(by_client "$work/stdout")"
    done
    same 'all accounts together' 500 "$("$program" "$work/d" show --partitions 8 | awk '/^@Account/ { sum += $3 } END { print sum }')"
    rm -- "$work/d"/p* "$work/d/plan.json" 2>/dev/null
    "$program" "$work/d" run >"$work/stdout" 2>&1
    same 'without a plan' "$wanted" "$(by_client "$work/stdout")"
}

# cluster_sum WHAT DIRECTORY: the directory is one on which the sum runs over four partitions and two nodes, now and again
cluster_sum() {
    local run
    for run in now again; do
        same "$1: the sum's lines $run" "$SUM." "$("$program" "$2" run --nodes 2 2>&1; printf .)"
    done
}

# A directory is of one number of partitions, and of one flows file.
trial_other_shapes() {
    fresh d
    cluster_sum first "$work/d"
    refused 'fewer' 10 'partitions 4 3' "$work/d" run --partitions 3
    refused 'one' 10 'partitions 4 1' "$work/d" run --partitions 1
    refused 'more, shown' 10 'partitions 4 5' "$work/d" show --partitions 5
    cluster_sum 'the same again' "$work/d"
    printf '{}' >"$work/d/flows.json"
    "$program" "$work/d" run --nodes 2 >"$work/stdout" 2>"$work/stderr"
    same 'other flows: status' 10 $?
    same 'other flows: line' 'given 08f44b07b5901a25' "$(sed -n '1s/^netherite: digest [0-9a-f]\{16\} /given /p' "$work/stderr")"
}

# A request under whose client and number another was taken is refused before anything is written, and a log that lacks is told.
trial_clash_over_partitions() {
    local before
    fresh d
    cluster_sum first "$work/d"
    before=$(cat "$work/d"/p0* | sha256sum)
    sed -i '1s/Sum\/x/Sum\/y/' "$work/d/requests.jsonl"
    refused 'another request' 2 'clash a 1' "$work/d" run --nodes 2
    same 'the logs' "$before" "$(cat "$work/d"/p0* | sha256sum)"
    fresh d
    sed -i 's/"a"/"b"/' "$work/d/requests.jsonl"
    same 'client b' $'b 1 started\nb 2 done 5\n.' "$("$program" "$work/d" run --partitions 2 2>&1; printf .)"
    : >"$work/d/p00.log0"
    refused 'a log that is lost' 9 'unclosed 1 0 0 0' "$work/d" run --partitions 2
}

# The program is killed at random moments while partitions move and nodes stop; each next run goes on, and the last one tells the lines.
trial_cluster_kills() {
    local i at options
    for options in '--mode global' '--mode local --batch 1' '--mode none --drop 3' '--twice 2 --hold 2'; do
        transfers d
        cp -r -- "$work/d" "$work/whole"
        # shellcheck disable=SC2086
        "$program" "$work/whole" run --nodes 2 $options >"$work/wanted" 2>/dev/null
        printf '{"moves":[{"turn":20,"partition":1,"node":0}],"stops":[{"turn":40,"node":1}]}' >"$work/d/plan.json"
        for i in $(seq 12); do
            at=$(printf '0.%03d' $((RANDOM % 60)))
            # shellcheck disable=SC2086
            { timeout --foreground -s KILL "$at" "$program" "$work/d" run --nodes 2 $options >/dev/null 2>&1; } 2>/dev/null
        done
        # shellcheck disable=SC2086
        "$program" "$work/d" run --nodes 2 $options >"$work/stdout" 2>"$work/stderr"
        same "$options killed: status" 0 $?
        same "$options killed: lines" "$(by_client "$work/wanted")" "$(by_client "$work/stdout")"
        rm -rf -- "$work/whole"
    done
}

# through_cluster NAME=VALUE..: as `through`, over four partitions and two nodes
through_cluster() {
    if [ ! -f "$work/calls.so" ]; then
        cc -shared -fPIC -O1 -o "$work/calls.so" "$here/calls.c" -ldl || exit 2
    fi
    env "$@" LD_PRELOAD="$work/calls.so" "$program" "$work/d" run --nodes 2 >"$work/stdout" 2>"$work/stderr"
}

# Partitions don't wait for each other in vain: files that are made safe together are one wait, and what a run writes once it has said something
# takes at most 13 waits for 16 sums by 16 clients, over few partitions and over many.
trial_cluster_waits() {
    local count n waits
    fresh d
    through_cluster
    for count in 4 32; do
        fresh d
        for n in $(seq 0 319); do
            printf '{"client":"c%d","n":%d,"start":"Sum/%d"}\n' $((n % 16)) $((2 * n + 1)) "$n"
            printf '{"client":"c%d","n":%d,"wait":"Sum/%d"}\n' $((n % 16)) $((2 * n + 2)) "$n"
        done >"$work/d/requests.jsonl"
        rm -f -- "$work/calls"
        env CALLS_LOG="$work/calls" LD_PRELOAD="$work/calls.so" "$program" "$work/d" run --partitions "$count" --batch 64 >"$work/stdout" 2>"$work/stderr"
        same "$count partitions: status" 0 $?
        same "$count partitions: lines" 640 "$(wc -l <"$work/stdout")"
        waits=$(awk '
            $1 == "print" { said = 1 }
            said && $1 == "sync" && last != "sync" { waits++ }
            $1 == "sync" || $1 == "write" || $1 == "print" { last = $1 }
            END { print waits + 0 }' "$work/calls")
        { [ "$waits" -gt 20 ] && [ "$waits" -le 260 ]; } && ok || wrong "$count partitions: $waits waits"
    done
}

# Each call in turn fails: the run ends with its fault, says only what is committed, and the next one goes on from there.
trial_cluster_calls_fail() {
    local name n status wanted
    for name in open lock stat sync make read write print; do
        wanted=5
        [ "$name" = print ] && wanted=6
        for n in $(seq 400); do
            fresh d
            through_cluster CALLS_FAIL="$name:$n"
            status=$?
            [ "$status" = 0 ] && break
            same "$name $n fails: status" "$wanted" "$status"
            case $SUM in
            "$(cat -- "$work/stdout")"*) ok ;;
            *) wrong "$name $n fails: said <$(cat -- "$work/stdout")>" ;;
            esac
            cluster_sum "$name $n failed" "$work/d"
        done
        [ "$n" -gt 1 ] || wrong "no call of the name $name"
    done
}

# The program is killed before and behind each call that changes something.
trial_cluster_killed_at_calls() {
    local n side status
    for side in '' -; do
        for n in $(seq 400); do
            fresh d
            { through_cluster CALLS_KILL="$side$n"; } 2>/dev/null
            status=$?
            [ "$status" = 137 ] || break
            cluster_sum "killed at $side$n" "$work/d"
        done
        [ "$n" -gt 17 ] || wrong "the last call was $n"
    done
}

# Streams that are closed, and two runs at once.
trial_cluster_streams() {
    local status one two
    fresh d
    (exec "$program" "$work/d" run --nodes 2 >&- 2>/dev/null)
    same 'stdout closed: status' 6 $?
    cluster_sum 'stdout closed' "$work/d"
    fresh d
    (exec "$program" "$work/d" run --nodes 2 >/dev/full 2>/dev/null)
    same 'a full device: status' 6 $?
    cluster_sum 'a full device' "$work/d"
    fresh d
    "$program" "$work/d" run --nodes 2 >"$work/one" 2>/dev/null &
    "$program" "$work/d" run --nodes 2 >"$work/two" 2>/dev/null
    two=$?
    wait $!
    one=$?
    case "$one $two" in
    '0 0' | '0 5' | '5 0') ok ;;
    *) wrong "two at once ended with $one and $two" ;;
    esac
    cluster_sum 'two at once' "$work/d"
}
