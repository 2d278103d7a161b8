# Trials, which `rows/run` reads, of whole programs: the examples, one that never ends, a timer by the wall clock, and runs that are killed at
# random moments.

# Each of these files is a program that says just what its README says, now and again, over one partition and, client by client, over as many
# as there are without an option. One whose lines have no order between clients has them in a file (`trial_cluster_example`).
trial_examples() {
    local example wanted
    for example in "$home"/examples/*/; do
        example=$(basename -- "$example")
        [ -f "$home/examples/$example/expected" ] && continue
        rm -rf -- "$work/d"
        mkdir -- "$work/d"
        cp -- "$home/examples/$example/flows.json" "$home/examples/$example/requests.jsonl" "$work/d/"
        wanted=$(awk '/^It prints$/ { reading = 1; next } reading && /^    / { print substr($0, 5); any = 1; next } reading && any { exit }' "$home/examples/$example/README.md"; printf .)
        [ "$wanted" != . ] || wrong "$example: its README doesn't say what it prints"
        same "$example" "$wanted" "$("$program" "$work/d" run --partitions 1 2>&1; printf .)"
        same "$example again" "$wanted" "$("$program" "$work/d" run --partitions 1 2>&1; printf .)"
        rm -f -- "$work/d"/p0*
        printf '%s' "${wanted%.}" >"$work/wanted"
        "$program" "$work/d" run >"$work/stdout" 2>&1
        same "$example by default" "$(by_client "$work/wanted")" "$(by_client "$work/stdout")"
    done
}

# is_front WHAT TEXT: what was said is whole lines from the front of the text
is_front() {
    local came
    came=$(cat -- "$work/stdout"; printf .)
    came=${came%.}
    case $2 in
    "$came"*) ok ;;
    *) wrong "$1: said <$came>" ;;
    esac
    case $came in
    '' | *$'\n') ok ;;
    *) wrong "$1: said a part of a line: <$came>" ;;
    esac
}

# ended WHAT STATUS WORD LEAST: what came of the last run: this status, and the fault's line has this word and then a number
# that isn't below the least
ended() {
    local line number
    same "$1: status" "$2" "$3"
    line=$(head -n 1 "$work/stderr")
    number=${line##* }
    same "$1: line" "netherite: $4 N" "${line% *} N"
    [[ $number =~ ^[1-9][0-9]*$ ]] && [ "$number" -ge "$5" ] && ok || wrong "$1: the number in <$line> isn't one from $5 on"
}

# A workflow that never ends is stopped by the number of steps, each time again. Both answers that it can have may be said.
trial_tick() {
    local run
    rm -rf -- "$work/d"
    mkdir -- "$work/d"
    printf '%s\n' '{"flows":{"Tick":[["while",true,[["timer","h",10],["await","h",{"v":"h"}]]]]}}' >"$work/d/flows.json"
    printf '%s\n' '{"client":"a","n":1,"start":"Tick/x"}' '{"client":"a","n":2,"wait":"Tick/x"}' >"$work/d/requests.jsonl"
    for run in first second; do
        "$program" "$work/d" run --partitions 1 --steps 5 >"$work/stdout" 2>"$work/stderr"
        ended "$run" 4 $? long 5
        is_front "$run" $'a 1 started\n'
    done
    "$program" "$work/d" show --partitions 1 >"$work/stdout" 2>&1
    same 'it runs' $'Tick/x running\n.' "$(text_of "$work/stdout")"
}

# A run that may take few steps ends by the round that came to them: with as many or more, or with all answers said, where nothing
# was left to do. The first round can't say the sum, since an activity runs once it is settled that it was asked for. What was said are the first
# lines, and a run with more steps says all.
trial_few_steps() {
    local steps status
    for steps in 1 2 3 4 5 6; do
        rm -rf -- "${work:?}/d"
        cp -R -- "$here/steps_just_enough/in" "$work/d"
        "$program" "$work/d" run --partitions 1 --batch 1 --steps "$steps" >"$work/stdout" 2>"$work/stderr"
        status=$?
        if [ "$steps" -eq 1 ] || [ "$status" -ne 0 ]; then
            ended "$steps steps" 4 "$status" long "$steps"
            is_front "$steps steps" "$SUM"
        else
            same "$steps steps: all lines" "$SUM." "$(text_of "$work/stdout")"
        fi
        "$program" "$work/d" run --partitions 1 >"$work/stdout" 2>&1
        same "all lines behind $steps steps" "$SUM." "$(text_of "$work/stdout")"
    done
}

# A timer of a second fires after a second on the machine's clock: not sooner, and not much later. Files and answers as always.
trial_a_second() {
    local came begun ended took
    rm -rf -- "${work:?}/d"
    mkdir -- "$work/d"
    printf '%s\n' '{"flows":{"Nap":[["timer","h",1000],["await","h",{"v":"h"}],["return","up"]]}}' >"$work/d/flows.json"
    printf '%s\n' '{"client":"a","n":1,"start":"Nap/x"}' '{"client":"a","n":2,"wait":"Nap/x"}' >"$work/d/requests.jsonl"
    begun=$(date +%s%3N)
    came=$("$program" "$work/d" run --partitions 1 2>&1; printf .)
    ended=$(date +%s%3N)
    took=$((ended - begun))
    same 'lines of the nap' $'a 1 started\na 2 done "up"\n.' "$came"
    if [ "$took" -ge 1000 ] && [ "$took" -lt 6000 ]; then
        ok
    else
        wrong "a timer of 1000 milliseconds took $took"
    fi
    begun=$(date +%s%3N)
    came=$("$program" "$work/d" run --partitions 1 2>&1; printf .)
    ended=$(date +%s%3N)
    took=$((ended - begun))
    same 'lines of the nap again' $'a 1 started\na 2 done "up"\n.' "$came"
    if [ "$took" -lt 1000 ]; then
        ok
    else
        wrong "a timer that fired before took $took"
    fi
}

# kill -9 at random moments loses nothing: the next run ends the work.
trial_kills() {
    local i
    for i in $(seq 50); do
        fresh d
        "$program" "$work/d" run --partitions 1 >/dev/null 2>&1 &
        perl -e 'select(undef, undef, undef, rand(0.02))'
        {
            kill -9 $!
            wait $!
        } 2>/dev/null
        sum_runs "after kill $i" "$work/d"
    done
}

# Programs that are killed again and again come to the same end.
trial_kills_of_examples() {
    local example i wanted
    for example in order transfers reminder fan_out; do
        rm -rf -- "$work/d"
        mkdir -- "$work/d"
        cp -- "$home/examples/$example/flows.json" "$home/examples/$example/requests.jsonl" "$work/d/"
        wanted=$("$program" "$work/d" run --partitions 1 2>&1; printf .)
        for i in $(seq 5); do
            rm -f -- "$work/d"/p00.*
            for _ in $(seq 5); do
                "$program" "$work/d" run --partitions 1 >/dev/null 2>&1 &
                perl -e 'select(undef, undef, undef, rand(0.03))'
                {
                    kill -9 $!
                    wait $!
                } 2>/dev/null
            done
            same "$example, killed $i" "$wanted" "$("$program" "$work/d" run --partitions 1 2>&1; printf .)"
        done
    done
}
