# Trials, which `rows/run` reads, of words and of files that are read or refused: limits, each kind of request, flows that don't go.

# refused WHAT STATUS LINE WORD..: the program with these words ends so, its fault's line is this one, and nothing is said
refused() {
    local what=$1 wanted=$2 line=$3 status
    shift 3
    "$program" "$@" >"$work/stdout" 2>"$work/stderr"
    status=$?
    same "$what: status" "$wanted" "$status"
    same "$what: line" "netherite: $line" "$(head -n 1 "$work/stderr")"
    same "$what: reasons that don't begin with two blanks" '' "$(tail -n +2 "$work/stderr" | grep -v '^  ')"
    same "$what: said" . "$(text_of "$work/stdout")"
}

# An input of exactly 16 MiB is read; one byte more is too long, whatever it says.
trial_input_limit() {
    local file number size
    for number in 0 1; do
        case $number in
        0) file=flows.json ;;
        1) file=requests.jsonl ;;
        esac
        fresh d
        size=$(stat -c %s "$work/d/$file")
        head -c $((16777216 - size)) /dev/zero | tr '\0' ' ' >>"$work/d/$file"
        sum_runs "$file of 16 MiB" "$work/d"
        fresh d
        head -c 16777217 /dev/zero >"$work/d/$file"
        refused "$file of one byte more" 2 "too long $number" "$work/d" run
    done
    fresh d
    head -c 16777217 /dev/zero >"$work/d/plan.json"
    refused 'a plan that is too long' 2 'too long 2' "$work/d" run
}

# Words that the command doesn't take.
trial_usage_of_options() {
    local words
    fresh d
    for words in 'walk' 'stop' 'run d' 'run --help' 'run -h' '--version' 'help run' '--partitions 1 run' 'run show' \
        'run --partitions 0' 'run --partitions 33' 'run --partitions 01' 'run --partitions +1' \
        'run --partitions -1' 'run --partitions 1.0' 'run --partitions one' 'run --partition 1' 'run --partitions 1 --partitions 1' \
        'run --batch 0' 'run --batch 65' 'run --batch 08' 'run --steps 0' 'run --steps 1048577' 'run --segment 4095' \
        'run --segment 2147483649' 'run --segment 99999999999999999999' 'run --batch' 'run --size 4' \
        'run --nodes 0' 'run --nodes 9' 'run --mode fast' 'run --mode Global' 'run --mode' 'run --seed 4294967296' 'run --seed -1' \
        'run --twice 101' 'run --drop 101' 'run --hold 101' 'run --hold 01' 'show --nodes 1' 'show --mode none' \
        'show --batch 1' 'show --partitions 0' 'show --partitions 33' 'show --partitions 02' 'show now'; do
        # shellcheck disable=SC2086
        refused "$words" 1 usage "$work/d" $words
    done
    same 'no log' '' "$(cd -- "$work/d" && ls -d p00.* 2>/dev/null)"
}

# The limits of options are taken.
trial_limits_of_options() {
    local words
    for words in '--batch 1' '--batch=64' '--segment 4096' '--segment 2147483648' '--steps 1048576' '--partitions 32' '--nodes 8' \
        '--mode none' '--mode local' '--mode=global' '--seed 4294967295' '--twice 100' '--drop 100' '--hold 100' '--nodes 1 --partitions 1'; do
        fresh d
        # shellcheck disable=SC2086
        same "$words" "$SUM." "$("$program" "$work/d" run $words 2>&1; printf .)"
    done
}

# Words that are no UTF-8 are refused with a line that says so. A directory with such a name can be run from within.
trial_words_that_are_no_text() {
    local name=$'d\377'
    fresh d
    rm -rf -- "$work/$name"
    mv -- "$work/d" "$work/$name"
    refused 'a directory' 1 usage "$work/$name" run
    same 'why' 1 "$(grep -c "^  a word isn't UTF-8" "$work/stderr")"
    same 'the directory from within' "$SUM." "$(cd -- "$work/$name" && "$program" . run 2>&1; printf .)"
    refused 'a word' 1 usage "$work/$name" $'run\377'
    fresh d
    refused 'no such word' 1 usage "$work/d" walk
    same 'no such word: why' 0 "$(grep -c "^  a word isn't UTF-8" "$work/stderr")"
    rm -rf -- "${work:?}/$name"
}

# Each of eight words counts: the last one is one too many.
trial_eighth_word() {
    fresh d
    refused 'eight words' 1 usage "$work/d" run --partitions 1 --batch 1 --steps 9 more
    refused 'a ninth option' 1 usage "$work/d" run --partitions 1 --batch 1 --steps 9 --segment 4095
    same 'seven words' "$SUM." "$("$program" "$work/d" run --partitions 1 --batch 1 --steps 99 2>&1; printf .)"
}

# Files of requests with what is answered, each client's lines together, or why the file is refused: each kind of request, blank
# lines, a line that is there twice, numbers of two clients, and the first line that is wrong.
trial_request_files() {
    local file wanted
    while IFS='|' read -r file wanted; do
        fresh d
        printf '%s\n' '{"classes":{"Account":{"init":100,"ops":{}}},"flows":{"Sum":[["call","s","add",{"list":[2,3]}],["return",{"v":"s"}]]}}' >"$work/d/flows.json"
        printf '%b' "$file" >"$work/d/requests.jsonl"
        case $wanted in
        'requests line '* | 'clash '*) refused "$file" 2 "$wanted" "$work/d" run ;;
        *)
            "$program" "$work/d" run >"$work/stdout" 2>"$work/stderr"
            same "$file: status" 0 $?
            same "$file: lines" "$(printf '%b' "$wanted"; printf .)" "$(by_client "$work/stdout")"
            same "$file: reasons" . "$(text_of "$work/stderr")"
            ;;
        esac
    done <<'TABLE'
|
{"client":"a","n":1,"start":"Sum/x","arg":[2,3]}\n{"client":"a","n":2,"wait":"Sum/x"}\n{"client":"a","n":3,"raise":"Sum/x","event":"go","value":1}\n{"client":"a","n":4,"query":"@Account/A"}\n|a 1 started\na 2 done 5\na 3 ended\na 4 value 100\n
\r\n{"client":"a","n":1,"start":"Sum/x"}\r\n \t\r\n{"client":"a","n":2,"wait":"Sum/x"}|a 1 started\na 2 done 5\n
{"client":"a","n":1,"start":"Sum/x"}\n{"n":1,"client":"a","arg":null,"start":"Sum/x"}\n|a 1 started\n
{"client":"a","n":7,"start":"Sum/x"}\n{"client":"b","n":1,"query":"@Account/A"}\n|a 7 started\nb 1 value 100\n
\n\n{"client":"a","n":0,"start":"Sum/x"}\n|requests line 3
{"client":"a","n":1,"start":"Sum/x"}\n{}\n{]\n|requests line 2
{"client":"a","n":2,"start":"Sum/x"}\n{"client":"a","n":1,"start":"Sum/x"}\n|requests line 2
{"client":"a","n":1,"start":"Sum/x"}\n{"client":"a","n":1,"wait":"Sum/x"}\n{}\n|clash a 1
{"client":"a","n":1,"start":"Sum/x","by":2}\n|requests line 1
TABLE
}

# Files of flows that are refused: locks of 17 entities, and of a class that isn't there. Classes are looked at before flows, and
# each shape before any name.
trial_locks_that_are_refused() {
    local operation flow wanted
    fresh d
    while IFS='|' read -r operation flow wanted; do
        printf '{"classes":{"C":{"init":0,"ops":{"op":[["return",null],%s]}}},"flows":{"F":[%s]}}' "$operation" "$flow" >"$work/d/flows.json"
        refused "$flow" 2 "flows $wanted" "$work/d" run
    done <<'TABLE'
["fail",null]|["call","x","echo",null],["lock",[["D",null]],[]]|name #/flows/F/1/1/0/0
["call","x","echo",null]|["call","x","echo",null],["lock",[["D",null]],[]]|shape #/classes/C/ops/op/1
["call","x","echo",null]|["lock",[["C",null],["C",null],["C",null],["C",null],["C",null],["C",null],["C",null],["C",null],["C",null],["C",null],["C",null],["C",null],["C",null],["C",null],["C",null],["C",null],["C",null]],[]],["call","x","echo",null]|shape #/classes/C/ops/op/1
["fail",null]|["lock",[["C",null],["C",null],["C",null],["C",null],["C",null],["C",null],["C",null],["C",null],["C",null],["C",null],["C",null],["C",null],["C",null],["C",null],["C",null],["C",null],["C",null]],[]],["call","x","echo",null]|shape #/flows/F/0/1
TABLE
}

# The list of so many texts of so many bytes each, and one text more of how many, is what a class begins with, or the value at this path
# is refused. The count of the parts is looked at first, then each part, then the bytes of all: 3 for a text beside its own, 65,533
# at most.
trial_limits_of_lists() {
    local count size last wanted list
    fresh d
    printf '%s\n' '{"client":"a","n":1,"query":"@C/k"}' >"$work/d/requests.jsonl"
    while read -r count size last wanted; do
        list=$(perl -e 'my ($count, $size, $last) = @ARGV; print "[", ("\"" . "a" x $size . "\",") x $count, "\"", "a" x $last, "\"]"' "$count" "$size" "$last")
        printf '{"classes":{"C":{"init":%s,"ops":{}}}}' "$list" >"$work/d/flows.json"
        rm -f -- "$work/d/p00.log0"
        case $wanted in
        read) same "$count of $size and $last" "a 1 value $list" "$("$program" "$work/d" run --partitions 1 2>&1)" ;;
        *) refused "$count of $size and $last" 2 "flows shape $wanted" "$work/d" run --partitions 1 ;;
        esac
    done <<'TABLE'
0 0 4096 read
0 0 4097 #/classes/C/init/0
1023 0 0 read
1024 0 0 #/classes/C/init
1023 0 4097 #/classes/C/init/1023
1024 0 4097 #/classes/C/init
15 4093 4090 read
15 4093 4091 #/classes/C/init
16 4096 4097 #/classes/C/init/16
TABLE
}

# Files that are refused, as `tools/bad-cases` copies them: NAME.json and NAME.jsonl, with a line of `lines`, the name and why.
trial_refused() {
    local name line status
    while read -r name line; do
        rm -rf -- "$work/d"
        mkdir -- "$work/d"
        cp -- "$here/refused/$name.json" "$work/d/flows.json"
        cp -- "$here/refused/$name.jsonl" "$work/d/requests.jsonl"
        "$program" "$work/d" run --partitions 1 >"$work/stdout" 2>"$work/stderr"
        status=$?
        same "$name: status and line" "2 netherite: $line" "$status $(head -n 1 "$work/stderr")"
        same "$name: what is said" . "$(text_of "$work/stdout")"
        same "$name: files" 'flows.json requests.jsonl' "$(cd -- "$work/d" && echo *)"
    done <"$here/refused/lines"
}
