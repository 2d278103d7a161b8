# Trials of large inputs, which `rows/run` reads: values at the limits of the language, long lines, large frames and a long log. Each is
# run, and run again from what the log keeps.

# same_bytes WHAT EXPECTED-FILE CAME-FILE
same_bytes() {
    if cmp -s -- "$2" "$3"; then
        ok
    else
        wrong "$1: $(cmp -- "$2" "$3" 2>&1 | sed "s|$work/||g")"
    fi
}

# twice WHAT WORD..: the directory is run with these words and run again, and says each time just the lines of `wanted`, which has each
# client's lines together
twice() {
    local what=$1 run
    shift
    for run in first again; do
        "$program" "$work/d" run --partitions 1 "$@" >"$work/stdout" 2>"$work/stderr"
        same "$what, $run: status" 0 $?
        same "$what, $run: reasons" . "$(text_of "$work/stderr")"
        LC_ALL=C sort -s -t ' ' -k 1,1 "$work/stdout" >"$work/said"
        same_bytes "$what, $run: lines" "$work/wanted" "$work/said"
    done
}

# an_empty: a new directory without files
an_empty() {
    rm -rf -- "$work/d"
    mkdir -- "$work/d"
}

# Values at each limit go through an activity, an entity, a sub-workflow and an event, and so through requests, the log and answers:
# texts of 4,096 bytes, of one byte and of four to a character, lists of 1,024 parts, and of 65,536 bytes, which are 3, and 3 and its
# bytes for each text; the greatest and the least integer. A text is also how a workflow fails.
trial_values_at_their_limits() {
    an_empty
    perl - "$work/d/flows.json" "$work/d/requests.jsonl" "$work/wanted" <<'PERL'
my ($flows, $requests, $wanted) = map { open(my $file, ">", $_) or die; $file } @ARGV;
sub text { "\"" . $_[0] x $_[1] . "\"" }
sub list { "[" . join(",", @_) . "]" }
my ($most, $least) = ("9223372036854775807", "-9223372036854775808");
my @texts = (text("a", 4096), text("\xf0\x9f\x98\x80", 1024), text("", 0));
my @values = (@texts, list(($most) x 512, ($least) x 512), list(("\"\"") x 1024), list(("true") x 1024),
    list((text("b", 4096)) x 15, text("c", 4045)), list(), $most, $least, "null");
my @flows = ("\"Back\":[[\"return\",{\"v\":\"arg\"}]]", "\"Fail\":[[\"fail\",{\"v\":\"arg\"}]]");
my $n = 0;
sub asks { $n++; print $requests "{\"client\":\"a\",\"n\":$n,$_[0]}\n"; print $wanted "a $n $_[1]\n" }
for my $i (0 .. $#values) {
    my $v = $values[$i];
    push @flows, "\"Way$i\":[[\"call\",\"a\",\"echo\",{\"v\":\"arg\"}],[\"ask\",\"h\",\"Box\",\"b$i\",\"put\",{\"v\":\"a\"}],[\"await\",\"b\",{\"v\":\"h\"}],"
        . "[\"sub\",\"k\",\"Back\",\"b$i\",{\"v\":\"b\"}],[\"await\",\"c\",{\"v\":\"k\"}],[\"event\",\"e\",\"go\"],[\"await\",\"d\",{\"v\":\"e\"}],"
        . "[\"if\",{\"do\":[\"eq\",{\"v\":\"c\"},{\"v\":\"d\"}]},[[\"return\",{\"v\":\"d\"}]],[[\"fail\",\"other\"]]]]";
    asks("\"start\":\"Way$i/w\",\"arg\":$v", "started");
    asks("\"raise\":\"Way$i/w\",\"event\":\"go\",\"value\":$v", "raised");
    asks("\"wait\":\"Way$i/w\"", "done $v");
    asks("\"query\":\"\@Box/b$i\"", "value $v");
    asks("\"query\":\"Back/b$i\"", "done $v");
}
for my $i (0 .. $#texts) {
    asks("\"start\":\"Fail/f$i\",\"arg\":$texts[$i]", "started");
    asks("\"wait\":\"Fail/f$i\"", "failed $texts[$i]");
}
print $flows "{\"classes\":{\"Box\":{\"init\":null,\"ops\":{\"put\":[[\"let\",\"self\",{\"v\":\"arg\"}],[\"return\",{\"v\":\"self\"}]]}}},\"flows\":{", join(",", @flows), "}}\n";
PERL
    twice values
    rm -- "$work/d/p00.log0"
    twice 'values from the start, one step an entry' --batch 1
}

# A value of a request that is past a limit makes its line no request: 4,097 bytes, 1,025 parts, 65,537 bytes, 2^63.
trial_values_past_their_limits() {
    local value
    fresh d
    while IFS= read -r value; do
        printf '{"client":"a","n":1,"start":"Sum/x","arg":%s}\n' "$value" >"$work/d/requests.jsonl"
        refused "a value of ${#value} bytes" 2 'requests line 1' "$work/d" run
    done < <(perl -e '
        sub text { "\"" . $_[0] x $_[1] . "\"" }
        sub list { "[" . join(",", @_) . "]" }
        print "$_\n" for text("a", 4097), list((1) x 1025), list((text("b", 4096)) x 15, text("c", 4046)), "9223372036854775808", "-9223372036854775809"')
}

# The longest names and keys, 64 bytes, of all that has one, and the greatest number of a request.
trial_longest_of_all_names() {
    an_empty
    perl - "$work/d/flows.json" "$work/d/requests.jsonl" "$work/wanted" <<'PERL'
my ($flows, $requests, $wanted) = map { open(my $file, ">", $_) or die; $file } @ARGV;
my ($flow, $class, $op, $event, $variable, $handle, $client) = map { $_ . "_" x 63 } qw(F C o e v h c);
my ($key, $of_entity) = map { $_ . "." x 63 } qw(1 -);
print $flows "{\"classes\":{\"$class\":{\"init\":0,\"ops\":{\"$op\":[[\"let\",\"self\",{\"v\":\"arg\"}],[\"return\",{\"v\":\"self\"}]]}}},\"flows\":{\"$flow\":["
    . "[\"event\",\"$handle\",\"$event\"],[\"await\",\"$variable\",{\"v\":\"$handle\"}],"
    . "[\"lock\",[[\"$class\",\"$of_entity\"]],[[\"ask\",\"$handle\",\"$class\",\"$of_entity\",\"$op\",{\"v\":\"$variable\"}],[\"await\",\"$variable\",{\"v\":\"$handle\"}]]],"
    . "[\"return\",{\"v\":\"$variable\"}]]}}\n";
my @asked = (["start", "$flow/$key", "", "started"], ["raise", "$flow/$key", ",\"event\":\"$event\",\"value\":7", "raised"],
    ["wait", "$flow/$key", "", "done 7"], ["query", "\@$class/$of_entity", "", "value 7"]);
my $n = 4294967292;
for (@asked) {
    my ($kind, $id, $more, $answer) = @$_;
    print $requests "{\"client\":\"$client\",\"n\":$n,\"$kind\":\"$id\"$more}\n";
    print $wanted "$client $n $answer\n";
    $n++;
}
PERL
    twice names
}

# A client's request waits for the answers to those before it, so that each of them has an entry of its own at least: ten thousand, from
# which a further run goes on.
trial_ten_thousand_entries() {
    fresh d
    perl - "$work/d/requests.jsonl" "$work/wanted" 10000 <<'PERL'
my ($file, $said, $count) = @ARGV;
open(my $requests, ">", $file) or die;
open(my $wanted, ">", $said) or die;
print $requests "{\"client\":\"a\",\"n\":1,\"start\":\"Sum/x\"}\n{\"client\":\"a\",\"n\":2,\"wait\":\"Sum/x\"}\n";
print $wanted "a 1 started\na 2 done 5\n";
for my $n (3 .. $count) {
    print $requests "{\"client\":\"a\",\"n\":$n,\"query\":\"Sum/x\"}\n";
    print $wanted "a $n done 5\n";
}
PERL
    twice 'ten thousand'
    printf '{"client":"a","n":10001,"start":"Sum/y"}\n{"client":"a","n":10002,"wait":"Sum/y"}\n' >>"$work/d/requests.jsonl"
    printf 'a 10001 started\na 10002 done 5\n' >>"$work/wanted"
    twice 'and more'
}

# An entry that takes a list of 65,536 bytes is a frame of more than that; what 64 clients ask at once may be one of four millions.
trial_large_frames() {
    local clients payload
    for clients in 1 64; do
        an_empty
        printf '%s\n' '{"flows":{"Echo":[["call","x","echo",{"v":"arg"}],["return",{"v":"x"}]]}}' >"$work/d/flows.json"
        perl - "$work/d/requests.jsonl" "$work/wanted" "$clients" <<'PERL'
my ($file, $said, $clients) = @ARGV;
open(my $requests, ">", $file) or die;
open(my $wanted, ">", $said) or die;
for my $c (10 .. 9 + $clients) {
    my $list = "[" . join(",", ("\"" . "$c" x 2048 . "\"") x 15, "\"" . "z" x 4045 . "\"") . "]";
    print $requests "{\"client\":\"c$c\",\"n\":1,\"start\":\"Echo/e$c\",\"arg\":$list}\n{\"client\":\"c$c\",\"n\":2,\"wait\":\"Echo/e$c\"}\n";
    print $wanted "c$c 1 started\nc$c 2 done $list\n";
}
PERL
        twice "$clients clients" --batch 64
        payload=$((16#$(od -An -tx1 -j 34 -N 4 "$work/d/p00.log0" | tr -d ' \n')))
        [ "$payload" -gt 65536 ] && ok || wrong "$clients clients: the first payload has $payload bytes"
    done
}

# A line of a request is as long as it likes: with a list of 65,536 bytes each spelled with six, and as long as the whole file may be,
# 16,777,216 bytes. So may the flows be.
trial_long_lines() {
    local file
    fresh d
    perl - "$work/d/requests.jsonl" "$work/wanted" <<'PERL'
my ($file, $said) = @ARGV;
open(my $requests, ">", $file) or die;
open(my $wanted, ">", $said) or die;
my $list = sub { my ($letter) = @_; "[" . join(",", ("\"" . $letter x 4096 . "\"") x 15, "\"" . $letter x 4045 . "\"") . "]" };
print $requests "{\"client\":\"a\",\"n\":1,\"start\":\"Sum/x\",\"arg\":", $list->("\\u0061"), "}\n{\"client\":\"a\",\"n\":2,\"wait\":\"Sum/x\"}\n";
print $wanted "a 1 started\na 2 done 5\n";
PERL
    twice 'a spelled list'
    for file in requests.jsonl flows.json; do
        fresh d
        printf '%s' "$SUM" >"$work/wanted"
        perl -e 'my ($name) = @ARGV; local $/; open(my $in, "<", $name) or die; my $text = <$in>; $text =~ s/\{/"{" . " " x (16777216 - length $text)/e; open(my $out, ">", $name) or die; print $out $text' "$work/d/$file"
        same "the length of $file" 16777216 "$(stat -c %s "$work/d/$file")"
        twice "$file as long as may be"
    done
}
