#!/usr/bin/env python3
"""Trials of logs of three partitions: `rows/partitions.py PROGRAM TRIAL [--every K]`.

Each case of a trial is a set of log files. The program shows them, and its status, the first line of its standard error and its standard
output are to be those that `tools/log_reader.py` owes. Of the first twenty cases that fail a line is printed, and at the end how many
passed and failed. With `--every K` each K-th case is tried, of each trial others; without it all are."""

import argparse
import os
import sys
import tempfile
from itertools import islice, product
from pathlib import Path
from struct import pack

sys.dont_write_bytecode = True
sys.path.insert(0, str(Path(__file__).resolve().parent.parent / "tools"))

from log_reader import OPEN, Segment, State, fnv1a_64, home, is_ready, log_name, owed, table_of
from log_writer import FIRST_GATE, SUM_FILE, header, spell_entry, spell_frame, spell_id, spell_item, write_logs

FLOWS = SUM_FILE.read_bytes()
COUNT = 3
# Clients g, a and c live in 0, 1 and 2, and so do Sum/x, Sum/w and Sum/u.
AROUND = [(b"g", b"w"), (b"a", b"u"), (b"c", b"x")]
AT_HOME = [(b"g", b"x"), (b"a", b"w"), (b"c", b"u")]


def sums(runs=None, count=COUNT, **options):
    """The log files of these runs, by their names."""
    return {log_name(p): log for p, log in enumerate(write_logs(AROUND if runs is None else runs, count, FLOWS, **options))}


def changed(data, at, byte):
    return data[:at] + bytes([byte]) + data[at + 1 :]


def with_field(data, at, spelled):
    return data[:at] + spelled + data[at + len(spelled) :]


# ---- trials: each gives cases, what they are, the files by name, and how many partitions are asked for


def trial_whole():
    """Logs as an engine leaves them: of other numbers of partitions, entries of other lengths, several incarnations, few Trims."""
    many = [(b"c%d" % (i % 5), b"k%d" % i) for i in range(40)]
    ways = ({}, {"batch": 1}, {"batch": 64, "life": 2}, {"batch": 3, "life": 1, "trims": 3})
    for count, options, runs in product((1, 2, 3, 4, 7, 32), ways, ([], AROUND, many)):
        files = sums(runs, count, **options)
        lines = b"".join(sorted(b"Sum/" + key + b" done 5\n" for _, key in runs))
        assert owed(FLOWS, files, count) == (0, "", lines), (count, options)
        yield f"{len(runs)} sums, {count} partitions, {options}", files, count


def trial_cut():
    """Each log is cut at each byte."""
    files = sums(life=4)
    for name, log in files.items():
        for length in range(len(log)):
            yield f"{name} cut at {length}", {**files, name: log[:length]}, COUNT


def each_byte(change):
    files = sums(life=4)
    for name, log in files.items():
        for at, byte in enumerate(log):
            if change(byte) != byte:
                yield f"{name} with {change(byte):02x} at {at}", {**files, name: changed(log, at, change(byte))}, COUNT


def trial_bytes_00():
    return each_byte(lambda byte: 0)


def trial_bytes_c3():
    return each_byte(lambda byte: OPEN)


def trial_bytes_ff():
    return each_byte(lambda byte: 0xFF)


def trial_bytes_raised():
    return each_byte(lambda byte: (byte + 1) % 256)


FIELDS = [
    *((9, pack(">I", n)) for n in (0, 1, 2, 3, 32, 2**32 - 1)),
    *((13, pack(">I", n)) for n in (0, 1, 2, 4, 32, 33, 2**32 - 1)),
    *((17, pack(">Q", n)) for n in (0, 1, 2**63, 2**64 - 1)),
    *((25, pack(">Q", n)) for n in (1, 2**62, 2**63 - 1, 2**63, 2**64 - 1)),
]


def trial_headers():
    """Each number of each header is another, of a log with entries and of one without; other numbers of partitions are asked for."""
    files = sums()
    for (name, log), (at, number) in product(files.items(), FIELDS):
        other = with_field(log, at, number)
        yield f"{name} with {number.hex()} at {at}", {**files, name: other}, COUNT
        yield f"{name} with {number.hex()} at {at}, empty", {**files, name: other[:FIRST_GATE] + b"\0"}, COUNT
    last = log_name(COUNT - 1)
    for count in (1, 2, 4, 32):
        yield f"shown as {count}", files, count
        yield f"{last} alone, shown as {count}", {last: files[last]}, count


def trial_second_files():
    """A partition's log lies in the second file, behind a first one that is fresh in each way, or the other way round; or both are open."""
    files = sums()
    for p, first in enumerate(files):
        second, log, late = log_name(p, 1), files[first], header_of(files[first], 1) + b"\0"
        fronts = (b"", b"\xc3", b"\0", changed(log, 0, 0), changed(log, 0, 0xC2), changed(log, 0, 0xFF))
        both = ((log, log), (log, late), (late, log), (late, late), (late, header_of(log, 2) + b"\0"))
        for one, other in (*((front, log) for front in fronts), *((log, front) for front in fronts), *both):
            what = f"{p}: {one[:1].hex()} of {len(one)} bytes, {other[:1].hex()} of {len(other)}"
            yield what, {**files, first: one, second: other}, COUNT


def header_of(log, base):
    return with_field(log[:FIRST_GATE], 25, pack(">Q", base))


def trial_emptied():
    """Each log, each two and all are emptied: what needs them is unclosed, and what doesn't is shown."""
    both = AT_HOME + [(one, b"b" + two) for one, two in AROUND]
    for runs, lost, left in product((AROUND, AT_HOME, both, AROUND[:1], AROUND[1:]), range(1, 2**COUNT), (0, 1, FIRST_GATE)):
        files = sums(runs)
        gone = {name: log[:left] + b"\0" * (left > 1) for p, (name, log) in enumerate(files.items()) if lost >> p & 1}
        yield f"{len(runs)} sums, {' '.join(gone)} of {left}", {**files, **gone}, COUNT


# ---- faults: what each makes of a log of a partition


def appended(log, partition, items):
    """The log with one entry more, in its own frame."""
    entries = Segment(log, partition).entries
    position, incarnation = (entries[-1][0] + 1, entries[-1][1]) if entries else (0, 0)
    return log[:-1] + spell_frame([spell_entry(position, incarnation, items)]) + b"\0"


# a delivery of a link where nothing is under way
ABSENT = b"\x22" + spell_id(b"#nobody") + spell_id(b"Sum/nothing") + pack(">Q", 2**40)


def unsent(log, partition):
    """The next message of a stream, which nobody sent."""
    source = (partition + 1) % COUNT
    number = sum(item[0] == 0x21 and item[1] == source for entry in Segment(log, partition).entries for item in entry[2])
    request = spell_id(b"#" + AROUND[source][0]) + spell_id(b"Sum/" + AT_HOME[partition][1]) + b"\x13" + pack(">I", 9)
    return b"\x21" + pack(">IQQQ", source, 0, 99, number) + request


def unread(partition):
    """A Trim of what nobody has read."""
    return b"\x25" + pack(">IQQQ", (partition + 2) % COUNT, 1000, 0, 0)


# (the numbers tell the partitions apart, so that it is seen which one decided)
FAULTS = {
    "damaged header": lambda log, p: changed(log, 3, 0x58),
    "damaged frame": lambda log, p: changed(log, FIRST_GATE + 1, 0x7F),
    "damaged entry": lambda log, p: appended(log, p, [b"\x1f"]),
    "other shape": lambda log, p: with_field(log, 13, pack(">I", 4 + p)),
    "other digest": lambda log, p: changed(log, 24, log[24] ^ (p + 1)),
    "late base": lambda log, p: header_of(log, 1 + p) + b"\0",
    "illegal entry": lambda log, p: appended(log, p, [ABSENT]),
    "unclosed entry": lambda log, p: appended(log, p, [unsent(log, p)]),
    "unclosed Trim": lambda log, p: appended(log, p, [unread(p)]),
    "illegal first": lambda log, p: appended(log[:FIRST_GATE] + b"\0", p, [ABSENT]),
    "unclosed first": lambda log, p: appended(log[:FIRST_GATE] + b"\0", p, [unsent(log[:FIRST_GATE] + b"\0", p)]),
    "illegal, unclosed": lambda log, p: appended(log, p, [ABSENT, unread(p)]),
    "unclosed, illegal": lambda log, p: appended(log, p, [unread(p), ABSENT]),
}


def put_fault(files, fault, partition):
    """The files with this fault in this partition."""
    name = log_name(partition)
    if fault == "both open":
        return {**files, log_name(partition, 1): files[name]}
    return {**files, name: FAULTS[fault](files[name], partition)}


def trial_two_faults():
    """A fault in each of two partitions: the first by the rules decides."""
    files, names = sums(), [*FAULTS, "both open"]
    for (first, second), one, other in product(((0, 1), (0, 2), (1, 2)), names, names):
        yield f"{one} in {first}, {other} in {second}", put_fault(put_fault(files, one, first), other, second), COUNT


def trial_two_faults_of_one():
    """A fault in each of the two files of one partition, or in the second alone, behind a fresh one or a good one."""
    files = sums()
    for p, other in product(range(COUNT), FAULTS):
        first, second, log = log_name(p), log_name(p, 1), files[log_name(p)]
        firsts = {"a fresh one": b"", "a good one": log, **{what: make(log, p) for what, make in FAULTS.items()}}
        for one in firsts:
            yield f"{one} and {other} in {p}", {**files, first: firsts[one], second: FAULTS[other](log, p)}, COUNT


# ---- walks: whatever clients may ask, in any order


class Chance:
    """Numbers below others, the same on each machine."""

    def __init__(self, seed):
        self.seed = seed + 1

    def below(self, limit):
        self.seed = self.seed * 6364136223846793005 + 1442695040888963407 & 2**64 - 1
        return (self.seed >> 33) % limit

    def one_of(self, things):
        return things[self.below(len(things))]


SCALARS = [(0, None), (1, None), (2, None), (3, 0), (3, -1), (3, 2**63 - 1), (4, b""), (4, "d\u00e9j\u00e0 \U0001f600".encode())]
VALUES = SCALARS + [(5, ()), (5, tuple(SCALARS))]
CLIENTS = [b"#a", b"#b", b"#c", b"#g"]
INSTANCES = [b"Sum/x", b"Sum/w", b"Sum/u", b"Sum/v", b"Nope/x", b"Nope/w"]
ENTITIES = [b"@Pot/a", b"@Pot/b", b"@Pot/c"]


class Walk:
    """Partitions that do at each step one of the things that they may do; each entry is accepted."""

    def __init__(self, seed):
        self.chance, self.stamp = Chance(seed), 0
        self.states = [State(p, COUNT, {b"Sum"}) for p in range(COUNT)]
        self.logs = [[] for _ in range(COUNT)]
        self.numbers = {who: 0 for who in CLIENTS}

    def request(self, p):
        """A request of a client who lives here."""
        who = self.chance.one_of([one for one in CLIENTS if home(one, COUNT) == p])
        self.numbers[who] += 1 + self.chance.below(2)
        number, value = self.numbers[who], self.chance.one_of(VALUES)
        start = (0x10, value, (2, number))
        body = self.chance.one_of([start, start, (0x11, b"go", value, number), (0x12, number), (0x13, number)])
        asked = ENTITIES if body[0] == 0x12 and self.chance.below(2) else INSTANCES
        return (0x20, (who, self.chance.one_of(asked), body))

    def coming(self, p):
        """The next message of each stream to here that has one."""
        for source, state in enumerate(self.states):
            number, box = self.states[p].inboxes.get(source, 0), state.outboxes.get(p, [])
            if source != p and number < len(box):
                yield (0x21, *box[number][0], number, box[number][1])

    def letting_go(self, p):
        """What others have read of the streams from here, or some of it."""
        for target, box in self.states[p].outboxes.items():
            read = self.states[target].inboxes.get(p, 0)
            if read > self.states[p].firsts.get(target, 0):
                yield (0x25, target, read - self.chance.below(2), self.chance.below(3), self.chance.below(9))

    def possible(self, p):
        state = self.states[p]
        ran = [(0x22, sender, to, self.stamp) for (sender, to), link in sorted(state.links.items()) if link]
        done = [(0x23, who, task, (0, (3, 5))) for who, task in sorted(state.pending)]
        return [self.request(p), *self.coming(p), *self.letting_go(p), *ran, *ran, *done]

    def step(self):
        """An entry of one of the partitions."""
        p = self.chance.below(COUNT)
        state, items = self.states[p], []
        state.position, state.incarnation = state.position + 1, state.incarnation + (self.chance.below(9) == 0)
        self.stamp += self.chance.below(3)
        for _ in range(1 + self.chance.below(5)):
            item = self.chance.one_of(self.possible(p))
            assert is_ready(self.states, p, item) and state.accept(item), item
            items.append(item)
        self.logs[p].append((state.position - 1, state.incarnation, items))


def spelled(logs, chance):
    """Log files of these entries, in frames of one to three."""
    files = {}
    for p, entries in enumerate(logs):
        log, at = header(p, COUNT, fnv1a_64(FLOWS)), 0
        while at < len(entries):
            some = entries[at : at + 1 + chance.below(3)]
            log += spell_frame([spell_entry(position, life, [*map(spell_item, items)]) for position, life, items in some])
            at += len(some)
        files[log_name(p)] = log + b"\0"
    return files


def disturbed(logs, chance):
    """The same entries with one item left out, repeated, changed for another or put elsewhere, or with a log's last entries lost."""
    logs = [[(position, incarnation, list(items)) for position, incarnation, items in log] for log in logs]
    log = chance.one_of([log for log in logs if log])
    items = chance.one_of(log)[2]
    at, way = chance.below(len(items)), chance.below(5)
    if way == 0 and len(items) > 1:
        items.pop(at)
    elif way == 1:
        items.insert(at, items[at])
    elif way == 2:
        items[at] = chance.one_of(chance.one_of(chance.one_of([log for log in logs if log]))[2])
    elif way == 3:
        items.append(items.pop(at))
    else:
        del log[chance.below(len(log)) :]
    return logs


def trial_walks():
    """What clients may ask, in any order, spread over entries and frames; and the same with one thing wrong."""
    for seed in range(60):
        walk = Walk(seed)
        for _ in range(4 + seed):
            walk.step()
        files = spelled(walk.logs, walk.chance)
        assert owed(FLOWS, files, COUNT) == (0, "", table_of(walk.states)), seed
        yield f"walk {seed}", files, COUNT
        for number in range(6):
            yield f"walk {seed}, disturbed {number}", spelled(disturbed(walk.logs, walk.chance), walk.chance), COUNT


# ---- the program


class Directory:
    """A directory with the flows file, whose logs are changed from case to case, and what the program said last."""

    def __init__(self, folder, program):
        self.folder, self.program = Path(folder, "logs"), program
        self.folder.mkdir()
        self.files = {}
        (self.folder / "flows.json").write_bytes(FLOWS)
        self.streams = [open(Path(folder, name), "w+b", buffering=0) for name in ("stdout", "stderr")]

    def put(self, files):
        for name in self.files.keys() - files.keys():
            (self.folder / name).unlink()
        for name, data in files.items():
            if self.files.get(name) != data:
                (self.folder / name).write_bytes(data)
        self.files = dict(files)

    def show(self, files, count):
        """What the program makes of these files: the status, the first line of standard error, and standard output."""
        self.put(files)
        for stream in self.streams:
            stream.seek(0)
            stream.truncate()
        words = [self.program, self.folder, "show", "--partitions", str(count)]
        actions = [(os.POSIX_SPAWN_DUP2, stream.fileno(), to) for to, stream in enumerate(self.streams, 1)]
        _, status = os.waitpid(os.posix_spawn(self.program, words, os.environ, file_actions=actions), 0)
        said, fault = (Path(stream.name).read_bytes() for stream in self.streams)
        code = os.WEXITSTATUS(status) if os.WIFEXITED(status) else -os.WTERMSIG(status)
        return code, fault.decode(errors="replace").partition("\n")[0], said


def expected(files, count):
    status, line, table = owed(FLOWS, files, count)
    return status, f"netherite: {line}" if line else "", table


def words():
    trials = [name[len("trial_") :] for name in globals() if name.startswith("trial_")]
    parser = argparse.ArgumentParser(description=__doc__, formatter_class=argparse.RawDescriptionHelpFormatter)
    parser.add_argument("program", type=Path)
    parser.add_argument("trial", choices=trials)
    parser.add_argument("--every", type=int, default=1)
    return parser.parse_args()


def main():
    asked = words()
    cases = globals()["trial_" + asked.trial]()
    passed, failed, shift = 0, 0, sum(asked.trial.encode()) % asked.every
    room = "/dev/shm" if os.access("/dev/shm", os.W_OK) else None
    with tempfile.TemporaryDirectory(dir=room) as folder:
        directory = Directory(folder, asked.program.resolve())
        for what, files, count in islice(cases, shift, None, asked.every):
            wanted, came = expected(files, count), directory.show(files, count)
            passed, failed = passed + (wanted == came), failed + (wanted != came)
            if wanted != came and failed <= 20:
                print(f"{what}: expected {wanted}, came {came}")
    print(f"{passed} passed, {failed} failed")


if __name__ == "__main__":
    main()
