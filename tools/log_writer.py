"""A writer of the logs of many partitions: how entries are spelled, and partitions that run instances of Sum (examples/sum).

Each partition commits an entry before it makes the next, in a frame of its own, and what it sends to others leaves with that: they take
it in by Got items that name the entry, and let go of what was read by Trims. With one partition and one client the items are those
that the program writes."""

from collections import deque
from pathlib import Path
from struct import pack

from log_reader import OPEN, SIGNATURE, fnv1a_64, home, log_name

SUM_FILE = Path(__file__).resolve().parent.parent / "examples/sum/flows.json"
FIRST_GATE = 33


# ---- how things are spelled


def header(partition, count, digest, base=0):
    """A segment up to its first gate."""
    return bytes([OPEN]) + SIGNATURE + pack(">IIQQ", partition, count, digest, base)


def spell_entry(position, incarnation, items):
    return pack(">QQH", position, incarnation, len(items)) + b"".join(items)


def spell_frame(entries):
    """An open gate with the frame of these entries behind it."""
    payload = pack(">H", len(entries)) + b"".join(entries)
    return bytes([OPEN]) + pack(">I", len(payload)) + payload


def spell_word(word):
    return bytes([len(word)]) + word


def spell_id(written):
    """The bytes of an id, by its written form."""
    if written[:1] == b"#":
        return b"\3" + spell_word(written[1:])
    first, key = written.lstrip(b"@").split(b"/")
    return (b"\2" if written[:1] == b"@" else b"\1") + spell_word(first) + spell_word(key)


def spell_value(value):
    """The bytes of a value, by a pair of its tag and what it has."""
    tag, inside = value
    if tag == 5:
        return bytes([tag]) + pack(">H", len(inside)) + b"".join(map(spell_value, inside))
    spelled = {3: lambda: pack(">q", inside), 4: lambda: pack(">H", len(inside)) + inside}
    return bytes([tag]) + spelled.get(tag, lambda: b"")()


def spell_reply(reply):
    return bytes([reply[0]]) + (pack(">I", reply[1]) if reply[0] else b"")


def spell_answer(answer):
    tag, inside = answer
    spelled = {0: spell_value, 1: lambda text: pack(">H", len(text)) + text, 9: spell_value}
    return bytes([tag]) + spelled.get(tag, lambda _: b"")(inside)


BODIES = {
    0x10: lambda argument, reply: spell_value(argument) + spell_reply(reply),
    0x11: lambda event, value, number: spell_word(event) + spell_value(value) + pack(">I", number),
    0x12: lambda number: pack(">I", number),
    0x13: lambda number: pack(">I", number),
    0x14: lambda reply, answer: spell_reply(reply) + spell_answer(answer),
}


def spell_message(message):
    """The bytes of a request or a result, by its sender, its receiver and its body: a tag, and what that has."""
    sender, to, body = message
    return spell_id(sender) + spell_id(to) + bytes([body[0]]) + BODIES[body[0]](*body[1:])


ITEMS = {
    0x20: spell_message,
    0x21: lambda source, *rest: pack(">IQQQ", source, *rest[:-1]) + spell_message(rest[-1]),
    0x22: lambda sender, to, stamp: spell_id(sender) + spell_id(to) + pack(">Q", stamp),
    0x23: lambda who, task, outcome: spell_id(who) + pack(">I", task) + spell_answer(outcome),
    0x25: lambda target, *rest: pack(">IQQQ", target, *rest),
}


def spell_item(item):
    return bytes([item[0]]) + ITEMS[item[0]](*item[1:])


FIVE = b"\0\3" + pack(">q", 5)
START, WAIT, STARTED, ENDED = range(4)


class Sum:
    """An instance of Sum: who starts it and waits for it, with which numbers, what its bytes are, and how it stands."""

    __slots__ = ("client", "number", "at", "from_home", "to_home", "asking", "telling", "over", "waiting")

    def __init__(self, client, key, number, count):
        written = b"Sum/" + key
        sender, receiver = spell_id(b"#" + client), spell_id(written)
        self.client, self.number, self.at = client, number, receiver
        self.from_home, self.to_home = home(b"#" + client, count), home(written, count)
        self.asking, self.telling = sender + receiver, receiver + sender
        self.over = False
        self.waiting = []

    def message(self, kind, number):
        """A message to the instance or from it, in bytes."""
        if kind == START:
            return self.asking + b"\x10\0\2" + pack(">I", number)
        if kind == WAIT:
            return self.asking + b"\x13" + pack(">I", number)
        return self.telling + b"\x14\2" + pack(">I", number) + (b"\2" if kind == STARTED else FIVE)


class Cell:
    """A partition that writes its log: what waits for an entry, the messages to receivers here, and the streams."""

    def __init__(self, number, engine):
        self.number, self.engine = number, engine
        self.position, self.incarnation = 0, 0
        self.waits, self.queue = deque(), deque()
        self.boxes = [[] for _ in range(engine.count)]
        self.first, self.next = [0] * engine.count, [0] * engine.count
        self.reader = [(0, 0)] * engine.count
        self.trims = set()
        self.pending, self.due = [], []
        self.log = [header(number, engine.count, engine.digest)]

    def post(self, run, kind, number):
        """A message joins the queue here, or the stream to its receiver's partition."""
        target = run.to_home if kind <= WAIT else run.from_home
        spelled = run.message(kind, number)
        if target == self.number:
            self.queue.append((run, kind, number))
        else:
            self.boxes[target].append((self.incarnation, self.position, spelled, (run, kind, number)))

    def take_waits(self, items, limit):
        """What waits is put behind the items, in the order in which it came."""
        while self.waits and len(items) < limit:
            what, *more = self.waits.popleft()
            items.append(getattr(self, what)(*more))

    def took(self, run, kind, number):
        self.post(run, kind, number)
        return b"\x20" + run.message(kind, number)

    def done(self, run):
        run.over = True
        for number in run.waiting:
            self.post(run, ENDED, number)
        run.waiting = []
        return b"\x23" + run.at + b"\0\0\0\0" + FIVE

    def got(self, source, incarnation, position, spelled, message):
        number = self.next[source]
        self.next[source] = number + 1
        self.reader[source] = (self.incarnation, self.position)
        self.queue.append(message)
        return b"\x21" + pack(">IQQQ", source, incarnation, position, number) + spelled

    def trim(self, target):
        reader = self.engine.cells[target]
        upto = reader.next[self.number]
        self.trims.discard(target)
        self.first[target] = upto
        return b"\x25" + pack(">IQQQ", target, upto, *reader.reader[self.number])

    def deliver(self, items, limit):
        """Messages from the front of the queue are delivered."""
        stamp = pack(">Q", self.engine.now)
        while self.queue and len(items) < limit:
            run, kind, number = self.queue.popleft()
            items.append(b"\x22" + (run.asking if kind <= WAIT else run.telling) + stamp)
            self.receive(run, kind, number)

    def receive(self, run, kind, number):
        if kind == START:
            self.pending.append(run)
            self.post(run, STARTED, number)
        elif kind == STARTED:
            self.due.append((run, WAIT, number + 1))
        elif kind == ENDED:
            self.due.extend(self.engine.next_of(run.client))
        elif run.over:
            self.post(run, ENDED, number)
        else:
            run.waiting.append(number)

    def turn(self, limit):
        """An entry, if anything is possible: half of the room for what waits, then deliveries, then what waits again."""
        items, sent = [], [len(box) for box in self.boxes]
        self.take_waits(items, (limit + 1) // 2)
        self.deliver(items, limit)
        self.take_waits(items, limit)
        if items:
            self.log.append(spell_frame([spell_entry(self.position, self.incarnation, items)]))
            self.settle(sent)

    def settle(self, sent):
        """The entry is committed: activities that are scheduled run, answers are said, and messages leave."""
        self.waits.extend(("done", run) for run in self.pending)
        self.waits.extend(("took", *request) for request in self.due)
        self.pending, self.due = [], []
        for target, begin in enumerate(sent):
            if begin < len(self.boxes[target]):
                self.engine.cells[target].waits.extend(("got", self.number, *one) for one in self.boxes[target][begin:])
        self.position += 1

    def let_go(self):
        """What others have taken in is to be let go of."""
        for target, cell in enumerate(self.engine.cells):
            if self.first[target] < cell.next[self.number] and target not in self.trims:
                self.trims.add(target)
                self.waits.append(("trim", target))


class Engine:
    """Partitions that take turns until all these runs, pairs of a client and a key of its own, are over; each client asks for one thing
    after another. `life` is how many rounds it is until all begin a new incarnation, and `trims` how many until streams are let go of."""

    def __init__(self, runs, count, flows, batch=16, life=None, trims=1, begin=1_800_000_000_000):
        self.count, self.digest, self.now = count, fnv1a_64(flows), begin
        self.batch, self.life, self.trims = batch, life, trims
        self.cells = [Cell(number, self) for number in range(count)]
        self.asked = {}
        for client, key in runs:
            mine = self.asked.setdefault(client, deque())
            mine.append(Sum(client, key, 2 * len(mine) + 1, count))
        for client in self.asked:
            for request in self.next_of(client):
                self.cells[request[0].from_home].waits.append(("took", *request))

    def next_of(self, client):
        """The start of the client's next run, if it has one."""
        mine = self.asked[client]
        return [(run, START, run.number) for run in ([mine.popleft()] if mine else [])]

    def is_quiet(self):
        return not any(cell.queue or any(wait[0] != "trim" for wait in cell.waits) for cell in self.cells)

    def begin_life(self):
        for cell in self.cells:
            cell.incarnation += cell.position > 0

    def play(self):
        """Rounds until nothing is left but streams to let go of. Gives the log of each partition."""
        rounds = 0
        while not self.is_quiet():
            rounds += 1
            if self.life and rounds % self.life == 0:
                self.begin_life()
            for cell in self.cells:
                cell.turn(self.batch)
            if rounds % self.trims == 0:
                for cell in self.cells:
                    cell.let_go()
            self.now += 7
        return [b"".join(cell.log) + b"\0" for cell in self.cells]


def write_logs(runs, count, flows, **options):
    return Engine(runs, count, flows, **options).play()


def put_logs(folder, logs):
    for partition, log in enumerate(logs):
        (Path(folder) / log_name(partition)).write_bytes(log)
