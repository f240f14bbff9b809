"""Cases for the session program, and what its output must satisfy."""

import re
from collections import Counter

from draws import Draws, uneven_feeds
from model import A, B, MOST_ENTRIES, Model, NamedLap

SHEET_ROWS = 1024
OUTPUT_ROOM = 512
MOST_BYTES = 80


# ---- reading lines ----

_NUMBER = rb"[ \t]*([0-9]{1,4})[ \t]*"
_SOURCE = rb"[ \t]*([AB])[ \t]*"
_FORMS = [
    (form, re.compile(rb"[ \t]*" + rb",".join([word + rb"[ \t]*", *fields])))
    for form, word, fields in [
        ("START", rb"START", [_NUMBER] * 3),
        ("ARRIVE", rb"([AB])", [_NUMBER] * 3),
        ("EVICT", rb"EVICT", [_SOURCE, _NUMBER]),
        ("RUN", rb"RUN", [_SOURCE, _NUMBER]),
        ("CLOSE", rb"CLOSE", [_SOURCE]),
        ("DRAIN", rb"DRAIN", [_NUMBER]),
        ("LONE", rb"LONE", [_SOURCE, _NUMBER]),
    ]
]


def read_line(line):
    """The command of a line, as (word, numbers ...) with sources as 0 and 1;
    None for a bad line."""
    if len(line) > MOST_BYTES:
        return None
    for form, pattern in _FORMS:
        found = pattern.fullmatch(line)
        if found:
            numbers = [b"AB".index(part) if part in (b"A", b"B") else int(part)
                       for part in found.groups()]
            if form in ("DRAIN", "LONE") and numbers[-1] > OUTPUT_ROOM:
                return None
            return (form, *numbers)
    return None


def names_no_lap(command):
    """Whether a command is an arrival whose heat, car or lap is out of range."""
    return command[0] == "ARRIVE" and not NamedLap(*command[2:]).in_range()


def split_lines(text):
    lines = text.split(b"\n")
    if lines[-1] == b"":
        lines.pop()
    return lines


# ---- demand 3 ----

class Unsound(Exception):
    """An output that demand 3 does not allow."""


class Watcher:
    """Keeps its own record of accepted rows, of written pairs, and of how many
    lone rows were listed."""

    def __init__(self):
        self.started = False
        self.begin()

    def begin(self):
        self.rows = ([], [])
        self.written = set()
        self.listed = [0, 0]

    def see(self, line, pairs, lone_rows, answer):
        """One input line, the pairs and the lone rows printed for it, and its
        answer line split into fields."""
        command = read_line(line)
        if answer[0] == b"NO":
            self.see_refusal(command, pairs + lone_rows, answer)
            return
        if command is None or not (self.started or command[0] == "START") or names_no_lap(command):
            raise Unsound("accepted, but should be refused")
        word, *numbers = command
        if word == "START":
            self.started = True
            self.begin()
        elif word == "ARRIVE":
            self.rows[numbers[0]].append(NamedLap(*numbers[1:]))
        if word == "LONE":
            self.see_lone(*numbers, pairs, lone_rows, answer)
            return
        if lone_rows:
            raise Unsound("lone rows that were not asked for")
        if (answer[0] == b"DONE") != (word == "DRAIN" and self.left() <= numbers[0]):
            raise Unsound("DONE at the wrong place")
        if word == "DRAIN" and len(pairs) != min(numbers[0], self.left()):
            raise Unsound("a drain writes min(room, pairs left)")
        if word != "EVICT" and int(answer[1]) != len(pairs):
            raise Unsound("the answer does not count the pairs")
        for pair in pairs:
            self.see_pair(*pair)

    def see_refusal(self, command, printed, answer):
        if printed:
            raise Unsound("pairs or lone rows before a refusal")
        if (answer[1] == b"9") != (command is None):
            raise Unsound("NO 9 is for bad lines, and for no others")
        unstarted = command is not None and command[0] != "START" and not self.started
        if (answer[1] == b"10") != unstarted:
            raise Unsound("NO 10 is for good lines before a START, and for no others")
        bad_key = command is not None and self.started and names_no_lap(command)
        if (answer[1] == b"2") != bad_key:
            raise Unsound("NO 2 is for arrivals out of range, and for no others")

    def see_pair(self, a, b, key):
        if a >= len(self.rows[A]) or b >= len(self.rows[B]):
            raise Unsound(f"pair {a} {b} names a row that was never accepted")
        if self.rows[A][a] != self.rows[B][b] or self.rows[A][a].key() != key:
            raise Unsound(f"pair {a} {b} {key} does not match")
        if (a, b) in self.written:
            raise Unsound(f"pair {a} {b} twice")
        self.written.add((a, b))

    def left(self):
        """Pairs of the join not yet written. Written pairs match and are all
        different, so this is 0 exactly when they are the join."""
        laps_b = Counter(self.rows[B])
        return sum(laps_b[lap] for lap in self.rows[A]) - len(self.written)

    def see_lone(self, source, room, pairs, lone_rows, answer):
        if pairs:
            raise Unsound("pairs in a list of lone rows")
        left = self.lone_left(source)
        if (answer[0] == b"DONE") != (len(left) <= room):
            raise Unsound("DONE at the wrong place")
        if lone_rows != left[:room]:
            raise Unsound("a lone call lists the next rows without a partner, min(room, rows left)")
        if int(answer[1]) != len(lone_rows):
            raise Unsound("the answer does not count the lone rows")
        self.listed[source] += len(lone_rows)

    def lone_left(self, source):
        """The rows without a partner that are not yet listed, with their keys.
        Each list so far had the first of them, so they are those after it."""
        others = set(self.rows[1 - source])
        lone_rows = [(number, lap.key()) for number, lap in enumerate(self.rows[source])
                     if lap not in others]
        return lone_rows[self.listed[source]:]


_PAIR = re.compile(rb"PAIR ([0-9]+) ([0-9]+) ([0-9]+)")
_LONE = re.compile(rb"LONE ([0-9]+) ([0-9]+)")
_ANSWER = re.compile(rb"OK [0-9]+|DONE [0-9]+|NO (?:[1-79]|10|8 [0-9]+)")


def unsound(text, printed):
    """What is wrong with the output for this input, or None."""
    if printed and not printed.endswith(b"\n"):
        return "the output does not end in LF"
    output = iter(split_lines(printed))
    watcher = Watcher()
    for number, line in enumerate(split_lines(text), 1):
        pairs, lone_rows = [], []
        for shown in output:
            pair, lone = _PAIR.fullmatch(shown), _LONE.fullmatch(shown)
            if pair:
                pairs.append(tuple(int(part) for part in pair.groups()))
            elif lone:
                lone_rows.append(tuple(int(part) for part in lone.groups()))
            else:
                break
        else:
            return f"line {number}: no answer"
        if not _ANSWER.fullmatch(shown):
            return f"line {number}: an answer of no known form: {shown[:60]!r}"
        try:
            watcher.see(line, pairs, lone_rows, shown.split(b" "))
        except Unsound as why:
            return f"line {number}: {why}"
    if next(output, None) is not None:
        return "more output than input"
    return None


# ---- drawing lines ----

LETTER = (b"A", b"B")
ODD_BYTES = [b"\r", b"\0", b"\x0b", b"\x0c", b"\x1a", b"\x7f", b"\xa0", b"\xff", b" ", b"\t",
             b",", b";", b"+", b"-", b".", b"'", b"0", b"9", b"/", b":", b"@", b"a"]
EMPTY_LINES = [b"", b" ", b"\t", b" \t ", b"\r", b"\0", b",", b",,", b",,,", b" , "]
ODD_WORDS = [b"", b"a", b"b", b"C", b"AA", b"AB", b"start", b"Start", b"STAR", b"STARTS",
             b"EVIC", b"EVICTS", b"Evict", b"RUNS", b"RU", b"run", b"CLOSED", b"CLOS", b"DRAINS",
             b"DRAI", b"drain", b"LONES", b"LON", b"lone", b"QUIT", b"0", b"\xc3\x84", b"A B",
             b"A\0"]
ODD_NUMBERS = [b"+1", b"-1", b"-0", b"1.0", b"0x1", b"1 2", b"1\t2", b"1e1", b"A", b"\xb2",
               b"1\0", b"1\r"]


def odd_fields(draws, line):
    """The line with one field changed, dropped or added."""
    fields = line.split(b",")
    at = draws.below(len(fields))
    how = draws.weighted({"digits": 4, "number": 2, "word": 2, "drop": 1, "add": 1, "end": 1})
    if how == "digits":
        fields[max(at, 1)] = b"".join(draws.pick([b"0", b"1", b"7", b"9"])
                                      for _ in range(draws.between(0, 6)))
    elif how == "number":
        fields[at] = draws.pick(ODD_NUMBERS)
    elif how == "word":
        fields[at if draws.chance(0.3) else 0] = draws.pick(ODD_WORDS)
    elif how == "drop":
        del fields[at]
    elif how == "add":
        fields.insert(at, draws.pick([b"0", b"1", b"A", b"B", b""]))
    else:
        fields.append(draws.pick([b"", b" ", b"0"]))
    return b",".join(fields)


def odd_byte(draws, line):
    at = draws.below(len(line) + 1)
    if draws.chance(0.3):
        return line[:at] + line[at + 1:]
    return line[:at] + draws.pick(ODD_BYTES) + line[at:]


def padded(draws, line):
    """The line with blanks at one place, near or far beyond 80 bytes."""
    length = draws.pick([79, 80, 80, 80, 81, 81, 81, 82, 160, 161, 162, 5000])
    places = [0, len(line)]
    for at, byte in enumerate(line):
        if byte == ord(","):
            places += [at, at + 1]
    at = draws.pick(places)
    blanks = draws.pick([b" ", b"\t", b" \t"]) * length
    return line[:at] + blanks[:max(0, length - len(line))] + line[at:]


def overlong(draws, line):
    """A line too long whose rest, or whose first bytes, look like a line."""
    if draws.chance(0.5):
        return line + b" " * (MOST_BYTES - len(line)) + draws.pick([line, b"," + line])
    return (line + b",") * draws.between(12, 40) + line


def odd_line(draws, line):
    how = draws.weighted({"fields": 6, "byte": 4, "padded": 4, "overlong": 1, "empty": 2, "cr": 1})
    if how == "fields":
        return odd_fields(draws, line)
    if how == "byte":
        return odd_byte(draws, line)
    if how == "padded":
        return padded(draws, line)
    if how == "overlong":
        return overlong(draws, line)
    if how == "empty":
        return draws.pick(EMPTY_LINES)
    return line + b"\r"


def dressed(draws, line):
    """The same command with blanks around its fields and leading zeros."""
    fields = line.split(b",")
    for at, field in enumerate(fields):
        if field.isdigit() and draws.chance(0.3):
            field = field.rjust(draws.between(1, 4), b"0")
        before = draws.pick([b"", b"", b" ", b"\t", b"  \t"])
        after = draws.pick([b"", b"", b" ", b"\t", b"\t  "])
        fields[at] = before + field + after
    return b",".join(fields)


# ---- drawing sessions ----

class Session:
    """One session being drawn, line by line, with the model in step."""

    def __init__(self, draws):
        self.draws = draws
        self.lines = []
        self.model = None
        self.laps = self.draw_laps()
        # Laps of one source alone, one by its heat and one by its car, and how many of its rows
        # have one of them.
        self.lone_laps = [[draws.pick(self.laps)._replace(heat=4 + source),
                           NamedLap(draws.pick([1, 2]), 5 + source, draws.pick([0, 12, 999]))]
                          for source in (A, B)]
        self.lone_share = draws.pick([0, 0, 0.2, 0.5])
        self.dress = draws.pick([0, 0, 0, 0.3])
        self.odd = draws.pick([0, 0, 0.05, 0.4])
        self.weights = {
            "arrive": 10,
            "evict": draws.pick([0, 1, 3, 6]),
            "run": draws.pick([0, 2, 5, 8]),
            "again": draws.pick([0, 1]),
            "refused": draws.pick([0, 1, 3]),
            "restart": draws.pick([0, 0, 0, 0.5]),
            "close": draws.pick([0, 0, 0.5]),
            "drain": draws.pick([0, 0.5]),
            "lone": draws.pick([0, 0.5]),
        }

    def draw_laps(self):
        """A few laps, most often the same ones in more than one heat."""
        draws = self.draws
        heats = draws.pick([[1], [9], [1, 2], [1, 2], [2, 3], [1, 9], [1, 2, 3]])
        laps = []
        for _ in range(draws.pick([1, 1, 2, 2, 3])):
            car = draws.pick([1, 7, 7, 999, draws.between(1, 999)])
            lap = draws.pick([0, 12, 13, 999, draws.between(0, 999)])
            laps += [NamedLap(heat, car, lap) for heat in heats]
        return laps

    def put(self, line):
        self.lines.append(line)
        command = read_line(line)
        if command is None:
            return
        if command[0] == "START":
            if 1 <= command[1] <= 16 and 1 <= command[2] <= 1024 and 1 <= command[3] <= SHEET_ROWS:
                self.model = Model(*command[1:])
        elif self.model:
            self.model.follow(command, OUTPUT_ROOM)

    def say(self, *fields):
        """Puts a line, sometimes dressed, sometimes with an odd one before."""
        line = b",".join(f if isinstance(f, bytes) else b"%d" % f for f in fields)
        if self.draws.chance(self.odd):
            self.put(odd_line(self.draws, line))
        self.put(dressed(self.draws, line) if self.draws.chance(self.dress) else line)

    def start(self):
        draws = self.draws
        self.say(b"START", draws.pick([1, 1, 2, 2, 3, 4, 7, 16]),
                 draws.pick([1, 1, 2, 2, 3, 3, 4, 5, 6, 8, 12, 1024]),
                 draws.pick([1, 2, 3, 5, 8, 8, 12, 16, 24, SHEET_ROWS]))

    def partition(self):
        if self.draws.chance(0.15):
            return self.draws.below(self.model.partitions)
        return self.model.partition_of(self.draws.pick(self.laps))

    def source(self):
        return self.draws.pick(LETTER)

    def step(self):
        what = self.draws.weighted(self.weights)
        if what == "arrive":
            self.arrive()
        elif what == "evict":
            self.say(b"EVICT", self.source(), self.partition())
        elif what == "run":
            self.say(b"RUN", self.source(), self.partition())
        elif what == "again":
            self.put(self.lines[-1])
        elif what == "refused":
            self.refused()
        elif what == "restart":
            self.start()
        elif what == "close":
            self.say(b"CLOSE", self.source())
        elif what == "drain":
            self.drain()
        else:
            self.lone(self.draws.below(2))

    def arrive(self):
        source = self.draws.below(2)
        laps = self.lone_laps[source] if self.draws.chance(self.lone_share) else self.laps
        self.say(LETTER[source], *self.draws.pick(laps))

    def refused(self):
        """A good line that the box refuses, most often."""
        draws = self.draws
        partition = draws.pick([self.model.partitions, 16, 17, 32, 9999])
        self.say(*draws.pick([
            (self.source(), 0, 7, 5), (self.source(), 10, 7, 5), (self.source(), 9999, 7, 0),
            (self.source(), 1, 0, 5), (self.source(), 2, 1000, 5), (self.source(), 1, 9999, 0),
            (self.source(), 9, 7, 1000), (self.source(), 1, 0, 1000), (self.source(), 0, 1007, 12),
            (b"EVICT", self.source(), partition), (b"RUN", self.source(), partition),
            (b"START", 0, 1, 1), (b"START", 17, 1, 1), (b"START", 1, 0, 1), (b"START", 1, 1025, 1),
            (b"START", 1, 1, 0), (b"START", 1, 1, 1025), (b"START", 1, 1, 4096),
            (b"START", 9999, 9999, 9999), (b"DRAIN", 0), (b"DRAIN", 1), (b"DRAIN", 512),
            (b"LONE", self.source(), 0), (b"LONE", self.source(), 512)]))

    def room_for(self, left):
        """A room for so many pairs or rows: none, a small one, one that is
        exact or nearly so, half of it, or the largest."""
        room = self.draws.pick([0, 1, 1, 2, 3, left - 1, left, left, left + 1, left // 2,
                                (left + 1) // 2, OUTPUT_ROOM])
        return min(max(room, 0), OUTPUT_ROOM)

    def drain(self):
        left = len(self.model.left()) if all(self.model.closed) else 3
        self.say(b"DRAIN", self.room_for(left))

    def lone(self, source):
        left = len(self.model.lone_left(source)) if all(self.model.closed) else 2
        self.say(b"LONE", LETTER[source], self.room_for(max(left, 1)))

    def steps(self, most):
        for _ in range(self.draws.between(0, most)):
            self.step()

    def finish(self):
        """Closes both sources, drains to the end and beyond, and lists lone rows
        before, between and after the drains."""
        order = self.draws.pick([LETTER, LETTER[::-1]])
        self.say(b"CLOSE", order[0])
        self.steps(self.draws.pick([0, 3, 8]))
        self.say(b"CLOSE", order[1])
        self.steps(self.draws.pick([0, 0, 4]))
        listing = self.draws.pick([0, 0, 0.2, 0.5])
        if self.draws.chance(listing):
            self.lone(self.draws.below(2))
        left = len(self.model.left())
        room = min(self.draws.pick([1, 2, 3, 5, max(left - 1, 1), max(left, 1), OUTPUT_ROOM]),
                   OUTPUT_ROOM)
        for _ in range(min(-(-left // room), 40) + self.draws.below(3)):
            self.say(b"DRAIN", room)
            if self.draws.chance(0.1):
                self.step()
            if self.draws.chance(listing):
                self.lone(self.draws.below(2))
        if listing:
            self.list_all(self.draws.below(2))

    def list_all(self, source):
        """Lists the lone rows of a source to the end and beyond."""
        left = len(self.model.lone_left(source))
        room = min(self.draws.pick([1, 2, 3, max(left - 1, 1), max(left, 1), left + 1]),
                   OUTPUT_ROOM)
        for _ in range(min(-(-left // room), 20) + self.draws.below(3)):
            self.say(b"LONE", LETTER[source], room)
            if self.draws.chance(0.2):
                self.lone(1 - source)

    # The kinds of sessions.

    def mixed(self):
        self.steps(self.draws.pick([12, 30, 60]))

    def bursts(self):
        """Several rows of one source at a time, with memory full. The rows of one
        source share a portion or two, and those of the other are spread."""
        draws = self.draws
        self.put(b"START,%d,%d,%d" % (draws.pick([2, 3, 4, 5, 16]), draws.between(3, 9),
                                      draws.pick([24, 40])))
        feeds = uneven_feeds(draws)
        self.laps = feeds[A] + feeds[B]
        for _ in range(draws.between(4, 12)):
            source, first = draws.below(2), draws.below(6)
            for at in range(first, first + draws.between(1, 5)):
                self.say(LETTER[source], *feeds[source][at % len(feeds[source])])
            self.steps(draws.pick([0, 1, 2]))

    def full_lists(self):
        """Runs one portion until its list has 32 entries, and goes on."""
        draws = self.draws
        self.put(b"START,%d,%d,%d" % (draws.pick([1, 2, 16]), draws.pick([6, 40, 1024]),
                                      draws.pick([40, 60])))
        own = draws.below(2)
        lap = draws.pick(self.laps)
        partition = self.model.partition_of(lap)
        self.say(LETTER[own], *lap)
        self.say(b"EVICT", LETTER[own], partition)
        for _ in range(MOST_ENTRIES + draws.between(0, 3)):
            self.say(LETTER[draws.below(2)], *draws.pick(self.laps))
            self.say(b"RUN", LETTER[own], partition)
            if draws.chance(0.2):
                self.step()
        self.say(b"RUN", LETTER[own], partition)
        self.steps(6)

    def many_pairs(self):
        """Arrivals or runs with about as many pairs as the output has room."""
        draws = self.draws
        lap = self.laps[0]
        own = draws.below(2)
        self.put(b"START,%d,%d,%d" % (draws.pick([1, 3]), draws.pick([600, 1024]),
                                      draws.pick([600, SHEET_ROWS])))
        partition = self.model.partition_of(lap)
        if draws.chance(0.2):
            self.put_many(LETTER[own], lap, OUTPUT_ROOM + draws.between(-2, 2))
            self.say(LETTER[1 - own], *lap)
            self.say(LETTER[1 - own], *lap)
        else:
            rows, others = draws.pick([(16, 32), (19, 27), (27, 19), (32, 16), (8, 64)])
            self.put_many(LETTER[own], lap, rows)
            self.say(b"EVICT", LETTER[own], partition)
            self.put_many(LETTER[1 - own], lap, others)
            self.say(b"RUN", LETTER[own], partition)
            self.say(b"RUN", LETTER[own], partition)
        self.steps(6)

    def put_many(self, letter, lap, count):
        for _ in range(count):
            self.put(b"%s,%d,%d,%d" % (letter, *lap))

    def full_sheet(self):
        """As many rows as a sheet holds, and one more."""
        draws = self.draws
        rows = draws.pick([SHEET_ROWS - 1, SHEET_ROWS])
        self.put(b"START,16,%d,%d" % (draws.pick([20, 200, 1024]), rows))
        own = draws.below(2)
        for number in range(rows + 1):
            lap = (1 + number % 2, 1 + number % 37, number % 5)
            self.lines.append(b"%s,%d,%d,%d" % (LETTER[own], *lap))
            if draws.chance(0.02):
                self.lines.append(b"%s,%d,%d,%d" % (LETTER[1 - own], *lap))
        self.lines += [b"EVICT,A,3", b"RUN,A,3", b"RUN,B,3", b"CLOSE,A", b"CLOSE,B",
                       b"DRAIN,%d" % draws.pick([1, 40]), b"LONE,A,512", b"LONE,B,512",
                       b"DRAIN,512", b"LONE,A,%d" % draws.pick([1, 40]), b"LONE,B,512"]

    def odd_lines(self):
        self.odd = 0.7
        self.dress = 0.5
        self.steps(25)


class SessionCase:
    """The input of one session. A case that is alone needs a run of its own:
    it has lines before the first START, or no LF at its end."""

    def __init__(self, seed, number):
        draws = Draws("session", seed, number)
        session = Session(draws)
        kind = draws.weighted({"mixed": 55, "bursts": 25, "full_lists": 8, "many_pairs": 3,
                               "odd_lines": 18, "full_sheet": 0.4})
        self.alone = draws.chance(0.06)
        if self.alone and draws.chance(0.7):
            self.unstarted(session)
        if kind in ("mixed", "odd_lines"):
            session.put(b"START,%d,%d,%d" % (draws.between(1, 4), draws.between(1, 6),
                                             draws.between(2, 16)))
            if draws.chance(0.6):
                session.start()
        getattr(session, kind)()
        if kind != "full_sheet" and draws.chance(0.85):
            session.finish()
        if self.alone and draws.chance(0.5):
            session.put(odd_line(draws, draws.pick([b"A,1,7,12", b"DRAIN,1", b"LONE,A,1"])))
        self.text = b"\n".join(session.lines)
        if not self.alone or draws.chance(0.3):
            self.text += b"\n"

    @staticmethod
    def unstarted(session):
        draws = session.draws
        for _ in range(draws.between(1, 6)):
            line = draws.pick([b"A,1,7,12", b"A,7,12", b"B,0,0,0", b"EVICT,A,0", b"RUN,B,99",
                               b"CLOSE,A", b"DRAIN,0", b"DRAIN,512", b"DRAIN,513", b"LONE,A,0",
                               b"LONE,B,512", b"LONE,B,513", b"START,0,1,1", b"START,1,1,1025"])
            session.put(odd_line(draws, line) if draws.chance(0.3) else line)
