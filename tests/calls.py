"""Cases for the call program: a line with a call, a record and sheets."""

import re

from draws import Draws, uneven_feeds
from model import A, B, MOST_ENTRIES, Model, NamedLap

OPEN, ARRIVE, EVICT, RUN, CLOSE, DRAIN, LONE = range(7)
MOST_WORD = 4294967295
MOST_LENGTHS = (12288, 12288, 2048, 1536)

# In 32 bits, 4295 x 1000000 is too much, and 67108865 x 1000000 is 1000000 again.
BAD_HEATS = [0, 10, 10, 4295, 67108865, MOST_WORD]
# Cars and laps at the ends of their ranges; 4294968 x 1000 is beyond 32 bits. Lap 12 of car 1007
# in heat 0 would have the key of lap 12 of car 7 in heat 1.
EDGE_LAPS = [(1, 1, 0), (9, 999, 999), (1, 0, 5), (2, 0, 1000), (1, 1000, 0), (9, 1000, 999),
             (1, 1, 1000), (9, 999, 1000), (0, 1007, 12), (10, 0, 1000), (1, 4294968, 0),
             (1, 1, MOST_WORD), (MOST_WORD, MOST_WORD, MOST_WORD)]

ARGUMENTS = 4

# Places in the record: P M N clock rowsA rowsB closedA closedB, 32 counts, position, loneA loneB.
PARTITIONS, MEMORY, MOST_ROWS, CLOCK, ROWS_A, ROWS_B, CLOSED_A, CLOSED_B, COUNTS = range(9)
POSITION = COUNTS + 32
LONE_A, LONE_B = POSITION + 1, POSITION + 2
RECORD_NUMBERS = POSITION + 3

# Places in a line: the kind and the arguments, the record, the lengths of the sheets, their words.
RECORD = 1 + ARGUMENTS
LENGTHS = RECORD + RECORD_NUMBERS
WORDS = LENGTHS + 4

# Places among the sheets.
SHEET_A, SHEET_B, PROBE, OUTPUT = range(4)


def four(*arguments):
    """The arguments of a call, with zeros for those that it does not use."""
    return [*arguments, *[0] * (ARGUMENTS - len(arguments))]


class Call:
    """A call with its record and sheets, all as numbers."""

    def __init__(self, kind, arguments, record, sheets):
        self.kind = kind
        self.arguments = list(arguments)
        self.record = list(record)
        self.sheets = [list(sheet) for sheet in sheets]

    def copy(self):
        return Call(self.kind, self.arguments, self.record, self.sheets)

    def tokens(self):
        tokens = [self.kind, *self.arguments, *self.record, *map(len, self.sheets)]
        for sheet in self.sheets:
            tokens += sheet
        return tokens

    def text(self):
        return b" ".join(b"%d" % token for token in self.tokens()) + b"\n"


# What a call program may print for a line: this, or an answer, a record and four sheets.
BAD = b"BAD\n"
_ANSWERS = re.compile(rb"(?:BAD\n|ANSWER (?:[0-8] [0-9]+|9 [1-7]|9 8 [0-9]+)\n"
                      rb"SESSION(?: [0-9]+){43}\nA(?: [0-9]+)*\nB(?: [0-9]+)*\n"
                      rb"PROBE(?: [0-9]+)*\nOUT(?: [0-9]+)*\n)*")


def has_form(printed, lines):
    """Whether an output is an answer to each of so many lines."""
    answers = printed.count(b"ANSWER") + printed.count(b"BAD")
    return answers == lines and _ANSWERS.fullmatch(printed) is not None


def read_answer(printed):
    """The answer's numbers, the record and the sheets of an output that has
    the form for one line and is not BAD."""
    lines = [[int(word) for word in line.split()[1:]] for line in printed.splitlines()]
    return lines[0], lines[1], lines[2:]


# ---- states that calls have built ----

def words_of(draws, model):
    """The record and the first three sheets of a model."""
    counts = [0] * 32
    junk = draws.chance(0.5)

    def blank(length):
        return [draws.below(20) if junk else 0 for _ in range(length)]

    extra = draws.pick([0, 0, 0, 1, 3, 40])
    sheets = []
    for source in (A, B):
        words = [word for lap, *stamps in model.rows[source] for word in (lap.key(), *stamps)]
        sheets.append(words + blank(3 * model.most_rows - len(words) + extra))
    probe = blank(128 * model.partitions)
    for source in (A, B):
        for partition, entries in enumerate(model.lists[source]):
            place = source * model.partitions + partition
            counts[place] = len(entries)
            words = [word for entry in entries for word in entry]
            probe[64 * place:64 * place + len(words)] = words
    sheets.append(probe)
    record = [model.partitions, model.memory, model.most_rows, model.clock,
              len(model.rows[A]), len(model.rows[B]), int(model.closed[A]), int(model.closed[B]),
              *counts, model.position, *model.lone_positions]
    return record, sheets


def draw_laps(draws):
    """Laps, few enough that rows match often, most often the same ones in more
    than one heat."""
    heats = draws.pick([[1], [9], [1, 2], [1, 2], [1, 9], [1, 2, 3]])
    laps = []
    for _ in range(draws.pick([1, 1, 1, 2, 3])):
        car, lap = draws.pick([1, 7, 7, 999]), draws.pick([0, 12, 13, 14, 999])
        laps += [NamedLap(heat, car, lap) for heat in heats]
    return laps


def lap_of_row(draws, source, laps, lone_share):
    """One of the laps, or, as often as the share says, a lap of one source
    alone, by its heat or by its car."""
    if draws.chance(lone_share):
        return draws.pick([draws.pick(laps)._replace(heat=4 + source),
                           NamedLap(draws.pick([1, 2]), 5 + source, draws.pick([0, 12]))])
    return draws.pick(laps)


def partition_of(draws, model, laps):
    if draws.chance(0.15):
        return draws.below(model.partitions)
    return model.partition_of(draws.pick(laps))


def simulated(draws, laps, lone_share):
    """A model after some accepted calls."""
    if draws.chance(0.08):
        return with_full_list(draws, laps)
    model = Model(draws.pick([1, 1, 1, 2, 2, 3, 5, 16]), draws.pick([1, 2, 3, 4, 5, 6, 8, 1024]),
                  draws.pick([1, 2, 4, 6, 8, 12, 20]))
    weights = {"ARRIVE": 6, "EVICT": draws.pick([0, 1, 3]), "RUN": draws.pick([0, 1, 3])}
    for _ in range(draws.between(0, 3 * model.most_rows)):
        word = draws.weighted(weights)
        source = draws.below(2)
        if word == "ARRIVE":
            model.follow((word, source, *lap_of_row(draws, source, laps, lone_share)), 512)
        else:
            model.follow((word, source, partition_of(draws, model, laps)), 512)
    return model


def with_full_list(draws, laps):
    """A model with 31 or 32 entries in one list."""
    model = Model(draws.pick([1, 2]), draws.pick([3, 8, 64]), 64)
    source = draws.below(2)
    lap = draws.pick(laps)
    partition = model.partition_of(lap)
    model.follow(("ARRIVE", source, *lap), 512)
    model.follow(("EVICT", source, partition), 512)
    for _ in range(MOST_ENTRIES - draws.below(2)):
        model.follow(("ARRIVE", draws.below(2), *draws.pick(laps)), 512)
        model.follow(("RUN", source, partition), 512)
    if draws.chance(0.6):
        model.follow(("ARRIVE", draws.below(2), *draws.pick(laps)), 512)
    return model


def with_full_memory(draws, feeds):
    """A model whose memory is full, now and then but for one row. The source with
    the fewer laps most often has half of the rows, or one fewer or more than the
    other."""
    crowded = A if len(feeds[A]) < len(feeds[B]) else B
    memory = draws.pick([1, 2, 3, 4, 5, 5, 6, 7, 7, 8, 9])
    half = memory // 2
    share = draws.pick([half, half, half, memory - half, draws.between(0, memory)])
    rows = [crowded] * share + [1 - crowded] * (memory - share)
    del rows[memory - draws.pick([0, 0, 0, 0, 1]):]
    model = Model(draws.pick([2, 3, 4, 5, 16]), memory, draws.pick([10, 20]))
    for at, source in enumerate(rows, draws.below(6)):
        model.follow(("ARRIVE", source, *feeds[source][at % len(feeds[source])]), 512)
    return model


def closed_for(draws, model, kind):
    """Closes the sources that the call wants closed, most often; drains and lone
    calls may have gone before."""
    if kind in (DRAIN, LONE):
        model.closed = [draws.chance(0.95), draws.chance(0.95)]
        left = model.left()
        if left and all(model.closed) and draws.chance(0.5):
            model.drain(draws.between(1, len(left)))
        for source in (A, B):
            left = model.lone_left(source)
            if all(model.closed) and draws.chance(0.4):
                model.list_lone(source, draws.between(1, max(len(left) // 2, 1)))
    else:
        model.closed = [draws.chance(0.1), draws.chance(0.1)]


def promising_run(model):
    """The portion whose run would fill its list or write the most pairs."""
    portions = [(source, partition) for source in (A, B) for partition in range(model.partitions)]
    return max(portions, key=lambda at: (len(model.lists[at[0]][at[1]]) >= MOST_ENTRIES - 1,
                                         not model.run_idle(*at), model.run_pairs(*at)))


def arguments_for(draws, model, kind, laps):
    source = draws.below(2)
    if kind == OPEN and draws.chance(0.5):
        return four(model.partitions, model.memory, model.most_rows)
    if kind == OPEN:
        return four(draws.pick([0, 1, 2, 3, 15, 16, 17, MOST_WORD]),
                    draws.pick([0, 1, 2, 1023, 1024, 1025, MOST_WORD]),
                    draws.pick([0, 1, model.most_rows, model.most_rows + 1, 4096, 4097, MOST_WORD]))
    if kind == ARRIVE:
        if draws.chance(0.15):
            return four(source, *draws.pick(EDGE_LAPS))
        lap = draws.pick(laps)
        if draws.chance(0.1):
            lap = lap._replace(heat=draws.pick(BAD_HEATS))
        return four(source, *lap)
    if kind in (EVICT, RUN):
        if draws.chance(0.1):
            return four(source, draws.pick([model.partitions, 16, 32, MOST_WORD]))
        if kind == RUN and draws.chance(0.7):
            return four(*promising_run(model))
        return four(source, partition_of(draws, model, laps))
    return four(source) if kind in (CLOSE, LONE) else four()


def needed(model, kind, arguments):
    """How many pairs or lone rows the call would write, given room."""
    if kind == ARRIVE:
        return model.arrival_pairs(arguments[0], NamedLap(*arguments[1:]))
    if kind == RUN and arguments[1] < model.partitions:
        return model.run_pairs(*arguments[:2])
    if kind == DRAIN:
        return len(model.left())
    if kind == LONE:
        return len(model.lone_left(arguments[0]))
    return 0


def output_for(draws, kind, count):
    """An output whose room is 0, 1, exact, one too few, one too many or ample."""
    room = draws.pick([0, 1, count, count, count - 1, count - 1, count + 1, 8, 30])
    words = 2 if kind == LONE else 3
    length = words * max(room, 0) + draws.below(words)
    return [draws.below(100) for _ in range(min(length, MOST_LENGTHS[OUTPUT]))]


def built_call(draws):
    laps = draw_laps(draws)
    kind = draws.weighted({OPEN: 1, ARRIVE: 7, EVICT: 2, RUN: 10, CLOSE: 1, DRAIN: 8, LONE: 4})
    lone_share = draws.pick([0.2, 0.5, 0.8] if kind == LONE else [0, 0, 0, 0.2])
    if kind == ARRIVE and draws.chance(0.6):
        feeds = uneven_feeds(draws)
        laps = feeds[A] + feeds[B]
        model = with_full_memory(draws, feeds)
    else:
        model = simulated(draws, laps, lone_share)
    closed_for(draws, model, kind)
    arguments = arguments_for(draws, model, kind, laps)
    record, sheets = words_of(draws, model)
    output = output_for(draws, kind, needed(model, kind, arguments))
    return Call(kind, arguments, record, [*sheets, output])


# ---- changed states ----

def change_field(draws, call):
    record = call.record
    area = min(record[ROWS_A], 4096) * min(record[ROWS_B], 4096)
    beyond = {
        PARTITIONS: [0, 1, 2, 16, 17], MEMORY: [0, 1, 2, 1024, 1025],
        MOST_ROWS: [0, 1, record[MOST_ROWS] - 1, record[MOST_ROWS] + 1, 4096, 4097],
        CLOCK: [0, record[CLOCK] + 1, 16383, 16384, 16385],
        ROWS_A: [0, record[MOST_ROWS] - 1, record[MOST_ROWS], record[MOST_ROWS] + 1],
        ROWS_B: [0, record[MOST_ROWS] - 1, record[MOST_ROWS], record[MOST_ROWS] + 1],
        CLOSED_A: [1 - record[CLOSED_A]], CLOSED_B: [1 - record[CLOSED_B]],
        COUNTS: [0, 1, 31, 32, 33], POSITION: [0, area // 2, area - 1, area, area + 1],
        LONE_A: [0, 1, record[ROWS_A] - 1, record[ROWS_A], record[ROWS_A] + 1],
        LONE_B: [0, 1, record[ROWS_B] - 1, record[ROWS_B], record[ROWS_B] + 1],
    }
    field = draws.pick(list(beyond))
    value = draws.pick(beyond[field])
    if field not in (CLOSED_A, CLOSED_B) and draws.chance(0.1):
        value = draws.pick([MOST_WORD, 2147483648, 65536])
    if field == COUNTS:
        # The lists in use, the last of them, and the first place that is no list.
        lists = 2 * min(max(record[PARTITIONS], 1), 15)
        field += draws.pick([draws.below(lists), lists - 1, lists, draws.below(32)])
    record[field] = max(value, 0)


def change_word(draws, call):
    sheet = draws.pick([SHEET_A, SHEET_B, PROBE])
    words = call.sheets[sheet]
    used = 3 * call.record[ROWS_A + sheet] if sheet != PROBE else len(words)
    value = draws.pick([0, 1, call.record[CLOCK], call.record[CLOCK] + 1, draws.below(30),
                        7012, 1007012, 2007012, MOST_WORD, 2147483648])
    words[draws.below(min(max(used, 1), len(words)))] = value


def shorten(draws, call):
    """A sheet that is one word too short, or just long enough."""
    sheet = draws.pick([SHEET_A, SHEET_B, PROBE])
    least = 128 * call.record[PARTITIONS] if sheet == PROBE else 3 * call.record[MOST_ROWS]
    length = draws.pick([least - 1, least - 1, least, 0, 1])
    del call.sheets[sheet][length:]


def lap_with_key(key):
    """The lap with this key; out of range if there is none."""
    return NamedLap(key // 1000000, key // 1000 % 1000, key % 1000)


def wild_call(draws):
    """Small numbers everywhere, whether calls could have left them or not."""
    kind = draws.weighted({ARRIVE: 3, EVICT: 1, RUN: 5, CLOSE: 0.3, DRAIN: 5, LONE: 2})
    partitions = draws.pick([1, 2, 3] if kind == ARRIVE else [1, 1, 1, 2, 3])
    most_rows = draws.between(1, 7)
    keys = draws.pick([[1007012], [1007012, 2007012], [1001000, 1001001, 1002000, 0],
                       [7012, 1007012], [0, 1, 9999999, MOST_WORD], [1007012, 1007013, 1007014]])
    if kind == LONE and draws.chance(0.5):
        keys = [*range(1007010, 1007015), *range(2007010, 2007015)]
    stamps = draws.pick([4, 8, 14])

    def stamp():
        return draws.pick([MOST_WORD, 2147483648]) if draws.chance(0.02) else draws.below(stamps)

    def row():
        return [draws.pick(keys), stamp(), draws.pick([0, stamp()])]

    rows = [draws.between(0, most_rows), draws.between(0, most_rows)]
    closed = [int(draws.chance(0.95 if kind in (DRAIN, LONE) else 0.1)) for _ in (A, B)]
    most_entries = draws.pick([0, 1, 3, 32])
    record = [partitions, draws.pick([1, 2, 4, 8, 1024]), most_rows, draws.below(stamps + 2), *rows,
              *closed, *[draws.between(0, most_entries) for _ in range(32)],
              draws.between(0, rows[A] * rows[B]) if draws.chance(0.4) else 0,
              *[draws.between(0, rows[source]) if draws.chance(0.4) else 0 for source in (A, B)]]
    if draws.chance(0.1):
        record[CLOCK] = draws.between(16380, 16384)
    sheets = [[word for _ in range(most_rows) for word in row()] for _ in (A, B)]
    sheets.append([stamp() for _ in range(128 * partitions)])
    sheets.append([draws.below(50) for _ in range(draws.pick([0, 2, 3, 6, 12, 30, 60, 150]))])
    key = draws.pick(keys)
    if kind == ARRIVE:
        lap = lap_with_key(key)
        arguments = four(draws.below(2), *(lap if lap.in_range() else (1, 7, 12)))
    elif kind in (EVICT, RUN):
        arguments = four(draws.below(2), key % partitions)
    else:
        arguments = four(draws.below(2)) if kind in (CLOSE, LONE) else four()
    return Call(kind, arguments, record, sheets)


def random_call(draws):
    """Numbers of any size everywhere."""
    def number():
        return draws.pick([0, 1, 2, 3, draws.below(40), draws.below(5000), draws.below(MOST_WORD)])

    kind = draws.below(7)
    arguments = [number() for _ in range(ARGUMENTS)]
    if kind not in (OPEN, DRAIN):
        arguments[0] = draws.below(2)
    record = [number() for _ in range(RECORD_NUMBERS)]
    record[CLOSED_A] %= 2
    record[CLOSED_B] %= 2
    sheets = [[number() for _ in range(min(draws.pick([0, 3, 30, 300]), most))]
              for most in MOST_LENGTHS]
    return Call(kind, arguments, record, sheets)


def large_call(draws):
    """Sheets of the largest lengths."""
    partitions = draws.pick([1, 7, 16])
    heats = draws.pick([1, 2, 9])
    spread = draws.pick([40, 400, 4000])
    rows = [draws.pick([4095, 4096]), draws.pick([20, 4095])]
    memory_share = draws.pick([0.01, 0.2])
    kind = draws.pick([ARRIVE, EVICT, RUN, DRAIN, LONE])

    def draw_key():
        return 1000000 * draws.between(1, heats) + 1000 + draws.below(spread)

    sheets = []
    for _ in (A, B):
        words = []
        for _ in range(4096):
            dts = 0 if draws.chance(memory_share) else 1 + draws.below(16384)
            words += [draw_key(), 1 + draws.below(16384), dts]
        sheets.append(words)
    sheets.append([draws.below(16384) for _ in range(2048)])
    sheets.append([0] * draws.pick([0, 3, 1535, 1536]))
    closed = int(kind in (DRAIN, LONE))
    record = [partitions, draws.pick([100, 1024]), 4096, draws.pick([12000, 16384]), *rows,
              closed, closed, *[draws.pick([0, 5, 31])] * 32,
              rows[A] * rows[B] - draws.below(min(rows[A] * rows[B], 400000)),
              *[draws.pick([0, draws.below(count)]) for count in rows]]
    key = draw_key()
    arguments = four(draws.below(2), *lap_with_key(key))
    if kind in (EVICT, RUN):
        arguments = four(draws.below(2), key % partitions)
    elif kind in (DRAIN, LONE):
        arguments = four(draws.below(2)) if kind == LONE else four()
    return Call(kind, arguments, record, sheets)


# ---- inputs of another form ----

def spoilt(draws, call):
    """The input with its form broken, or with more after its end."""
    tokens = [b"%d" % token for token in call.tokens()]
    at = draws.pick([draws.below(RECORD), draws.below(RECORD + 8), draws.below(WORDS),
                     draws.below(len(tokens)), len(tokens) - 1])
    how = draws.weighted({"token": 4, "few": 2, "kind": 1, "source": 1, "closed": 1, "length": 2,
                          "blanks": 2, "zeros": 1, "more": 2, "cut": 1})
    if how == "token":
        tokens[at] = draws.pick([b"x", b"-1", b"+1", b"1.", b"0x1", b"4294967296", b"9999999999",
                                 b"42949672950", b"18446744073709551617", b"1\r", b"1\0", b"\xff"])
    elif how == "few":
        del tokens[draws.pick([0, 1, at, len(tokens) - 1]):]
    elif how == "kind":
        tokens[0] = draws.pick([b"7", b"8", b"4294967295"])
    elif how == "source":
        tokens[0] = draws.pick([b"1", b"2", b"3", b"4", b"6"])
        tokens[1] = draws.pick([b"2", b"4294967295"])
    elif how == "closed":
        tokens[RECORD + draws.pick([CLOSED_A, CLOSED_B])] = draws.pick([b"2", b"4294967295"])
    elif how == "length":
        sheet = draws.below(4)
        beyond = MOST_LENGTHS[sheet] + 1
        tokens[LENGTHS + sheet] = draws.pick([b"%d" % beyond, b"4294967295"])
        tokens += [b"0"] * beyond
    elif how == "zeros":
        tokens[at] = tokens[at].rjust(draws.pick([10, 11, 30]), b"0")
    elif how == "more":
        tokens += draws.pick([[b"5"], [b"x"], [b"99999999999"], [b"1", b"\0"]])
    elif how == "cut":
        tokens[at] += b"\n"
    parted = draws.pick([b"\t", b"  ", b" \t "]) if how == "blanks" else b" "
    return parted.join(tokens) + draws.pick([b"", b" ", b"\t "])


class CallCase:
    """The input of one case. A case that is alone needs a run of its own: it
    has no LF at its end. The call itself is None for an input that is not its
    plain text."""

    def __init__(self, seed, number):
        draws = Draws("call", seed, number)
        kind = draws.weighted({"built": 40, "field": 14, "word": 14, "short": 5, "wild": 30,
                               "random": 1, "large": 0.3, "spoilt": 6})
        if kind == "wild":
            self.call = wild_call(draws)
        elif kind == "random":
            self.call = random_call(draws)
        elif kind == "large":
            self.call = large_call(draws)
        else:
            self.call = built_call(draws)
        if kind == "field":
            change_field(draws, self.call)
        elif kind == "word":
            change_word(draws, self.call)
        elif kind == "short":
            shorten(draws, self.call)
        self.alone = kind == "spoilt" and draws.chance(0.2)
        if kind == "spoilt":
            self.text = spoilt(draws, self.call) + (b"" if self.alone else b"\n")
            self.call = None
        else:
            self.text = self.call.text()
