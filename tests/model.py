"""A model of the box on Python lists.

It steers the drawing of cases: which rooms are exact, when a list is full,
how many drains are left, which rows are lone. No program is judged by it, but
for what a named lap is."""

from collections import Counter
from typing import NamedTuple

A, B = 0, 1
MOST_ENTRIES = 32


class NamedLap(NamedTuple):
    """A lap as a line names it, in range or not. Rows match by it: its key is
    for the sheets, the outputs and the partitions."""

    heat: int
    car: int
    lap: int

    def key(self):
        return self.heat * 1000000 + self.car * 1000 + self.lap

    def in_range(self):
        return 1 <= self.heat <= 9 and 1 <= self.car <= 999 and 0 <= self.lap <= 999


class Model:
    def __init__(self, partitions, memory, most_rows):
        self.partitions = partitions
        self.memory = memory
        self.most_rows = most_rows
        self.clock = 0
        self.rows = ([], [])  # of [named lap, ATS, DTS]
        self.closed = [False, False]
        self.lists = [[[] for _ in range(partitions)] for _ in (A, B)]  # of (DTS-last, ProbeTS)
        self.position = 0
        self.lone_positions = [0, 0]

    def partition_of(self, lap):
        return lap.key() % self.partitions

    def portion(self, source, partition):
        return [row for row in self.rows[source] if self.partition_of(row[0]) == partition]

    def flush(self, source, partition):
        for row in self.portion(source, partition):
            if row[2] == 0:
                self.clock += 1
                row[2] = self.clock

    def victim(self):
        """The portion that an arrival would flush first, or None: from the source
        with more rows in memory, A at a tie, the largest one, the lower
        partition at a tie."""
        laps = [[lap for lap, _, dts in rows if dts == 0] for rows in self.rows]
        if len(laps[A]) + len(laps[B]) < self.memory:
            return None
        source = B if len(laps[B]) > len(laps[A]) else A
        sizes = Counter(map(self.partition_of, laps[source]))
        return source, max(range(self.partitions), key=lambda part: sizes[part])

    def arrival_pairs(self, source, lap):
        """How many pairs an arrival would write."""
        if self.victim() == (1 - source, self.partition_of(lap)):
            return 0
        return sum(row[0] == lap and row[2] == 0 for row in self.rows[1 - source])

    def arrive(self, source, lap):
        victim = self.victim()
        if victim:
            self.flush(*victim)
        self.clock += 1
        self.rows[source].append([lap, self.clock, 0])

    def used_by_run(self, source, spooled, probed):
        lap, _, dts = spooled
        return dts != 0 and any(
            dts <= dts_last and probed[1] <= at and (probed[2] == 0 or at < probed[2])
            for dts_last, at in self.lists[source][self.partition_of(lap)])

    def done_before(self, a, b):
        together = (b[2] == 0 or a[1] < b[2]) and (a[2] == 0 or b[1] < a[2])
        return together or self.used_by_run(A, a, b) or self.used_by_run(B, b, a)

    def run_idle(self, source, partition):
        """Whether a run would have nothing to do."""
        entries = self.lists[source][partition]
        spooled = any(row[2] for row in self.portion(source, partition))
        return not spooled or bool(entries and entries[-1][1] == self.clock)

    def run_pairs(self, source, partition):
        """How many pairs a run would write that has something to do."""
        count = 0
        for own in self.portion(source, partition):
            for other in self.rows[1 - source]:
                if own[2] and not other[2] and own[0] == other[0]:
                    a, b = (own, other) if source == A else (other, own)
                    count += not self.done_before(a, b)
        return count

    def run(self, source, partition):
        largest = max(row[2] for row in self.portion(source, partition))
        self.lists[source][partition].append((largest, self.clock))

    def left(self):
        """The positions that drains have still to write."""
        width = len(self.rows[B])
        return [a * width + b
                for a, row_a in enumerate(self.rows[A])
                for b, row_b in enumerate(self.rows[B])
                if row_a[0] == row_b[0] and a * width + b >= self.position
                and not self.done_before(row_a, row_b)]

    def drain(self, room):
        left = self.left()
        if len(left) > room:
            self.position = left[room - 1] + 1
        else:
            self.position = len(self.rows[A]) * len(self.rows[B])

    def lone_left(self, source):
        """The rows that lone calls have still to list."""
        others = {row[0] for row in self.rows[1 - source]}
        return [number for number, row in enumerate(self.rows[source])
                if number >= self.lone_positions[source] and row[0] not in others]

    def list_lone(self, source, room):
        left = self.lone_left(source)
        if len(left) > room:
            self.lone_positions[source] = left[room - 1] + 1
        else:
            self.lone_positions[source] = len(self.rows[source])

    def follow(self, command, room):
        """Does what an accepted call does; a refused one does nothing."""
        word, *numbers = command
        if word == "ARRIVE":
            source, lap = numbers[0], NamedLap(*numbers[1:])
            good = lap.in_range() and not self.closed[source]
            if good and len(self.rows[source]) < self.most_rows \
                    and self.arrival_pairs(source, lap) <= room:
                self.arrive(source, lap)
        elif word == "CLOSE":
            self.closed[numbers[0]] = True
        elif word == "DRAIN":
            if all(self.closed) and numbers[0] > 0:
                self.drain(numbers[0])
        elif word == "LONE":
            if all(self.closed) and numbers[1] > 0:
                self.list_lone(*numbers)
        elif numbers[1] < self.partitions and not all(self.closed):
            if word == "EVICT":
                self.flush(*numbers)
            elif not self.run_idle(*numbers) \
                    and len(self.lists[numbers[0]][numbers[1]]) < MOST_ENTRIES \
                    and self.run_pairs(*numbers) <= room:
                self.run(*numbers)
