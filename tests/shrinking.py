"""Finding smaller cases that still fail, with bounded effort."""

import re
import time

MOST_RUNS = 400
MOST_SECONDS = 20


class Effort:
    """A test for failure that gives up after so many runs or seconds: from
    then on nothing fails, so that no smaller case is taken any more."""

    def __init__(self, fails):
        self._fails = fails
        self._runs = 0
        self._end = time.monotonic() + MOST_SECONDS

    def spent(self):
        return self._runs >= MOST_RUNS or time.monotonic() > self._end

    def fails(self, case):
        if self.spent():
            return False
        self._runs += 1
        return self._fails(case)


def drop_parts(parts, fails):
    """Fewer parts that still fail: drops ever smaller stretches."""
    size = max(len(parts) // 2, 1)
    while size >= 1:
        at = 0
        while at < len(parts):
            fewer = parts[:at] + parts[at + size:]
            if fails(fewer):
                parts = fewer
            else:
                at += size
        size //= 2
    return parts


# ---- sessions ----

def simpler_lines(line):
    """Lines to try in place of a line."""
    plain = b",".join(field.strip(b" \t") for field in line.split(b","))
    if plain != line:
        yield plain
    for number in re.finditer(rb"[0-9]+", line):
        value = int(number.group())
        for smaller in (0, 1, value // 2, value - 1):
            if 0 <= smaller < value:
                yield line[:number.start()] + b"%d" % smaller + line[number.end():]


def simplify_lines(lines, fails):
    for at in range(len(lines)):
        changed = True
        while changed:
            changed = False
            for simpler in simpler_lines(lines[at]):
                tried = lines[:at] + [simpler] + lines[at + 1:]
                if fails(tried):
                    lines = tried
                    changed = True
                    break
    return lines


def smaller_session(text, fails):
    """The smallest input found for which fails(text) still holds."""
    end = b"\n" if text.endswith(b"\n") else b""
    lines = text.removesuffix(b"\n").split(b"\n")
    effort = Effort(lambda tried: fails(b"\n".join(tried) + end))
    lines = drop_parts(lines, effort.fails)
    lines = simplify_lines(lines, effort.fails)
    return b"\n".join(drop_parts(lines, effort.fails)) + end


# ---- calls ----

def with_number(call, part, at, value):
    """A copy of the call with one of its numbers changed."""
    changed = call.copy()
    getattr(changed, part)[at] = value
    return changed


def with_sheet(call, at, words):
    changed = call.copy()
    changed.sheets[at] = words
    return changed


def cut_sheets(call, fails):
    for at in range(len(call.sheets)):
        cut = max(len(call.sheets[at]) // 2, 1)
        while cut >= 1:
            shorter = with_sheet(call, at, call.sheets[at][:-cut])
            if call.sheets[at] and fails(shorter):
                call = shorter
            else:
                cut //= 2
    return call


def lower_numbers(call, fails):
    """The last numbers first: positions are bounded by rows, and rows by N."""
    for part in ("arguments", "record"):
        for at in reversed(range(len(getattr(call, part)))):
            value = getattr(call, part)[at]
            for smaller in (0, 1, value // 2, value - 1):
                if 0 <= smaller < value and fails(with_number(call, part, at, smaller)):
                    call = with_number(call, part, at, smaller)
                    break
    return call


def clear_words(call, fails):
    for at in range(len(call.sheets)):
        size = max(len(call.sheets[at]), 1)
        while size >= 1:
            for start in range(0, len(call.sheets[at]), size):
                words = call.sheets[at]
                if any(words[start:start + size]):
                    zeros = [0] * len(words[start:start + size])
                    cleared = with_sheet(call, at, words[:start] + zeros + words[start + size:])
                    if fails(cleared):
                        call = cleared
            size //= 2
    return call


def smaller_call(call, fails):
    """The smallest call found for which fails(call) still holds."""
    effort = Effort(fails)
    for simplify in (clear_words, lower_numbers, cut_sheets):
        call = simplify(call, effort.fails)
    return call
