#!/usr/bin/env python3
"""The second judge: what docs/PROTOCOL.md and docs/FORMATS.md say, in one file.

    reference/vmecheck.py < DUMP                                 the verdict, by the built-in binding
    reference/vmecheck.py check [--block N] [--workers N] [--skew T] BINDING DUMP
    reference/vmecheck.py list [--times] [--block N] [--workers N] [--skew T] BINDING DUMP
    reference/vmecheck.py annotate [--skew T] BINDING DUMP
    reference/vmecheck.py confirm [--skew T] BINDING DUMP LISTING
    reference/vmecheck.py audit [--transfers N] [--allow RULE[=LINE]].. [--stop N] [--skew T] [--workers N] [--quiet]
                                [--junit FILE] BINDING DUMP..

It answers what the proved program answers, on standard output and by its status, and shares nothing with it: it was
written by the two pages alone, keeps the whole recording, and looks each thing up by its definition. Nothing of it is
proved. It reads as docs/PROTOCOL.md does: the lines, what is judged, the rules in the order of their list, the verdict.
"""
import bisect
import os
import re
import sys

HELP = """The second judge of vmecheck, in Python: nothing of it is proved, and it has these commands alone.

Usage: vmecheck < DUMP                                      the verdict, by a binding of its own
       vmecheck check [--block N] [--workers N] [--skew T] BINDING DUMP
                                                            the verdict
       vmecheck list [--times] [--block N] [--workers N] [--skew T] BINDING DUMP
                                                            the listing
       vmecheck annotate [--skew T] BINDING DUMP            the dump, with its cycles and transfers
       vmecheck confirm [--skew T] BINDING DUMP LISTING     whether a listing is true
       vmecheck audit [--transfers N] [--allow RULE[=LINE]].. [--stop N] [--skew T] [--workers N] [--quiet]
                      [--junit FILE] BINDING DUMP..         each break of each dump, and what was covered

Examples:
  vmecheck check examples/backplane.bind examples/address_changed.vcd
  zcat bus.vcd.gz | vmecheck check bus.bind /dev/stdin

Exit status:
  0  conforming or confirmed, or the text was written
  1  broken, or not confirmed
  2  unreadable, or never idle, where an audit has 6
  3  an input is refused, or the words are wrong
  4  want of memory
  5  standard output or a file can't be written
  6  nothing is broken or unreadable in an audit, but not enough is covered; so never idle too
"""
LONGEST = 268_435_456
LONGEST_LISTING = 137_438_953_472
LIMIT = (1 << 32) - 1
LATEST = (1 << 64) - 1


class Fault(Exception):
    """A fault of an input: the text that tells it."""


class CannotWrite(Exception):
    """Standard output can't be written."""


# ---- the lines

AS, DS0, DS1, DTACK, BERR, IACK, LWORD, WRITE, BBSY, SYSRESET = 0, 1, 2, 3, 4, 5, 12, 13, 45, 191
STROBES, ANSWERS = (DS0, DS1), (DTACK, BERR)
AM, DATA = range(6, 12), range(159, 191)
NAMES = (["AS", "DS0", "DS1", "DTACK", "BERR", "IACK"] + [f"AM{n}" for n in range(6)] + ["LWORD", "WRITE"]
         + [f"A{n:02}" for n in range(1, 32)] + ["BBSY"] + [f"BR{n}" for n in range(4)]
         + [f"BG{n}.{k}" for n in range(4) for k in range(22)] + [f"IA.{k}" for k in range(1, 22)]
         + [f"D{n:02}" for n in range(32)] + ["SYSRESET"])
NUMBERS = {name: number for number, name in enumerate(NAMES)}
LOW, HIGH, UNKNOWN = b"01x"


def address(n):
    return 13 + n


def request(n):
    return 46 + n


def grant(n, k):
    return 50 + 22 * n + k


def acknowledge(k):
    return 137 + k if k else IACK


def is_net(line):
    return 50 <= line < 159


def is_grant(line):
    return 50 <= line < 138


def nets(slots):
    """The nets of a backplane, each with the line at the input of the slot that drives it, if a slot does."""
    chains = [(grant(n, k), grant(n, k - 1) if k else None) for n in range(4) for k in range(slots + 1)]
    return chains + [(acknowledge(k), acknowledge(k - 1)) for k in range(1, slots + 1)]


def lines(slots):
    """The lines of a backplane."""
    own = {net for net, _ in nets(slots)}
    return [line for line in range(len(NAMES)) if not is_net(line) or line in own]


# ---- the dump (docs/FORMATS.md)

def tokens_of(text):
    """The tokens with their lines."""
    line, last = 1, 0
    for found in re.finditer(rb"[^ \t\r\n]+", text):
        line += text.count(b"\n", last, found.start())
        last = found.start()
        yield found.group(), line


def number(digits, most):
    """The number, or None where it is greater than the most."""
    digits = digits.lstrip(b"0") or b"0"
    return None if len(digits) > 20 or int(digits) > most else int(digits)


class Variable:
    """A variable of a dump: its path by scopes and name, its index, how wide it is, and its code."""

    def __init__(self, scopes, name, index, size, code):
        self.scopes, self.name, self.index, self.size, self.code = scopes, name, index, size, code
        self.length = sum(map(len, scopes)) + len(scopes) + len(name)

    def has_path(self, path):
        return self.length == len(path) and b".".join((*self.scopes, self.name)) == path


def dump_fault(kind, line):
    raise Fault(f"dump line {line}: {kind}")


class Body:
    """What is read of a body: its instants, each with the last value of each code that changes there, and the time."""

    def __init__(self):
        self.instants, self.time = [], 0


def read_dump(text):
    """The variables of a dump, and its instants."""
    tokens, body = tokens_of(text), Body()
    variables, sizes = read_header(text, tokens)
    read_body(tokens, sizes, body)
    return variables, body.instants


def read_header(text, tokens):
    """The variables, and the size of each code."""
    variables, sizes, scopes = [], {}, []
    for token, line in tokens:
        if not token.startswith(b"$") or token == b"$end":
            dump_fault("BadToken", line)
        words = []
        for word, _ in tokens:
            if word == b"$end":
                break
            words.append(word)
        else:
            dump_fault("UnfinishedSection", line)
        if token == b"$enddefinitions":
            return variables, sizes
        if token == b"$scope":
            scopes.append(b"".join(words[1:]))
        elif token == b"$upscope":
            if not scopes:
                dump_fault("ScopeUnderflow", line)
            scopes.pop()
        elif token == b"$var":
            if len(words) < 4 or not words[1].isdigit():
                dump_fault("BadVar", line)
            size, code, name, index = number(words[1], 65536), words[2], b"".join(words[3:]), None
            if size is None:
                dump_fault("NumberTooLarge", line)
            if not all(0x21 <= byte <= 0x7E for byte in code):
                dump_fault("BadVar", line)
            if found := re.fullmatch(rb"(.+)\[([0-9]{1,9})(?::([0-9]{1,9}))?\]", name, re.DOTALL):
                first = int(found[2])
                last = int(found[3]) if found[3] else first
                if abs(first - last) + 1 == size:
                    name, index = found[1], (first, last)
            if sizes.setdefault(code, size) != size:
                dump_fault("SizeConflict", line)
            variables.append(Variable(tuple(scope for scope in scopes if scope), name, index, size, code))
    return dump_fault("NoEndDefinitions", text.count(b"\n") + 1)


def read_body(tokens, sizes, body):
    """Reads the body, as far as it has no fault."""
    values, bracket = {}, None
    for token, line in tokens:
        first, rest = token[:1], token[1:]
        if first == b"#":
            if not rest.isdigit():
                dump_fault("BadToken", line)
            later = number(rest, LATEST)
            if later is None:
                dump_fault("NumberTooLarge", line)
            if later < body.time:
                dump_fault("TimeBackwards", line)
            if later > body.time and values:
                body.instants.append((body.time, values))
                values = {}
            body.time = later
        elif first in (b"0", b"1", b"x", b"X", b"z", b"Z", b"b", b"B", b"r", b"R", b"s"):
            is_scalar, is_vector = first in b"01xXzZ", first in b"bB"
            if is_scalar and not rest or is_vector and not re.fullmatch(rb"[01xXzZ]+", rest):
                dump_fault("BadToken", line)
            code = rest if is_scalar else next(tokens, (None, 0))[0]
            if code is None:
                dump_fault("UnfinishedSection", line)
            if code not in sizes:
                dump_fault("UndeclaredCode", line)
            if is_scalar or is_vector:
                digits = (first if is_scalar else rest).lower()
                if len(digits) > sizes[code]:
                    dump_fault("TooWide", line)
                values[code] = digits.rjust(sizes[code], b"0" if digits[:1] in b"01" else digits[:1])
        elif token == b"$comment":
            if all(word != b"$end" for word, _ in tokens):
                dump_fault("UnfinishedSection", line)
        elif token in (b"$dumpvars", b"$dumpall", b"$dumpon", b"$dumpoff") and bracket is None:
            bracket = line
        elif token == b"$end" and bracket is not None:
            bracket = None
        else:
            dump_fault("BadToken", line)
    if bracket is not None:
        dump_fault("UnfinishedSection", bracket)
    if values:
        body.instants.append((body.time, values))


# ---- the binding (docs/FORMATS.md)

BUILT_IN = b"""slots 1
AS = bus.AS
DS0 = bus.DS0
DS1 = bus.DS1
DTACK = bus.DTACK
BERR = bus.BERR
IACK = bus.IACK
AM0 = 1
AM1 = 0
AM2 = 1
AM3 = 1
AM4 = 1
AM5 = 1
LWORD = 1
WRITE = 1
A = 1
BBSY = 0
BR = 1
BG0 = 1
BG1 = 1
BG2 = 1
BG3 = 1
IA = 1
"""


def groups(slots):
    """Each name of a binding with its lines."""
    named = {NAMES[line]: [line] for line in lines(slots)}
    named |= {"AM": [*reversed(AM)], "A": [address(n) for n in range(31, 0, -1)],
              "BR": [request(n) for n in range(3, -1, -1)], "IA": [acknowledge(k) for k in range(slots, 0, -1)],
              "D": [*reversed(DATA)]}
    return named | {f"BG{n}": [grant(n, k) for k in range(slots, -1, -1)] for n in range(4)}


def read_binding(text):
    """The slots, and for each line of the binding its line of text, the lines that it binds, and its source."""
    def fault(kind, line):
        raise Fault(f"binding line {line}: {kind}")

    rows = text.split(b"\n")
    ended = [row[:-1] if row.endswith(b"\r") else row for row in rows[:-1]] + rows[-1:]
    slots, named, bound, parts = None, {}, set(), []
    for at, row in enumerate(ended, 1):
        words = [word for word in re.split(rb"[ \t]+", row) if word]
        if not words or words[0].startswith(b"#"):
            continue
        if slots is None:
            if len(words) != 2 or words[0] != b"slots" or not re.fullmatch(rb"[1-9]|1[0-9]|2[01]", words[1]):
                fault("SlotsFirst", at)
            slots = int(words[1])
            named = groups(slots)
            continue
        if len(words) != 3 or words[1] != b"=":
            fault("BadLine", at)
        these = named.get(words[0].decode("latin-1"))
        if these is None:
            fault("UnknownName", at)
        if not bound.isdisjoint(these):
            fault("NamedTwice", at)
        bound.update(these)
        parts.append((at, these, words[2]))
    if slots is None:
        fault("SlotsFirst", len(rows))
    # what may be left out is high for good
    left_out = [SYSRESET] * (SYSRESET not in bound) + [*DATA] * bound.isdisjoint(DATA)
    for line in lines(slots):
        if line not in bound and line not in left_out:
            fault(f"Unbound {NAMES[line]}", len(rows))
    return slots, parts + [(0, [line], b"1") for line in left_out]


def found(at, source, variables):
    """The code and the bits that a source names."""
    chosen = re.fullmatch(rb"(.*)\[([0-9]{1,9})(?::([0-9]{1,9}))?\]", source, re.DOTALL)
    path, candidates = chosen[1] if chosen else source, set()
    for variable in variables:
        if not variable.has_path(path):
            continue
        places = range(variable.size)
        if chosen:
            if variable.index is None:
                continue
            first, last = int(chosen[2]), int(chosen[3] or chosen[2])
            left, right = variable.index
            if not all(min(left, right) <= n <= max(left, right) for n in (first, last)):
                continue
            if first != last and (first > last) != (left > right):
                continue
            places = range(abs(first - left), abs(last - left) + 1)
        candidates.add((variable.code, tuple(places)))
    if len(candidates) != 1:
        raise Fault(f"binding line {at}: {'AmbiguousPath' if candidates else 'NoSuchPath'}")
    return candidates.pop()


class Recording:
    """A recording: the slots, and of each instant the levels, the lines that changed and the time; 0 is the opening."""

    def __init__(self, binding, dump):
        self.slots, parts = binding
        variables, instants = dump
        opening, bits = bytearray(b"x" * len(NAMES)), {}
        for at, these, source in parts:
            if source in (b"0", b"1", b"x"):
                for line in these:
                    opening[line] = source[0]
                continue
            code, places = found(at, source, variables)
            if len(places) != len(these):
                raise Fault(f"binding line {at}: WrongWidth")
            for line, bit in zip(these, places):
                bits.setdefault(code, []).append((line, bit))
        self.levels, self.changed, self.times = [bytes(opening)], [[]], [0]
        for time, values in instants:
            before = self.levels[-1]
            now = bytearray(before)
            for code, value in values.items():
                for line, bit in bits.get(code, ()):
                    level = value[bit]
                    now[line] = level if level != ord("z") else UNKNOWN if is_net(line) else HIGH
            if now != before:
                touched = {line for code in values for line, _ in bits.get(code, ())}
                self.levels.append(bytes(now))
                self.changed.append([line for line in sorted(touched) if before[line] != now[line]])
                self.times.append(time)

    def settle(self, skew):
        """Makes one step of each, and of those at most the skew later: of the lines that then have another level."""
        levels, changed, times, first = self.levels[:1], self.changed[:1], self.times[:1], 1
        while first < len(self.times):
            behind = bisect.bisect_right(self.times, self.times[first] + skew, first)
            before, now = self.levels[first - 1], self.levels[behind - 1]
            if now != before:
                touched = set().union(*self.changed[first:behind])
                levels.append(now)
                changed.append([line for line in sorted(touched) if before[line] != now[line]])
                times.append(self.times[first])
            first = behind
        self.levels, self.changed, self.times = levels, changed, times

    def between(self, first, behind):
        """The recording that opens with the levels of an instant, and has the steps after it before another."""
        part = Recording.__new__(Recording)
        part.slots = self.slots
        part.levels, part.times = self.levels[first:behind], self.times[first:behind]
        part.changed = [[], *self.changed[first + 1:behind]]
        return part


# ---- what is judged (docs/PROTOCOL.md, from here on)

EXTENDED, STANDARD, SHORT = (9, 10, 11, 13, 14, 15), (57, 58, 59, 61, 62, 63), (41, 45)
BLOCKS = (11, 15, 59, 63)


def highest_address(modifier):
    """The highest address line that an address modifier code makes meaningful, or 0."""
    return 31 if modifier in EXTENDED else 23 if modifier in STANDARD else 15 if modifier in SHORT else 0


def between(instants, first, last):
    """Those of some ascending instants that are in the range, both ends included."""
    return instants[bisect.bisect_left(instants, first):bisect.bisect_right(instants, last)]


def has_between(instants, first, last):
    at = bisect.bisect_left(instants, first)
    return at < len(instants) and instants[at] <= last


class Transfer:
    """A transfer: its start, its direction, and its answer, if it has one.

    It starts where both strobes were High and one is Low, and closes at the next instant at which both are High. Its
    answer is the first instant within it at which DTACK or BERR falls. It is a write if WRITE is Low at its start.
    """

    def __init__(self, start, write):
        self.start, self.write, self.answer = start, write, None

    def is_answered(self, j):
        """Whether it has its answer at j or before."""
        return self.answer is not None and self.answer <= j


class Stretch:
    """A stretch of a recording that is judged: the instants after its start and before its end.

    What is said of cycles, transfers, tenures and edges is said within it; what an earlier one left unfinished is no part
    of it. A cycle starts where AS falls and ends at the next rise of AS; a tenure goes by BBSY so.
    """

    def __init__(self, recording, start, end):
        self.at, self.changed, self.slots = recording.levels, recording.changed, recording.slots
        self.start, self.end = start, end
        self.source = dict(nets(self.slots))
        judged = range(start + 1, end)
        self.cycles = [j for j in judged if self.falls(AS, j)]
        self.cycle_ends = [j for j in judged if self.rises(AS, j)]
        self.strobe_rises = [j for j in judged if any(self.rises(line, j) for line in STROBES)]
        # the transfer that each instant is in, and the one that is answered there
        self.inside, self.answers, open_one = {}, {}, None
        for j in judged:
            if open_one is None and self.strobes_high(j - 1) and not self.strobes_high(j):
                open_one = Transfer(j, self.low(WRITE, j))
            if open_one is not None:
                self.inside[j] = open_one
                if open_one.answer is None and any(self.falls(line, j) for line in ANSWERS):
                    open_one.answer = j
                    self.answers[j] = open_one
                if self.strobes_high(j):
                    open_one = None
        self.answered = list(self.answers)

    # levels and edges

    def low(self, line, i):
        return self.at[i][line] == LOW

    def high(self, line, i):
        return self.at[i][line] == HIGH

    def unknown(self, line, i):
        return self.at[i][line] == UNKNOWN

    def falls(self, line, i):
        return self.at[i - 1][line] == HIGH and self.at[i][line] == LOW

    def rises(self, line, i):
        return self.at[i - 1][line] == LOW and self.at[i][line] == HIGH

    def low_near(self, line, j):
        return self.low(line, j - 1) or self.low(line, j)

    def high_near(self, line, j):
        return self.high(line, j - 1) or self.high(line, j)

    def strobes_high(self, i):
        return self.high(DS0, i) and self.high(DS1, i)

    def strobe_rose(self, first, last):
        """Whether a strobe rises at one of these instants, both included."""
        return has_between(self.strobe_rises, first, last)

    def last_before(self, shows, j):
        """The last instant before j at which this is shown, or else the start."""
        return next((i for i in range(j - 1, self.start, -1) if shows(i)), self.start)

    # transfers

    def starts(self, j):
        return j in self.inside and self.inside[j].start == j

    def goes_on(self, j):
        """The transfer that j is in, if that started before."""
        one = self.inside.get(j)
        return one if one is not None and one.start < j else None

    def waits(self, j):
        """The transfer that j is in, if that started before and has no answer so far."""
        one = self.goes_on(j)
        return one if one is not None and not one.is_answered(j) else None

    def falling_answers(self, j):
        return [line for line in ANSWERS if self.falls(line, j)]

    def moved(self, i):
        """The data lines that a transfer moves."""
        if self.high(LWORD, i):
            return [*DATA[:8]] * self.low(DS0, i) + [*DATA[8:16]] * self.low(DS1, i)
        return [*DATA] if all(self.low(line, i) for line in (LWORD, address(1), DS0, DS1)) else []

    # cycles

    def modifier(self, i):
        """The address modifier code, a line that isn't High being 0."""
        return sum(1 << n for n, line in enumerate(AM) if self.high(line, i))

    def kind(self, i):
        """The class of a cycle that starts here."""
        if self.low(IACK, i):
            return "I"
        if any(self.unknown(line, i) for line in AM) or not highest_address(self.modifier(i)):
            return "F"
        return "K" if self.modifier(i) in BLOCKS else "S"

    def needed(self, i):
        """The lines that a cycle needs which starts here."""
        if self.low(IACK, i):
            return [IACK, *map(address, (1, 2, 3))]
        highest = 0 if self.kind(i) == "F" else highest_address(self.modifier(i))
        return [IACK, *AM, LWORD, *map(address, range(1, highest + 1))]

    def cycle_of(self, r):
        """The start of the last cycle that starts at r or before."""
        at = bisect.bisect_right(self.cycles, r)
        return self.cycles[at - 1] if at else None

    def earlier_answers(self, j, kind):
        """The answers before j of the cycle to which the answer at j belongs, if that is of this class, else None."""
        i = self.cycle_of(j)
        if j not in self.answers or i is None or self.kind(i) != kind:
            return None
        return between(self.answered, i, j - 1)

    # tenures

    def granting(self, i):
        return any(self.low(grant(n, 0), i) for n in range(4))

    def arbiter_falls(self, j):
        """The levels whose grant the arbiter lets fall."""
        return [n for n in range(4) if self.falls(grant(n, 0), j)]

    def slot(self, j):
        """The level and the slot of the tenure that starts here."""
        taken = j if self.granting(j) else j - 1
        for n in range(4):
            if self.low(grant(n, 0), taken):
                passed = range(self.slots + 2)
                return n, next(k for k in passed if k > self.slots or not self.low(grant(n, k), taken))
        return None

    def edges_of_nets(self, edge, j, of_grants):
        """The nets that a slot drives which have this edge, each with the line at the slot's input."""
        return [(net, self.source[net]) for net in self.changed[j]
                if self.source.get(net) is not None and is_grant(net) == of_grants and edge(net, j)]


# ---- the rules, in the order of their table: the lines of which each is broken at a judged instant

def rule_u2(s, j):
    """AS falls and a needed line of this cycle is Unknown"""
    return [line for line in s.needed(j) if s.unknown(line, j)] if s.falls(AS, j) else []


def rule_u3(s, j):
    """A transfer starts and WRITE is Unknown"""
    return [WRITE] if s.starts(j) and s.unknown(WRITE, j) else []


def rule_u4(s, j):
    """A strobe falls in a write, no later than its answer, and a data line that the write moves is Unknown"""
    one = s.inside.get(j)
    if one is None or not one.write or one.is_answered(j - 1) or not any(s.falls(line, j) for line in STROBES):
        return []
    return [line for line in s.moved(j) if s.unknown(line, j)]


def rule_h1(s, j):
    """A transfer starts, and DTACK, or BERR, isn't High near"""
    return [line for line in ANSWERS if not s.high_near(line, j)] if s.starts(j) else []


def rule_h2(s, j):
    """A strobe rises inside a transfer, after its start, that has no answer so far"""
    return [line for line in STROBES if s.rises(line, j)] if s.waits(j) else []


def rule_h3(s, j):
    """A strobe falls inside a transfer, after its start and after its answer"""
    one = s.goes_on(j)
    return [line for line in STROBES if s.falls(line, j)] if one and one.is_answered(j - 1) else []


def rule_h4(s, j):
    """An answer line falls outside any transfer"""
    return s.falling_answers(j) if j not in s.inside else []


def rule_h5(s, j):
    """An answer line falls in a transfer after its answer, or both answer lines fall at the answer"""
    one = s.inside.get(j)
    fallen = s.falling_answers(j)
    return fallen if one and (one.is_answered(j - 1) or len(fallen) == 2) else []


def rule_h6(s, j):
    """An answer line rises, and no strobe rose at any instant from that line's last fall on, both instants included"""
    return [line for line in ANSWERS
            if s.rises(line, j) and not s.strobe_rose(s.last_before(lambda i: s.falls(line, i), j), j)]


def rule_h7(s, j):
    """AS rises while a transfer that started before is open and has no answer so far"""
    return [AS] if s.rises(AS, j) and s.waits(j) else []


def rule_h8(s, j):
    """A transfer is answered and AS isn't Low near"""
    return s.falling_answers(j) if j in s.answers and not s.low_near(AS, j) else []


def rule_s1(s, j):
    """A needed line has an edge after its cycle's start, before the cycle's end and before any transfer's answer since"""
    i = s.cycle_of(j - 1)
    if i is None or has_between(s.cycle_ends, i + 1, j) or has_between(s.answered, i, j):
        return []
    return [line for line in s.needed(i) if line in s.changed[j]]


def rule_s2(s, j):
    """WRITE has an edge after a transfer's start, before a strobe rises in it"""
    one = s.goes_on(j)
    return [WRITE] if one and WRITE in s.changed[j] and not s.strobe_rose(one.start + 1, j) else []


def rule_s3(s, j):
    """A data line that a write moves has an edge after its start, before its answer and before a strobe rises in it"""
    one = s.waits(j)
    if one is None or not one.write or s.strobe_rose(one.start + 1, j):
        return []
    return [line for line in s.moved(j - 1) if line in s.changed[j]]


def rule_c1(s, j):
    """A single cycle has a second answer and the two aren't a read, then a write; or a later answer"""
    before = s.earlier_answers(j, "S")
    pair = before and len(before) == 1 and not s.answers[before[0]].write and s.answers[j].write
    return s.falling_answers(j) if before and not pair else []


def rule_c2(s, j):
    """The direction of an answered transfer of a block cycle differs from the cycle's first"""
    before = s.earlier_answers(j, "K")
    return s.falling_answers(j) if before and s.answers[before[0]].write != s.answers[j].write else []


def rule_g1(s, j):
    """A slot's grant output falls and its input isn't Low near"""
    return [net for net, source in s.edges_of_nets(s.falls, j, True) if not s.low_near(source, j)]


def rule_g2(s, j):
    """A slot's grant output rises and its input isn't High near"""
    return [net for net, source in s.edges_of_nets(s.rises, j, True) if not s.high_near(source, j)]


def rule_g3(s, j):
    """Two of BG0.0 to BG3.0 are Low, and one of these falls"""
    granted = [n for n in range(4) if s.low(grant(n, 0), j)]
    return [grant(n, 0) for n in s.arbiter_falls(j)] if len(granted) > 1 else []


def rule_g4(s, j):
    """A grant net falls and BBSY isn't High near"""
    return [net for net in s.changed[j] if is_grant(net) and s.falls(net, j) and not s.high_near(BBSY, j)]


def rule_g5(s, j):
    """BGn.0 falls, and BRn is Low at no instant from the last fall of any BGx.0 before (or the start) on, both included"""
    return [grant(n, 0) for n in s.arbiter_falls(j)
            if not any(s.low(request(n), i) for i in range(s.last_before(s.arbiter_falls, j), j + 1))]


def rule_b1(s, j):
    """BBSY falls and no BGn.0 is Low near"""
    return [BBSY] if s.falls(BBSY, j) and not (s.granting(j - 1) or s.granting(j)) else []


def rule_b2(s, j):
    """BBSY falls, and no BGn.0 fell after the previous fall of BBSY (or the start)"""
    if not s.falls(BBSY, j):
        return []
    previous = s.last_before(lambda i: s.falls(BBSY, i), j)
    return [BBSY] if not any(map(s.arbiter_falls, range(previous + 1, j + 1))) else []


def rule_b3(s, j):
    """AS falls and BBSY isn't Low near"""
    return [AS] if s.falls(AS, j) and not s.low_near(BBSY, j) else []


def rule_b4(s, j):
    """BBSY falls and the grant came past the last slot"""
    taken = s.slot(j) if s.falls(BBSY, j) else None
    return [BBSY] if taken and taken[1] > s.slots else []


def rule_i1(s, j):
    """IA.k falls and the slot's input isn't Low near"""
    return [net for net, source in s.edges_of_nets(s.falls, j, False) if not s.low_near(source, j)]


def rule_i2(s, j):
    """IA.k falls, and AS isn't Low near or neither strobe is Low near"""
    is_right = s.low_near(AS, j) and any(s.low_near(line, j) for line in STROBES)
    return [net for net, _ in s.edges_of_nets(s.falls, j, False) if not is_right]


def rule_i3(s, j):
    """IA.k falls while AS stays Low, after a transfer of this cycle was answered by DTACK"""
    fallen, i = s.edges_of_nets(s.falls, j, False), s.cycle_of(j - 1)
    if not fallen or i is None or not (s.low(AS, j - 1) and s.low(AS, j)):
        return []
    return [net for net, _ in fallen] if any(s.falls(DTACK, r) for r in between(s.answered, i, j - 1)) else []


def rule_i4(s, j):
    """An interrupt acknowledge's transfer that is answered is a write"""
    return s.falling_answers(j) if s.earlier_answers(j, "I") is not None and s.answers[j].write else []


def rule_i5(s, j):
    """An interrupt acknowledge has a second answer"""
    return s.falling_answers(j) if s.earlier_answers(j, "I") else []


RULES = {name[5:].upper(): rule for name, rule in list(globals().items()) if name.startswith("rule_")}


def broken(stretch, j):
    """The first rule that is broken at a judged instant, and the least line of that."""
    for rule, lines_of_rule in RULES.items():
        if broken_on := lines_of_rule(stretch, j):
            return rule, min(broken_on)
    return None


# ---- the verdict

class Judged:
    """A recording, judged: the stretches, and its first break, if it has one: instant, rule, line.

    A stretch starts at an idle instant, at which every control line is known, and AS, strobes, answers, SYSRESET and every
    net are High. It ends before the first later one at which SYSRESET is Low, and judging starts again at the next idle
    instant; or at which a control line is Unknown, which breaks U1 and ends judging for good.
    """

    def __init__(self, recording):
        self.recording, self.stretches, self.found = recording, [], None
        control = [line for line in lines(recording.slots) if line < 6 or 45 <= line < 159 or line == SYSRESET]
        resting = [AS, *STROBES, *ANSWERS, SYSRESET] + [net for net, _ in nets(recording.slots)]
        start = None
        for i, levels in enumerate(recording.levels):
            lost = [line for line in control if levels[line] == UNKNOWN] if UNKNOWN in levels else []
            if start is None:
                if not lost and all(levels[line] == HIGH for line in resting):
                    start = i
            elif levels[SYSRESET] == LOW:
                self.ended(start, i)
                start = None
            elif lost:
                self.ended(start, i)
                self.found = self.found or (i, "U1", lost[0])
            if self.found is not None:
                break
        else:
            if start is not None:
                self.ended(start, len(recording.levels))

    def ended(self, start, end):
        """Judges a stretch."""
        stretch = Stretch(self.recording, start, end)
        self.stretches.append(stretch)
        for j in range(start + 1, end):
            if told := broken(stretch, j):
                self.found = j, *told
                return

    def told(self):
        """The status, and the line of the verdict."""
        if not self.stretches:
            return 2, "never idle"
        if self.found is None:
            return 0, "conforming"
        i, rule, line = self.found
        word = "unreadable" if rule[0] == "U" else "broken"
        text = f"{word} {rule} at instant {i} time {self.recording.times[i]} line {NAMES[line]}"
        return 2 if rule[0] == "U" else 1, text

    def rows(self):
        """The rows of the listing."""
        if not self.stretches:
            return ["verdict never-idle"]
        limit = self.found[0] if self.found else len(self.recording.levels)
        rows = []
        for stretch in self.stretches:
            rows += [f"start {stretch.start}"]
            end = min(stretch.end, limit)
            for i in range(stretch.start, end):
                found_here = (of_instant(stretch, i, end) for of_instant in (tenure_row, cycle_row, transfer_row))
                rows += [row for row in found_here if row]
            if stretch.end < limit:
                rows += [f"reset {stretch.end}"]
        if self.found is None:
            return rows + ["verdict conforming"]
        i, rule, line = self.found
        return rows + [f"verdict {'unreadable' if rule[0] == 'U' else 'broken'} {rule} {i} {NAMES[line]}"]


# ---- the listing (docs/FORMATS.md)

def next_or_hyphen(shows, i, end):
    return next((j for j in range(i + 1, end) if shows(j)), "-")


def tenure_row(s, i, end):
    if i == s.start and s.low(BBSY, i):
        return f"tenure {i} open end {next_or_hyphen(lambda j: s.rises(BBSY, j), i, end)}"
    if i == s.start or not s.falls(BBSY, i) or s.slot(i) is None:
        return None
    n, slot = s.slot(i)
    return f"tenure {i} level {n} slot {slot} end {next_or_hyphen(lambda j: s.rises(BBSY, j), i, end)}"


def cycle_row(s, i, end):
    if i == s.start or not s.falls(AS, i):
        return None
    kind, modifier = s.kind(i), s.modifier(i)
    value = sum(1 << n for n in range(1, highest_address(modifier) + 1) if s.high(address(n), i))
    digits = (highest_address(modifier) + 1) // 4
    said = {"I": f"I {sum(1 << n for n in range(3) if s.high(address(n + 1), i))}",
            "F": f"F {modifier:02X}"}.get(kind, f"{kind} {modifier:02X} {value:0{digits}X}")
    return f"cycle {i} {said} end {next_or_hyphen(lambda j: s.rises(AS, j), i, end)}"


def transfer_row(s, i, end):
    if not s.starts(i):
        return None
    one = s.inside[i]
    way, r = "write" if one.write else "read", one.answer
    if r is None or r >= end or s.cycle_of(r) is None:
        return f"transfer {i} {way} pending"
    line = "DTACK" if s.falls(DTACK, r) else "BERR"
    row = f"transfer {i} of {s.cycle_of(r)} {way} {line} {r} close {next_or_hyphen(s.strobes_high, i, end)}"
    if not one.write:
        return row
    taken = r if r == i else r - 1
    moved, digits = s.moved(taken), ""
    for k in range(7, -1, -1):
        four = DATA[4 * k:4 * k + 4]
        value = sum(1 << n for n, data in enumerate(four) if s.high(data, taken))
        digits += "-" if four[0] not in moved else "X" if any(s.unknown(data, taken) for data in four) else f"{value:X}"
    return f"{row} data {digits}"


NUMBER = r"(0|[1-9][0-9]*)"
EDGE = r"(-|0|[1-9][0-9]*)"
FORMS = {
    "reset": rf"reset {NUMBER}",
    "start": rf"start {NUMBER}",
    "tenure": rf"tenure {NUMBER} (?:open|level [0-3] slot (?:[1-9]|1[0-9]|2[01])) end {EDGE}",
    "cycle": rf"cycle {NUMBER} (?:([SKF]) ([0-3][0-9A-F])(?: ([0-9A-F]+))?|I [0-7]) end {EDGE}",
    "transfer": (rf"transfer {NUMBER} (?:of {NUMBER} (read|write) (?:DTACK|BERR) {NUMBER} close {EDGE}"
                 r"(?: data ([-0-9A-FX]{8}))?|(?:read|write) pending)"),
    "verdict": rf"verdict (?:conforming|never-idle|(broken|unreadable) ([A-Z][0-9]) {NUMBER} ([A-Z0-9.]+))",
}
KINDS = list(FORMS)
# which groups of a form are numbers
NUMBERED = {"reset": (1,), "start": (1,), "tenure": (1, 2), "cycle": (1, 5), "transfer": (1, 2, 4, 5), "verdict": (3,)}
MOVED = re.compile(r"-{8}|-{6}[^-]{2}|-{4}[^-]{2}--|-{4}[^-]{4}|[^-]{8}")


def row_of(text, version):
    """The kind and the first instant of a row that is written so, or None."""
    kind = text.split(" ")[0]
    form = re.fullmatch(FORMS[kind], text) if kind in FORMS and text.isascii() else None
    if not form or kind == "reset" and version < 3:
        return None
    numbers = [digits for digits in form.group(0, *NUMBERED[kind])[1:] if digits not in (None, "-")]
    if any(number(digits.encode(), LIMIT) is None for digits in numbers):
        return None
    if kind == "cycle" and form[2]:
        modifier = int(form[3], 16)
        highest, block = highest_address(modifier), modifier in BLOCKS
        if form[2] != ("F" if not highest else "K" if block else "S") or (form[4] is None) != (form[2] == "F"):
            return None
        if form[4] and (len(form[4]) != (highest + 1) // 4 or int(form[4], 16) % 2):
            return None
    if kind == "transfer" and form[2]:
        if (form[6] is not None) != (version > 1 and form[3] == "write") or form[6] and not MOVED.fullmatch(form[6]):
            return None
    if kind == "verdict" and form[1]:
        known = ["U1", *RULES] if form[1] == "unreadable" else RULES
        if form[2] not in known or (form[2][0] == "U") != (form[1] == "unreadable") or form[4] not in NUMBERS:
            return None
    return kind, int(form[1]) if kind != "verdict" else None


def read_listing(text):
    """The version of a listing, and its rows."""
    header, feed, rest = text.partition(b"\n")
    form = re.fullmatch(rb"vmecheck listing ([123])", header)
    if not form or not feed:
        raise Fault("listing header")
    version, rows, before, last, begin = int(form[1]), [], None, None, len(header) + 1
    while before != "verdict":
        at, end = len(rows) + 1, text.find(b"\n", begin)
        line = text[begin:end].decode("latin-1")
        row = row_of(line, version) if end >= 0 else None
        if row is None or not may_follow(before, row[0], line) or row[0] == "verdict" and end + 1 < len(text):
            raise Fault(f"listing row {at}: BadRow")
        place = (row[1], KINDS.index(row[0])) if row[0] != "verdict" and (version > 2 or row[0] != "start") else None
        if place and last and place <= last:
            raise Fault(f"listing row {at}: Unsorted")
        rows.append(line)
        before, last, begin = row[0], place, end + 1
    return version, rows


def may_follow(before, kind, line):
    """Whether a row of this kind may stand after one of that."""
    if before is None:
        return kind == "start" or line == "verdict never-idle"
    if line == "verdict never-idle":
        return False
    return kind in ("start", "verdict") if before == "reset" else kind != "start"


def in_version(version, rows):
    """The rows as a listing of the version tells them."""
    return [row.partition(" data ")[0] for row in rows] if version == 1 else rows


def text_of(version, rows):
    return "".join(f"{row}\n" for row in (f"vmecheck listing {version}", *in_version(version, rows))).encode()


def timed_text_of(rows, times):
    """The rows with the times of their instants."""
    def timed(row):
        words = row.split(" ")
        instants = {"verdict": [3], "transfer": [1, 3, 6, 8], "tenure": [1, -1], "cycle": [1, -1]}.get(words[0], [1])
        if words[-1] == "pending":
            instants = [1]
        for k in instants if words[0] != "verdict" or len(words) == 5 else []:
            if words[k] != "-":
                words[k] += f"@{times[int(words[k])] if words[k] != '0' else '-'}"
        return " ".join(words)
    return "".join(f"{row}\n" for row in ("vmecheck listing 3 times", *map(timed, rows))).encode()


# ---- the annotated dump (docs/FORMATS.md)

SHOWN = ["tenure", "cycle", "transfer", "verdict"]


def shown_by(row):
    """The changes of a row: an instant, a variable, and the text that it shows from then on."""
    words = row.split(" ")
    if words[0] == "reset":
        return [(int(words[1]), name, "-") for name in SHOWN[:3]]
    if words[0] == "verdict":
        if len(words) < 5:
            return []
        return [(int(words[3]), name, "-") for name in SHOWN[:3]] + [(int(words[3]), "verdict", f"{words[2]}_{words[4]}")]
    if words[0] == "start":
        return []
    end = words[8] if words[0] == "transfer" and words[-1] != "pending" else "-" if words[0] == "transfer" else words[-1]
    if words[0] == "tenure":
        text = "open" if words[2] == "open" else f"slot{words[5]}_BR{words[3]}"
    elif words[0] == "cycle" and words[2] in "FI":
        text = ("AM" if words[2] == "F" else "IACK") + words[3]
    elif words[0] == "cycle":
        text = f"A{4 * len(words[4])}{'_BLT' if words[2] == 'K' else ''}_{words[4]}"
    elif words[-1] == "pending":
        text = f"{words[2].upper()}_pending"
    else:
        text = words[4].upper() + (f"_{words[10]}" if len(words) > 9 else "") + ("_BERR" if words[5] == "BERR" else "")
    return [(int(words[1]), words[0], text)] + ([(int(end), words[0], "-")] if end != "-" else [])


def places_of(text):
    """Where the section that ends the definitions begins and ends, and after which byte each time stands first."""
    tokens = re.finditer(rb"[^ \t\r\n]+", text)
    for token in tokens:
        section = next(end for end in tokens if end[0] == b"$end")
        if token[0] == b"$enddefinitions":
            break
    times = {}
    for found in tokens:
        if found[0].startswith(b"#"):
            times.setdefault(int(found[0][1:]), found.end())
        elif found[0][:1] in b"bBrRs":
            next(tokens)
        elif found[0] == b"$comment":
            next(end for end in tokens if end[0] == b"$end")
    return token.start(), section.end(), times


def free_codes(taken):
    """The codes that aren't among these, the first byte of each changing fastest."""
    number = 0
    while True:
        number, code, rest = number + 1, b"", number + 1
        while rest:
            rest, digit = divmod(rest - 1, 94)
            code += bytes([0x21 + digit])
        if code not in taken and code != b"$end":
            yield code


def annotated(text, variables, rows, times):
    """The dump with the variables and their changes put in."""
    start, end, places = places_of(text)
    free = free_codes(set(re.split(rb"[ \t\r\n]+", text[:start])))
    codes = {name: next(free) for name in SHOWN}
    parts = {part for variable in variables for part in b".".join((*variable.scopes, variable.name)).split(b".")}
    named = [len(part) - 7 for part in parts if re.fullmatch(rb"vmecheck_*", part)]
    scope = b"vmecheck" + b"_" * max(named, default=0)
    declared = b"".join(b"$var string 1 %b %b $end " % (codes[name], name.encode()) for name in SHOWN)
    parts_of_text, last = [text[:start], b"$scope module %b $end %b$upscope $end " % (scope, declared)], start
    changes = [(0, name, "-") for name in SHOWN] + [change for row in rows for change in shown_by(row)]
    for instant, name, shown in sorted(changes, key=lambda change: change[0]):
        time = times[max(instant, 1)] if len(times) > 1 else 0
        place = places.get(time, end)
        parts_of_text += [text[last:place], b" s%b %b" % (shown.encode(), codes[name])]
        last = place
    return b"".join([*parts_of_text, text[last:]])


# ---- the audit (docs/PROTOCOL.md, docs/FORMATS.md)

# the event of each rule but U1, which is the stretch itself
EVENTS = {
    "U2 S1 B3": lambda s, j: s.falls(AS, j),
    "U3 H1 S2": lambda s, j: s.starts(j),
    "U4 S3": lambda s, j: s.starts(j) and s.inside[j].write,
    "H2": lambda s, j: s.goes_on(j) and any(s.rises(line, j) for line in STROBES),
    "H3": lambda s, j: s.goes_on(j) and any(s.falls(line, j) for line in STROBES),
    "H4 H5": lambda s, j: s.falling_answers(j),
    "H6": lambda s, j: any(s.rises(line, j) for line in ANSWERS),
    "H7": lambda s, j: s.rises(AS, j),
    "H8": lambda s, j: j in s.answers,
    "C1": lambda s, j: s.earlier_answers(j, "S"),
    "C2": lambda s, j: s.earlier_answers(j, "K"),
    "I5": lambda s, j: s.earlier_answers(j, "I"),
    "I4": lambda s, j: s.earlier_answers(j, "I") is not None,
    "G1": lambda s, j: s.edges_of_nets(s.falls, j, True),
    "G2": lambda s, j: s.edges_of_nets(s.rises, j, True),
    "G3 G5": lambda s, j: s.arbiter_falls(j),
    "G4": lambda s, j: any(is_grant(net) and s.falls(net, j) for net in s.changed[j]),
    "B1 B2 B4": lambda s, j: s.falls(BBSY, j),
    "I1 I2 I3": lambda s, j: s.edges_of_nets(s.falls, j, False),
}


class Part:
    """A part of a recording, judged: where it opens, its break, its rows without the verdict, and the rules it asks."""

    def __init__(self, recording, start, behind):
        self.start, self.judged = start, Judged(recording.between(start, behind))
        found = self.judged.found
        self.found = found and (start + found[0], recording.times[start + found[0]], *found[1:])
        self.rows = [row.split(" ") for row in self.judged.rows()[:-1]]

    def asked(self):
        """The rules that are asked: their event happens at a judged instant that isn't after the break."""
        behind = self.judged.found[0] + 1 if self.judged.found else len(self.judged.recording.levels)
        rules = {"U1"} if self.judged.stretches else set()
        for rule_names, happens in EVENTS.items():
            if any(happens(stretch, j) for stretch in self.judged.stretches
                   for j in range(stretch.start + 1, min(stretch.end, behind))):
                rules.update(rule_names.split(" "))
        return rules

    def hang(self):
        """The instant of the first transfer that is pending with no reset after it."""
        resets = [at for at, row in enumerate(self.rows) if row[0] == "reset"]
        open_rows = self.rows[resets[-1] + 1:] if resets else self.rows
        return next((int(row[1]) for row in open_rows if row[0] == "transfer" and row[-1] == "pending"), None)


def parts_of(recording, behind):
    """The parts of a recording that ends before an instant, one by one."""
    part = Part(recording, 0, behind)
    yield part
    while part.found:
        part = Part(recording, part.found[0], behind)
        yield part


class Asked:
    """What the words of an audit ask for."""

    def __init__(self, names, transfers, allowances, stop, skew, quiet, junit):
        self.binding, self.dumps, self.transfers, self.allowances = names[0], names[1:], transfers, allowances
        self.stop, self.skew, self.quiet, self.junit = stop, skew, quiet, junit

    def allows(self, found):
        return (found[2], None) in self.allowances or (found[2], NAMES[found[3]]) in self.allowances


def shown(name):
    """A name as it is told."""
    return re.sub("[\0-\x1f\x7f]", "?", name)


class Audited:
    """A dump that is audited: its status, and the texts without its name: of breaks, of counts, and why it isn't good."""

    def __init__(self, name, asked):
        self.name = name
        self.asked, self.status = asked, 0
        self.failures, self.allowed, self.counts, self.error = [], [], [], None

    def tell(self, text):
        if not write(1, f"{shown(self.name)}: {text}\n".encode()):
            raise CannotWrite

    def refuse(self, fault):
        self.error, self.status = str(fault), 3
        write(2, f"vmecheck: {shown(self.name)}: {fault}\n".encode())

    def tell_break(self, found):
        """Tells a break, and whether it isn't allowed."""
        is_allowed = self.asked.allows(found)
        word = "allowed" if is_allowed else "unreadable" if found[2][0] == "U" else "broken"
        text = f"{word} {found[2]} at instant {found[0]} time {found[1]} line {NAMES[found[3]]}"
        (self.allowed if is_allowed else self.failures).append(text)
        self.tell(text)
        return not is_allowed

    def audit(self, binding, file):
        """Audits the dump."""
        text, unread = read_until_error(file)
        if unread:
            text = text[:whole_tokens(text)]
        tokens, body, met = tokens_of(text), Body(), unread
        try:
            variables, sizes = read_header(text, tokens)
            Recording(binding, (variables, []))
        except Fault as fault:
            self.refuse(first_met(fault, unread))
            return
        try:
            read_body(tokens, sizes, body)
        except Fault as fault:
            met = first_met(fault, unread)
        recording = Recording(binding, (variables, body.instants))
        recording.settle(self.asked.skew)
        behind = len(recording.levels)
        while met and behind > 1 and recording.times[behind - 1] + self.asked.skew >= body.time:
            behind -= 1
        self.judge(recording, behind, met)

    def judge(self, recording, behind, met):
        """Tells the breaks of what comes before an instant, and then the fault that was met, or counts and outcome."""
        parts, count = [], 0
        for part in parts_of(recording, behind):
            parts.append(part)
            count += bool(part.found) and self.tell_break(part.found)
            if count == self.asked.stop:
                parts[-1:] = [Part(recording, part.start, part.found[0] + 1)]
                parts.append(Part(recording, part.found[0], part.found[0] + 1))
                met = None
                break
        if met:
            self.refuse(met)
            return
        self.count(parts)
        self.end(recording, parts)

    def count(self, parts):
        rows = [row for part in parts for row in part.rows]

        def number_of(*words, at=0):
            return sum(row[at:at + len(words)] == [*words] for row in rows)

        tenures = sum(row[0] == "tenure" and row[2] == "level" for row in rows)
        kinds = [sum(row[0] == "cycle" and row[2] == kind for row in rows) for kind in "SKFI"]
        transfers = [row for row in rows if row[0] == "transfer"]
        ways = [sum(way in row for row in transfers) for way in ("read", "write")]
        answers = [sum(answer in row for row in transfers) for answer in ("DTACK", "BERR", "pending")]
        self.answered = answers[0] + answers[1]
        asked = set().union(*(part.asked() for part in parts))
        never = [rule for rule in ("U1", *RULES) if rule not in asked]
        unreadable = sum(text.startswith("unreadable") for text in self.failures)
        self.counts = [
            f"{len(self.failures) - unreadable} broken, {unreadable} unreadable, {len(self.allowed)} allowed",
            f"{number_of('reset')} resets, {tenures} tenures, {sum(kinds)} cycles "
            f"({kinds[0]} single, {kinds[1]} block, {kinds[2]} free, {kinds[3]} acknowledge)",
            f"{len(transfers)} transfers ({ways[0]} read, {ways[1]} write; "
            f"{answers[0]} by DTACK, {answers[1]} by BERR, {answers[2]} pending)",
            *([f"never asked: {' '.join(never)}"] if never else []),
        ]
        if not self.asked.quiet:
            for text in self.counts:
                self.tell(text)

    def end(self, recording, parts):
        """Tells the outcome."""
        gap = self.gap(recording, parts)
        if any(text.startswith("broken") for text in self.failures):
            self.status, text = 1, "broken"
        elif self.failures:
            self.status, text = 2, "unreadable"
        elif gap:
            self.status, text = 6, f"not covered: {gap}"
            self.failures.append(text)
        else:
            text = f"conforming with {len(self.allowed)} allowed" if self.allowed else "conforming"
        self.tell(text)

    def gap(self, recording, parts):
        """Why the recording isn't covered."""
        if not parts[-1].judged.stretches:
            return f"never idle behind instant {parts[-2].found[0]}" if len(parts) > 1 else "never idle"
        if self.answered < self.asked.transfers:
            return f"{self.answered} of {self.asked.transfers} transfers answered"
        start = parts[-1].hang()
        if start is None:
            return None
        start += parts[-1].start
        return f"transfer at instant {start} time {recording.times[start]} without an answer"

    def test_case(self):
        """Its element of a JUnit file."""
        lines = [*self.allowed[:100], *self.counts]
        elements = [f"<failure message={quoted(text)}/>" for text in self.failures[:100]]
        elements += [f"<error message={quoted(text)}/>" for text in [self.error] if text is not None]
        elements += ["<system-out>" + "".join(f"{text}\n" for text in lines) + "</system-out>"] * bool(lines)
        return f"<testcase name={quoted(self.name)}>{''.join(elements)}</testcase>\n"


def quoted(text):
    """A text as the value of an attribute; what XML can't have is a question mark."""
    def is_character(letter):
        return letter in "\t\n\r" or " " <= letter <= "\ud7ff" or "\ue000" <= letter <= "\ufffd" or letter > "\uffff"

    written = "".join(letter if is_character(letter) else "?" for letter in text)
    for letter, name in {"&": "&amp;", "<": "&lt;", ">": "&gt;", '"': "&quot;", "\t": "&#9;", "\n": "&#10;",
                         "\r": "&#13;"}.items():
        written = written.replace(letter, name)
    return f'"{written}"'


def first_met(fault, unread):
    """The fault that is met first. Where reading fails, a text has no end, and so none of the faults of one."""
    return unread if unread and str(fault).endswith(("UnfinishedSection", "NoEndDefinitions")) else fault


def whole_tokens(text):
    """How many bytes the whole tokens are."""
    return max(text.rfind(space) for space in (b" ", b"\t", b"\r", b"\n")) + 1


def read_until_error(file):
    """All bytes of an input, and why there are no more of them, if reading fails."""
    parts = []
    while True:
        try:
            part = os.read(file, 1 << 20)
        except OSError:
            return b"".join(parts), Fault("cannot read")
        if not part:
            return b"".join(parts), None
        parts.append(part)


def is_same_file(name, files):
    """Whether a name is that of an input."""
    try:
        there = os.stat(name)
    except (OSError, ValueError):
        return False
    return any(os.path.samestat(there, os.fstat(file)) for file in files)


def audit(asked):
    """What an audit answers: its status. It writes as it goes."""
    files = opened([asked.binding], ("binding",))
    for name in asked.dumps:
        files.append(0 if name == "-" else opened_dump(name))
    if asked.junit is not None and is_same_file(asked.junit, files):
        raise Fault(f"{shown(asked.junit)}: is an input")
    binding = read_binding(whole(files[0], "binding"))
    told = [Audited(name, asked) for name in asked.dumps]
    statuses = []
    try:
        for one, file in zip(told, files[1:]):
            one.audit(binding, file)
            statuses.append(one.status)
    except CannotWrite:
        write(2, b"vmecheck: cannot write\n")
        statuses.append(5)
    if asked.junit is not None and not save(asked.junit, [one.test_case() for one in told]):
        write(2, f"vmecheck: {shown(asked.junit)}: cannot write\n".encode())
        statuses.append(5)
    return next(status for status in (5, 4, 3, 1, 2, 6, 0) if status in statuses)


def opened_dump(name):
    try:
        return os.open(name, os.O_RDONLY)
    except (OSError, ValueError):
        raise Fault(f"{shown(name)}: cannot open") from None


def save(name, cases):
    """Whether the JUnit file could be written."""
    text = f"<?xml version=\"1.0\" encoding=\"UTF-8\"?>\n<testsuite name=\"vmecheck\">\n{''.join(cases)}</testsuite>\n"
    try:
        with open(name, "wb") as file:
            file.write(text.encode())
    except (OSError, ValueError):
        return False
    return True


# ---- the commands

class Inputs:
    """A binding and a dump, and what the commands answer on them by a skew: the status, and the two streams."""

    def __init__(self, binding, dump, skew=0):
        self.fault, self.unusable, self.judged, self.dump = None, None, None, dump
        try:
            parts = read_binding(binding), read_dump(dump)
            self.variables = parts[1][0]
        except Fault as fault:
            self.fault = fault
            return
        try:
            recording = Recording(*parts)
            recording.settle(skew)
            self.judged = Judged(recording)
        except Fault as fault:
            self.unusable = fault

    def answer(self, block, text):
        """The answer with this text, where the recording isn't cut into too many blocks."""
        if fault := self.fault or self.unusable:
            return refused(fault)
        if len(self.judged.recording.levels) - 1 > 4096 * block:
            return refused("too many blocks")
        return self.judged.told()[0], text(), b""

    def check(self, block=16384):
        return self.answer(block, lambda: f"{self.judged.told()[1]}\n".encode())

    def list(self, block=16384):
        return self.answer(block, lambda: text_of(3, self.judged.rows()))

    def list_times(self, block=16384):
        return self.answer(block, lambda: timed_text_of(self.judged.rows(), self.judged.recording.times))

    def annotate(self):
        return self.answer(16384, lambda: annotated(self.dump, self.variables, self.judged.rows(),
                                                    self.judged.recording.times))

    def confirm(self, listing):
        if self.fault:
            return refused(self.fault)
        try:
            version, rows = read_listing(listing)
        except Fault as fault:
            return refused(fault)
        if self.unusable:
            return refused(self.unusable)
        own = in_version(version, self.judged.rows())
        if rows == own:
            return 0, b"confirmed\n", b""
        at = next((k for k, (a, b) in enumerate(zip(rows, own), 1) if a != b), min(len(rows), len(own)) + 1)
        return 1, f"not confirmed at row {at}\n".encode(), b""


def refused(fault, status=3):
    return status, b"", f"vmecheck: {fault}\n".encode()


# ---- the program

class Usage(Exception):
    """Wrong words: what is wrong with them."""


def number_between(least, most):
    """What an option says that takes a number between these."""
    def read(option, value):
        given = number(value.encode(), most) if re.fullmatch("[0-9]+", value) else None
        if given is None or given < least:
            raise Usage(f"invalid value '{value}' for '{option}': it takes {least} to {most}")
        return given
    return read


def allowance(option, value):
    """What an option says that takes a rule, or a rule and the line that breaks it."""
    rule, equals, line = value.partition("=")
    if rule not in ("U1", *RULES) or equals and line not in NUMBERS:
        raise Usage(f"invalid value '{value}' for '{option}': it takes RULE or RULE=LINE")
    return rule, line if equals else None


SKEW, WORKERS = {"--skew": number_between(0, LATEST)}, {"--workers": number_between(1, 64)}
BLOCK = {"--block": number_between(1, 65536)}
COMMANDS = {"check": (("BINDING", "DUMP"), {**SKEW, **WORKERS, **BLOCK}),
            "list": (("BINDING", "DUMP"), {**SKEW, **WORKERS, **BLOCK, "--times": None}),
            "annotate": (("BINDING", "DUMP"), SKEW),
            "confirm": (("BINDING", "DUMP", "LISTING"), SKEW)}
AUDIT_OPTIONS = {**SKEW, **WORKERS, "--transfers": number_between(0, LATEST), "--stop": number_between(1, LATEST),
                 "--junit": lambda option, value: value, "--allow": allowance, "--quiet": None}


def words_apart(words, options):
    """The names among the words, and what each option that stands there says: of those that take no value, None. But for
    allowances, which are gathered, it stands once."""
    names, given, rest = [], {"--allow": set()}, iter(words)
    for word in rest:
        option, equals, value = word.partition("=")
        if word == "--":
            names += rest
        elif not word.startswith("-") or word == "-":
            names.append(word)
        elif option not in options or option in given and option != "--allow" or equals and not options[option]:
            raise Usage(f"unexpected argument '{word}'")
        elif not options[option]:
            given[option] = None
        else:
            value = value if equals else next(rest, None)
            if value is None:
                raise Usage(f"a value is required for '{option}'")
            said = options[option](option, value)
            given[option] = given[option] | {said} if option == "--allow" else said
    return names, given


def audit_order(words):
    """What the words of an audit ask for."""
    names, given = words_apart(words, AUDIT_OPTIONS)
    if len(names) < 2 or names[1:].count("-") > 1:
        raise Usage("audit takes BINDING DUMP.., and standard input once at most")
    return Asked(names, given.get("--transfers", 1), given["--allow"], given.get("--stop"), given.get("--skew", 0),
                 "--quiet" in given, given.get("--junit"))


def order_of(words):
    """The command, the files, the steps of a block and the skew that the words ask for, and whether times are told."""
    command = words[0]
    if command not in COMMANDS:
        raise Usage(f"there is no command '{command}' here")
    wanted, options = COMMANDS[command]
    names, given = words_apart(words[1:], options)
    if len(names) != len(wanted):
        raise Usage(f"{command} takes {' '.join(wanted)}")
    return command, names, given.get("--block", 16384), given.get("--skew", 0), "--times" in given


def opened(names, inputs):
    """The files, all opened before one is read."""
    files = []
    for name, what in zip(names, inputs):
        try:
            files.append(os.open(name, os.O_RDONLY))
        except (OSError, ValueError):
            raise Fault(f"cannot open {what}") from None
    return files


def whole(file, what):
    """All bytes of an input."""
    parts, length = [], 0
    while True:
        try:
            part = os.read(file, 1 << 20)
        except OSError:
            raise Fault(f"cannot read {what}") from None
        if not part:
            return b"".join(parts)
        length += len(part)
        if length > (LONGEST_LISTING if what == "listing" else LONGEST):
            raise Fault(f"{what} too long")
        parts.append(part)


def answer(command, names, block, skew, has_times):
    """What a command answers. An input is read only where those before it have no fault."""
    files = opened(names, ("binding", "dump", "listing"))
    binding = whole(files[0], "binding")
    read_binding(binding)
    dump = whole(files[1], "dump")
    inputs = Inputs(binding, dump, skew)
    if command == "check":
        return inputs.check(block)
    if command == "list":
        return inputs.list_times(block) if has_times else inputs.list(block)
    if command == "annotate":
        return inputs.annotate()
    return refused(inputs.fault) if inputs.fault else inputs.confirm(whole(files[2], "listing"))


def answer_words(words):
    """What the words are answered."""
    if not words:
        if os.isatty(0):
            write(2, b"vmecheck: reads a dump from standard input; vmecheck --help tells of the commands\n")
        return Inputs(BUILT_IN, whole(0, "dump")).check()
    if any("\udc80" <= letter <= "\udcff" for word in words for letter in word):
        raise Usage("a word is no text")
    if words[0] == "help" or not {"-h", "--help"}.isdisjoint(words):
        return 0, HELP.encode(), b""
    if words[0] == "audit":
        return audit(audit_order(words[1:])), b"", b""
    return answer(*order_of(words))


def write(stream, text):
    """Whether all of the text could be written."""
    try:
        while text:
            text = text[os.write(stream, text):]
    except OSError:
        return False
    return True


def main():
    try:
        status, out, err = answer_words(sys.argv[1:])
    except Fault as fault:
        status, out, err = refused(fault)
    except Usage as usage:
        status, out, err = 3, b"", f"error: {usage}\n\n{HELP}".encode()
    except MemoryError:
        status, out, err = refused("out of memory", 4)
    if not write(1, out):
        status, out, err = refused("cannot write", 5)
    write(2, err)
    return status


if __name__ == "__main__":
    sys.exit(main())
