#!/usr/bin/env python3
"""Runs the program on mutated recordings, bindings and listings, and checks what it promises of every input.

Usage: mutate.py PROGRAM [--runs N] [--seed S] [--first K] [--jobs J] [--keep FOLDER]

Run K of seed S is the same on every machine. Each run takes a binding and a dump of the examples or of texts/, changes one
of them (or the listing) a few times, and runs `check`, `list` and `confirm` on it. It is checked that

- no run ends by a signal, takes more than 10 seconds of a processor or needs more than 1 GB of memory;
- the status and the two streams are those that the second judge gives (reference/vmecheck.py): of `check` in blocks of 1, 7
  and 16,384 steps, and where the program takes its built-in binding; of `list`; and of `confirm` on that listing, on it with
  a row dropped, doubled or changed, and on it in an older version.

It prints each run that fails, with the command, and keeps its files in FOLDER; its status is then 1.
"""
import argparse
import concurrent.futures
import contextlib
import functools
import os
import pathlib
import random
import re
import resource
import shutil
import subprocess
import sys
import tempfile

HERE = pathlib.Path(__file__).resolve().parent
TOP = HERE.parent.parent
sys.path.insert(0, str(TOP / "reference"))

import vmecheck

EXAMPLES = TOP / "examples"
MEMORY = 1 << 30
SECONDS = 10

NUMBERS = [b"0", b"1", b"00", b"007", b"65535", b"65536", b"65537", b"999999999", b"1000000000", b"2147483648", b"4294967295",
           b"4294967296", b"9223372036854775808", b"9999999999999999999", b"10000000000000000000", b"18446744073709551615",
           b"18446744073709551616", b"9" * 40, b"0" * 30 + b"5"]
STRANGE = [b"\0", b"\x0b", b"\x0c", b"\r", b"\t", b"\n", b" ", b"\x1b", b"\x7f", b"\x80", b"\xff", b"!", b"~", b"[", b"]", b"$", b"#", b"="]
TOKENS = [b"$end", b"$var", b"$scope", b"$upscope", b"$enddefinitions", b"$comment", b"$dumpvars", b"$dumpoff", b"$dumpall", b"$dumpon",
          b"$timescale", b"#", b"#0", b"#1x", b"b", b"b1", b"bx", b"B01XZ", b"b2", b"r1.5", b"R", b"s", b"1", b"0", b"x", b"z", b"2p", b"[0]",
          b"[3:0]", b"slots", b"=", b"bus.AS", b"A", b"BG0", b"AM", b"1 !", b"$var wire 1 p AS $end", b"$scope module bus $end",
          b"$dumpvars $end", b"$comment x $end", b"b1 p", b"start 1", b"end -", b"verdict conforming"]


class Failed(Exception):
    """What a run showed that the program doesn't promise."""


# ---- mutations: each takes a random source and a text, and gives another text

def place(rng, text):
    return rng.randint(0, len(text))


def span(rng, text, most=40):
    start = place(rng, text)
    return start, min(len(text), start + rng.randint(1, most))


def lines_of(text):
    return re.findall(rb"[^\n]*\n|[^\n]+", text)


def tokens_of(text):
    return [m.span() for m in re.finditer(rb"[^ \t\r\n]+", text)]


def replaced(text, start, end, new):
    return text[:start] + new + text[end:]


def flip_bytes(rng, text):
    changed = bytearray(text)
    for _ in range(rng.randint(1, 4)):
        if changed:
            changed[rng.randrange(len(changed))] ^= 1 << rng.randrange(8)
    return bytes(changed)


def drop_bytes(rng, text):
    return replaced(text, *span(rng, text), b"")


def double_bytes(rng, text):
    start, end = span(rng, text)
    return replaced(text, start, end, text[start:end] * rng.randint(2, 4))


def swap_bytes(rng, text):
    if len(text) < 2:
        return text
    i = rng.randrange(len(text) - 1)
    return replaced(text, i, i + 2, text[i + 1:i + 2] + text[i:i + 1])


def change_token(rng, text):
    tokens = tokens_of(text)
    if not tokens:
        return text
    start, end = rng.choice(tokens)
    other = rng.choice(tokens)
    new = rng.choice([b"", text[other[0]:other[1]], text[start:end] + b" " + text[start:end], rng.choice(TOKENS)])
    return replaced(text, start, end, new)


def swap_tokens(rng, text):
    tokens = tokens_of(text)
    if len(tokens) < 2:
        return text
    (a, b), (c, d) = sorted(rng.sample(tokens, 2))
    return text[:a] + text[c:d] + text[b:c] + text[a:b] + text[d:]


def change_line(rng, text):
    lines = lines_of(text)
    if not lines:
        return text
    i, j = rng.randrange(len(lines)), rng.randrange(len(lines))
    kind = rng.randrange(4)
    if kind == 0:
        del lines[i]
    elif kind == 1:
        lines.insert(j, lines[i])
    elif kind == 2:
        lines[i], lines[j] = lines[j], lines[i]
    else:
        lines[i] = lines[i].rstrip(b"\n") + rng.choice([b"", b" ", b"\r\n", b"\n\n"])
    return b"".join(lines)


def cut(rng, text):
    return text[:place(rng, text)] if rng.random() < 0.7 else text[place(rng, text):]


def change_number(rng, text):
    numbers = [m.span() for m in re.finditer(rb"\d+", text)]
    if not numbers:
        return text
    start, end = rng.choice(numbers)
    value = int(text[start:end][-30:])
    new = rng.choice(NUMBERS + [b"%d" % (value + 1), b"%d" % max(0, value - 1), b"%d" % (value * 10)])
    return replaced(text, start, end, new)


def insert_strange(rng, text):
    at = place(rng, text)
    return replaced(text, at, at, rng.choice(STRANGE) * rng.choice([1, 1, 1, 3]))


def insert_long_token(rng, text):
    at = place(rng, text)
    byte = rng.choice([b"a", b"1", b"0", b"x", b"!", b"b1", b"#1", b"[", b"]", b"$"])
    return replaced(text, at, at, b" " * rng.randint(0, 1) + byte * rng.choice([20, 100, 1000, 30000]) + b" " * rng.randint(0, 1))


def insert_scopes(rng, text):
    tokens = [m.start() for m in re.finditer(rb"\$(?:var|enddefinitions|scope)\b", text)]
    at = rng.choice(tokens) if tokens else 0
    name = rng.choice([b"a", b"bus", b"", b"a.b", b"n" * 2000])
    depth = rng.choice([1, 2, 50, 2000])
    scopes = b"$scope module " + name + b" $end\n"
    closed = b"$upscope $end\n" * (depth if rng.random() < 0.5 else 0)
    return replaced(text, at, at, scopes * depth + closed)


def insert_token(rng, text):
    at = place(rng, text)
    return replaced(text, at, at, rng.choice([b"", b" ", b"\n"]) + rng.choice(TOKENS) + rng.choice([b"", b" ", b"\n"]))


def places_of_change(text):
    """The codes of the variables of one bit, that of the system reset several times, and the ends of the times."""
    codes = [code for code, name in re.findall(rb"\$var \w+ 1 (\S+) (\S+)", text) for _ in range(8 if name == b"SYSRESET" else 1)]
    return codes, [m.end() for m in re.finditer(rb"(?m)^#\d+", text)]


def insert_change(rng, text):
    codes, times = places_of_change(text)
    if not codes or not times:
        return text
    at = rng.choice(times)
    return replaced(text, at, at, b"\n" + rng.choice([b"0", b"1", b"x", b"z"]) + rng.choice(codes))


def insert_pulse(rng, text):
    """A variable is low from one time to another."""
    codes, times = places_of_change(text)
    if not codes or len(times) < 2:
        return text
    code, (start, end) = rng.choice(codes), sorted(rng.sample(times, 2))
    return text[:start] + b"\n0" + code + text[start:end] + b"\n1" + code + text[end:]


MUTATIONS = [flip_bytes, flip_bytes, drop_bytes, double_bytes, swap_bytes, change_token, change_token, change_token, swap_tokens,
             change_line, change_line, cut, change_number, change_number, insert_strange, insert_long_token, insert_scopes, insert_token]


def mutated(rng, text):
    for _ in range(rng.choice([1, 1, 1, 2, 3, 6])):
        text = rng.choice(MUTATIONS)(rng, text)
    return text


def rerecorded(rng, dump):
    """Another recording of the same lines."""
    for _ in range(rng.randint(1, 4)):
        dump = rng.choice([insert_change, insert_pulse])(rng, dump)
    return dump


# ---- what is run

@functools.cache
def seeds():
    """The pairs of a binding and a dump that are mutated."""
    bench, reset = (EXAMPLES / "backplane.bind").read_bytes(), (EXAMPLES / "reset.bind").read_bytes()
    texts = HERE / "texts"
    resets = sorted(EXAMPLES.glob("reset_*.vcd"))
    pairs = [(bench, dump.read_bytes()) for dump in sorted(EXAMPLES.glob("*.vcd")) if dump.name != "read_cycle.vcd"]
    builtin = vmecheck.BUILT_IN
    for _ in range(8):
        pairs += [(reset, dump.read_bytes()) for dump in resets]
        pairs.append((builtin, (EXAMPLES / "read_cycle.vcd").read_bytes()))
        pairs.append(((texts / "vectors.bind").read_bytes(), (texts / "vectors.vcd").read_bytes()))
    return builtin, pairs


class Case:
    """One run: its folder, and the program on the files there."""

    def __init__(self, program, folder):
        self.program = program
        self.folder = folder

    def write(self, name, text):
        (self.folder / name).write_bytes(text)

    def run(self, *words, stdin=None):
        with (open(self.folder / stdin if stdin else os.devnull, "rb") as source,
              subprocess.Popen([self.program, *words], cwd=self.folder, stdin=source, stdout=subprocess.PIPE,
                               stderr=subprocess.PIPE) as running):
            # processor time, so that a busy machine changes nothing; a run that only waits is ended by the clock
            with contextlib.suppress(ProcessLookupError):
                resource.prlimit(running.pid, resource.RLIMIT_CPU, (SECONDS, SECONDS))
            try:
                out, err = running.communicate(timeout=60 * SECONDS)
            except subprocess.TimeoutExpired as late:
                running.kill()
                raise Failed(f"{' '.join(words)}: still running") from late
        if running.returncode < 0:
            raise Failed(f"{' '.join(words)}: ended by signal {-running.returncode}, {err[-200:]!r}")
        return running.returncode, out, err

    def expect(self, answer, *words, stdin=None):
        """Runs the program on these words: whether it answers so."""
        got = self.run(*words, stdin=stdin)
        if got != answer:
            said = [(status, out[-200:], err[-200:]) for status, out, err in (got, answer)]
            raise Failed(f"{' '.join(words)}: {said[0]}, and the second judge: {said[1]}")


def in_version(version, listing):
    """The listing with the header of a version and, in version 1, without the data of writes."""
    rows = re.sub(rb"(?m) data [-0-9A-FX]{8}$", b"", listing) if version == 1 else listing
    return re.sub(rb"^vmecheck listing [0-9]", b"vmecheck listing %d" % version, rows)


def with_changed_row(rng, listing):
    """The listing with one row dropped, doubled or changed."""
    rows = lines_of(listing)
    row = rng.randrange(1, len(rows))
    kind = rng.randrange(4)
    if kind == 0:
        del rows[row]
    elif kind == 1:
        rows.insert(row, rows[row])
    elif kind == 2:
        rows[row] = change_number(rng, rows[row])
    else:
        rows[row] = flip_bytes(rng, rows[row])
    return b"".join(rows)


def check_listings(case, rng, inputs, change):
    """Whether the listing is the second judge's, and is confirmed, and a changed one and an older one are answered as they should be."""
    block = rng.choice([1, 7, 16384])
    case.expect(inputs.list(block), "list", "--block", str(block), "binding", "dump")
    status, listing, _ = inputs.list()
    if status == 3:
        return
    older = in_version(rng.choice([1, 2]), listing)
    for text in (listing, change(rng, listing), older, change(rng, older)):
        case.write("listing", text)
        case.expect(inputs.confirm(text), "confirm", "binding", "dump", "listing")


def one_run(case, seed, number):
    """Runs the program on one mutated text."""
    rng = random.Random(f"{seed}:{number}")
    builtin, pairs = seeds()
    binding, dump = rng.choice(pairs)
    what = rng.random()
    if what < 0.3:
        dump = rerecorded(rng, dump)
    elif what < 0.65:
        dump = mutated(rng, dump)
    elif what < 0.9:
        binding = mutated(rng, binding)
    case.write("binding", binding)
    case.write("dump", dump)
    inputs = vmecheck.Inputs(binding, dump)
    if what >= 0.9:
        check_listings(case, rng, inputs, mutated)
        return
    for block, workers in ((16384, "1"), (7, "4"), (1, "2")):
        case.expect(inputs.check(block), "check", "--block", str(block), "--workers", workers, "binding", "dump")
    if binding == builtin:
        case.expect(inputs.check(), stdin="dump")
    check_listings(case, rng, inputs, with_changed_row)


# ---- many runs

def limited():
    """Limits the memory of this process and of those that it starts."""
    resource.setrlimit(resource.RLIMIT_AS, (MEMORY, MEMORY))
    resource.setrlimit(resource.RLIMIT_CORE, (0, 0))


def some_runs(program, seed, numbers, keep):
    """Runs some numbers, and gives what failed."""
    failed = []
    with tempfile.TemporaryDirectory(prefix="vmecheck-mutation-") as name:
        folder = pathlib.Path(name)
        for number in numbers:
            try:
                one_run(Case(program, folder), seed, number)
            except Failed as failure:
                failed.append((number, str(failure)))
                if keep:
                    shutil.copytree(folder, keep / f"{seed}-{number}", dirs_exist_ok=True)
    return failed


def main():
    words = argparse.ArgumentParser(description=__doc__.split("\n")[0])
    words.add_argument("program", type=pathlib.Path)
    words.add_argument("--runs", type=int, default=2000)
    words.add_argument("--seed", default="1")
    words.add_argument("--first", type=int, default=0)
    words.add_argument("--jobs", type=int, default=os.cpu_count())
    words.add_argument("--keep", type=pathlib.Path)
    given = words.parse_args()
    program = str(given.program.resolve())
    numbers = range(given.first, given.first + given.runs)
    step = 50
    failures = 0
    with concurrent.futures.ProcessPoolExecutor(given.jobs, initializer=limited) as pool:
        parts = [pool.submit(some_runs, program, given.seed, numbers[i:i + step], given.keep) for i in range(0, len(numbers), step)]
        for part in concurrent.futures.as_completed(parts):
            for number, failure in part.result():
                failures += 1
                print(f"run {number} of seed {given.seed}: {failure}", flush=True)
    print(f"mutations: {given.runs} runs of seed {given.seed}, {failures} failed")
    return failures > 0


if __name__ == "__main__":
    sys.exit(main())
