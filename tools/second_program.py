#!/usr/bin/env python3
"""A second implementation of the build, the check, the lookup, the panel and the listing of document 01, of lists as text
and of test loads (document 02, Changes 1 and 2), of the cells that are found (Change 4), of the holds that decide a
panel (Change 5) and of builds for each of three primes (Change 6), to compare the proved ones with.

Written from the papers alone, with the standard library alone.

  tools/second_program.py make
      writes the stored input and expected output of the programs `compare`, `compare_primes`, `compare_texts`,
      `compare_loads`, `compare_lookups` and `make_*`
  tools/second_program.py fresh SEED COUNT PROGRAM
      makes COUNT lists from SEED, runs PROGRAM (`compare`) on them and compares what it prints
  tools/second_program.py fresh-primes SEED COUNT PROGRAM
      makes COUNT lists from SEED, for each of the primes in turn, runs PROGRAM (`compare_primes`) on them and compares what
      it prints
  tools/second_program.py fresh-texts SEED COUNT PROGRAM
      makes COUNT texts to read and lists to write from SEED, runs PROGRAM (`compare_texts`) on them and compares
      what it prints
  tools/second_program.py fresh-loads SEED COUNT PROGRAM
      makes COUNT lengths of loads and lent places from SEED, runs PROGRAM (`compare_loads`) on them and compares what it
      prints
  tools/second_program.py fresh-lookups SEED COUNT PROGRAM
      makes COUNT tables, whole and damaged, with holds, codes to look up and a panel from SEED, runs PROGRAM
      (`compare_lookups`) on them and compares what it prints
  tools/second_program.py fresh-tables SEED COUNT PROGRAM
      makes COUNT texts from SEED, runs PROGRAM (`make_table`) on each and compares what it prints
  tools/second_program.py fresh-files SEED COUNT PROGRAM
      makes COUNT table files, whole and damaged, from SEED, runs PROGRAM (`list_table`) on each and compares what it
      prints; about every fourth is handed over in pieces through a pipe
  tools/second_program.py least SEED COUNT
      makes COUNT lists from SEED for smaller primes and compares the least multipliers that are searched for here with
      those that are found by trying all

All numbers of an input are four bytes, least first.

Input of `compare`: for each list n, then n codes, then n schedules.
Output: a line for each list, once for the list's order and once for the reverse: all words of its table where it has
at most SHORT pairs, otherwise `n c k total digest`.

Input of `compare_primes`: for each list the prime, then as for `compare`. Output: the same lines, with the prime before them.

Input of `compare_texts`, one case after the other:
  0, the lent codes and the lent schedules (how many), the bytes of the text (how many), the text: it is read
  1, the codes and the schedules (how many), the lent bytes (how many), the codes, the schedules: they are written
Code i is lent as OLD_CODE + i, schedule i as OLD_SCHEDULE + i, byte i as i mod OLD_BYTES.
Output:
  `read NUMBER VALUE DIGEST DIGEST`, the digests of all lent codes and of all lent schedules after the call, and on the
  same line the pairs, each as `code,schedule`, where there are at most SHORT
  `written NUMBER VALUE DIGEST`, the digest of all lent bytes after the call, and below it the text, where it has at
  most SHORT_TEXT bytes

Input of `compare_loads`, for each load: 1 if its table is listed and otherwise 0, the length, the lent codes and the lent
schedules (how many), which are lent as above.
Output:
  `generated NUMBER VALUE DIGEST DIGEST`, the digests of all lent codes and of all lent schedules after the call; unless it
  is refused, `built n c k total digest` of the load's table, and where it is listed, the listing of document 01

Input of `compare_lookups`, for each table, whole or damaged: its words, the runs of the holds, the codes that are looked up
and the codes of the panel; before each of the four, how many numbers it has. A run is two numbers: how many schedules, one
after the other, and the hold of each of them.
Output:
  `found CODE NUMBER VALUE CELL` for each code that is looked up
  `fired NUMBER VALUE CELL`, what the panel answers
"""
import bisect
import collections
import itertools
import pathlib
import random
import re
import struct
import subprocess
import sys
import tempfile
import time
import typing

P = 65537
MOST_PAIRS = 2048
MOST_NUMBER = 4294967295
MOST_FILE = 65536
MOST_PANEL = 64
SCHEDULES = 999
MOST_HOLD = 10080

SHORT = 32
SHORT_TEXT = 256
OLD_CODE = 7000000
OLD_SCHEDULE = 8000000
OLD_BYTES = 251
# what `compare_texts`, `compare_loads` and `compare_lookups` have room for
MOST_PLACES = 4096
MOST_TEXT = 65536
MOST_WORDS = 16384
MOST_HOLDS = 1024

CRATES = pathlib.Path(__file__).resolve().parent.parent / "crates"

# ---- the least multipliers

# A multiplier k puts code a in place (k a mod p) mod w, and passes where at most so many pairs of codes share a place. To try all up to the
# least that passes would take up to p tries. What is passed over here is known to fail.
#
# Take one of the codes, x, let u be k x mod p, and write another one as x + d, or p more or less than that. Then k a mod p is u + k d - p D,
# where D is (u + k d) div p: codes whose d is the same mod w share a place where their D is the same. D does not fall where u rises, and over
# a range of multipliers it lies between its values at the ends. So in a range of multipliers and a range of u where it is the same at all four
# corners it is the same throughout; and if such codes alone make too many pairs, no multiplier of the range with such a u passes. Where those
# with another u are, a descent like Euclid's tells.


def passes(p, k, codes, w, most):
    """Whether at most so many pairs of codes share one of w places."""
    loads = {}
    for a in codes:
        place = k * a % p % w
        load = loads.get(place, 0)
        most -= load
        if most < 0:
            return False
        loads[place] = load + 1
    return True


def by_remainder(codes, w):
    """The codes that are equal mod w, by size."""
    groups = collections.defaultdict(list)
    for a in sorted(codes):
        groups[a % w].append(a)
    return list(groups.values())


def too_crowded(p, k, groups, most):
    """Whether no multiplier up to k passes, by the number of places alone: codes that are equal mod w share a place where their products are
    between the same multiples of p, and from the first to the last of them there are no more than so many gaps between multiples."""
    pairs = 0
    for group in groups:
        gaps = k * (group[-1] - group[0]) // p + 2
        each, more = divmod(len(group), gaps)
        pairs += gaps * each * (each - 1) // 2 + more * each
    return pairs > most


def open_ranges(p, first, last, distances, w, most):
    """The ranges of u with which a multiplier from first to last may pass, as far as the codes at these distances tell."""
    # D at first and at last with u = 0; each grows by one where u comes to the next multiple of p
    ends = [[first * d // p, last * d // p] for d in distances]
    grows = collections.defaultdict(list)
    for i, d in enumerate(distances):
        grows[-first * d % p].append((i, 0))
        grows[-last * d % p].append((i, 1))
    alike = collections.Counter()
    pairs = 0

    def count(i, sign):
        nonlocal pairs
        if ends[i][0] == ends[i][1]:
            kind = distances[i] % w, ends[i][0]
            alike[kind] += min(sign, 0)
            pairs += sign * alike[kind]
            alike[kind] += max(sign, 0)

    for i in range(len(distances)):
        count(i, 1)
    ranges, since = [], 0
    was_open = pairs <= most
    for u in sorted(grows):
        for i, end in grows[u] if u else []:
            count(i, -1)
            ends[i][end] += 1
            count(i, 1)
        if was_open and pairs > most:
            ranges.append((since, u - 1))
        elif not was_open and pairs <= most:
            since = u
        was_open = pairs <= most
    return ranges + [(since, p - 1)] if was_open else ranges


def first_within(a, m, low, high):
    """The least j with a j mod m from low to high; None where there is none."""
    if low == 0:
        return 0
    if a == 0:
        return None
    j = -(-low // a)
    if a * j <= high:
        return j
    # no multiple of a is between them, so a j is above m: with a j - m i there, m i mod a is between -high and -low
    i = first_within(m % a, a, -high % a, -low % a)
    return None if i is None else -(-(low + m * i) // a)


def multipliers_within(p, x, first, last, low, high):
    """The multipliers k from first to last with k x mod p from low to high."""
    k = first
    while True:
        start, end = (low - k * x) % p, (high - k * x) % p
        j = first_within(x, p, start if start <= end else 0, end)
        if j is None or k + j > last:
            return
        yield k + j
        k += j + 1


def tried(p, codes, w, most, multipliers):
    """The first of these multipliers that passes; None where none does."""
    return next((k for k in multipliers if passes(p, k, codes, w, most)), None)


def least(p, codes, w, most, plain=512, few=64):
    """The least multiplier that leaves at most so many pairs of codes in one of w places. The first `plain` are tried one by one, and so are as
    many in a range where little can be passed over; of a longer range at most `few` are."""
    found = tried(p, codes, w, most, range(1, min(plain + 1, p)))
    if found:
        return found
    groups = by_remainder(codes, w)
    crowded = bisect.bisect_left(range(1, p), True, key=lambda k: not too_crowded(p, k, groups, most))
    k, width = max(plain, crowded) + 1, plain
    largest = max(groups, key=len)
    x = largest[len(largest) // 2]
    distances = [(a - x + p // 2) % p - p // 2 for a in codes]
    while k < p:
        last = min(k + width, p) - 1
        # the D of the others is not the same at both ends
        near = [d for d in distances if abs(d) * (last - k) < p]
        open_multipliers = (multipliers_within(p, x, k, last, low, high) for low, high in open_ranges(p, k, last, near, w, most))
        multipliers = list(itertools.islice(itertools.chain.from_iterable(open_multipliers), few + 1))
        if len(multipliers) > few and width > plain:
            width //= 2
            continue
        found = tried(p, codes, w, most, sorted(multipliers) if len(multipliers) <= few else range(k, last + 1))
        if found:
            return found
        k, width = last + 1, 2 * width
    raise ValueError("no multiplier passes")


# ---- a table


def block_loads(codes, k, n, p=P):
    """The codes of each of n blocks, or None once the squares of their numbers pass 3n - 2."""
    blocks = [[] for _ in range(n)]
    c = 0
    for a in codes:
        block = blocks[k * a % p % n]
        c += 2 * len(block) + 1
        if c > 3 * n - 2:
            return None
        block.append(a)
    return blocks


def parts(block, q, size):
    """Whether q puts the codes of a block in different ones of its cells."""
    return len({q * a % P % size for a in block}) == len(block)


def laid_out(k, blocks, sizes, multipliers, schedule, p=P):
    """The words of a table whose blocks have these codes, these numbers of cells and these multipliers."""
    starts, cells = [], []
    for block, size, q in zip(blocks, sizes, multipliers):
        starts.append(len(cells))
        part = [0] * size
        for a in block:
            part[q * a % p % size] = a
        cells += part
    return [len(blocks), len(cells), k] + starts + multipliers + cells + [schedule.get(a, 0) for a in cells]


def build(pairs, p=P):
    """The words of the table of a valid list."""
    codes = [a for a, _ in pairs]
    n = len(codes)
    # the m × m cells of a block are its m codes and two for each pair of them: c is at most 3n - 2 where at most n - 1 pairs share a block.
    # An empty list lets every k pass and an empty block every q, so that the least is the 1 that they have
    k = least(p, codes, n, n - 1)
    blocks = block_loads(codes, k, n, p)
    sizes = [len(block) ** 2 for block in blocks]
    multipliers = [least(p, block, size, 0) for block, size in zip(blocks, sizes)]
    return laid_out(k, blocks, sizes, multipliers, dict(pairs), p)


def build_refused(pairs):
    """The number and the value of a build's refusal by 3, 4 or 5, None for a valid list."""
    codes = [a for a, _ in pairs]
    faults = [
        (3, [not 1 <= a < P for a in codes]),
        (4, [not 1 <= s <= 999 for _, s in pairs]),
        (5, [a in codes[:i] for i, a in enumerate(codes)]),
    ]
    return next(((number, where.index(True)) for number, where in faults if True in where), None)


def bounds(n, c):
    """Where the four arrays of a table start, and the total."""
    return [3, 3 + n, 3 + 2 * n, 3 + 2 * n + c, 3 + 2 * n + 2 * c]


def arrays(words):
    """The starts, the multipliers, the codes and the schedules of a table."""
    at = bounds(*words[:2])
    return [words[start:end] for start, end in zip(at, at[1:])]


def own_cell(a, k, starts, ends, multipliers):
    """The cell that is a code's own by k and q, None where its block has no cells."""
    j = k * a % P % len(starts)
    cells = ends[j] - starts[j]
    return starts[j] + multipliers[j] * a % P % cells if cells else None


def arrays_refused(words):
    """The number and the value of a check's refusal by 16 to 21, None for a well-formed table."""
    n, c, k = words[:3]
    starts, multipliers, codes, schedules = arrays(words)
    ends = starts[1:] + [c]
    # a test is worked out only where none before it holds: own cells need starts that rise
    faults = [
        (16, (start != 0 if j == 0 else not starts[j - 1] <= start <= c for j, start in enumerate(starts))),
        (17, (not 1 <= q < P for q in multipliers)),
        (18, (a >= P or s > 999 or (a == 0) != (s == 0) for a, s in zip(codes, schedules))),
        (19, (a != 0 and own_cell(a, k, starts, ends, multipliers) != i for i, a in enumerate(codes))),
        (20, (end - start != sum(a != 0 for a in codes[start:end]) ** 2 for start, end in zip(starts, ends))),
    ]
    first = next(((number, i) for number, where in faults for i, fault in enumerate(where) if fault), None)
    found = sum(a != 0 for a in codes)
    return first or ((21, found) if found != n else None)


def sizes_refused(words):
    """The number and the value of a check's refusal by 11 to 15, None where there are words enough for sizes in range."""
    if len(words) < 3:
        return 11, 0
    n, c, k = words[:3]
    if n > MOST_PAIRS:
        return 12, 0
    if c > max(3 * n - 2, 0):
        return 13, 0
    if not 1 <= k < P:
        return 14, 0
    total = bounds(n, c)[-1]
    return (15, total) if len(words) < total else None


def check(words):
    """The number and the value of a check's refusal, None for a well-formed table."""
    return sizes_refused(words) or arrays_refused(words)


ABSENT = 1000, 0, 0


def lookup(words, code):
    """The number, the value and the cell of a code in any words."""
    if not 1 <= code < P:
        return 31, 0, 0
    if len(words) < 3:
        return 32, 0, 0
    if sizes_refused(words):
        return 33, 0, 0
    n, c, k = words[:3]
    if n == 0:
        return ABSENT
    j = k * code % P % n
    start = words[3 + j]
    # the word after the last start is the q of block 0
    end = words[3 + j + 1] if j + 1 < n else c
    if start > end or end > c:
        return 34, 0, 0
    # a block without cells is absent whatever its q
    if start == end:
        return ABSENT
    q = words[3 + n + j]
    if not 1 <= q < P:
        return 34, 0, 0
    cell = start + q * code % P % (end - start)
    if words[3 + 2 * n + cell] != code:
        return ABSENT
    schedule = words[3 + 2 * n + c + cell]
    return (0, schedule, cell) if 1 <= schedule <= 999 else (34, 0, 0)


def bad_holds(holds):
    """Whether the holds aren't those of all schedules, or one is too long."""
    return len(holds) != SCHEDULES or any(hold > MOST_HOLD for hold in holds)


def ending(answer, holds):
    """The number by which a lookup's answer ends a panel, 0 where the panel goes on."""
    number, schedule, _ = answer
    if number:
        return number
    return 75 if holds[schedule - 1] == 0 else 0


def panel(words, holds, codes):
    """The number, the value and the cell of a panel in any words, by any holds."""
    if not codes:
        return 35, 0, 0
    if len(codes) > MOST_PANEL:
        return 36, 0, 0
    if bad_holds(holds):
        return 74, 0, 0
    answers = [lookup(words, code) for code in codes]
    for i, answer in enumerate(answers):
        number = ending(answer, holds)
        if number:
            return number, i, 0
    schedules = [schedule for _, schedule, _ in answers]
    longest = max(holds[s - 1] for s in schedules)
    least = min(s for s in schedules if holds[s - 1] == longest)
    _, _, cell = answers[schedules.index(least)]
    return 0, least, cell


def listing(words, pairs):
    """What `list_table` prints of the table of a list."""
    lines = ["codes %d cells %d multiplier %d\n" % tuple(words[:3])] + ["%d %d\n" % pair for pair in sorted(pairs)]
    return "".join(lines).encode()


def file_refused(data):
    """The number and the value of the refusal to list a file, None for the file of a well-formed table."""
    if len(data) > MOST_FILE:
        return 61, 0
    return (62, 0) if len(data) % 4 else check(unpacked(data))


def file_listing(data):
    """What `list_table` prints of a file."""
    refused = file_refused(data)
    if refused:
        return b"refused %d %d\n" % refused
    words = unpacked(data)
    _, _, codes, schedules = arrays(words)
    return listing(words, [(a, s) for a, s in zip(codes, schedules) if a])


# ---- a list as text


def text_of(pairs):
    return b"".join(b"%d,%d\n" % pair for pair in pairs)


def write_list(codes, schedules, lent):
    """The number, the value and the text of writing a list into lent bytes; no text where it is refused."""
    if len(codes) != len(schedules):
        return 1, 0, b""
    if len(codes) > MOST_PAIRS:
        return 2, 0, b""
    text = text_of(zip(codes, schedules))
    return (72, len(text), b"") if len(text) > lent else (0, len(text), text)


NUMBER = rb"(0|[1-9][0-9]*)"
LINE = re.compile(NUMBER + b"," + NUMBER)


def pair_of(line):
    """The pair of a line without its newline, None for a faulty one."""
    fields = LINE.fullmatch(line)
    pair = tuple(map(int, fields.groups())) if fields else (MOST_NUMBER + 1,)
    return pair if max(pair) <= MOST_NUMBER else None


def read_list(text, code_places, schedule_places):
    """The number, the value and the pairs of reading a text into lent places; no pairs where it is refused."""
    *lines, rest = text.split(b"\n")
    pairs = [pair_of(line) for line in lines]
    if None in pairs:
        return 71, pairs.index(None), []
    if rest:
        return 71, len(lines), []
    if len(lines) > min(code_places, schedule_places):
        return 72, len(lines), []
    return 0, len(lines), pairs


def table_file(text):
    """What `make_table` prints of a text: the bytes of a table, or the line of a refusal."""
    number, value, pairs = read_list(text, MOST_PAIRS, MOST_PAIRS)
    if len(text) > MOST_FILE:
        number, value = 61, 0
    elif number == 0:
        number, value = build_refused(pairs) or (0, 0)
    return b"refused %d %d\n" % (number, value) if number else packed(build(pairs))


# ---- a studio's own test load


def test_load(n):
    return [(pow(75, i + 1, P), i % 999 + 1) for i in range(n)]


def generate(n, code_places, schedule_places):
    """The number, the value and the pairs of generating a load into lent places; no pairs where it is refused."""
    return (73, 0, []) if n > min(MOST_PAIRS, code_places, schedule_places) else (0, n, test_load(n))


# ---- what the programs read and print


def packed(numbers):
    return struct.pack(f"<{len(numbers)}I", *numbers)


def unpacked(data):
    return list(struct.unpack(f"<{len(data) // 4}I", data))


def digest(numbers):
    d = 0
    for x in numbers:
        d = (d * 65599 + x + 1) % 4294967291
    return d


def head(kind, codes, schedules, text):
    """The numbers that begin a case of `compare_texts`."""
    assert max(codes, schedules) <= MOST_PLACES and text <= MOST_TEXT
    return packed([kind, codes, schedules, text])


def filled(new, old):
    """Lent memory whose first places are filled."""
    return list(new) + list(old)[len(new):]


def lent_digests(pairs, code_places, schedule_places):
    """The digests of lent codes and of lent schedules whose first places are filled with these pairs."""
    codes = filled([a for a, _ in pairs], range(OLD_CODE, OLD_CODE + code_places))
    schedules = filled([s for _, s in pairs], range(OLD_SCHEDULE, OLD_SCHEDULE + schedule_places))
    return [digest(codes), digest(schedules)]


def line_of(fields):
    return (" ".join(map(str, fields)) + "\n").encode()


def summary(words):
    """n, c, k, the total and the digest of a table."""
    return words[:3] + [len(words), digest(words)]


class Built(typing.NamedTuple):
    """A list that `compare` builds."""

    pairs: list

    def encoded(self):
        return packed([len(self.pairs)] + [a for a, _ in self.pairs] + [s for _, s in self.pairs])

    def answered(self):
        return [("built", 0)]

    def expected(self):
        words = build(self.pairs)
        return line_of(words if len(self.pairs) <= SHORT else summary(words)) * 2


class BuiltFor(typing.NamedTuple):
    """A list that `compare_primes` builds for a prime, and its table."""

    prime: int
    pairs: list
    words: list

    def encoded(self):
        return packed([self.prime]) + Built(self.pairs).encoded()

    def answered(self):
        return [("built", self.prime)]

    def expected(self):
        return line_of([self.prime] + (self.words if len(self.pairs) <= SHORT else summary(self.words))) * 2


class Read(typing.NamedTuple):
    """A text that `compare_texts` reads."""

    code_places: int
    schedule_places: int
    text: bytes

    def encoded(self):
        return head(0, self.code_places, self.schedule_places, len(self.text)) + self.text

    def answer(self):
        return read_list(self.text, self.code_places, self.schedule_places)

    def answered(self):
        return [("read", self.answer()[0])]

    def expected(self):
        number, value, pairs = self.answer()
        shown = ["%d,%d" % pair for pair in pairs] if len(pairs) <= SHORT else []
        return line_of(["read", number, value] + lent_digests(pairs, self.code_places, self.schedule_places) + shown)


class Written(typing.NamedTuple):
    """A list that `compare_texts` writes."""

    codes: list
    schedules: list
    lent: int

    def encoded(self):
        return head(1, len(self.codes), len(self.schedules), self.lent) + packed(self.codes + self.schedules)

    def answer(self):
        return write_list(self.codes, self.schedules, self.lent)

    def answered(self):
        return [("written", self.answer()[0])]

    def expected(self):
        number, value, text = self.answer()
        all_bytes = filled(text, [i % OLD_BYTES for i in range(self.lent)])
        line = "written %d %d %d\n" % (number, value, digest(all_bytes))
        return line.encode() + (text if len(text) <= SHORT_TEXT else b"")


class Generated(typing.NamedTuple):
    """A load that `compare_loads` generates, builds and, where it is asked, lists."""

    listed: bool
    length: int
    code_places: int
    schedule_places: int

    def encoded(self):
        assert max(self.code_places, self.schedule_places) <= MOST_PLACES
        return packed([int(self.listed), self.length, self.code_places, self.schedule_places])

    def answer(self):
        return generate(self.length, self.code_places, self.schedule_places)

    def answered(self):
        return [("generated", self.answer()[0])]

    def expected(self):
        number, value, pairs = self.answer()
        line = line_of(["generated", number, value] + lent_digests(pairs, self.code_places, self.schedule_places))
        if number:
            return line
        words = build(pairs)
        return line + line_of(["built"] + summary(words)) + (listing(words, pairs) if self.listed else b"")


def runs(holds):
    """The holds as `compare_lookups` reads them."""
    return [number for minutes, run in itertools.groupby(holds) for number in (len(list(run)), minutes)]


class LookedUp(typing.NamedTuple):
    """Words in which `compare_lookups` looks codes up, and a panel with its holds."""

    words: list
    holds: list
    codes: list
    panel: list

    def encoded(self):
        assert len(self.words) <= MOST_WORDS and len(self.holds) <= MOST_HOLDS
        assert max(len(self.codes), len(self.panel)) <= MOST_PLACES
        return b"".join(packed([len(numbers)] + numbers) for numbers in self._replace(holds=runs(self.holds)))

    def fired(self):
        return panel(self.words, self.holds, self.panel)

    def answered(self):
        return [("found", lookup(self.words, code)[0]) for code in self.codes] + [("fired", self.fired()[0])]

    def expected(self):
        found = [line_of(["found", code, *lookup(self.words, code)]) for code in self.codes]
        return b"".join(found) + line_of(["fired", *self.fired()])


def encoded(cases):
    return b"".join(case.encoded() for case in cases)


def expected(cases):
    return b"".join(case.expected() for case in cases)


# ---- lists to build


P5 = [(4, 11), (7, 12), (8, 13), (17, 14), (20, 15)]


def paper_lists():
    """The lists of P1 to P5."""
    return [
        [],
        [(65536, 999)],
        [(2, 1), (6, 2)],
        [(3, 31), (6, 32), (9, 33)],
        P5,
    ]


def size(r):
    """A number of pairs: mostly small, now and then large."""
    return r.choice([r.randint(0, 12), r.randint(0, 12), r.randint(0, 100), r.randint(0, 100), r.randint(0, 600)])


def random_codes(r, n, p=P):
    kind = r.randrange(6)
    if kind == 0:
        return r.sample(range(1, p), n)
    if kind == 1:
        first = r.randint(1, p - max(n, 1))
        return list(range(first, first + n))
    if kind == 2:
        step = r.randint(1, max(1, (p - 2) // max(n, 1)))
        first = r.randint(1, p - 1 - step * max(n - 1, 0))
        return [first + step * i for i in range(n)]
    if kind == 3:
        step = r.randint(1, max(1, (p - 1) // max(n, 1)))
        return [step * (i + 1) for i in range(n)]
    if kind == 4:
        return list(range(p - n, p))
    rest = r.randrange(4096)
    spread = [rest + 4096 * t for t in range(17) if 1 <= rest + 4096 * t < p]
    others = [a for a in r.sample(range(1, p), n) if a not in spread]
    return (spread + others)[:n]


def with_schedules(r, codes):
    codes = list(codes)
    r.shuffle(codes)
    return [(a, r.randint(1, 999)) for a in codes]


def random_lists(seed, count):
    r = random.Random(seed)
    return [with_schedules(r, random_codes(r, size(r))) for _ in range(count)]


def stored_lists():
    r = random.Random(2048)
    full = [
        r.sample(range(1, P), 2048),
        range(1, 2049),
        range(P - 2048, P),
        [32 * (i + 1) for i in range(2048)],
        [31 * i + 5 for i in range(2048)],
        r.sample(range(1, 4097), 2048),
    ]
    pairs = [[(1, 7), (5, 8)], [(1, 1), (4, 2), (7, 3)]]
    return paper_lists() + pairs + [with_schedules(r, codes) for codes in full] + random_lists(1, 320)


# ---- lists to build for each of the three primes

PRIMES = [65537, 1000003, 2147483647]


def any_step(r, n, p):
    """The step of a progression of n codes, mostly one that n or a divisor of it divides."""
    divisor = r.choice([d for d in range(1, n + 1) if n % d == 0])
    step = r.choice([n, n, n, divisor, r.choice([2, 3, 4, 9]) * n, n * n, r.randint(1, 4 * n), r.randint(1, p // n)])
    return min(step, (p - 1) // n)


def any_first(r, span, p):
    """The first code of a progression of this span: small, anywhere, or about j p / i."""
    i = r.randint(1, 12)
    about = r.randint(0, i) * p // i + r.randint(-span - 3, 3)
    return max(1, min(r.choice([r.randint(1, 20), r.randrange(p), about]), p - 1 - span))


def progression(r, n, p):
    step = any_step(r, n, p)
    first = r.choice([step, any_first(r, step * (n - 1), p), any_first(r, step * (n - 1), p)])
    return [first + step * i for i in range(n)]


def grid(r, n, p):
    """A progression of two dimensions; the second step is any where the codes are few."""
    step = any_step(r, n, p)
    rows, second = r.randint(2, max(2, n // 2)), r.randrange(1, p) if n <= 20 else any_step(r, n, p)
    first = r.randrange(1, p)
    return [(first + i % rows * step + i // rows * second) % p for i in range(n)]


def triples(r, n, p):
    return [(x + n * i) % p for x in r.sample(range(1, p), -(-n // 3)) for i in range(3)][:n]


def powers(r, n, p):
    base = r.choice([2, 3, r.randrange(2, p)])
    return [pow(base, i, p) for i in range(n)]


def with_others(r, n, p):
    """A progression some of whose codes are replaced by others."""
    others = r.randint(1, -(-n // 4))
    return progression(r, n, p)[others:] + r.sample(range(1, p), others)


def alike_in_blocks(r, n, p):
    """Blocks of two codes or three for k = 1 that stay in one cell for many q: they differ by multiples of n and of the block's cells."""
    m = r.choice([2, 2, 3])
    step = n * m * m * r.randint(1, 3)
    first = r.choice([1, r.randint(1, 50), any_first(r, n + step * m, p)])
    shared = [first + j + step * i for j in range(n // (2 * m - 2)) for i in range(m)]
    return (shared + [first + j for j in range(n)])[:n]


FAMILIES = [progression, progression, progression, grid, triples, powers, with_others, alike_in_blocks, alike_in_blocks]


def structured_codes(r, n, p):
    """About n codes of one of the families, or their negatives."""
    codes = sorted({a for a in r.choice(FAMILIES)(r, max(n, 1), p) if 0 < a < p})
    return r.choice([codes, codes, [p - a for a in codes]])


def prime_lists(r, p):
    """Random lists for a prime, structured ones among them, without end."""
    while True:
        n = r.choice([r.randint(0, 8), r.randint(0, 12), r.randint(0, 48), r.randint(33, 90)])
        yield with_schedules(r, r.choice([random_codes, structured_codes, structured_codes])(r, n, p))


def built_for(p, lists):
    """The lists with their tables."""
    return (BuiltFor(p, pairs, build(pairs, p)) for pairs in lists)


def random_prime_lists(seed, count):
    r = random.Random(seed)
    cases = zip(*(built_for(p, prime_lists(r, p)) for p in PRIMES))
    return list(itertools.islice(itertools.chain.from_iterable(cases), count))


def stored_prime_lists(p):
    r = random.Random(p)
    anywhere = [r.randrange(1, p - 4) for _ in range(6)]
    codes = [[1], [p - 1], [1, p - 1], [1, 5], [5, 9], [p - 1, p - 5], [p - 2, p - 6], [1, 4, 7], [p - 1, p - 4, p - 7]]
    codes += [[x, x + 4] for x in anywhere] + [[2 * p // 3 + 6 * i for i in range(n)] for n in (3, 6, 12)]
    codes += [[1295268587 % p + 6 * i for i in range(n)] for n in (3, 6, 12, 18)]
    codes += [r.sample(range(1, p), n) for n in (33, 64, 65, 127, 128, 129, 300, 1000)]
    step = min(MOST_PAIRS, p // MOST_PAIRS)
    codes += [r.sample(range(1, p), MOST_PAIRS), [step * (i + 1) for i in range(MOST_PAIRS)], [p - step * (i + 1) for i in range(MOST_PAIRS)]]
    lists = paper_lists() + [with_schedules(r, a) for a in codes]
    return itertools.chain(built_for(p, lists), itertools.islice(built_for(p, prime_lists(r, p)), 300))


# ---- texts to read, lists to write

# a faulty line without its newline, of a code a and a schedule s
FAULTY = [
    # blanks and other bytes that are not seen
    "{a},{s}\r", "\r{a},{s}", " {a},{s}", "{a} ,{s}", "{a}, {s}", "{a},{s} ", "1 2,{s}", "{a},1 2", "\t{a},{s}", "{a},{s}\t",
    " ", "\r",
    "\0{a},{s}", "{a}\0,{s}", "{a},{s}\0", "\0", "\ufeff{a},{s}",
    # signs and leading zeros
    "+{a},{s}", "{a},+{s}", "-{a},{s}", "{a},-{s}", "-0,{s}", "{a},-0",
    "00,{s}", "{a},00", "01,{s}", "{a},01", "007,{s}", "{a},007", "0{a},{s}", "{a},0{s}", "00000000000,{s}", "{a},00000000001",
    # numbers missing, commas missing, too many or other bytes
    "", ",", "{a},", ",{s}", "{a}", "{a}{s}", "{a},,{s}", ",{a},{s}", "{a},{s},", "{a},{s},{a}", "{a};{s}", "{a}.{s}", "{a}-{s}",
    # bytes beside the digits, letters, bytes above 127
    ":,{s}", "/,{s}", "{a}:,{s}", "{a}/,{s}", "{a},:", "{a},/", "{a},{s}:", "{a},{s}/", "/{a},{s}", ":{a},{s}",
    "a,{s}", "{a},b", "1e3,{s}", "0x1f,{s}", "{a},{s}f", "code,schedule",
    "{a},\x7f", "{a}\x80,{s}", "\xff", "\xb1,{s}", "{a},\xb9", "{a}\xac{s}", "{a},{s}\x8a",
    # numbers too large
    "4294967296,{s}", "{a},4294967296", "4294967297,{s}", "{a},4294967305", "4300000000,{s}", "{a},5000000000", "9999999999,{s}",
    "{a},9999999999", "10000000000,{s}", "{a},10000000000", "42949672950,{s}", "{a},18446744073709551616", "18446744073709551623,{s}",
    "{a},99999999999999999999", "1{zeros},{s}", "{a},1{zeros}", "{nines},{s}", "{a},{nines}",
]


def any_number(r):
    """A number of any length: the first and the last of a length are often among them."""
    low = 10 ** r.randrange(10)
    ends = [0, 1, low, min(10 * low - 1, MOST_NUMBER), MOST_NUMBER - 1, MOST_NUMBER]
    return r.choice(ends) if r.random() < 0.4 else r.randrange(low - 1, min(10 * low, MOST_NUMBER + 1))


def any_pairs(r, n):
    return [(any_number(r), any_number(r)) for _ in range(n)]


def faulty_line(r, shape):
    a, s = r.randint(1, 65536), r.randint(1, 999)
    line = shape.format(a=a, s=s, zeros="0" * 59, nines="9" * 60) + "\n"
    return line.encode("utf-8" if "\ufeff" in shape else "latin-1")


def good_lines(r, n):
    return [text_of([pair]) for pair in any_pairs(r, n)]


def with_line(lines, at, line):
    """A text of lines, with one more line before the one with index `at`."""
    return b"".join(lines[:at] + [line] + lines[at:])


def enough(text):
    """Places for any line of a text, faulty or not."""
    return text.count(b"\n") + 1


def valid_reads(r, count):
    """Texts of 0 to 40 lines; in turn places that are exactly enough, more, and one fewer in either or both arrays."""
    cases = []
    for turn in range(count):
        n = (0, 1, 2, r.randint(0, 8), r.randint(3, 16), r.randint(0, 40))[turn % 6]
        codes, schedules = [(0, 0), (r.randint(1, 9), r.randint(1, 9)), (-1, 0), (0, -1), (-1, -1), (r.randint(1, 9), 0), (-n, 0)][turn % 7]
        cases.append(Read(max(n + codes, 0), max(n + schedules, 0), text_of(any_pairs(r, n))))
    return cases


def faulty_reads(r, shapes):
    """For each shape the faulty line by itself, first, in the middle and last; and with too few places."""
    cases = []
    for shape in shapes:
        line = faulty_line(r, shape)
        lines = good_lines(r, r.randint(2, 6))
        texts = [line] + [with_line(lines, at, line) for at in (0, len(lines) // 2, len(lines))]
        cases += [Read(enough(text), enough(text) + r.randint(0, 2), text) for text in texts]
        cases.append(Read(r.randint(0, 1), r.randint(0, 1), texts[r.randrange(4)]))
    return cases


def twice_faulty_reads(r, count):
    cases = []
    for _ in range(count):
        lines = good_lines(r, r.randint(0, 6))
        for _ in range(2):
            lines.insert(r.randint(0, len(lines)), faulty_line(r, r.choice(FAULTY)))
        text = b"".join(lines)
        cases.append(Read(r.choice([0, enough(text)]), enough(text), text))
    return cases


def cut_reads(r, count):
    """Texts whose last line is not ended: a whole text without its last byte, or cut anywhere."""
    cases = []
    for turn in range(count):
        text = b"".join(good_lines(r, r.randint(1, 5)))
        text = text[: -1 if turn % 2 else r.randint(1, len(text))]
        cases.append(Read(enough(text), r.choice([0, enough(text)]), text))
    return cases + [Read(2, 2, b"1,2\n" + rest) for rest in (b"\r", b" ", b"\0", b"0", b",", b"3,", b"3,4", b"03,4", b"4294967296,1")]


def changed_reads(r, count):
    """Texts of good lines with one byte changed, put in or taken out."""
    cases = []
    for _ in range(count):
        text = bytearray(b"".join(good_lines(r, r.randint(1, 5))))
        at = r.randrange(len(text))
        byte = r.choice([r.randrange(256), r.choice(b"0123456789,\n\r /:+-\0")])
        text[at : at + r.randint(0, 1)] = r.choice([b"", bytes([byte])])
        cases.append(Read(enough(text), enough(text), bytes(text)))
    return cases


def every_byte_reads():
    """Each byte between two numbers, before them and after them."""
    return [Read(2, 3, text) for b in range(256) for text in (b"1%c2\n" % b, b"%c3,4\n" % b, b"5,6%c\n" % b)]


def long_reads(r):
    """Texts of about MOST_PAIRS lines: reading has no limit but the places."""
    pairs = [(r.randint(1, 65536), r.randint(1, 999)) for _ in range(2100)]
    text = text_of(pairs[:MOST_PAIRS])
    return [
        Read(MOST_PAIRS, MOST_PAIRS, text),
        Read(2100, 2101, text_of(pairs)),
        Read(MOST_PAIRS, 2100, text_of([(i % 10, i % 7) for i in range(MOST_PAIRS + 1)])),
    ]


def writes(r, count):
    """Lists of 0 to 30 pairs; in turn lent bytes that are exactly enough, one too few, more and any number; some lengths differ."""
    cases = []
    for turn in range(count):
        pairs = any_pairs(r, (0, 1, 2, r.randint(1, 8), r.randint(0, 30))[turn % 5])
        codes, schedules = [a for a, _ in pairs], [s for _, s in pairs]
        needed = len(text_of(pairs))
        lent = (needed, max(needed - 1, 0), needed + r.randint(1, 40), r.randint(0, needed + 1))[turn % 4]
        if turn % 6 == 5:
            (codes if r.random() < 0.5 else schedules).append(any_number(r))
        cases.append(Written(codes, schedules, lent))
    return cases


def long_writes(r):
    """2,048 pairs, in the bytes that they need and in one fewer; 2,049, by 2 before 72; lengths that differ, by 1 before 2."""
    pairs = any_pairs(r, MOST_PAIRS)
    codes, schedules = [a for a, _ in pairs], [s for _, s in pairs]
    largest = [MOST_NUMBER] * MOST_PAIRS
    return [
        Written(codes, schedules, len(text_of(pairs))),
        Written(largest, largest, 22 * MOST_PAIRS - 1),
        Written(codes + [1], schedules + [1], 0),
        Written(codes + [1], schedules, 0),
    ]


def stored_texts():
    r = random.Random(71)
    reads = [Read(p, q, b"") for p, q in ((0, 0), (0, 3), (3, 0), (2, 2))] + [Read(p, p, b"\n") for p in (0, 1)]
    reads += valid_reads(r, 140) + faulty_reads(r, FAULTY) + twice_faulty_reads(r, 60) + cut_reads(r, 40) + changed_reads(r, 160)
    return reads + every_byte_reads() + long_reads(r) + writes(r, 120) + long_writes(r)


def random_texts(seed, count):
    r = random.Random(seed)
    makers = [
        valid_reads, twice_faulty_reads, cut_reads, changed_reads, writes, lambda r, count: faulty_reads(r, r.choices(FAULTY, k=count)),
    ]
    cases = []
    while len(cases) < count:
        cases += r.choice(makers)(r, 40)
    return cases[:count]


# ---- loads to generate


def stored_loads():
    lengths = [0, 1, 2, 4, 32, 33, 998, 999, 1000, 1024, 2047, 2048]
    cases = [Generated(False, n, n + codes, n + schedules) for n in lengths for codes, schedules in ((0, 0), (3, 0), (0, 5), (9, 7))]
    cases += [Generated(False, n, MOST_PLACES, MOST_PLACES) for n in lengths + [2049, 4096, MOST_NUMBER]]
    # an array or both one too short, or empty; a length that is too large as well
    for n in (1, 2, 999, 1000, 2048, 2049):
        cases += [Generated(False, n, n + codes, n + schedules) for codes, schedules in ((-1, 0), (0, -1), (-1, -1), (-n, 0), (0, -n), (-n, -n))]
    cases += [Generated(False, MOST_NUMBER, 0, 0), Generated(False, MOST_NUMBER, MOST_PAIRS, 0)]
    # at 1,000 the schedules begin again from 1
    return cases + [Generated(True, n, n, n) for n in (0, 4, 1000)] + [Generated(True, 4, 3, 4)]


def random_loads(seed, count):
    """Lengths often near the ends of what is a load and of the schedules; places exactly enough, more, too few and any number."""
    r = random.Random(seed)
    cases = []
    for _ in range(count):
        near = r.choice([0, 2, 32, 999, 1000, MOST_PAIRS, MOST_PAIRS + 1])
        n = r.choice([near, max(near + r.randint(-2, 2), 0), r.randint(0, MOST_PAIRS), r.randint(0, MOST_PLACES), any_number(r)])
        codes, schedules = (r.choice([n, n, n + r.randint(1, 9), n - 1, r.randint(0, MOST_PLACES)]) for _ in range(2))
        codes, schedules = (min(max(places, 0), MOST_PLACES) for places in (codes, schedules))
        cases.append(Generated(r.random() < 0.3, n, codes, schedules))
    return cases


# ---- texts to make tables of


def random_studio_texts(seed, count):
    """Texts of lists, of which some are faulty or have pairs that a build refuses."""
    r = random.Random(seed)
    texts = []
    for pairs in random_lists(seed, count):
        lines = [text_of([pair]) for pair in pairs]
        fault = r.randrange(8)
        if fault == 0:
            lines.insert(r.randint(0, len(lines)), faulty_line(r, r.choice(FAULTY)))
        if fault == 1:
            lines.insert(r.randint(0, len(lines)), text_of([(r.choice([0, P, any_number(r)]), r.choice([0, 1, 1000]))]))
        if fault == 2 and lines:
            lines.insert(r.randint(0, len(lines)), r.choice(lines))
        if fault == 3:
            lines += [b"%d,1\n" % (1 + i) for i in range(r.choice([2040, 20000]))]
        texts.append(b"".join(lines))
    return texts


def stored_studio_texts():
    """By the program that makes a table of each."""
    return {
        "make_table": text_of([(17, 14), (4, 11), (20, 15), (7, 12), (8, 13)]),
        "make_refused": b"4,11\n7,12\n08,13\n17,14\n20,15\n",
        "make_repeated": text_of([(4, 11), (7, 12), (8, 13), (7, 14), (20, 15)]),
    }


# ---- files to list


def file_pairs(r):
    """A list of any size, often the least or the largest."""
    n = r.choice([r.randint(0, 2), size(r), size(r), r.randint(0, MOST_PAIRS), MOST_PAIRS - r.randint(0, 1)])
    return with_schedules(r, random_codes(r, n))


def any_multipliers(r):
    """Multipliers without end, the last one often among them."""
    return (r.choice([P - 1, r.randint(1, P - 1), r.randint(1, P - 1)]) for _ in itertools.count())


def loose_table(r, pairs, n, resized):
    """A table of n blocks, some of them resized, with any multipliers that fit."""
    codes = [a for a, _ in pairs]
    # one block more after each 100 multipliers that don't keep the bound: with too few blocks none does
    tries = ((k, block_loads(codes, k, n + i // 100)) for i, k in enumerate(any_multipliers(r)))
    k, blocks = next((k, b) for k, b in tries if b is not None)
    sizes = [len(block) ** 2 for block in blocks]
    for j in r.sample(range(len(blocks)), min(resized, len(blocks))):
        sizes[j] = max(sizes[j] + r.choice([-1, 1, 2, 3]), len(blocks[j]))
    multipliers = [next(q for q in any_multipliers(r) if parts(block, q, size)) for block, size in zip(blocks, sizes)]
    return laid_out(k, blocks, sizes, multipliers, dict(pairs))


def good_table(r):
    """A well-formed table, with the least multipliers or any others."""
    pairs = file_pairs(r)
    return r.choice([build(pairs), loose_table(r, pairs, len(pairs), 0)])


def resized_table(r):
    """A table with blocks whose cells don't number the square of their codes."""
    pairs = file_pairs(r)
    return loose_table(r, pairs, len(pairs), r.randint(1, 3))


def miscounted_table(r):
    """A table whose codes don't number n: with more blocks there are empty ones, with fewer they are fuller."""
    pairs = file_pairs(r)
    f = len(pairs)
    n = r.choice([f + 1, f + r.randint(2, 9), f * 3 // 2, MOST_PAIRS, f - 1, f - 2, f * 9 // 10])
    return loose_table(r, pairs, min(max(n, 1), MOST_PAIRS), r.choice([0, 0, 0, 1]))


def small_table(r):
    """A table of few cells with anything in them: mostly 19, often 20 or 21."""
    n = r.randint(1, 4)
    c = r.randint(0, min(3 * n - 2, 5))
    starts = [0] + sorted(r.randint(0, c) for _ in range(n - 1))
    codes = [r.choice([0, r.randint(1, 9), r.randint(P - 4, P - 1)]) for _ in range(c)]
    ks = r.choices([1, 2, 3, P - 1], k=n + 1)
    return [n, c] + ks[:1] + starts + ks[1:] + codes + [a and r.randint(1, 999) for a in codes]


def changed(r, words):
    """A table with a few words changed, in any of its parts as often as in any other."""
    n, c = words[:2]
    at = bounds(n, c)
    # where each part starts and ends, and the last number that is in range there
    regions = [(0, 1, MOST_PAIRS), (1, 2, max(3 * n - 2, 0)), (2, 3, P - 1)]
    regions = [region for region in regions + list(zip(at, at[1:], [c, P - 1, P - 1, 999])) if region[0] < region[1]]
    words = list(words)
    for _ in range(r.choice([1, 1, 1, 2, 4])):
        start, end, last = r.choice(regions)
        i = r.choice([start, end - 1, r.randrange(start, end), r.randrange(start, end)])
        if r.random() < 0.2:
            j = r.choice([r.randrange(start, end), r.randrange(len(words))])
            words[i], words[j] = words[j], words[i]
        else:
            # one less than 0 is the largest number
            near = (words[i] + r.choice([-1, 1])) % (MOST_NUMBER + 1)
            words[i] = r.choice([0, near, near, last, last + 1, r.randint(0, last), any_number(r)])
    return words


def moved(r, words):
    """A table with a pair taken out of its cell, copied to another or exchanged with what is there."""
    n, c = words[:2]
    _, _, codes, schedules, total = bounds(n, c)
    pairs = list(zip(words[codes:schedules], words[schedules:total]))
    if pairs:
        i, j = r.choice([i for i, (a, _) in enumerate(pairs) if a]), r.randrange(c)
        pairs[j], pairs[i] = r.choice([(pairs[j], (0, 0)), (pairs[i], pairs[i]), (pairs[i], pairs[j])])
    return words[:codes] + [a for a, _ in pairs] + [s for _, s in pairs] + words[total:]


def with_rest(r, words, count):
    """A table and other words after it: any, or such as could be its own."""
    return words + r.choice([unpacked(r.randbytes(4 * count)), r.choices(words, k=count)])


def cut(r, words):
    return words[: r.choice([r.randint(0, 2), r.randrange(len(words)), len(words) - 1])]


def full_file(r, words):
    """A table and other words after it, up to the most bytes."""
    return packed(with_rest(r, words, MOST_FILE // 4 - len(words)))


# each makes the words of a table, whole or damaged
TABLES = [
    good_table,
    lambda r: with_rest(r, good_table(r), r.randint(1, 30)),
    lambda r: changed(r, good_table(r)),
    lambda r: changed(r, good_table(r)),
    lambda r: changed(r, good_table(r)),
    lambda r: with_rest(r, changed(r, good_table(r)), r.randint(1, 30)),
    lambda r: moved(r, good_table(r)),
    lambda r: changed(r, moved(r, good_table(r))),
    resized_table,
    miscounted_table,
    small_table,
    lambda r: cut(r, good_table(r)),
]

# each makes the bytes of a file
FILES = [lambda r, table=table: packed(table(r)) for table in TABLES] + [
    lambda r: packed(with_rest(r, good_table(r), r.randint(0, 9)))[: -r.randint(1, 3)],
    lambda r: full_file(r, r.choice([good_table, small_table])(r)),
    lambda r: full_file(r, changed(r, good_table(r))),
    lambda r: full_file(r, good_table(r))[: -r.randint(1, 3)],
    lambda r: full_file(r, good_table(r)) + r.randbytes(r.choice([1, r.randint(2, 4), r.randint(5, 99999)])),
    lambda r: r.randbytes(r.choice([r.randint(0, 12), 4 * r.randint(0, 50), r.randint(0, 2 * MOST_FILE)])),
]


def random_files(seed, count):
    """The empty file and that of P5, then files of all kinds."""
    r = random.Random(seed)
    files = [b"", packed(build(P5))] + [r.choice(FILES)(r) for _ in range(count - 2)]
    return files[:count]


# ---- tables to look codes up in

# the ends of the range of a code, one beyond, and the largest number
ENDS = [0, 1, P - 1, P, MOST_NUMBER]


def known_codes(words):
    """The codes in the cells of a table; of other words, what stands where these would be."""
    return [a for a in arrays(words)[2] if a] if len(words) > 1 else []


def known_schedules(words):
    """The schedules in the cells of a table; of other words, what stands where these would be and could be one."""
    return [s for s in arrays(words)[3] if 1 <= s <= SCHEDULES] if len(words) > 1 else []


def holds_of(minutes, others):
    """The holds of some schedules, by their numbers, and of all others."""
    return [minutes.get(s, others) for s in range(1, SCHEDULES + 1)]


def rising(schedules):
    """Holds that rise with the number, at each of these schedules."""
    return [1 + sum(t <= s for t in set(schedules)) for s in range(1, SCHEDULES + 1)]


def paper_lookups():
    """In the tables of P1 to P5, some with words after them, their codes, those of P8 and P9 and the ends, and a panel; then P12, also by rising holds."""
    tables = [build(pairs) + rest for pairs in paper_lists() for rest in ([], [1], [MOST_NUMBER] * 9)]
    cases = [LookedUp(w, rising(known_schedules(w)), known_codes(w) + [3, 10] + ENDS, known_codes(w)) for w in tables]
    words = build(P5)
    return cases + [LookedUp(words, holds, [], [7, 17, 4]) for holds in (holds_of({12: 60, 14: 45, 11: 50}, 0), rising(known_schedules(words)))]


def tied_panels():
    """Panels of all one, two and three codes of five, the same one more than once too; all holds are equal, and three of the five have the least schedule."""
    pairs = [(1, 14), (2, 12), (3, 12), (4, 13), (5, 12)]
    panels = [list(codes) for m in (1, 2, 3) for codes in itertools.product([a for a, _ in pairs], repeat=m)]
    return [LookedUp(build(pairs), holds_of({}, 60), [], codes) for codes in panels]


def ordered_panels():
    """Panels of four codes in all orders, by holds of their three schedules in all orders, equal ones too; all other holds are longer."""
    pairs = [(1, 12), (2, 13), (3, 13), (4, 14)]
    ranked = sorted({tuple(sorted(set(t)).index(x) for x in t) for t in itertools.product(range(3), repeat=3)})
    holds = [holds_of({12 + i: 1 + rank for i, rank in enumerate(ranks)}, MOST_HOLD) for ranks in ranked]
    return [LookedUp(build(pairs), h, [], list(codes)) for h in holds for codes in itertools.permutations(a for a, _ in pairs)]


def end_schedules():
    """Panels with the first schedule and the last, which have the first hold and the last: not in use, as long as another or longer."""
    pairs = [(1, 1), (2, SCHEDULES), (3, 500)]
    holds = [holds_of({1: first, 500: 60, SCHEDULES: last}, 0) for first, last in itertools.product((0, 60, MOST_HOLD), repeat=2)]
    return [LookedUp(build(pairs), h, [], list(codes)) for h in holds for codes in itertools.permutations(a for a, _ in pairs)]


def ended_panels():
    """Panels of P5 that one code or the first of two ends: absent from an empty block or a cell, out of range, in a damaged block, not in use."""
    words, codes = build(P5), [7, 17, 4]
    # the q of the block of 20
    words[8] = 0
    ending_codes = [[a] for a in (6, 9, 0, P, 20, 8)]
    ending_codes += [first + second for first, second in itertools.permutations(ending_codes, 2)]
    # the schedule of 8 is not in use
    holds = holds_of({13: 0}, 60)
    return [LookedUp(words, holds, [], codes[:i] + ends + codes[i:]) for i in (0, 1, 3) for ends in ending_codes]


def panel_lengths():
    """Panels of 0 to 200 codes, in a table, an empty one, one that is cut and no words; about 64 also with another code last or first."""
    words = build(P5)
    holds = rising(known_schedules(words))
    lent = [words, build([]), words[:-1], []]
    cases = [LookedUp(w, holds, [], ([7, 17, 4] * 67)[:m]) for w in lent for m in (0, 1, 63, 64, 65, 200)]
    cases += [LookedUp(words, holds, [], [4] * (m - 1) + [last]) for m in (64, 65) for last in (20, 5, 0, P)]
    return cases + [LookedUp(words, holds, [], [first] + [4] * 64) for first in (5, 0, P)]


def held_panels():
    """Too few holds and too many, the longest and longer ones in the first, a middle and the last place, all of the longest, none in use. The panels are
    found, empty, too long, begin with a code that is absent or out of range, or stand in no blocks, in cut words or in none."""
    words, codes = build(P5), [7, 17, 4]
    equal = holds_of({}, 60)
    holds = [equal[:m] for m in (0, 1, 998)] + [equal + [60], equal + [60] * 25, holds_of({}, MOST_HOLD), holds_of({}, 0)]
    holds += [holds_of({s: minutes}, 60) for s in (1, 500, SCHEDULES) for minutes in (MOST_HOLD, MOST_HOLD + 1, MOST_NUMBER)]
    panels = [(words, m) for m in (codes, [], codes * 22, [5] + codes, [0] + codes)]
    panels += [(w, codes) for w in (build([]), words[:-1], words[:2], [])]
    return [LookedUp(w, h, [], m) for h in holds for w, m in panels]


def mixed_holds():
    """Panels of 64 codes by holds in any order: all different, and of a few lengths."""
    r = random.Random(75)
    pairs = with_schedules(r, r.sample(range(1, P), MOST_PANEL))
    holds = [r.sample(range(1, MOST_HOLD + 1), SCHEDULES), r.choices([1, 45, 60], k=SCHEDULES)]
    return [LookedUp(build(pairs), h, [], [a for a, _ in pairs]) for h in holds]


def blank_table(n, c):
    """A table without codes whose last block has all the cells."""
    return [n, c, 1] + [0] * n + [1] * n + [0] * (2 * c)


def sized_lookups():
    """Words that are too few; n, c and k at the ends of their ranges and beyond, with words enough where these can be lent."""
    words = build([(2, 1), (6, 2)])
    tables = [words[:length] for length in range(len(words) + 1)]
    tables += [words[:2] + [k] + words[3:] for k in (0, P - 1, P, MOST_NUMBER)]
    tables += [blank_table(n, c) for n in range(4) for c in range(3 * n + 1)]
    tables += [blank_table(n, 0) for n in (MOST_PAIRS, MOST_PAIRS + 1)]
    # in 32 bits their totals would be at most that of the words
    sizes = [(2**31, 4), (2, 2**31), (2**31 + 2, 4), (2, 2**31 + 4), (2**31, 2**31)]
    tables += [[n, c] + words[2:] for n, c in sizes]
    return [LookedUp(w, holds_of({}, 60), [2, 6, 3, 0, P], [6, 2]) for w in tables]


def last_multiplier_lookups():
    """The last k and the last q with the last code: a product of 33 bits."""
    last = P - 1
    tables = [
        laid_out(last, [[1], [last]], [1, 1], [last, last], {1: 6, last: 5}),
        laid_out(1, [[2, last], []], [4, 0], [last, last], {2: 6, last: 5}),
    ]
    return [LookedUp(words, rising([5, 6]), [1, 2, last], known_codes(words)) for words in tables]


def changed_lookups(pairs, holds):
    """The table of a list with each word in turn at the ends of the ranges, one beyond them, one less and one more."""
    words = build(pairs)
    c = words[1]
    codes = [a for a, _ in pairs]
    cases = []
    for i, word in enumerate(words):
        others = {0, 1, (word - 1) % (MOST_NUMBER + 1), word + 1, c, c + 1, 999, 1000, P - 1, P, MOST_NUMBER} - {word}
        cases += [LookedUp(words[:i] + [other] + words[i + 1 :], holds, codes, codes) for other in sorted(others)]
    return cases


def largest_lookups():
    """The largest test load: codes with index 1,997 and 998 have schedule 999 and the longest hold, the earlier one of the panel decides."""
    pairs = test_load(MOST_PAIRS)
    codes = [a for a, _ in pairs]
    absent = sorted(set(range(1, P)) - set(codes))
    panel_codes = codes[1990:2000] + codes[990:1000] + codes[:44]
    return [LookedUp(build(pairs), rising([998, 999]), codes[::32] + codes[-1:] + absent[::1000] + ENDS, panel_codes)]


def tied_table(r):
    """A well-formed table of three schedules, mostly of a few codes, so that several codes of a panel have the schedule that decides."""
    pairs = [(a, r.choice([1, 998, 999])) for a in random_codes(r, r.choice([r.randint(3, 12), r.randint(3, 12), size(r)]))]
    return r.choice([build(pairs), loose_table(r, pairs, len(pairs), 0)])


def any_words(r):
    return unpacked(r.randbytes(4 * r.randint(0, 50)))


def any_code(r, known, words):
    """A code of the table, one beside it, one of the ends, a word of the table, any code or any number."""
    a = r.choice(known)
    beside = (a + r.choice([-1, 1])) % (MOST_NUMBER + 1)
    return r.choice([a, a, beside, r.choice(ENDS), r.choice(ENDS + words), r.randrange(1, P), any_number(r)])


def any_panel(r, known, words):
    """A panel of codes of the table, now and then with another code among them."""
    most = MOST_PANEL
    m = r.choice([0, 1, 2, 3, r.randint(2, 8), r.randint(2, 8), r.randint(1, most), most, most + 1])
    codes = r.choices(known, k=m)
    if codes and r.random() < 0.3:
        codes[r.randrange(m)] = any_code(r, known, words)
    return codes


def any_holds(r, schedules, most_runs):
    """Holds in at most so many runs, which mostly begin at one of these schedules or after it; often some are equal or not in use, or they rise or fall."""
    near = [s - r.randint(0, 1) for s in schedules] + [r.randrange(SCHEDULES)]
    firsts = sorted({0, *r.choices(near, k=r.randrange(most_runs))} - {SCHEDULES})
    several = r.choice([[45, 60], [1, 60, MOST_HOLD], [0, 45, 60], [0, 60, 60, 60], range(1, MOST_HOLD + 1), range(MOST_HOLD + 1)])
    minutes = [r.choice(several) for _ in firsts]
    minutes = r.choice([minutes, minutes, minutes, sorted(minutes), sorted(minutes, reverse=True)])
    return [m for first, end, m in zip(firsts, firsts[1:] + [SCHEDULES], minutes) for _ in range(first, end)]


def damaged_holds(r, holds):
    """Holds of which one is any number, mostly too long, or which are too few or too many."""
    i = r.choice([0, SCHEDULES - 1, r.randrange(SCHEDULES)])
    other = r.choice([MOST_HOLD + 1, MOST_NUMBER, any_number(r)])
    return r.choice([holds[:i] + [other] + holds[i + 1 :], holds[:i], holds + holds[: r.randint(1, MOST_HOLDS - SCHEDULES)]])


def random_lookups(seed, count, most_words, most_runs):
    """Tables of all kinds with at most so many words, holds of at most so many runs, of which some are then damaged; codes that are mostly the table's."""
    r = random.Random(seed)
    makers = TABLES + [tied_table] * 8 + [lambda r: changed(r, tied_table(r)), any_words]
    tables = (words for _ in itertools.count() for words in [r.choice(makers)(r)] if len(words) <= most_words)
    cases = []
    for words in itertools.islice(tables, count):
        holds = any_holds(r, known_schedules(words), most_runs)
        if r.random() < 0.1:
            holds = damaged_holds(r, holds)
        known = known_codes(words) or ENDS
        codes = r.sample(known, min(len(known), 12)) + [any_code(r, known, words) for _ in range(r.randint(0, 8))]
        cases.append(LookedUp(words, holds, codes, any_panel(r, known, words)))
    return cases


def stored_lookups():
    cases = paper_lookups() + tied_panels() + ordered_panels() + end_schedules()
    cases += ended_panels() + panel_lengths() + held_panels() + mixed_holds() + sized_lookups() + last_multiplier_lookups()
    cases += changed_lookups([(2, 1), (6, 2)], holds_of({1: 60, 2: 60, 999: 60}, 0))
    cases += changed_lookups(P5, holds_of({11: 50, 12: 60, 13: 60, 14: 45, 15: 45}, 0))
    return cases + largest_lookups() + random_lookups(34, 175, 100, 8)


# ---- the stored files, and fresh cases


def store(program, given, answered):
    folder = CRATES / program
    folder.mkdir(parents=True, exist_ok=True)
    (folder / "stdin").write_bytes(given)
    (folder / "stdout").write_bytes(answered)


def tally(answers):
    """How many answers there are of each kind and number."""
    counts = collections.Counter(answers)
    return ", ".join(f"{kind} {number}: {counts[kind, number]}" for kind, number in sorted(counts))


def counted(cases):
    """How many answers of the cases there are of each kind and number."""
    return tally(answer for case in cases for answer in case.answered())


def make():
    programs = {
        "compare": [Built(pairs) for pairs in stored_lists()],
        "compare_primes": [case for p in PRIMES for case in stored_prime_lists(p)],
        "compare_texts": stored_texts(),
        "compare_loads": stored_loads(),
        "compare_lookups": stored_lookups(),
    }
    for program, cases in programs.items():
        store(program, encoded(cases), expected(cases))
        print(f"{program}: {counted(cases)}")
    for program, text in stored_studio_texts().items():
        store(program, text, table_file(text))


def printed(program, given):
    return subprocess.run([program], input=given, stdout=subprocess.PIPE, check=True).stdout


def fresh(cases, program):
    """Whether the program prints what is expected, in parts that it has room for."""
    parts = [cases[i : i + 2000] for i in range(0, len(cases), 2000)]
    return all(printed(program, encoded(part)) == expected(part) for part in parts), counted(cases)


def fresh_tables(texts, program):
    return all(printed(program, text) == table_file(text) for text in texts), f"{len(texts)} texts"


def printed_of_file(program, data):
    """What a program prints of a file that is its standard input."""
    with tempfile.TemporaryFile() as given:
        given.write(data)
        given.seek(0)
        return subprocess.run([program], stdin=given, stdout=subprocess.PIPE, check=True).stdout


def printed_of_pieces(program, data, r):
    """What a program prints of bytes that come in pieces, so that it reads fewer at a time than it asks for."""
    # into a file, since a program that prints while it is written to could fill a pipe
    with tempfile.TemporaryFile() as answered:
        with subprocess.Popen([program], stdin=subprocess.PIPE, stdout=answered, bufsize=0) as process:
            try:
                while data:
                    length = r.randint(1, min(r.choice([7, 500, 20000]), len(data)))
                    process.stdin.write(data[:length])
                    data = data[length:]
                    time.sleep(r.choice([0, 0, 0.001]))
            except BrokenPipeError:
                # it reads no further than the first byte too many
                pass
        if process.returncode:
            raise subprocess.CalledProcessError(process.returncode, program)
        answered.seek(0)
        return answered.read()


def fresh_files(seed, count, program):
    r = random.Random(seed)
    files = random_files(seed, count)

    def answer(data):
        return printed_of_pieces(program, data, r) if r.randrange(4) == 0 else printed_of_file(program, data)

    what = tally(("listed", (file_refused(data) or (0, 0))[0]) for data in files)
    return all(answer(data) == file_listing(data) for data in files), what


def same_least(seed, count):
    """Whether the searches find what trying all multipliers does."""
    r = random.Random(seed)
    multipliers = []
    for _ in range(count):
        p = r.choice([101, 257, 1009, 1009, 10007, 65537])
        codes = [a for a, _ in next(prime_lists(r, p))]
        m = len(codes)
        for w, most in ((m, m - 1), (m * m, 0)):
            multipliers.append(tried(p, codes, w, most, range(1, p)))
            if multipliers[-1] != least(p, codes, w, most, r.choice([1, 8, 64]), r.choice([1, 8, 64])):
                return False, f"p = {p}, w = {w}, codes {codes}"
    return True, f"{len(multipliers)} multipliers, {sum(k >= 64 for k in multipliers)} of them above 63, the largest {max(multipliers)}"


FRESH = {
    "fresh": lambda seed, count, program: fresh([Built(pairs) for pairs in random_lists(seed, count)], program),
    "fresh-primes": lambda seed, count, program: fresh(random_prime_lists(seed, count), program),
    "fresh-texts": lambda seed, count, program: fresh(random_texts(seed, count), program),
    "fresh-loads": lambda seed, count, program: fresh(random_loads(seed, count), program),
    "fresh-lookups": lambda seed, count, program: fresh(random_lookups(seed, count, MOST_WORDS, MOST_HOLDS), program),
    "fresh-tables": lambda seed, count, program: fresh_tables(random_studio_texts(seed, count), program),
    "fresh-files": fresh_files,
}


def main(words):
    if words == ["make"]:
        make()
        return 0
    if len(words) == 4 and words[0] in FRESH or len(words) == 3 and words[0] == "least":
        same, what = FRESH.get(words[0], same_least)(int(words[1]), int(words[2]), *words[3:])
        print(f"{what}: {'the same' if same else 'DIFFERENT'}")
        return 0 if same else 1
    print(__doc__)
    return 2


if __name__ == "__main__":
    sys.exit(main(sys.argv[1:]))
