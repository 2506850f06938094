"""The requests of a run, in numbered tasks: the same seed gives the same requests, whichever worker takes a task."""

import itertools
import random

import decimals
import documents
import rules
import time_requests
from documents import hexed

BLOCK = 1000  # documents or decimals of one task
ROOM = 1820


def tasks(seed, document_count, decimal_count, time_count, short):
    """All tasks of a run: (kind, number, count, seed)."""
    def blocks(kind, total, size=BLOCK):
        return [(kind, at, min(size, total - at * size), seed) for at in range((total + size - 1) // size)]

    found = [("lines", 0, 1, seed)]
    if short:
        found += blocks("boundary", sum(1 for _ in documents.boundary_documents()))
        found += blocks("short", sum(1 for _ in documents.short_documents()), 8 * BLOCK)
        found += blocks("short text", sum(1 for _ in documents.short_utf8()), 20 * BLOCK)
        found += blocks("short decimals", sum(1 for _ in short_decimals()), 20 * BLOCK)
        found += blocks("short times", sum(1 for _ in time_requests.edge_requests()), 20 * BLOCK)
        found += [("pairs", at, 1, seed) for at in range(67)]
    found += blocks("documents", document_count)
    found += blocks("decimals", decimal_count, 2 * BLOCK)
    found += blocks("text", decimal_count // 5, 5 * BLOCK)
    found += blocks("records", decimal_count // 10, 5 * BLOCK)
    found += blocks("times", time_count, 5 * BLOCK)
    return found


class Reel:
    """A long list made anew as it is needed: tasks take slices of it, mostly in order, so it is wound forward and seldom back."""

    def __init__(self, make):
        self.make, self.left, self.at = make, None, 0

    def take(self, start, count):
        if self.left is None or start < self.at:
            self.left, self.at = self.make(), 0
        found = list(itertools.islice(self.left, start - self.at, start - self.at + count))
        self.at = start + len(found)
        return found


def run(task, compare):
    """Sends a task's requests to compare(requests), which gives our answers."""
    kind, number, count, seed = task
    rng = random.Random("%s/%s/%s" % (seed, kind, number))
    if kind == "documents":
        # A quarter as written, the rest damaged copies, most of them of the one before.
        batch = []
        while len(batch) < count:
            whole = documents.random_document(rng)
            batch.append(whole)
            for _ in range(3):
                batch.append(documents.damaged(rng, whole))
        about_documents(rng, batch[:count], compare)
    elif kind == "boundary":
        about_documents(rng, REELS[kind].take(number * BLOCK, count), compare)
    elif kind == "short":
        about_documents(rng, REELS[kind].take(number * 8 * BLOCK, count), compare)
    elif kind == "short text":
        compare(["u " + hexed(text) for text in REELS[kind].take(number * 20 * BLOCK, count)])
    elif kind in ("short decimals", "short times"):
        compare(REELS[kind].take(number * 20 * BLOCK, count))
    elif kind == "pairs":
        compare(pair_requests(rng, number))
    elif kind == "decimals":
        compare(list(decimal_requests(rng, count)))
    elif kind == "text":
        compare(["u " + hexed(documents.random_utf8(rng)) for _ in range(count)])
    elif kind == "records":
        compare(list(record_requests(rng, count)))
    elif kind == "times":
        compare(list(time_requests.random_requests(rng, count)))
    elif kind == "lines":
        compare(list(odd_lines(rng)))
    else:
        raise ValueError(kind)


def about_documents(rng, batch, compare):
    """Root and walk of each document, then the views that they showed."""
    asked, owners = [], []
    for doc in batch:
        text = hexed(doc)
        owners.append(len(asked))
        asked.append("v " + text)
        asked.append("w %d %s" % (ROOM, text))
        if rng.random() < 0.08:
            asked.append("w %d %s" % (rng.choice((0, 1, 2, 3, rng.randint(0, 12))), text))
        if doc[:1] == b"\x0f" and (len(doc) > 3 or rng.random() < 0.05) or rng.random() < 0.004:
            asked.append("o 0 " + text)
            asked.append("o 1 " + text)
            asked.append("q " + text)
    answers = compare(asked)
    follow = []
    for doc, at in zip(batch, owners):
        if doc[:1] and doc[0] <= 3 and len(doc) >= 5:
            follow += view_requests(rng, doc, answers[at], answers[at + 1])
    if follow:
        compare(follow)


def view_requests(rng, doc, root, walk):
    """What is asked of the containers that the answers to `v` and `w` showed."""
    views = []
    words = root.split(" ")
    if words[0] == "container":
        views.append(tuple(map(int, words[1:5])))
    others = [(code, start, extra, size) for code, level, _, _, _, start, size, extra, _ in rules.events(walk)[0] if code <= 3 and level > 0]
    if others:
        views.append(rng.choice(others))
    asked = []
    text = hexed(doc)
    for kind, start, count, size in views:
        if rng.random() < 0.06:
            kind, start, count, size = astray(rng, kind, start, count, size, len(doc))
        view = "%d %d %d %d" % (kind, start, count, size)
        if rng.random() < 0.2:
            asked.append("n %s %s" % (view, text))
        if kind < 2:
            asked.append("im %s %s" % (view, text))
            if rng.random() < 0.4:
                asked.append("ik %s %s" % (view, text))
            if rng.random() < 0.5:
                asked.append("k %s %d %s" % (view, position(rng, count), text))
        else:
            asked.append("ie %s %s" % (view, text))
        if rng.random() < 0.6:
            asked.append("e %s %d %s" % (view, position(rng, count), text))
        if rng.random() < 0.02:
            asked.append("%s %s %s" % (rng.choice(("ie", "im", "ik")), view, text))
        if rng.random() < 0.02:
            asked.append("k %s %d %s" % (view, position(rng, count), text))
    return asked


def position(rng, count):
    return rng.choice((0, max(0, count - 1), count, count + 1, 4294967295)) if rng.random() < 0.4 else rng.randrange(max(1, min(count, 4000000000)))


def astray(rng, kind, start, count, size, whole):
    """A view that is a little, or wholly, beside the container."""
    which = rng.randrange(5)
    near = lambda n: max(0, n + rng.choice((-1, 1)))
    if which == 0:
        kind = rng.randrange(4)
    elif which == 1:
        start = rng.choice((near(start), whole, whole + 1, 4294967295, 0))
    elif which == 2:
        count = rng.choice((near(count), 0, 4294967295))
    elif which == 3:
        size = rng.choice((near(size), 0, whole, 4294967295))
    else:
        kind, start, count, size = (rng.randrange(4),) + tuple(rng.randint(0, whole + 2) for _ in range(3))
    return kind, start, count, size


def short_decimals():
    """All digit bytes of the pairs that take one byte, and of some that take two."""
    for precision, scale in ((0, 0), (1, 0), (2, 0), (1, 1), (2, 2)):
        for keep in (0, 1):
            yield "r %d %d %d -" % (precision, scale, keep)
            for byte in range(256):
                yield "r %d %d %d %02x" % (precision, scale, keep, byte)
                yield "p %d %02x%02x%02x" % (keep, precision, scale, byte)
    for precision, scale, keeps in ((2, 1, (0, 1)), (4, 0, (0, 1)), (4, 4, (0, 1)), (3, 0, (0,)), (3, 3, (1,)), (4, 2, (0,)), (3, 1, (1,))):
        for keep in keeps:
            for number in range(65536):
                yield "r %d %d %d %04x" % (precision, scale, keep, number)


def pair_requests(rng, precision):
    """All scales beside one precision: sizes, and digits of each kind."""
    asked = []
    for scale in range(32):
        asked.append("s %d %d" % (precision, scale))
        if scale > precision or not decimals.in_range(precision, scale):
            for length in (0, 1, 4, 30, 40):
                for keep in (0, 1):
                    asked.append("r %d %d %d %s" % (precision, scale, keep, hexed(rng.randbytes(length))))
            asked.append("p 1 %02x%02x%s" % (precision, scale, rng.randbytes(40).hex()))
            continue
        counts = decimals.groups(precision, scale)
        whole = [[0] * len(counts), [10 ** count - 1 for count in counts], [1] * len(counts)]
        whole += [decimals.random_values(rng, counts) for _ in range(4)]
        whole += [[0 if at < zeros else 10 ** count - 1 for at, count in enumerate(counts)] for zeros in range(1, len(counts))]
        digits = [decimals.pack(counts, values, negative) for values in whole for negative in (False, True)]
        for at, count in enumerate(counts):
            top = 256 ** decimals.WIDTHS[count] - 1
            for value in (10 ** count, top // 2, top):
                values = decimals.random_values(rng, counts)
                values[at] = max(value, 10 ** count)
                digits.append(decimals.pack(counts, values, rng.random() < 0.5))
        length = decimals.size(precision, scale)
        digits += [rng.randbytes(length), bytes(length), b"\xff" * length]
        if length:
            digits += [digits[0][:-1], digits[3][:length // 2], b""]
        digits += [digits[1] + b"\x00", digits[2] + rng.randbytes(3)]
        for data in digits:
            keep = rng.randint(0, 1)
            asked.append("r %d %d %d %s" % (precision, scale, keep, hexed(data)))
            asked.append("%s %s" % (("p 0 ", "p 1 ")[1 - keep].strip(), bytes((precision, scale)).hex() + data.hex()))
    for scale in (32, 255, 256, 65535, 65536, 4294967295):
        asked.append("s %d %d" % (precision, scale))
        asked.append("s %d %d" % (scale, min(30, precision)))
        asked.append("r %d %d 1 %s" % (precision, scale, hexed(rng.randbytes(8))))
    return asked


def decimal_requests(rng, count):
    for _ in range(count):
        data = decimals.random_packed(rng)
        kind = rng.random()
        if kind < 0.35:
            if len(data) >= 2:
                yield "r %d %d %d %s" % (data[0], data[1], rng.randint(0, 1), hexed(data[2:]))
        elif kind < 0.55:
            yield "p %d %s" % (rng.randint(0, 1), hexed(data))
        elif kind < 0.75:
            other = decimals.partner(rng, data)
            yield "c %s %s" % ((hexed(data), hexed(other)) if rng.random() < 0.5 else (hexed(other), hexed(data)))
        elif kind < 0.95:
            yield "t " + hexed(decimals.random_text(rng))
        else:
            column = 246 if rng.random() < 0.97 else rng.randint(0, 255)
            yield "o %d %s" % (rng.randint(0, 1), (b"\x0f" + bytes((column,)) + documents.length_field(len(data), rng.choice((0, 0, 1, 3))) + data).hex())


def record_requests(rng, count):
    for _ in range(count):
        record = decimals.random_record(rng)
        if rng.random() < 0.7:
            room = rng.choice((0, 1, 4, 10, 29, 30, 31, 66, 67, 68, 69, 70, 128, 128, rng.randint(0, 128)))
            yield "x %s %d" % (" ".join(map(str, record)), room)
        else:
            yield "y %s %s" % (" ".join(map(str, record)), " ".join(map(str, decimals.random_record(rng) if rng.random() < 0.7 else record)))


def odd_lines(rng):
    """Lines that are no request, and lines at the longest that is taken."""
    yield from ("", " ", "z", "v", "w", "v  0c00", "v 0c00 ", " v 0c00", "v 0", "v 0g", "v 0c0", "w 1821 0402", "w 1820 0402", "w 0 0402", "w 0402", "w x 0402",
                "w -1 0402", "w 4294967296 0402", "v 0402 00", "v --", "v -", "V 0402", "v 0C0141", "v 0c0141", "ie 4 1 0 4 0200000400", "ie 2 1 0 4 0200000400",
                "ie 2 1 0 0200000400", "n 2 1 0 4 0200000400", "n 2 1 0 4 0 0200000400", "e 2 1 0 4 0200000400", "e 2 1 0 4 0 0200000400",
                "e 2 1 0 4 4294967295 0200000400", "e 2 1 0 4 4294967296 0200000400", "e 2 4294967296 0 4 0 0200000400", "k 2 1 0 4 0 0200000400", "r 4 2 2 8c22",
                "r 4 2 1 8c22", "r 4 2 8c22", "p 2 04028c22", "p 1 04028C22", "p 04028c22", "c 04028c22", "c 04028c22 04028c22", "c 04028c22 04028c22 04028c22",
                "s 4", "s 4 2", "s 4 2 1", "s 4294967295 4294967295", "s 4294967296 0", "o 2 0ff6", "o 1 0ff6", "t", "t -", "u", "u -", "u ff", "x 1 0 0 1", "y 1 0 0 1",
                "x 1 0 2 1 0 0 0 0 0 0 0 0 128", "x 1 0 1 1 0 0 0 0 0 0 0 0 128", "x 1 0 1 1 0 0 0 0 0 0 0 0 129", "x 1 0 1 4294967296 0 0 0 0 0 0 0 0 128", "q 1", "jj 00",
                "q", "q -", "q 0f0b080000000010000000", "q 11 0000000010000000", "d", "d 11", "d 0000000010000000", "d 11 0000000010000000", "d 0011 0000000010000000",
                "d 11 00000000100000", "d 11 000000001000000", "d 11 0000000010000000 00", "d 9 0000000010000000", "d 13 -", "d -1 -", "d 4294967307 0000000010000000",
                "z 11 0 0 0 1 0 0 0 0 8", "z 11 0 0 0 1 0 0 0 0", "z 11 0 0 0 1 0 0 0 0 8 8", "z 11 0 0 0 1 0 0 0 2 8", "z 11 0 0 0 1 0 0 0 0 129",
                "z 9 0 0 0 1 0 0 0 0 8", "z 11 4294967296 0 0 1 0 0 0 0 8", "z 11 0 0 0 1 0 0 0 - 8",
                "answers", "refused 3", "i 2 1 0 4 0200000400", "ia 2 1 0 4 0200000400")
    yield "u " + "61" * 32766
    yield "u " + "61" * 32767
    yield "z" * 65535
    yield "z" * 65536
    yield "z" * 200000
    yield "v 0402"
    yield "v 0c" + documents.length_field(32000).hex() + "62" * 32000


REELS = {"boundary": Reel(documents.boundary_documents), "short": Reel(documents.short_documents), "short text": Reel(documents.short_utf8), "short decimals": Reel(short_decimals),
         "short times": Reel(time_requests.edge_requests)}
