"""The requests about dates and times: `d`, `q` and `z`, and of documents that hold some."""

import times
from documents import hexed, length_field
from times import DATE, LEAST, NEIGHBOURS, TIME, TYPES, packed

ROOMS = (0, 7, 8, 9, 128, 129)  # 129 makes the line no request


def opaque(kind, data, needless=0):
    return b"\x0f" + bytes((kind,)) + length_field(len(data), needless) + data


def edge_requests():
    """The lines that every run asks."""
    good = {kind: packed(times.number(kind, list(times.bases(kind))[2])) for kind in TYPES}
    for kind in TYPES:
        for value in times.edge_numbers(kind):
            yield "d %d %s" % (kind, packed(value).hex())
            yield "q " + opaque(kind, packed(value)).hex()
        for data in (good[kind], bytes(8), b"\xff" * 8, packed(LEAST), packed(-LEAST - 1)):
            for length in tuple(range(10)) + (12, 16, 127, 128, 300):
                cut = (data + b"\xff" * 292)[:length]
                yield "d %d %s" % (kind, hexed(cut))
                doc = opaque(kind, cut)
                yield "q " + doc.hex()
                yield "w 1820 " + doc.hex()
                if cut:
                    yield "q " + doc[:-1].hex()
        for needless in range(1, 6):
            yield "q " + opaque(kind, good[kind], needless).hex()
        yield "q " + (opaque(kind, good[kind]) + b"\x00\xff").hex()
        yield from record_edges(kind)
    for kind in TYPES + NEIGHBOURS:
        for data in (good[DATE], good[TIME], good[TIME][:7], packed(LEAST), b""):
            doc = opaque(kind, data)
            inside = len(doc) - 1 + 7
            array = b"\x02\x01\x00" + inside.to_bytes(2, "little") + b"\x0f\x07\x00" + doc[1:]
            yield "q " + doc.hex()
            yield "v " + doc.hex()
            yield "q " + array.hex()
            yield "w 1820 " + array.hex()
            yield "e 2 1 1 %d 0 %s" % (inside, array.hex())
            yield "d %d %s" % (kind, hexed(data))
    for kind in (0, 1, 6, 20, 246, 255, 263, 65543, 4294967295):
        yield "d %d %s" % (kind, good[DATE].hex())
        yield "z %d 2000 1 1 0 0 0 0 0 8" % kind
    for doc in ("-", "04", "0401", "0d", "0f", "0f07", "0f0a", "0f0b", "0f0c", "0f15", "0f0c80", "0f0c8080808010", "0c00", "0200000400", "0ff6020102"):
        yield "q " + doc
    for kind, value in times.all_fields():
        yield "d %d %s" % (kind, packed(value).hex())


def listed_requests():
    """The lines that a recorded list has of dates and times, beside what is chosen for it."""
    for kind in TYPES:
        good = packed(times.number(kind, list(times.bases(kind))[2]))
        for value in dict.fromkeys(list(times.field_edges(kind, {})) + [1023 << 36, 1024 << 36, -(839 << 36), LEAST, LEAST + 1, -LEAST - 1]):
            yield "d %d %s" % (kind, packed(value).hex())
        for base in times.bases(kind):
            yield "d %d %s" % (kind, packed(times.number(kind, base)).hex())
            yield "q " + opaque(kind, packed(times.number(kind, base))).hex()
        for length in range(10):
            yield "d %d %s" % (kind, hexed((good + b"\xff")[:length]))
            yield "q " + opaque(kind, (good + b"\xff")[:length]).hex()
        yield "q " + opaque(kind, good)[:-1].hex()
        yield "q " + opaque(kind, packed(LEAST)).hex()
        greatest = greatest_record(kind)
        for sign in (0, 1):
            for room in ROOMS:
                yield record_line(kind, greatest, sign, room)
            yield record_line(kind, [0] * 7, sign, 8)
            for at in range(7):
                yield record_line(kind, [0] * at + [1] + [0] * (6 - at), sign, 8)
                yield record_line(kind, greatest[:at] + [greatest[at] + 1] + greatest[at + 1:], sign, 7)
    for kind in NEIGHBOURS:
        yield "q " + opaque(kind, bytes(8)).hex()
        yield "d %d %s" % (kind, bytes(8).hex())


def greatest_record(kind):
    """The year, month, day, hour, minute, second and microseconds of a type's greatest value."""
    if kind == TIME:
        return [0, 0, 0, 838, 59, 59, 999999]
    return [9999, 12, 31, 0, 0, 0, 0] if kind == DATE else [9999, 12, 31, 23, 59, 59, 999999]


def record_edges(kind):
    """Records with each field at its edges, both signs, in every size of room."""
    limits = (9999, 12, 31, 838 if kind == TIME else 23, 59, 59, 999999)
    most = greatest_record(kind)
    bits = (10082, 15, 31, 31, 63, 63, 2 ** 24 - 1)
    for base in ([0] * 7, most, [(limit + 1) // 2 for limit in most]):
        for sign in (0, 1):
            for room in ROOMS:
                yield record_line(kind, base, sign, room)
            for at in range(7):
                for value in sorted({0, 1, most[at], most[at] + 1, limits[at], limits[at] + 1, bits[at], bits[at] + 1, 256, 65536, 2 ** 31, 2 ** 32 - 1}):
                    for room in (8, 7) if value > most[at] else (8,):
                        yield record_line(kind, base[:at] + [value] + base[at + 1:], sign, room)
    yield record_line(kind, most, 2, 8)
    yield record_line(kind, most, 0, 4294967295)


def record_line(kind, record, sign, room):
    return "z %d %s %d %d" % (kind, " ".join(map(str, record)), sign, room)


def random_requests(rng, count):
    for _ in range(count):
        kind = rng.choice(TYPES)
        chance = rng.random()
        if chance < 0.5:
            yield "d %d %s" % (kind if rng.random() < 0.98 else rng.choice(NEIGHBOURS), hexed(times.random_packed(rng, kind)))
        elif chance < 0.7:
            doc = opaque(kind if rng.random() < 0.95 else rng.choice(NEIGHBOURS), times.random_packed(rng, kind), rng.choice((0, 0, 0, 1, 3)))
            yield "q " + hexed(doc if rng.random() < 0.95 else doc[:rng.randrange(len(doc))])
        else:
            record = list(times.record(kind, times.random_parts(rng, kind)))
            if rng.random() < 0.1:
                record[rng.randrange(7)] = rng.choice((0, 1, 10000, 13, 32, 24, 60, 839, 1000000, 2 ** 32 - 1, rng.randrange(2 ** 32)))
            sign = int(rng.random() < (0.4 if kind == TIME else 0.06))
            yield record_line(kind, record, sign, rng.choice((8, 8, 8, 8, 8, 9, 128, 7, 0, rng.randint(0, 129))))
