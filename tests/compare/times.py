"""Packed dates and times: what the generators write, and a small reading of them for the table of intended differences."""

TIMESTAMP, DATE, TIME, DATETIME = 7, 10, 11, 12
TYPES = (TIMESTAMP, DATE, TIME, DATETIME)
NEIGHBOURS = (8, 9, 13, 14, 17, 18, 19)  # column types of other dates and times, and those beside the four
LEAST = -2 ** 63
# Each field with the lowest of its bits, the greatest number that is allowed and the greatest that its bits hold.
CLOCK = (("micro", 0, 999999, 2 ** 24 - 1), ("second", 24, 59, 63), ("minute", 30, 59, 63))
LAYOUTS = {
    TIME: CLOCK + (("hour", 36, 838, 2 ** 27 - 1),),
    DATETIME: CLOCK + (("hour", 36, 23, 31), ("day", 41, 31, 31), ("months", 46, 9999 * 13 + 12, 2 ** 17 - 1)),
}


def layout(kind):
    return LAYOUTS[TIME if kind == TIME else DATETIME]


def allowed(kind, name, greatest):
    """The greatest number that a field of this type may have."""
    return 0 if kind == DATE and name in ("micro", "second", "minute", "hour") else greatest


def number(kind, parts):
    """The magnitude with these numbers in its fields, 0 where none is named."""
    return sum(parts.get(name, 0) << low for name, low, _, _ in layout(kind))


def packed(value):
    return value.to_bytes(8, "little", signed=True)


def record(kind, parts):
    """The year, month, day, hour, minute, second and microseconds of the fields."""
    return divmod(parts.get("months", 0), 13) + tuple(parts.get(name, 0) for name in ("day", "hour", "minute", "second", "micro"))


# ---- what a number says

def fields(kind, value):
    """The same of a number: of its magnitude."""
    size = abs(value)
    parts = {name: size >> low & top for name, low, _, top in layout(kind)}
    if kind == TIME:
        parts["hour"] = size >> 36
    else:
        parts["months"] = size >> 46
    return record(kind, parts)


def original(kind, value):
    """What the original says of a number, in range or not. Of a time it takes ten bits of hours; it cannot negate the least number."""
    if value == LEAST:
        return "panic"
    year, month, day, hour, minute, second, micro = fields(kind, value)
    if kind == TIME:
        hour %= 1024
    return "year %d month %d day %d hour %d minute %d second %d micro %d %s" % (year, month, day, hour, minute, second, micro, "-" if value < 0 else "+")


def faults(kind, value):
    """Why the rules refuse a number, by the names in the table of intended differences; none for a number in range."""
    year, _, _, hour, minute, second, micro = fields(kind, value)
    found = []
    if value == LEAST:
        found.append("least number")
    if kind == TIME and 839 <= hour <= 1023:
        found.append("hours of a time to 1,023")
    if kind == TIME and 1023 < hour:
        found.append("hours of a time over 1,023")
    if kind != TIME and 24 <= hour:
        found.append("hours of a date")
    if 60 <= minute or 60 <= second:
        found.append("minutes, seconds")
    if 1000000 <= micro:
        found.append("microseconds")
    if 9999 < year:
        found.append("years")
    if kind == DATE and (hour or minute or second or micro):
        found.append("DATE with a clock part")
    if kind != TIME and value < 0:
        found.append("negative date")
    return found


# ---- numbers to ask about

def bases(kind):
    """Fields to begin with: all 0, all at their greatest, and some in between."""
    yield {}
    yield {name: allowed(kind, name, greatest) for name, _, greatest, _ in layout(kind)}
    yield {name: (allowed(kind, name, greatest) + 1) // 2 for name, _, greatest, _ in layout(kind)}


def field_edges(kind, base):
    """Each field at its edges beside the others as they are, of both signs."""
    for name, _, greatest, top in layout(kind):
        most = allowed(kind, name, greatest)
        for value in sorted({0, 1, most, min(most + 1, top), greatest, min(greatest + 1, top), top}):
            yield number(kind, {**base, name: value})
            yield -number(kind, {**base, name: value})


def edge_numbers(kind):
    """Each field at its edges beside others that are in range, and numbers at the edges of bits."""
    for base in bases(kind):
        yield from field_edges(kind, base)
    if kind == TIME:
        for hour in (1022, 1023, 1024, 1025, 1862, 1863, 2047, 65535, 65536):
            yield number(kind, {"hour": hour, "minute": 59})
            yield -number(kind, {"hour": hour, "minute": 59})
    for bit in range(64):
        for value in (2 ** bit - 1, 2 ** bit, 2 ** bit + 1):
            for signed in (value, -value):
                if LEAST <= signed <= -LEAST - 1:
                    yield signed


def all_fields():
    """Every pair of small fields, every hour of a time, every year and month: type and number."""
    for kind in TYPES:
        for minute in range(64):
            for second in range(64):
                yield kind, number(kind, {"minute": minute, "second": second})
    for kind in (TIMESTAMP, DATE, DATETIME):
        for day in range(32):
            for hour in range(32):
                yield kind, number(kind, {"day": day, "hour": hour})
    for hour in range(2100):
        yield TIME, number(TIME, {"hour": hour})
        yield TIME, -number(TIME, {"hour": hour})
    for months in range(2 ** 17):
        yield (TIMESTAMP, DATE, DATETIME)[months % 3], number(DATETIME, {"months": months})


def random_parts(rng, kind):
    """Fields in range more often than not."""
    parts = {}
    for name, _, greatest, top in layout(kind):
        most = allowed(kind, name, greatest)
        parts[name] = rng.choice((0, most, rng.randint(0, most), rng.randint(0, most), rng.randint(0, most)))
        if rng.random() < 0.05:
            parts[name] = rng.choice((min(most + 1, top), min(greatest + 1, top), top, rng.randint(0, min(top, 4 * greatest)), rng.randint(0, top)))
    return parts


def random_packed(rng, kind):
    """The bytes of a date or time: eight more often than not, and in range more often than not."""
    chance = rng.random()
    if chance < 0.06:
        data = rng.randbytes(8)
    elif chance < 0.08:
        data = packed(rng.choice((LEAST, LEAST + 1, -LEAST - 1, 0, -1, 1)))
    else:
        value = number(kind, random_parts(rng, kind))
        data = packed(-value if rng.random() < (0.4 if kind == TIME else 0.04) else value)
    if rng.random() < 0.06:
        return (data + rng.randbytes(8))[:rng.choice((0, 1, 4, 6, 7, 7, 9, 9, 12, 16))]
    return data
