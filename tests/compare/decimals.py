"""Packed decimals and decimal text: what the generators write, and a small reading of both for the table of intended differences."""

WIDTHS = (0, 1, 1, 2, 2, 3, 3, 4, 4, 4)


def in_range(precision, scale):
    if precision == 0:
        return scale == 0
    return precision <= 65 and scale <= 30 and scale <= precision


def groups(precision, scale):
    """The count of digits of each group, from the first byte on."""
    whole = precision - scale
    counts = [whole % 9] if whole % 9 else []
    counts += [9] * (whole // 9) + [9] * (scale // 9)
    if scale % 9:
        counts.append(scale % 9)
    return counts


def size(precision, scale):
    return sum(WIDTHS[count] for count in groups(precision, scale))


def pack(counts, values, negative):
    """The digit bytes of these groups."""
    out = bytearray()
    for count, value in zip(counts, values):
        out += value.to_bytes(WIDTHS[count], "big")
    if negative:
        out = bytearray(255 - byte for byte in out)
    if out:
        out[0] ^= 0x80
    return bytes(out)


def unpack(precision, scale, data):
    """(negative, groups) or the number of the refusal. The groups are as they stand, none dropped."""
    if not in_range(precision, scale):
        return 20
    counts = groups(precision, scale)
    length = sum(WIDTHS[count] for count in counts)
    if len(data) < length:
        return 21
    digits = bytearray(data[:length])
    if not digits:
        return False, []
    digits[0] ^= 0x80
    negative = digits[0] >= 128
    if negative:
        digits = bytearray(255 - byte for byte in digits)
    values, at = [], 0
    for count in counts:
        value = int.from_bytes(digits[at:at + WIDTHS[count]], "big")
        if value >= 10 ** count:
            return 22
        values.append(value)
        at += WIDTHS[count]
    return negative, values


def unpacked(data):
    """The same for a packed decimal with its two leading bytes."""
    if len(data) < 2:
        return 21
    return unpack(data[0], data[1], data[2:])


def exact(data):
    """The value of a packed decimal as a whole number of 10 to the -30, or None."""
    read = unpacked(data)
    if isinstance(read, int):
        return None
    negative, values = read
    number = 0
    for count, value in zip(groups(data[0], data[1]), values):
        number = number * 10 ** count + value
    number *= 10 ** (30 - data[1])
    return -number if negative else number


def written(data):
    """What the original writes for a packed decimal read with kept precision: the bytes it compares."""
    length = size(data[0], data[1])
    return data[2:2 + length] if length else b"\x80"


def printed(data):
    """What the original prints of a packed decimal read without kept precision, a sign on zero included, or None where the rules refuse it."""
    read = unpacked(data)
    if isinstance(read, int):
        return None
    negative, values = read
    whole = data[0] - data[1]
    counts = groups(data[0], data[1])
    upto = (whole + 8) // 9
    first = 0
    while first < upto and values[first] == 0:
        first += 1
    if first == upto and data[1] == 0:
        return "0"
    text = "".join(str(value).zfill(9) if at > first else str(value) for at, value in enumerate(values[:upto]) if at >= first)
    after = "".join(str(value).zfill(count) for count, value in zip(counts[upto:], values[upto:]))
    return ("-" if negative else "") + (text or "0") + ("." + after if after else "")


def random_pair(rng):
    """A precision and a scale in range."""
    kind = rng.random()
    if kind < 0.15:
        return rng.choice(((65, 30), (65, 0), (30, 30), (1, 1), (1, 0), (9, 0), (9, 9), (10, 0), (10, 1), (18, 9), (4, 2), (20, 6), (65, 1), (0, 0)))
    scale = rng.randint(0, 30) if kind < 0.6 else rng.randint(0, 4)
    return rng.randint(max(1, scale), 65 if kind < 0.7 else max(12, scale)), scale


def random_values(rng, counts):
    kind = rng.random()
    if kind < 0.1:
        return [0] * len(counts)
    if kind < 0.2:
        return [10 ** count - 1 for count in counts]
    if kind < 0.35:
        zeros = rng.randint(0, len(counts))
        return [0 if at < zeros else rng.randrange(10 ** count) for at, count in enumerate(counts)]
    if kind < 0.5:
        return [rng.choice((0, 1, 10 ** count - 1, 10 ** (count - 1), rng.randrange(10 ** count))) for count in counts]
    return [rng.randrange(10 ** count) for count in counts]


def random_digits(rng, precision, scale):
    """Digit bytes that are good more often than not; the pair must have groups (scale at most precision)."""
    counts = groups(precision, scale)
    values = random_values(rng, counts)
    kind = rng.random()
    if counts and kind < 0.12:
        at = rng.randrange(len(counts))
        top = 256 ** WIDTHS[counts[at]] - 1
        values[at] = rng.choice((10 ** counts[at], 10 ** counts[at] + 1, top, top // 2, top // 2 + 1, rng.randint(min(top, 10 ** counts[at]), top)))
    data = pack(counts, values, rng.random() < 0.45)
    if kind > 0.95 and data:
        return data[:rng.randrange(len(data))]
    if kind > 0.9:
        return data + rng.randbytes(rng.randint(1, 4))
    if kind > 0.88:
        return rng.randbytes(len(data))
    return data


def random_packed(rng):
    """A packed decimal with its two leading bytes, good more often than not."""
    kind = rng.random()
    if kind < 0.03:
        return rng.randbytes(rng.randint(0, 8))
    if kind < 0.07:
        precision, scale = rng.choice(((0, 1), (66, 0), (66, 31), (31, 31), (65, 31), (1, 2), (2, 5), (67, 1), (255, 255), (255, 0), (0, 255)))
        return bytes((precision, scale)) + rng.randbytes(rng.randint(0, 32))
    precision, scale = random_pair(rng)
    return bytes((precision, scale)) + random_digits(rng, precision, scale)


def partner(rng, data):
    """A packed decimal to compare with this one: the same value in another form, a neighbour, the opposite, or another."""
    kind = rng.random()
    if kind < 0.25 or len(data) < 2 or not in_range(data[0], data[1]):
        return random_packed(rng)
    read = unpacked(data)
    if isinstance(read, int):
        return random_packed(rng)
    negative, values = read
    precision, scale = data[0], data[1]
    number = 0
    for count, value in zip(groups(precision, scale), values):
        number = number * 10 ** count + value
    if kind < 0.45:
        number += rng.choice((-1, 1)) * 10 ** rng.randrange(max(1, precision))
        if number < 0:
            number, negative = -number, not negative
    elif kind < 0.6:
        negative = not negative
    for _ in range(rng.randint(0, 3)):
        if rng.random() < 0.5 and scale < 30 and precision < 65:
            number, precision, scale = number * 10, precision + 1, scale + 1
        elif precision < 65:
            precision += 1
        elif scale and number % 10 == 0 and precision > 1:
            number, precision, scale = number // 10, precision - 1, scale - 1
    if precision == 0:
        precision = 1
    counts, parts = groups(precision, scale), []
    for count in reversed(counts):
        parts.append(number % 10 ** count)
        number //= 10 ** count
    return bytes((precision, scale)) + pack(counts, parts[::-1], negative)


def random_text(rng):
    """Decimal text as bytes, and now and then what is none."""
    kind = rng.random()
    digits = lambda n: "".join(rng.choice("0123456789") for _ in range(n))
    if kind < 0.5:
        text = rng.choice(("", "", "", "+", "-")) + digits(rng.randint(0, 20)) + rng.choice(("", ".", "." + digits(rng.randint(0, 12))))
    elif kind < 0.65:
        text = rng.choice(("", "0", "00", "000", "00000000000000000000")) + rng.choice(("", "+", "-")) + rng.choice(("", "0", "00", "0" * 70)) + digits(rng.randint(0, 12)) + rng.choice(("", ".", ".0", "." + digits(3), "." + "0" * 30, "." + "0" * 31))
    elif kind < 0.8:
        after = rng.choice((0, 1, 8, 9, 10, 18, 27, 28, 29, 30, 30, 30, 31, 31, 32))
        total = rng.choice((30, 31, 64, 65, 65, 65, 66, 66, 67))
        text = rng.choice(("", "-", "+")) + rng.choice((digits(max(0, total - after)), "9" * max(0, total - after), "0" * max(0, total - after))) + ("." + digits(after) if after or rng.random() < 0.5 else "")
    elif kind < 0.9:
        text = "".join(rng.choice("0123456789+-.00..--") for _ in range(rng.randint(0, 12)))
    else:
        text = "".join(rng.choice("0123456789+-., eE\t/:;*x") for _ in range(rng.randint(0, 8)))
        return text.encode() + (rng.randbytes(1) if rng.random() < 0.2 else b"")
    return text.encode()


def random_record(rng):
    """The twelve numbers of a record: well formed more often than not."""
    precision, scale = random_pair(rng)
    whole = precision - scale
    counts = groups(precision, scale)
    values = random_values(rng, counts)
    if scale % 9:
        values[-1] *= 10 ** (9 - scale % 9)
    values += [0] * (9 - len(values))
    sign = rng.randint(0, 1)
    kind = rng.random()
    if kind < 0.06:
        at = rng.randrange(9)
        values[at] = rng.choice((values[at] + 1, 10 ** 9, 10 ** 9 - 1, 4294967295, 1))
    elif kind < 0.1:
        scale = rng.choice((scale + 1, 31, 0, 30, max(0, scale - 1), 4294967295))
    elif kind < 0.14:
        whole = rng.choice((whole + 1, 66, 0, 65, max(0, whole - 1), 36, 4294967295))
    return [whole, scale, sign] + values[:9]
