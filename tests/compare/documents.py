"""Documents in MySQL's binary JSON: an encoder that can also write what MySQL would not, and ways to damage what it wrote."""

import random
import struct

import decimals
import times

SMALL_OBJECT, LARGE_OBJECT, SMALL_ARRAY, LARGE_ARRAY = 0, 1, 2, 3
CODES = (0, 1, 2, 3, 4, 5, 6, 7, 8, 9, 10, 11, 12, 15)
COLUMNS = tuple(range(21)) + (242, 243) + tuple(range(245, 256))
LONGEST = 32000  # bytes of a document: its request must fit a line of 65,536

TEXTS = (
    b"", b"a", b"name", b"id", b"value", b"settings", "Zo\u00eb".encode(), "\u00e5ngstr\u00f6m".encode(), "\u20ac".encode(),
    "\U0001f600".encode(), "a\U0001f600b".encode(), b"\x7f", b"\x00", "\u07ff\u0800\uffff".encode(), "\U00010000\U0010ffff".encode(),
    "\ud7ff\ue000".encode(),
)
BROKEN = (
    b"\x80", b"\xff", b"\xc3", b"\xc0\x80", b"\xc1\xbf", b"\xe0\x9f\xbf", b"\xed\xa0\x80", b"\xed\xbf\xbf", b"\xf0\x8f\xbf\xbf", b"\xf4\x90\x80\x80",
    b"\xf5\x80\x80\x80", b"\xe2\x82", b"\xf0\x9f\x98", b"\xe2\x28\xa1", b"\xc3\x28", b"\xfe", b"a\xffb",
)


def hexed(data):
    return data.hex() or "-"


def length_field(length, needless=0):
    """A length in groups of seven bits, lowest first; needless adds groups of nothing."""
    out = bytearray()
    while True:
        group = length & 0x7F
        length >>= 7
        if length == 0 and needless == 0:
            out.append(group)
            return bytes(out)
        if length == 0:
            needless -= 1
        out.append(group | 0x80)


class Quirks:
    """What a document is allowed to do that MySQL does not. A number below 1 is how often."""

    __slots__ = ("share", "gap", "spare", "needless", "among", "astray", "broken", "shuffle", "double", "odd_size", "unknown")

    @classmethod
    def plain(cls):
        """None of them: a document as MySQL writes it."""
        quirks = cls.__new__(cls)
        for name in cls.__slots__:
            setattr(quirks, name, 0.0)
        return quirks

    def __init__(self, rng):
        for name in self.__slots__:
            setattr(self, name, 0.0)
        kind = rng.random()
        if kind < 0.4:
            return
        if kind < 0.8:
            names = rng.sample(self.__slots__[:6] + ("shuffle", "double"), rng.randint(1, 3))
        else:
            names = rng.sample(self.__slots__, rng.randint(1, 4))
        for name in names:
            setattr(self, name, rng.choice((0.05, 0.2, 0.5)))
        if rng.random() < 0.8:
            self.astray = min(self.astray, 0.05)


def random_text(rng, quirks):
    if quirks.broken and rng.random() < quirks.broken:
        return rng.choice((b"", b"a", b"abcdefgh" * 9)) + rng.choice(BROKEN) + rng.choice((b"", b"z", b"tail of a longer text"))
    kind = rng.random()
    if kind < 0.5:
        return rng.choice(TEXTS)
    if kind < 0.85:
        return bytes(rng.choices(b"abcdefghijklmnopqrstuvwxyz 0123456789", k=rng.randint(0, 16)))
    if kind < 0.93:
        return b"".join(rng.choice(TEXTS) for _ in range(rng.randint(2, 8)))
    if kind < 0.985:
        length = rng.choice((15, 16, 17, 31, 32, 33, 63, 64, 65, 100, 126, 127, 128, 129, 130, 200, 255, 256))
        text = bytearray(rng.choices(b"abcdefghijklmnopqrstuvwxyz", k=length))
        if rng.random() < 0.4:
            at = rng.randrange(max(1, length - 4))
            text[at:at + 2] = "\u00e9".encode()
        return bytes(text)
    return b"x" * rng.choice((1000, 4096, 16383, 16384, 16385))


def random_integer(rng, bits, signed):
    top = 1 << bits
    value = rng.choice((0, 1, top - 1, top // 2, top // 2 - 1, rng.randrange(top), rng.randrange(min(top, 300))))
    return value.to_bytes(bits // 8, "little")


def random_double(rng):
    kind = rng.random()
    if kind < 0.3:
        return struct.pack("<d", rng.choice((0.0, -0.0, 1.0, -1.5, 1e300, 5e-324, 3.141592653589793, float("inf"), float("-inf"))))
    if kind < 0.4:
        return ((0x7FF << 52) | rng.choice((1, 1 << 51, (1 << 52) - 1, rng.randrange(1, 1 << 52))) | (rng.randint(0, 1) << 63)).to_bytes(8, "little")
    return rng.randbytes(8)


def lengthy(rng, quirks, data):
    """A length field and the data, or now and then a length that is not the data's."""
    needless = 0
    if quirks.needless and rng.random() < quirks.needless:
        needless = rng.randint(1, 5)
    if quirks.odd_size and rng.random() < quirks.odd_size * 0.3:
        if rng.random() < 0.5:
            return rng.choice((b"\x80\x80\x80\x80\x0f", b"\x80\x80\x80\x80\x10", b"\xff\xff\xff\xff\x0f", b"\x80\x80\x80\x80\x80", b"\x80\x80\x80\x80", b"\xff\xff\xff\xff\x7f")) + data
        return length_field(max(0, len(data) + rng.choice((-1, 1, 2))), needless) + data
    return length_field(len(data), needless) + data


def random_opaque(rng, quirks):
    kind = rng.random()
    if kind < 0.3:
        column, data = 246, decimals.random_packed(rng)
    elif kind < 0.45:
        column = rng.choice(times.TYPES)
        data = times.random_packed(rng, column) if rng.random() < 0.5 else rng.randbytes(rng.choice((8, 8, 8, 7, 9, 0)))
    else:
        column, data = rng.choice(COLUMNS), rng.randbytes(rng.choice((0, 1, 2, 3, 8, 20, 127, 128)))
    if quirks.unknown and rng.random() < quirks.unknown:
        column = rng.randint(0, 255)
    return bytes((column,)) + lengthy(rng, quirks, data)


def random_scalar(rng, quirks):
    """A code and the bytes that stand for it."""
    code = rng.choice((4, 4, 5, 6, 7, 8, 9, 10, 11, 12, 12, 12, 15))
    if code == 4:
        literal = rng.randint(0, 2)
        if quirks.unknown and rng.random() < quirks.unknown:
            literal = rng.choice((3, 4, 127, 255))
        return 4, bytes((literal,))
    if code <= 10:
        bits = (16, 16, 32, 32, 64, 64)[code - 5]
        return code, random_integer(rng, bits, code % 2 == 1)
    if code == 11:
        return 11, random_double(rng)
    if code == 12:
        return 12, lengthy(rng, quirks, random_text(rng, quirks))
    return 15, random_opaque(rng, quirks)


def inlined(code, large):
    return code in (4, 5, 6) or (large and code in (7, 8))


def container(rng, quirks, kind, members):
    """The bytes of a container: members are (key, code, bytes), the key of an array's being None."""
    is_object, large = kind < 2, kind % 2 == 1
    width = 4 if large else 2
    limit = 256 ** width
    count = len(members)
    key_entry = width + 2 if is_object else 0
    head = 2 * width + count * (key_entry + width + 1)
    data = bytearray()
    entries = bytearray()
    seen = {}
    roll = rng.random
    if is_object:
        for key, _, _ in members:
            if quirks.gap and roll() < quirks.gap:
                data += rng.randbytes(rng.randint(1, 3))
            if quirks.share and key in seen and roll() < quirks.share:
                offset = seen[key]
            else:
                offset = head + len(data)
                data += key
                seen[key] = offset
            length = len(key)
            if quirks.astray and roll() < quirks.astray:
                if roll() < 0.5:
                    offset = max(0, min(limit - 1, rng.choice((0, 2 * width, head - 1, head, head + 1, head + len(data), offset - 1, offset + 1, limit - 1))))
                else:
                    length = min(65535, max(0, length + rng.choice((-1, 1, 100, 65535))))
            entries += offset.to_bytes(width, "little") + length.to_bytes(2, "little")
    stored = []
    for index, (_, code, value) in enumerate(members):
        own_end = 2 * width + count * key_entry + (index + 1) * (width + 1)
        if inlined(code, large):
            spare = width - len(value)
            filled = rng.randbytes(spare) if quirks.spare and roll() < quirks.spare else bytes(spare)
            entries += bytes((code,)) + value + filled
            continue
        if quirks.unknown and roll() < quirks.unknown * 0.5:
            code = rng.choice((13, 14, 16, 255, rng.randint(0, 255)))
        offset = None
        if quirks.share and stored and roll() < quirks.share:
            offset, shared = rng.choice(stored)
            if roll() < 0.9:
                code = shared
        elif quirks.among and roll() < quirks.among:
            offset = rng.randint(own_end, max(own_end, head + 1))
        elif quirks.astray and roll() < quirks.astray:
            offset = max(0, min(limit - 1, rng.choice((0, 1, own_end - 1, own_end, own_end + 1, head - 1, head, head + len(data), head + len(data) + 1, limit - 1))))
        else:
            if quirks.gap and roll() < quirks.gap:
                data += rng.randbytes(rng.randint(1, 4))
            offset = head + len(data)
            stored.append((offset, code))
            data += value
        if offset >= limit:
            offset = limit - 1
        entries += bytes((code,)) + offset.to_bytes(width, "little")
    if quirks.gap and roll() < quirks.gap:
        data += rng.randbytes(rng.randint(1, 3))
    whole = head + len(data)
    told, number = whole, count
    if quirks.odd_size and roll() < quirks.odd_size:
        if roll() < 0.7:
            told = rng.choice((whole - 1, whole + 1, head, head - 1, head + 1, 0, limit - 1))
        else:
            number = rng.choice((count + 1, max(0, count - 1), 0, limit - 1))
    told = max(0, min(limit - 1, told))
    number = max(0, min(limit - 1, number))
    return number.to_bytes(width, "little") + told.to_bytes(width, "little") + bytes(entries) + bytes(data)


def random_kind(rng, is_object=None):
    if is_object is None:
        is_object = rng.random() < 0.5
    return (0 if is_object else 2) + (1 if rng.random() < 0.3 else 0)


def fits(kind, members):
    """Whether the members fit a small container; the sum is of the bytes that they would need."""
    total = 8 + sum(12 + len(value) + (len(key) if key else 0) for key, _, value in members)
    return kind % 2 == 1 or total < 60000


def random_value(rng, quirks, levels, most):
    """A code and its bytes: a scalar, or a container of at most `most` members a level."""
    if levels == 0 or rng.random() < 0.55:
        return random_scalar(rng, quirks)
    return random_container(rng, quirks, levels, most)


def random_container(rng, quirks, levels, most):
    kind = random_kind(rng)
    count = 0 if rng.random() < 0.1 else rng.randint(1, most)
    members = []
    for _ in range(count):
        code, value = random_value(rng, quirks, levels - 1, max(1, most - 1))
        key = random_text(rng, quirks) if kind < 2 else None
        if key is not None and len(key) > 300:
            key = key[:300]
        members.append((key, code, value))
    if kind < 2:
        if quirks.double and len(members) > 1 and rng.random() < quirks.double:
            at = rng.randrange(1, len(members))
            members[at] = (members[at - 1][0],) + members[at][1:]
        elif not quirks.double:
            members = list({member[0]: member for member in members}.values())
        if quirks.shuffle and rng.random() < quirks.shuffle:
            rng.shuffle(members)
        else:
            members.sort(key=lambda member: (len(member[0]), member[0]))
    if not fits(kind, members):
        kind += 1
    return kind, container(rng, quirks, kind, members)


def nested(rng, quirks, depth):
    """A value inside this many containers."""
    code, value = random_scalar(rng, quirks)
    for _ in range(depth):
        kind = random_kind(rng)
        members = [(b"k" if kind < 2 else None, code, value)]
        if rng.random() < 0.05:
            members.append((b"z" if kind < 2 else None,) + random_scalar(rng, quirks))
        if not fits(kind, members):
            kind += 1
        code, value = kind, container(rng, quirks, kind, members)
    return code, value


def random_document(rng):
    quirks = Quirks(rng)
    kind = rng.random()
    if kind < 0.12:
        code, value = random_scalar(rng, quirks)
    elif kind < 0.14:
        code, value = nested(rng, quirks, rng.choice((1, 2, 5, 30, 98, 99, 100, 101, 102)))
    elif kind < 0.145:
        code, value = random_container(rng, quirks, 2, rng.choice((60, 200, 400)))
    elif kind < 0.15:
        # Arrays that share one child at each level: few bytes, and more values than any list has room for.
        code, value = random_scalar(rng, quirks)
        for _ in range(rng.randint(3, 14)):
            is_large = rng.random() < 0.3
            width, copies = (4, 2) if is_large else (2, rng.randint(1, 3))
            head = 2 * width + copies * (width + 1)
            entry = bytes((code,)) + head.to_bytes(width, "little")
            if inlined(code, is_large):
                entry = bytes((code,)) + value + bytes(width - len(value))
                body = entry * copies
                code, value = (3 if is_large else 2), copies.to_bytes(width, "little") + head.to_bytes(width, "little") + body
            else:
                code, value = (3 if is_large else 2), copies.to_bytes(width, "little") + (head + len(value)).to_bytes(width, "little") + entry * copies + value
    else:
        code, value = random_container(rng, quirks, rng.choice((1, 1, 2, 2, 3, 4)), rng.choice((1, 2, 3, 4, 6)))
    tail = rng.randbytes(rng.randint(1, 3)) if rng.random() < 0.05 else b""
    return (bytes((code,)) + value + tail)[:LONGEST]


def containers(rng, doc):
    """The start and kind of a container in a document, found by going down at random; None where the root is none."""
    if not doc or doc[0] > 3:
        return None
    found = None
    start, kind, end = 1, doc[0], len(doc)
    for _ in range(8):
        width = 4 if kind % 2 else 2
        if start + 2 * width > end:
            return found
        count = int.from_bytes(doc[start:start + width], "little")
        told = int.from_bytes(doc[start + width:start + 2 * width], "little")
        found = (start, kind, count, told)
        if count == 0 or count > 1000 or rng.random() < 0.3:
            return found
        key_entry = width + 2 if kind < 2 else 0
        at = start + 2 * width + count * key_entry + rng.randrange(count) * (width + 1)
        if at + 1 + width > end or doc[at] > 3:
            return found
        start, kind = start + int.from_bytes(doc[at + 1:at + 1 + width], "little"), doc[at]
    return found


def fields(start, kind, count, told, only=None):
    """The number fields of a container: place, width and the values that stand at a boundary."""
    width = 4 if kind % 2 else 2
    key_entry = width + 2 if kind < 2 else 0
    head = 2 * width + count * (key_entry + width + 1)
    limit = 256 ** width - 1
    yield start, width, (0, count - 1, count + 1, limit)
    yield start + width, width, (0, 2 * width, head - 1, head, head + 1, told - 1, told, told + 1, limit)
    for index in range(min(count, 6)) if only is None else (only,):
        if kind < 2:
            at = start + 2 * width + index * key_entry
            yield at, width, (0, 2 * width, head - 1, head, head + 1, told - 1, told, told + 1, limit)
            yield at + width, 2, (0, 1, told - head, told - head + 1, told, 65535)
        at = start + 2 * width + count * key_entry + index * (width + 1)
        end = at + width + 1 - start
        yield at, 1, CODES + (13, 14, 16, 255)
        yield at + 1, width, (0, end - 1, end, end + 1, head - 1, head, head + 1, told - 2, told - 1, told, told + 1, limit)


def put(doc, at, width, value):
    return doc[:at] + (value % 256 ** width).to_bytes(width, "little") + doc[at + width:]


def damaged(rng, doc):
    """A copy with something wrong in it (or, now and then, something else that is right)."""
    for _ in range(rng.choice((1, 1, 1, 2, 3))):
        kind = rng.random()
        if kind < 0.45:
            found = containers(rng, doc)
            if found:
                only = rng.randrange(found[2]) if found[2] else None
                at, width, values = rng.choice(tuple(fields(*found, only=only)))
                if at + width <= len(doc):
                    value = int.from_bytes(doc[at:at + width], "little")
                    doc = put(doc, at, width, rng.choice(values + (value - 1, value + 1)))
                    continue
        if not doc:
            doc = rng.randbytes(1)
            continue
        at = rng.randrange(len(doc))
        if kind < 0.7:
            doc = doc[:at] + bytes((rng.choice((0, 1, 2, 3, 12, 15, 127, 128, 255, (doc[at] + 1) % 256, (doc[at] - 1) % 256, rng.randrange(256))),)) + doc[at + 1:]
        elif kind < 0.8:
            doc = doc[:at]
        elif kind < 0.9:
            doc = doc[:at] + rng.randbytes(rng.randint(1, 2)) + doc[at:]
        else:
            doc = doc[:at] + doc[at + rng.randint(1, 3):]
    return doc[:LONGEST]


def short_documents():
    """All documents of up to two bytes; of three bytes those whose first two decide something."""
    yield b""
    for first in range(256):
        yield bytes((first,))
    for first in range(256):
        for second in range(256):
            yield bytes((first, second))
    edges = (0, 1, 2, 3, 4, 9, 10, 15, 16, 127, 128, 129, 246, 255)
    for first in CODES + (13, 14, 16, 255):
        seconds = range(256) if first in (12, 15) else edges
        thirds = range(256) if first in (5, 6, 12, 15) else edges
        for second in seconds:
            for third in thirds:
                yield bytes((first, second, third))


def boundary_documents():
    """Each kind of container with 0 to 3 members of each code, and each of its fields at each boundary."""
    rng = random.Random(0)
    plain = Quirks.plain()
    samples = {4: b"\x01", 5: b"\xfe\xff", 6: b"\xfe\xff", 7: b"\xff\xff\xff\xff", 8: b"\xff\xff\xff\xff", 9: b"\xfe" + b"\xff" * 7, 10: b"\xfe" + b"\xff" * 7,
               11: struct.pack("<d", -2.5), 12: b"\x03abc", 15: b"\xf6\x04\x04\x02\x73\xdd"}
    for kind in range(4):
        samples[kind] = container(rng, plain, kind, [(b"q" if kind < 2 else None, 4, b"\x02")])
    for kind in range(4):
        for count in range(4):
            for code in CODES if count else (4,):
                members = [(bytes((97 + at,)) * (at + 1) if kind < 2 else None, code, samples[code]) for at in range(count)]
                body = container(rng, plain, kind, members)
                doc = bytes((kind,)) + body
                yield doc
                for cut in range(1, len(doc)):
                    yield doc[:cut]
                for at, width, values in fields(1, kind, count, len(body)):
                    for value in values:
                        yield put(doc, at, width, value)
    for length in (0, 1, 126, 127, 128, 129, 255, 256, 16383, 16384, 16385):
        for needless in range(6):
            for cut in (0, 1):
                for stands in (b"\x0c", b"\x0f\xfc", b"\x0f\xf4"):
                    yield stands + length_field(length, needless) + b"x" * (length - cut)
    # As many items as an answer lists, and as many values as the longest list has room for.
    for count in (1023, 1024, 1025, 1818, 1819, 1820):
        for kind in range(4) if count < 1800 else (2, 3):
            yield bytes((kind,)) + container(rng, plain, kind, [(b"%d" % at if kind < 2 else None, 5, b"\x00\x01") for at in range(count)])
    for depth in (98, 99, 100, 101, 102):
        for kind in range(4):
            code, value = 4, b"\x01"
            for _ in range(depth):
                code, value = kind, container(rng, plain, kind, [(b"k" if kind < 2 else None, code, value)])
            yield bytes((code,)) + value


def random_utf8(rng):
    """Bytes for the UTF-8 test: whole texts, broken ones, and single faults in long runs of ASCII."""
    kind = rng.random()
    if kind < 0.3:
        return b"".join(rng.choice(TEXTS) for _ in range(rng.randint(0, 6)))
    if kind < 0.6:
        run = bytearray(rng.choices(range(128), k=rng.choice((rng.randint(0, 20), rng.randint(20, 300)))))
        for _ in range(rng.randint(0, 2)):
            at = rng.randint(0, len(run))
            run[at:at + rng.choice((0, 0, 1, 2))] = rng.choice(BROKEN + TEXTS)
        return bytes(run)
    if kind < 0.8:
        return b"".join(chr(rng.choice((rng.randrange(0x80), rng.randrange(0x80, 0x800), rng.randrange(0x800, 0xD800), rng.randrange(0xE000, 0x110000)))).encode() for _ in range(rng.randint(0, 12)))
    if kind < 0.9:
        text = "".join(chr(rng.choice((rng.randrange(0x80, 0x800), rng.randrange(0x800, 0xD800), rng.randrange(0x10000, 0x110000)))) for _ in range(rng.randint(1, 40))).encode()
        at = rng.randrange(len(text))
        return text[:at] + bytes((rng.randrange(256),)) + text[at + rng.randint(0, 1):]
    return rng.randbytes(rng.randint(0, 12))


def short_utf8():
    """All strings of up to two bytes; of three and four those made of bytes at a boundary of the grammar."""
    yield b""
    for first in range(256):
        yield bytes((first,))
    for first in range(128, 256):
        for second in range(256):
            yield bytes((first, second))
    edges = (0x00, 0x7F, 0x80, 0x8F, 0x90, 0x9F, 0xA0, 0xBF, 0xC0, 0xFF)
    for first in range(0xC0, 0x100):
        for second in edges:
            for third in edges:
                yield bytes((first, second, third))
                if first >= 0xEF:
                    for fourth in edges:
                        yield bytes((first, second, third, fourth))
