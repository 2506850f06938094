"""The smallest request that still differs in the same manner."""

import time

import rules

BYTES = {"v": (1,), "w": (2,), "j": (1,), "e": (6,), "k": (6,), "n": (5,), "ie": (5,), "im": (5,), "ik": (5,), "r": (4,), "p": (2,), "t": (1,), "c": (1, 2), "o": (2,), "u": (1,), "d": (2,), "q": (1,)}
MOST = 4000  # candidates of one round
STEP = 250  # of which so many are asked at a time
PATIENCE = 30  # seconds for one request


def smallest(engine, against, request, manner):
    """(request, ours, theirs) after every way to make it smaller has been tried."""
    found = engine.manners(against, [request])[0]
    if found is None or found[0] != manner:
        return request, None, None
    best = (request, found[1], found[2])
    end = time.monotonic() + PATIENCE
    while True:
        better = None
        for batch in candidates(best[0]):
            batch = [candidate for candidate in dict.fromkeys(batch) if measure(candidate) < measure(best[0])][:MOST]
            if not batch:
                continue
            for at in range(0, len(batch), STEP):
                part = batch[at:at + STEP]
                for candidate, result in zip(part, engine.manners(against, part)):
                    if result and result[0] == manner and (better is None or measure(candidate) < measure(better[0])):
                        better = (candidate, result[1], result[2])
                if better:
                    break
            if better:
                break
        if not better or time.monotonic() > end:
            return better or best
        best = better


def measure(request):
    return len(request), sum(map(ord, request)), request


def candidates(request):
    """Batches of smaller requests, the greatest steps first."""
    words = request.split(" ")
    places = BYTES.get(words[0], ())
    if any(place >= len(words) for place in places):
        places = ()
    for place in places:
        data = rules.unhex(words[place])
        yield [rebuilt(words, place, smaller) for smaller in inner(words, data)]
        yield [shifted for shifted in views(words, place, data)]
        step = len(data) // 2
        while step >= 1:
            yield [rebuilt(words, place, data[:at] + data[at + step:]) for at in range(0, len(data), max(1, step // 2))]
            step //= 2
        for step in (1, 2, 3, 4, 5, 7):
            yield [rebuilt(words, place, lesser(data, at, step)) for at in range(1, len(data))]
        yield [rebuilt(words, place, data[:at] + b"\0" * 4 + data[at + 4:]) for at in range(0, len(data) - 4)]
        yield [rebuilt(words, place, data[:at] + bytes((value,)) + data[at + 1:]) for at in range(len(data)) for value in {0, 1, data[at] // 2, max(0, data[at] - 1)} if value < data[at]]
    yield [" ".join(words[:at] + [str(value)] + words[at + 1:]) for at in range(1, len(words)) if at not in places and words[at].isdigit()
           for value in {0, 1, 2, 3, 4, 6, 9, int(words[at]) // 2, max(0, int(words[at]) - 1)} if value < int(words[at])]


def rebuilt(words, place, data):
    return " ".join(words[:place] + [data.hex() or "-"] + words[place + 1:])


def width_of(kind):
    return 4 if kind % 2 else 2


def inner(words, data):
    """A document's containers, each as a root of its own, and the root without one of its entries."""
    if words[0] not in ("v", "w", "j") or not data or data[0] > 3:
        return
    kind, width = data[0], width_of(data[0])
    if len(data) < 1 + 2 * width:
        return
    count = int.from_bytes(data[1:1 + width], "little")
    key_entry = width + 2 if kind < 2 else 0
    first = 1 + 2 * width + count * key_entry
    if count > 2000 or first + count * (width + 1) > len(data):
        return
    for index in range(count):
        at = first + index * (width + 1)
        offset = int.from_bytes(data[at + 1:at + 1 + width], "little")
        yield data[at:at + 1] + data[1 + offset:]
        yield data[at:at + 1] + data[at + 1:at + 1 + width]
        yield without(data, index)


def without(data, index):
    """The root container without one entry: count, size and offsets follow."""
    kind, width = data[0], width_of(data[0])
    count = int.from_bytes(data[1:1 + width], "little")
    size = int.from_bytes(data[1 + width:1 + 2 * width], "little")
    key_entry = width + 2 if kind < 2 else 0
    gone = key_entry + width + 1
    limit = 256 ** width
    keys = bytearray()
    for at in range(1 + 2 * width, 1 + 2 * width + count * key_entry, key_entry or 1):
        offset = int.from_bytes(data[at:at + width], "little")
        keys += ((offset - gone) % limit).to_bytes(width, "little") + data[at + width:at + width + 2]
    values = bytearray()
    first = 1 + 2 * width + count * key_entry
    for at in range(first, first + count * (width + 1), width + 1):
        code = data[at]
        entry = data[at:at + width + 1]
        if not (code in (4, 5, 6) or width == 4 and code in (7, 8)):
            offset = int.from_bytes(data[at + 1:at + 1 + width], "little")
            entry = entry[:1] + ((offset - gone) % limit).to_bytes(width, "little")
        values += entry
    del keys[index * key_entry:(index + 1) * key_entry]
    del values[index * (width + 1):(index + 1) * (width + 1)]
    head = (count - 1).to_bytes(width, "little") + ((size - gone) % limit).to_bytes(width, "little")
    return data[:1] + head + bytes(keys) + bytes(values) + data[first + count * (width + 1):]


def lesser(data, at, step):
    """A document without some bytes, its root's size as much smaller."""
    if data[0] > 3 or at + step > len(data):
        return data
    width = width_of(data[0])
    cut = data[:at] + data[at + step:]
    if len(cut) < 1 + 2 * width or at < 1 + 2 * width:
        return data
    size = int.from_bytes(cut[1 + width:1 + 2 * width], "little")
    return cut[:1 + width] + ((size - step) % 256 ** width).to_bytes(width, "little") + cut[1 + 2 * width:]


def views(words, place, data):
    """Requests about a view: the container at the document's front, and without bytes of its own."""
    if words[0] not in ("e", "k", "n", "ie", "im", "ik"):
        return
    kind, start, count, size = map(int, words[1:5])
    if kind > 3:
        return
    width = width_of(kind)
    for at in (1, 0):
        if start > at:
            yield rebuilt(words[:2] + [str(at)] + words[3:], place, data[start - at:start + size])
            yield rebuilt(words[:2] + [str(at)] + words[3:], place, data[start - at:])
    part = data[start:start + size]
    if len(part) < 2 * width:
        return
    for step in (1, 2, 3, 4, 5, 7, 8, 16, 64, 256):
        for at in range(2 * width, len(part) - step + 1):
            cut = part[:width] + ((size - step) % 256 ** width).to_bytes(width, "little") + part[2 * width:at] + part[at + step:]
            yield rebuilt(words[:4] + [str(max(0, size - step))] + words[5:], place, data[:start] + cut + data[start + size:])
    if count == int.from_bytes(part[:width], "little") and 0 < count <= 200 and kind <= 3:
        gone = (width + 2 if kind < 2 else 0) + width + 1
        for index in range(count):
            cut = without(bytes((kind,)) + part, index)[1:]
            yield rebuilt(words[:3] + [str(count - 1), str(max(0, size - gone))] + words[5:], place, data[:start] + cut + data[start + size:])
