"""When two answers agree, and the table of differences that are intended."""

import re

import decimals
import times

KINDS = ("w", "v", "e", "k", "ie", "im", "ik", "r", "p", "t", "c", "s", "x", "y", "n", "o", "u", "d", "q", "z")
NUMBERED = re.compile(r"refused \d+(?: at \d+)?")
NUMBER = re.compile(r"refused (\d+)")
FAILED = ("panic", "abort", "died")  # the original stopped at a check of its own, or its process ended


def bare(answer):
    """Our answer without the numbers and places that the original does not have."""
    if "refused" in answer:
        return NUMBERED.sub("refused", answer)
    return answer


def refusal(answer):
    """The number of the refusal that ends this answer, or None."""
    found = None
    for found in NUMBER.finditer(answer):
        pass
    if found is None or not (answer.startswith("refused") or found.end() == len(answer) or answer.startswith(" at ", found.end())):
        return None
    return int(found.group(1))


def events(answer):
    """The events of an answer to `w`, and its refusal (number, place) or None."""
    head, told, tail = answer.partition(" refused ")
    parts = head.split(" / ")
    stop = None
    if told:
        number, _, place = tail.partition(" at ")
        stop = int(number), int(place) if place else None
    return [tuple(map(int, part.split(" "))) for part in parts[1:]], stop


def tree(listed, doc):
    """The events of a whole walk as the text of the original's parsed tree."""
    text, after = branch(listed, 0, doc, 0)
    if after != len(listed):
        return "events beyond the tree"
    return text


def branch(listed, at, doc, home):
    """The text of the value of event `at`, whose container's event must be `home`, and the index of the event behind all below it."""
    code, _, _, _, _, start, length, extra, parent = listed[at]
    if parent != home:
        raise ValueError("another container")
    home = at
    at += 1
    if code <= 3:
        if code >= 2:
            texts = []
            for _ in range(extra):
                text, at = branch(listed, at, doc, home)
                texts.append(text)
            return "[" + ",".join(texts) + "]", at
        members = {}
        for _ in range(extra):
            key = doc[listed[at][3]:listed[at][3] + listed[at][4]]
            text, at = branch(listed, at, doc, home)
            members[key] = text
        return "{" + ",".join(key.hex() + "=" + members[key] for key in sorted(members)) + "}", at
    data = doc[start:start + length]
    if code == 4:
        return ("null" if not doc else ("null", "true", "false")[data[0]]), at
    if code <= 10:
        if code % 2:
            return "i:%d" % int.from_bytes(data, "little", signed=True), at
        return "u:%d" % int.from_bytes(data, "little"), at
    if code == 11:
        return "d:" + data[::-1].hex(), at
    if code == 12:
        return "s:" + data.hex(), at
    return "o:%d:%s" % (extra, data.hex()), at


def parsed(answer, doc):
    """What `j` should answer by our answer to `w`: a text, or `refused` with the number and place as they stand."""
    listed, stop = events(answer)
    if stop:
        return "refused %d at %s" % stop
    try:
        return tree(listed, doc)
    except (IndexError, ValueError):
        return "no tree in these events"


def unhex(word):
    return b"" if word == "-" else bytes.fromhex(word)


def packed_root(doc):
    """The bytes of a root that is an opaque value."""
    at, length = 2, 0
    for shift in range(0, 35, 7):
        length |= (doc[at] & 0x7F) << shift
        at += 1
        if doc[at - 1] < 0x80:
            break
    return doc[at:at + length]


def asked_decimals(words):
    """The packed decimals a request asks about, with their two leading bytes (r with its numbers as they stand)."""
    kind = words[0]
    if kind == "p":
        return [unhex(words[2])]
    if kind == "c":
        return [unhex(words[1]), unhex(words[2])]
    if kind == "o":
        return [packed_root(unhex(words[2]))]
    return []


def pairs(words):
    if words[0] == "r" or words[0] == "s":
        return [(int(words[1]), int(words[2]))]
    return [(data[0], data[1]) for data in asked_decimals(words) if len(data) >= 2]


# Each predicate takes the request's words, our answer (numbers and all), the original's, and for `j` our answer to `w`. It says yes
# only where it can see for itself that the rule named is at work: a difference beside it stays unexplained.

def out_of_range(words, ours, theirs, walk):
    return words[0] in "rpcos" and refusal(ours) == 20 and theirs != "none" and any(not decimals.in_range(*pair) for pair in pairs(words))


def group_over(words, ours, theirs, walk):
    if words[0] not in "rpco" or refusal(ours) != 22 or theirs == "none":
        return False
    if words[0] == "r":
        return decimals.unpack(int(words[1]), int(words[2]), unhex(words[4])) == 22
    return any(decimals.unpacked(data) == 22 for data in asked_decimals(words))


def negative_zero(words, ours, theirs, walk):
    """Bytes of a negative zero: the original's answer is ours with a sign before the text and all bytes inverted."""
    if words[0] not in "rpo":
        return False
    read = decimals.unpack(int(words[1]), int(words[2]), unhex(words[4])) if words[0] == "r" else decimals.unpacked(asked_decimals(words)[0])
    if isinstance(read, int) or not read[0] or any(read[1]):
        return False
    whole, after, sign, text, digits = ours.split(" ")
    inverted = bytes(255 - byte for byte in unhex(digits)).hex()
    return sign == "+" and theirs == " ".join((whole, after, "-", "-" + text, inverted))


def order(words, ours, theirs, walk):
    if words[0] != "c" or ours not in ("less", "equal", "greater") or theirs not in ("less", "equal", "greater"):
        return False
    left, right = asked_decimals(words)
    values = decimals.exact(left), decimals.exact(right)
    if None in values:
        return False
    forms = decimals.written(left), decimals.written(right)
    told = lambda a, b: "less" if a < b else "equal" if a == b else "greater"
    return ours == told(*values) and theirs == told(*forms)


def long_text(words, ours, theirs, walk):
    if words[0] != "t" or refusal(ours) != 24:
        return False
    parts = theirs.split(" ")
    return len(parts) >= 2 and parts[0].isdigit() and parts[1].isdigit() and (int(parts[0]) + int(parts[1]) > 65 or int(parts[1]) > 30)


def beyond(theirs):
    """The original's parse went on where ours stopped: it has a tree, or failed at what follows. That ours was right to stop there
    is seen from `w`, which is compared as well."""
    return theirs[:1] in ("{", "[") or theirs in FAILED


def depth(words, ours, theirs, walk):
    if words[0] != "j" or refusal(ours) != 11 or not beyond(theirs):
        return False
    last = events(walk)[0][-1]
    return last[0] <= 3 and last[1] == 100 and last[7] > 0


def key_text(words, ours, theirs, walk):
    return words[0] == "j" and refusal(ours) == 9 and beyond(theirs) and ("efbfbd" in theirs or broken_key(unhex(words[1]), walk))


def broken_key(doc, walk):
    """Whether a walk's refusal is where a key breaks, in one of the objects that it listed."""
    listed, (_, place) = events(walk)
    for code, _, _, _, _, start, _, count, _ in listed:
        if code > 1:
            continue
        width = 4 if code == 1 else 2
        for entry in range(start + 2 * width, start + 2 * width + count * (width + 2), width + 2):
            offset = start + int.from_bytes(doc[entry:entry + width], "little")
            length = int.from_bytes(doc[entry + width:entry + width + 2], "little")
            fault = text_fault(doc[offset:offset + length])
            if fault is not None and place == offset + fault:
                return True
    return False


def text_fault(text):
    """Where a text breaks by Python's decoder: at a byte that begins no character, else behind the bytes of one that it took. None for UTF-8."""
    try:
        text.decode("utf-8")
    except UnicodeDecodeError as fault:
        return fault.start if fault.reason == "invalid start byte" else fault.end
    return None


def turned(words, ours, theirs, walk):
    """An opaque decimal, date or time that the original's parse cannot read, or not without a fault: ours lists its bytes."""
    if words[0] != "j" or not (theirs in FAILED or theirs == "refused" and refusal(ours) is None):
        return False
    doc = unhex(words[1])
    for code, _, _, _, _, start, length, column, _ in events(walk)[0]:
        data = doc[start:start + length]
        if code == 15 and column == 246 and decimals.printed(data) is None:
            return True
        if code == 15 and column in times.TYPES and (length < 8 and theirs == "refused" or data[:8] == times.packed(times.LEAST) and theirs in FAILED):
            return True
    return False


def asked_number(words):
    """The type and the number of the packed date or time that a request asks about; None where there is none."""
    if words[0] == "d":
        kind, data = int(words[1]), unhex(words[2])
    elif words[0] == "q":
        doc = unhex(words[1])
        if doc[0] != 15:
            return None
        kind, data = doc[1], packed_root(doc)
    else:
        return None
    if kind not in times.TYPES or len(data) < 8:
        return None
    return kind, int.from_bytes(data[:8], "little", signed=True)


def bad_field(name):
    """A number with this fault: 30 here, and from the original exactly what its own arithmetic says of such a number."""
    def holds(words, ours, theirs, walk):
        asked = asked_number(words)
        return asked is not None and ours == "refused 30" and name in times.faults(*asked) and theirs == times.original(*asked)
    return holds


def no_writer(words, ours, theirs, walk):
    return words[0] == "z" and theirs == "none"


def no_view(words, ours, theirs, walk):
    return words[0] in ("n", "e", "k", "ie", "im", "ik") and theirs == "none" and ours == "refused 13"


def not_there(words, ours, theirs, walk):
    return words[0] in ("x", "y") and theirs == "none"


class Row:
    def __init__(self, name, reason, holds):
        self.name, self.reason, self.holds = name, reason, holds


INTENDED = (
    Row("precision and scale", "outside their range: 20 here; the original accepts some and fails by overflow on others", out_of_range),
    Row("group out of range", "22 here; the original takes the group as it stands, or overflows", group_over),
    Row("negative zero", "positive here, with kept precision or without; the original keeps the sign where a digit is left", negative_zero),
    Row("order", "by value here; the original compares the bytes that it would write", order),
    Row("long text", "over 65 digits or 30 after the point: 24 here; the original has no limit", long_text),
    Row("key not UTF-8", "9 here; the original's parse puts a replacement character in its tree", key_text),
    Row("depth", "11 past 100 here; the original's parse has no limit", depth),
    Row("opaque decimal, date, time", "listed as bytes here; the original's parse reads it, and refuses or panics where it cannot", turned),
    Row("view of no container", "13 here; the original's views cannot be made but by reading", no_view),
    Row("record of a decimal", "the original lets nobody make one number by number", not_there),
    # Of a number with several faults the first row here counts it.
    Row("least number", "30 here; the original negates it and panics by its overflow check", bad_field("least number")),
    Row("hours of a time to 1,023", "839 and more are 30 here; the original gives them", bad_field("hours of a time to 1,023")),
    Row("hours of a time over 1,023", "30 here; the original gives their low ten bits", bad_field("hours of a time over 1,023")),
    Row("hours of a date", "24 to 31 are 30 here; the original gives them", bad_field("hours of a date")),
    Row("minutes, seconds", "60 to 63 are 30 here; the original gives them", bad_field("minutes, seconds")),
    Row("microseconds", "1,000,000 and more are 30 here; the original gives them", bad_field("microseconds")),
    Row("years", "above 9,999 are 30 here; the original gives them", bad_field("years")),
    Row("DATE with a clock part", "30 here; the original gives date and clock", bad_field("DATE with a clock part")),
    Row("negative date", "30 here; the original gives the magnitude's fields and a sign", bad_field("negative date")),
    Row("writing a date or time", "the original has no writer", no_writer),
)


def explain(request, ours, theirs, walk=None):
    """The row that explains a difference, or None. To a request `j` belongs our answer to `w`."""
    words = request.split(" ")
    for row in INTENDED:
        try:
            if row.holds(words, ours, theirs, walk):
                return row
        except (IndexError, ValueError, TypeError):
            continue
    return None


def manner(request, ours, theirs):
    """How two answers differ: what a smaller request must keep."""
    return request.split(" ", 1)[0], answer_kind(request, ours), answer_kind(request, theirs)


def answer_kind(request, answer):
    """The kind of an answer, for counting: few for each request."""
    kind = request.split(" ", 1)[0]
    first, _, rest = answer.partition(" ")
    if kind == "w":
        if first in ("what", "long", "none", "lost") + FAILED:
            return first
        stop = NUMBERED.search(answer)
        if stop:
            return "walk, refused " + (NUMBER.search(answer).group(1))
        return "walk, refused" if answer.endswith("refused") else "walk, whole"
    if kind == "j":
        return first if first in ("refused", "none", "what", "long", "lost") + FAILED else "tree"
    if kind in ("ie", "im", "ik"):
        if first in ("what", "long", "none", "lost") + FAILED or answer.startswith("refused") and " ; " not in answer:
            return answer
        return "items" + (", some refused" if "refused" in answer else "") + (", more" if answer.endswith("more") else "")
    if kind == "x" and " ; " in answer:
        return "record, " + ("some refused" if "refused" in answer else "whole") + (", kept" if answer.endswith("kept") else ", touched")
    if kind == "z" and " ; " in answer:
        return (answer if first == "refused" else "written ; " + answer.rpartition(" ; ")[2])
    if first == "refused":
        return answer
    if kind in ("d", "q") and first == "year":
        return "date or time"
    if first in ("scalar", "container"):
        return first + " " + rest.partition(" ")[0]
    if kind in ("r", "p", "t", "o") and first.isdigit():
        return "decimal"
    if kind in ("s", "n"):
        return "number" if first.isdigit() else answer
    return first
