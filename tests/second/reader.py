#!/usr/bin/env python3
"""A second reader of binary JSON documents, packed decimals, and packed dates and times.

It was written from document 01 (scope and rules), from document 02's request W2
(negative zero) and from ANSWERS.md (the requests) alone, and shares no code with
the other readers. For W4 (dates and times), W5 (where a text breaks) and W6 (an
event's container) it was changed by those who changed the code, of W4 from the
request's own text. It reads requests from standard input, one to a line, and writes
one line for each.

Negative zero
-------------
Request W2 of the project overrides document 01 here. A decimal read from bytes whose
groups are all zero is positive, with kept precision or without, whatever the sign
of its bytes; so it prints and writes as the positive zero of the same precision. A
record with a sign on zero (negative, all nine groups zero) is ill formed, 26, which
still comes before 25. Text zero is positive by document 01 already. No negative zero
therefore reaches the writing, the printing or the comparison.

Open points and how they are read here
--------------------------------------
 1. Column types. Document 01 leaves the known type bytes to a source file that
    this reader was written without. KNOWN_COLUMN_TYPES below is a list from memory
    of MySQL's public field types, not checked against the deciding file: 0 to 20,
    242 (vector), 243 (invalid) and 245 to 255. Doubtful are 20, 242, 243 (taken as
    known) and 244 (MySQL's placeholder for bool, taken as unknown).
 2. "Missing header" (3, before 4) means the count and size fields alone: the
    example "count 01: 4" would otherwise be 3.
 3. Refusal 13. A view matches when the bytes at its start hold its count and its
    size in the offset size of its kind, the header of that kind fits in the size,
    and the size fits in the document. Whether that place can be reached from the
    root is not asked; start 0 is not shut out; object and array are told apart
    only by the header's length.
 4. "The wrong kind was asked": key_at and the iterations over members and keys
    ask for an object, the iteration over elements for an array ("an array's
    elements and an object's members"). element_count and elem_at take both; of
    an object elem_at gives the member's value and does not look at its key.
 5. A member's event has its position in the object, as an element has in the array.
 6. Place of refusal 11: it is no key fault, so it is the value entry's first byte,
    in objects also.
 7. A walk's places count from the document's first byte, as starts do.
 8. An offset equal to the size is allowed by the pointer rule; the content then
    meets the end at once (3).
 9. Digits "outside 1 to 65 or 0 to 30" (26): all digits together are 1 to 65, those
    after the point 0 to 30; there may be no integral digit.
10. Printing "later groups nine wide": the last group after the point shows only
    the digits that the scale counts, as the examples -12.34 and 0.5 do. A zero
    first group that was kept prints "0" and the later groups follow, nine wide.
11. Dropping leading zero groups (no kept precision) drops whole groups; zeros
    inside a group that stays still count as integral digits. Where digits after
    the point are left, a zero keeps them and has no integral digit ("0.0"). "The
    positive zero of the same precision" (W2) is what the same request answers for
    the bytes of the positive zero, so without kept precision it is as short as that.
12. Text: only "00" at the very beginning loses zeros, so "007" becomes "07" and has
    two integral digits; "0" and 65 more digits that begin with another digit than
    zero are 66 digits, 24. Digits are wanted on one side of the point only ("5." and
    ".5" are both text). Text zero is positive and keeps its counts of digits.
13. SIGN in a record: 1 is negative, 0 is positive.
14. `o`: where the root is a decimal value whose bytes are refused, the answer is
    that refusal. The opaque bytes are read as the packed form.
15. `u` answers `bad P` (document 02, W5): P counts from the first of the bytes.
16. Numbers in requests may have leading zeros, but no sign. A carriage return, a
    tab, a second space or a space at the end makes a line no request. ROOM above
    128 in `x`, SIGN or KEEP other than 0 and 1, and an odd number of hexadecimal
    digits make it no request as well.
17. A last line with no line end is a line if it has at least one byte; it may then
    have 65,536 bytes of its own. An empty line is answered `what`.
18. `more` stands where `nothing` would stand, after 1,024 items and " ; ".
19. Dates and times (W4). Each field is tested whatever the others are, so day 31 is
    taken in any month and a month may be 0 beside a day. A TIMESTAMP is laid out as
    a DATETIME, and so is a DATE, with its clock part. The number 0 is read as
    positive: a negative zero, of no clock and no date, can only be asked for in
    writing (30). The least number has a magnitude like any other, 2 to the 63.
20. `q`: as `o`, where the root is an opaque value of one of the four types.
"""

import sys
from collections import namedtuple

LONGEST_DOCUMENT = 16777216
GREATEST_LENGTH = 4294967295
GREATEST_NUMBER = 4294967295
GREATEST_DEPTH = 100
LONGEST_LINE = 65536
MOST_ITEMS = 1024
MOST_EVENTS = 1820
MOST_ROOM = 128

SMALL_OBJECT, LARGE_OBJECT, SMALL_ARRAY, LARGE_ARRAY = 0, 1, 2, 3
LITERAL, INT16, UINT16, INT32, UINT32, INT64, UINT64, DOUBLE, STRING = range(4, 13)
OPAQUE = 15
CONTAINER_CODES = (SMALL_OBJECT, LARGE_OBJECT, SMALL_ARRAY, LARGE_ARRAY)
KNOWN_CODES = tuple(range(0, 13)) + (OPAQUE,)
NUMBER_WIDTHS = {INT16: 2, UINT16: 2, INT32: 4, UINT32: 4, INT64: 8, UINT64: 8, DOUBLE: 8}
SIGNED_CODES = (INT16, INT32, INT64)

# Open point 1: this is the one line to change if the deciding file says otherwise.
KNOWN_COLUMN_TYPES = frozenset(list(range(0, 21)) + [242, 243] + list(range(245, 256)))
NEWDECIMAL = 246
TIMESTAMP, DATE, TIME, DATETIME = 7, 10, 11, 12
TIME_TYPES = (TIMESTAMP, DATE, TIME, DATETIME)
PACKED_TIME_BYTES = 8

GROUP_BYTES = (0, 1, 1, 2, 2, 3, 3, 4, 4, 4)
GROUPS_IN_RECORD = 9

# A container's view, as ANSWERS.md orders its numbers.
Container = namedtuple("Container", "kind start count size")
# A scalar: its type code, its case in words, and what its event shows.
Scalar = namedtuple("Scalar", "code case start length extra")
# The iteration's place: the view and the position of the next item.
Place = namedtuple("Place", "view position")
# A decimal record: counts of digits before and after the point, sign, nine groups.
Decimal = namedtuple("Decimal", "intg frac negative groups")
# A date, a time or both: the column type, the fields as numbers, the sign.
Moment = namedtuple("Moment", "column_type year month day hour minute second micro negative")


class Refused(Exception):
    """A refusal; follows "What each refusal number means"."""

    def __init__(self, number):
        super().__init__(number)
        self.number = number


class WalkRefused(Exception):
    """A walk's refusal with its place; follows "What each refusal number means"."""

    def __init__(self, number, place):
        super().__init__(number, place)
        self.number = number
        self.place = place


class NotRequest(Exception):
    """The line is no request (ANSWERS.md)."""


NOTHING = "nothing"


# ---------------------------------------------------------------- numbers, text

def little_endian(document, start, width):
    # Container rules: all numbers are little-endian.
    return int.from_bytes(document[start:start + width], "little")


def need_bytes(start, width, end):
    # Refusal numbers: 3, bytes end early.
    if end - start < width:
        raise Refused(3)


def read_length_field(document, start, end):
    # Container rules: the length field; gives the length and where the data begins.
    length = 0
    for group in range(5):
        need_bytes(start + group, 1, end)
        byte = document[start + group]
        length += (byte & 0x7F) << (7 * group)
        if byte < 0x80:
            if length > GREATEST_LENGTH:
                raise Refused(8)
            return length, start + group + 1
    raise Refused(8)


# RFC 3629, section 4: a row of byte ranges for each form that a character has.
TAIL = (0x80, 0xBF)
CHARACTERS = (
    ((0x00, 0x7F),),
    ((0xC2, 0xDF), TAIL),
    ((0xE0, 0xE0), (0xA0, 0xBF), TAIL),
    ((0xE1, 0xEC), TAIL, TAIL),
    ((0xED, 0xED), (0x80, 0x9F), TAIL),
    ((0xEE, 0xEF), TAIL, TAIL),
    ((0xF0, 0xF0), (0x90, 0xBF), TAIL, TAIL),
    ((0xF1, 0xF3), TAIL, TAIL, TAIL),
    ((0xF4, 0xF4), (0x80, 0x8F), TAIL, TAIL),
)


def bytes_that_fit(row, data, at):
    fit = 0
    for (low, high), byte in zip(row, data[at:at + len(row)]):
        if not low <= byte <= high:
            break
        fit += 1
    return fit


def text_break(data):
    # Document 02, W5: the first byte that cannot begin or continue a character; the end where the last character is cut there; None for UTF-8.
    at = 0
    while at < len(data):
        fits = [(bytes_that_fit(row, data, at), len(row)) for row in CHARACTERS]
        whole = [length for fit, length in fits if fit == length]
        if not whole:
            return at + max(fit for fit, _ in fits)
        at += whole[0]
    return None


# ---------------------------------------------------------------- scalars

def read_literal(document, start, end):
    # Container rules: literals 0 null, 1 true, 2 false; any other is 7.
    need_bytes(start, 1, end)
    if document[start] > 2:
        raise Refused(7)
    case = ("null", "true", "false")[document[start]]
    return Scalar(LITERAL, case, start, 1, 0)


def read_number(document, code, start, end):
    # Container rules: signed, unsigned, or a double with its exact bits.
    width = NUMBER_WIDTHS[code]
    need_bytes(start, width, end)
    bits = little_endian(document, start, width)
    if code == DOUBLE:
        case = "double %016x" % bits
    elif code in SIGNED_CODES:
        sign_bit = 1 << (8 * width - 1)
        case = "int %d" % (bits - 2 * sign_bit if bits >= sign_bit else bits)
    else:
        case = "uint %d" % bits
    return Scalar(code, case, start, width, 0)


def read_string(document, start, end):
    # Container rules: a string is a length field and bytes.
    length, data = read_length_field(document, start, end)
    need_bytes(data, length, end)
    return Scalar(STRING, "string %d %d" % (data, length), data, length, 0)


def read_opaque(document, start, end):
    # Container rules: an opaque value is a column type byte, a length field and bytes.
    need_bytes(start, 1, end)
    column_type = document[start]
    if column_type not in KNOWN_COLUMN_TYPES:
        raise Refused(10)
    length, data = read_length_field(document, start + 1, end)
    need_bytes(data, length, end)
    case = "opaque %d %d %d" % (column_type, data, length)
    return Scalar(OPAQUE, case, data, length, column_type)


# ---------------------------------------------------------------- containers

def is_object(kind):
    # Container rules: codes 0 and 1 are objects, 2 and 3 are arrays.
    return kind in (SMALL_OBJECT, LARGE_OBJECT)


def is_large(kind):
    # Container rules: codes 1 and 3 are large.
    return kind in (LARGE_OBJECT, LARGE_ARRAY)


def offset_size(kind):
    # Container rules: offsets take 2 bytes in small containers, 4 in large.
    return 4 if is_large(kind) else 2


def key_entry_size(kind):
    # Container rules: a key entry is an offset and a 2-byte length; arrays have none.
    return offset_size(kind) + 2 if is_object(kind) else 0


def value_entry_size(kind):
    # Container rules: a value entry is a type byte and an offset or value.
    return 1 + offset_size(kind)


def header_length(kind, count):
    # Container rules: the header is count, size, key entries, value entries.
    return 2 * offset_size(kind) + count * (key_entry_size(kind) + value_entry_size(kind))


def read_container(document, kind, start, end):
    # Container rules: size within what is left, header within size; 3 first, then 4.
    width = offset_size(kind)
    need_bytes(start, 2 * width, end)
    count = little_endian(document, start, width)
    size = little_endian(document, start + width, width)
    if size > end - start:
        raise Refused(4)
    if header_length(kind, count) > size:
        raise Refused(4)
    return Container(kind, start, count, size)


def read_value(document, code, start, end):
    # Container rules: the value of a known code that stands at start and ends before end.
    if code in CONTAINER_CODES:
        return read_container(document, code, start, end)
    if code == LITERAL:
        return read_literal(document, start, end)
    if code == STRING:
        return read_string(document, start, end)
    if code == OPAQUE:
        return read_opaque(document, start, end)
    return read_number(document, code, start, end)


def check_document_length(document):
    # Refusal numbers: 1, a document longer than 16,777,216.
    if len(document) > LONGEST_DOCUMENT:
        raise Refused(1)


def root_value(document):
    # Container rules: a document is a type byte and a value; an empty one is null.
    check_document_length(document)
    if len(document) == 0:
        return Scalar(LITERAL, "null", 0, 0, 0)
    code = document[0]
    if code not in KNOWN_CODES:
        raise Refused(2)
    return read_value(document, code, 1, len(document))


def key_entry_start(container, position):
    # Container rules: key entries follow count and size.
    kind = container.kind
    return container.start + 2 * offset_size(kind) + position * key_entry_size(kind)


def value_entry_start(container, position):
    # Container rules: value entries follow the key entries, if there are any.
    kind = container.kind
    after_keys = key_entry_start(container, container.count)
    return after_keys + position * value_entry_size(kind)


def stands_in_entry(kind, code):
    # Container rules: what always stands in the entry, and what only in large containers.
    if code in (LITERAL, INT16, UINT16):
        return True
    return code in (INT32, UINT32) and is_large(kind)


def read_key(document, container, position):
    # Container rules: key offset at least the header's end, offset plus length at most size.
    entry = key_entry_start(container, position)
    width = offset_size(container.kind)
    offset = little_endian(document, entry, width)
    length = little_endian(document, entry + width, 2)
    if offset < header_length(container.kind, container.count):
        raise Refused(5)
    if offset + length > container.size:
        raise Refused(5)
    return container.start + offset, length


def read_entry(document, container, position):
    # Refusal numbers, entry: type 2, then pointer 6, then content.
    entry = value_entry_start(container, position)
    entry_end = entry + value_entry_size(container.kind)
    code = document[entry]
    if code not in KNOWN_CODES:
        raise Refused(2)
    if stands_in_entry(container.kind, code):
        return read_value(document, code, entry + 1, entry_end)
    offset = little_endian(document, entry + 1, offset_size(container.kind))
    if offset < entry_end - container.start:
        raise Refused(6)
    if offset > container.size:
        raise Refused(6)
    return read_value(document, code, container.start + offset, container.start + container.size)


# ---------------------------------------------------------------- views, iteration

def check_view(document, view, asked):
    # Refusal numbers: 1 comes first, then 13. asked is "object", "array" or "either".
    check_document_length(document)
    try:
        found = read_container(document, view.kind, view.start, len(document))
    except Refused:
        raise Refused(13)
    if found != view:
        raise Refused(13)
    if asked == "object" and not is_object(view.kind):
        raise Refused(13)
    if asked == "array" and is_object(view.kind):
        raise Refused(13)


def element_count(document, view):
    # The two modules, containers: element_count.
    check_view(document, view, "either")
    return view.count


def elem_at(document, view, position):
    # The two modules, containers: elem_at; past the count is nothing.
    check_view(document, view, "either")
    if position >= view.count:
        return NOTHING
    return read_entry(document, view, position)


def key_at(document, view, position):
    # The two modules, containers: key_at; past the count is nothing.
    check_view(document, view, "object")
    if position >= view.count:
        return NOTHING
    return read_key(document, view, position)


def read_member(document, view, position):
    # Container rules: for a member the key's fault comes before the value's.
    key = read_key(document, view, position)
    value = read_entry(document, view, position)
    return key, value


def iteration_step(document, place, asked, read_item):
    # Container rules: a step gives the item and the place that follows, a faulty item
    # included; at nothing, 1 and 13 the place stays as it was.
    try:
        check_view(document, place.view, asked)
    except Refused as refusal:
        return refusal, place
    if place.position >= place.view.count:
        return NOTHING, place
    following = Place(place.view, place.position + 1)
    try:
        return read_item(document, place.view, place.position), following
    except Refused as refusal:
        return refusal, following


# ---------------------------------------------------------------- the walk

def walk(document, room):
    # The walk: the events, and None or the refusal's number and place.
    events = []
    try:
        walk_root(document, room, events)
    except WalkRefused as refusal:
        return events, (refusal.number, refusal.place)
    return events, None


def walk_root(document, room, events):
    # The walk: the root has depth 0, position 0, no key; its refusals have place 0, but for a string's 9.
    try:
        value = root_value(document)
    except Refused as refusal:
        raise WalkRefused(refusal.number, 0)
    # Document 02, W6: the root has no container; its ninth number is 0.
    walk_value(document, room, events, value, 0, 0, (0, 0), 0, 0)


def check_text(document, start, length):
    # The walk: keys and strings must be UTF-8. Document 02, W5: 9 at the byte where one breaks, counted from the document's first.
    place = text_break(document[start:start + length])
    if place is not None:
        raise WalkRefused(9, start + place)


def walk_value(document, room, events, value, depth, position, key, place, parent):
    # Refusal numbers, the walk at one path: after the value come string 9 and 12.
    # Document 02, W6: an event's ninth number is the index in the list of its container's event.
    if isinstance(value, Container):
        event = (value.kind, depth, position) + key + (value.start, value.size, value.count, parent)
    else:
        if value.code == STRING:
            check_text(document, value.start, value.length)
        event = (value.code, depth, position) + key + (value.start, value.length, value.extra, parent)
    if len(events) >= room:
        raise WalkRefused(12, place)
    index = len(events)
    events.append(event)
    if isinstance(value, Container):
        walk_children(document, room, events, value, depth + 1, index)


def walk_children(document, room, events, container, depth, parent):
    # Refusal numbers, the walk at one path: 11, key 5, key 9, value; in order.
    for position in range(container.count):
        value_place = value_entry_start(container, position)
        if depth > GREATEST_DEPTH:
            raise WalkRefused(11, value_place)
        key = (0, 0)
        if is_object(container.kind):
            key = walk_key(document, container, position)
        try:
            value = read_entry(document, container, position)
        except Refused as refusal:
            raise WalkRefused(refusal.number, value_place)
        walk_value(document, room, events, value, depth, position, key, value_place, parent)


def walk_key(document, container, position):
    # The walk: keys must be UTF-8; a key's pointer fault has the key entry's place.
    place = key_entry_start(container, position)
    try:
        start, length = read_key(document, container, position)
    except Refused as refusal:
        raise WalkRefused(refusal.number, place)
    check_text(document, start, length)
    return start, length


# ---------------------------------------------------------------- decimals

def check_precision_and_scale(precision, scale):
    # Decimal rules: precision 1 to 65, scale at most 30 and at most precision; also 0 with 0.
    if precision == 0 and scale == 0:
        return
    if not 1 <= precision <= 65 or scale > 30 or scale > precision:
        raise Refused(20)


def integral_widths(intg):
    # Decimal rules: groups of nine from the point outwards, so the first may be short.
    short = [intg % 9] if intg % 9 else []
    return short + [9] * (intg // 9)


def fraction_widths(frac):
    # Decimal rules: groups of nine from the point outwards, so the last may be short.
    short = [frac % 9] if frac % 9 else []
    return [9] * (frac // 9) + short


def decimal_bin_size(precision, scale):
    # Decimal rules: a decimal's size is the sum over its groups.
    check_precision_and_scale(precision, scale)
    widths = integral_widths(precision - scale) + fraction_widths(scale)
    return sum(GROUP_BYTES[width] for width in widths)


def make_record(intg, frac, negative, groups):
    # What must change shape: nine groups; the unused ones are zero.
    # Zero is positive: from text by the decimal rules, from bytes by request W2.
    unused = [0] * (GROUPS_IN_RECORD - len(groups))
    return Decimal(intg, frac, negative and any(groups), tuple(groups + unused))


def positive_zero():
    # Decimal rules: positive 0 with one integral digit.
    return make_record(1, 0, False, [0])


def read_bin(precision, scale, keep, data):
    # Decimal rules, and refusal numbers for the decimal read: 20, 21, first bad group 22.
    size = decimal_bin_size(precision, scale)
    if len(data) < size:
        raise Refused(21)
    if precision == 0:
        return positive_zero()
    negative = data[0] < 0x80
    plain = bytearray(data[:size])
    plain[0] ^= 0x80
    if negative:
        plain = bytearray(byte ^ 0xFF for byte in plain)
    intg = precision - scale
    at = 0
    integral = []
    for width in integral_widths(intg):
        integral.append(read_group(plain, at, width))
        at += GROUP_BYTES[width]
    fraction = []
    for width in fraction_widths(scale):
        fraction.append(read_group(plain, at, width) * 10 ** (9 - width))
        at += GROUP_BYTES[width]
    if not keep:
        intg, integral = drop_zero_groups(intg, integral)
        if intg + scale == 0:
            return positive_zero()
    return make_record(intg, scale, negative, integral + fraction)


def read_group(plain, at, width):
    # Decimal rules: big-endian; a group of d digits is below 10 to the d.
    group = int.from_bytes(plain[at:at + GROUP_BYTES[width]], "big")
    if group >= 10 ** width:
        raise Refused(22)
    return group


def drop_zero_groups(intg, integral):
    # Decimal rules: without kept precision, leading integral groups that are zero are dropped.
    while integral and integral[0] == 0:
        intg -= integral_widths(intg)[0]
        integral = integral[1:]
    return intg, integral


def read_packed(keep, data):
    # Decimal rules: packed form is precision byte, scale byte, digits; header 21 first.
    if len(data) < 2:
        raise Refused(21)
    return read_bin(data[0], data[1], keep, data[2:])


def check_record(record):
    # Refusal numbers: 26, decimal record ill formed; by request W2 also a sign on zero.
    if not 1 <= record.intg + record.frac <= 65 or record.frac > 30:
        raise Refused(26)
    integral = integral_widths(record.intg)
    fraction = fraction_widths(record.frac)
    used = len(integral) + len(fraction)
    for width, group in zip(integral, record.groups):
        if group >= 10 ** width:
            raise Refused(26)
    for width, group in zip(fraction, record.groups[len(integral):]):
        if group >= 10 ** 9 or group % 10 ** (9 - width) != 0:
            raise Refused(26)
    for group in record.groups[used:]:
        if group != 0:
            raise Refused(26)
    if record.negative and not any(record.groups):
        raise Refused(26)


def bin_size(record):
    # Decimal rules: the size of what the record writes.
    check_record(record)
    return decimal_bin_size(record.intg + record.frac, record.frac)


def write_bin(record, room):
    # Decimal rules: big-endian groups; a negative value inverted; then the first bit flipped.
    check_record(record)
    integral = integral_widths(record.intg)
    plain = bytearray()
    for width, group in zip(integral, record.groups):
        plain += group.to_bytes(GROUP_BYTES[width], "big")
    for width, group in zip(fraction_widths(record.frac), record.groups[len(integral):]):
        plain += (group // 10 ** (9 - width)).to_bytes(GROUP_BYTES[width], "big")
    if record.negative:
        plain = bytearray(byte ^ 0xFF for byte in plain)
    plain[0] ^= 0x80
    if room < len(plain):
        raise Refused(25)
    return bytes(plain)


def print_decimal(record, room):
    # Decimal rules, printing: first group unpadded, later ones nine wide, "0" for none.
    check_record(record)
    integral = len(integral_widths(record.intg))
    fraction = len(fraction_widths(record.frac))
    text = "-" if record.negative else ""
    if integral == 0:
        text += "0"
    else:
        text += "%d" % record.groups[0]
        for group in record.groups[1:integral]:
            text += "%09d" % group
    if fraction > 0:
        digits = ""
        for group in record.groups[integral:integral + fraction]:
            digits += "%09d" % group
        text += "." + digits[:record.frac]
    if room < len(text):
        raise Refused(25)
    return text


def parse_str_bytes(text):
    # Decimal rules, text; refusal 23 before 24.
    at = 0
    while text[at:at + 2] == b"00":
        at += 1
    text = text[at:]
    negative = text[:1] == b"-"
    if text[:1] in (b"+", b"-"):
        text = text[1:]
    before, point, after = text.partition(b".")
    for byte in before + after:
        if not 0x30 <= byte <= 0x39:
            raise Refused(23)
    if len(before) + len(after) == 0:
        raise Refused(23)
    if len(before) + len(after) > 65 or len(after) > 30:
        raise Refused(24)
    groups = []
    at = 0
    for width in integral_widths(len(before)):
        groups.append(int(before[at:at + width]))
        at += width
    at = 0
    for width in fraction_widths(len(after)):
        groups.append(int(after[at:at + width]) * 10 ** (9 - width))
        at += width
    return make_record(len(before), len(after), negative, groups)


def value_of(record):
    # Decimal rules, comparison by value: the exact value times 10 to the 36.
    integral = len(integral_widths(record.intg))
    fraction = len(fraction_widths(record.frac))
    whole = 0
    for group in record.groups[:integral + fraction]:
        whole = whole * 10 ** 9 + group
    whole *= 10 ** (9 * (4 - fraction))
    return -whole if record.negative else whole


def compare(first, second):
    # Decimal rules: comparison is by value; a zero that passes the check is positive.
    check_record(first)
    check_record(second)
    if value_of(first) < value_of(second):
        return "less"
    if value_of(first) > value_of(second):
        return "greater"
    return "equal"


# ---------------------------------------------------------------- dates and times (W4)

# The greatest of each field, from the year to the microseconds. A plain date has no clock part, a time no date part.
GREATEST_FIELDS = {
    TIMESTAMP: (9999, 12, 31, 23, 59, 59, 999999),
    DATE: (9999, 12, 31, 0, 0, 0, 0),
    TIME: (0, 0, 0, 838, 59, 59, 999999),
    DATETIME: (9999, 12, 31, 23, 59, 59, 999999),
}


def fields_of(moment):
    return moment[1:8]


def check_moment(moment):
    # W4: 30 for a field out of range; a date value and a zero are not negative.
    for field, greatest in zip(fields_of(moment), GREATEST_FIELDS[moment.column_type]):
        if field > greatest:
            raise Refused(30)
    if moment.negative and (moment.column_type != TIME or not any(fields_of(moment))):
        raise Refused(30)


def read_packed_time(column_type, data):
    # W4: eight bytes, a signed little-endian number; the fields are in its magnitude, from the lowest bits on. 31, then 30.
    if len(data) < PACKED_TIME_BYTES:
        raise Refused(31)
    number = int.from_bytes(data[:PACKED_TIME_BYTES], "little", signed=True)
    rest, micro = divmod(abs(number), 2 ** 24)
    rest, second = divmod(rest, 2 ** 6)
    rest, minute = divmod(rest, 2 ** 6)
    year = month = day = 0
    if column_type == TIME:
        hour = rest
    else:
        rest, hour = divmod(rest, 2 ** 5)
        rest, day = divmod(rest, 2 ** 5)
        year, month = divmod(rest, 13)
    moment = Moment(column_type, year, month, day, hour, minute, second, micro, number < 0)
    check_moment(moment)
    return moment


def write_packed_time(moment, room):
    # W4: the same back; 30, then 25.
    check_moment(moment)
    if room < PACKED_TIME_BYTES:
        raise Refused(25)
    above = moment.hour
    if moment.column_type != TIME:
        above += (moment.day + (moment.year * 13 + moment.month) * 2 ** 5) * 2 ** 5
    number = moment.micro + (moment.second + (moment.minute + above * 2 ** 6) * 2 ** 6) * 2 ** 24
    return (-number if moment.negative else number).to_bytes(PACKED_TIME_BYTES, "little", signed=True)


# ---------------------------------------------------------------- requests (ANSWERS.md)

def asked_number(word, greatest=GREATEST_NUMBER):
    # ANSWERS.md: numbers are decimal; one above 4,294,967,295 is no request.
    if not word or any(letter not in "0123456789" for letter in word):
        raise NotRequest
    digits = word.lstrip("0") or "0"
    if len(digits) > 10 or int(digits) > greatest:
        raise NotRequest
    return int(digits)


def asked_bytes(word):
    # ANSWERS.md: bytes are hexadecimal digits in either case, "-" for none.
    if word == "-":
        return b""
    if not word or len(word) % 2 or any(letter not in "0123456789abcdefABCDEF" for letter in word):
        raise NotRequest
    return bytes.fromhex(word)


def asked_view(words):
    # ANSWERS.md: KIND is 0 to 3, then START, COUNT and SIZE.
    return Container(asked_number(words[0], 3), asked_number(words[1]),
                     asked_number(words[2]), asked_number(words[3]))


def asked_record(words):
    # ANSWERS.md: a record is INTG FRAC SIGN G1 .. G9, twelve numbers.
    return Decimal(asked_number(words[0]), asked_number(words[1]), asked_number(words[2], 1) == 1,
                   tuple(asked_number(word) for word in words[3:12]))


def asked_time_type(word):
    # ANSWERS.md: TYPE is 7 TIMESTAMP, 10 DATE, 11 TIME or 12 DATETIME.
    column_type = asked_number(word)
    if column_type not in TIME_TYPES:
        raise NotRequest
    return column_type


def say_bytes(data):
    # ANSWERS.md: bytes are answered in lower case, "-" for none.
    return data.hex() or "-"


def say_value(value):
    # ANSWERS.md: a value.
    if isinstance(value, Container):
        return "container %d %d %d %d" % value
    return "scalar %d %s" % (value.code, value.case)


def say_key(key):
    # ANSWERS.md: key START LENGTH.
    return "key %d %d" % key


def say_member(member):
    # ANSWERS.md: key START LENGTH = and the value.
    return say_key(member[0]) + " = " + say_value(member[1])


def say_decimal(record):
    # ANSWERS.md: a decimal is INTG FRAC SIGN TEXT BYTES.
    return "%d %d %s %s %s" % (record.intg, record.frac, "-" if record.negative else "+",
                               print_decimal(record, MOST_ROOM),
                               say_bytes(write_bin(record, MOST_ROOM)))


def say_moment(moment):
    # ANSWERS.md: the fields by name, and the sign.
    return ("year %d month %d day %d hour %d minute %d second %d micro %d " % fields_of(moment)) + ("-" if moment.negative else "+")


def say_refusal(refusal):
    # ANSWERS.md: a refusal is refused N.
    return "refused %d" % refusal.number


def answer_walk(words):
    # ANSWERS.md: w ROOM DOC.
    events, refusal = walk(asked_bytes(words[1]), asked_number(words[0], MOST_EVENTS))
    line = "%d" % len(events)
    for event in events:
        line += " / " + " ".join("%d" % number for number in event)
    if refusal is not None:
        line += " refused %d at %d" % refusal
    return line


def answer_root(words):
    # ANSWERS.md: v DOC.
    return say_value(root_value(asked_bytes(words[0])))


def answer_elem_at(words):
    # ANSWERS.md: e KIND START COUNT SIZE POS DOC.
    view, position, document = asked_view(words), asked_number(words[4]), asked_bytes(words[5])
    value = elem_at(document, view, position)
    return NOTHING if value is NOTHING else say_value(value)


def answer_key_at(words):
    # ANSWERS.md: k KIND START COUNT SIZE POS DOC.
    view, position, document = asked_view(words), asked_number(words[4]), asked_bytes(words[5])
    key = key_at(document, view, position)
    return NOTHING if key is NOTHING else say_key(key)


def answer_iteration(words, asked, read_item, say_item):
    # ANSWERS.md: all steps; " ; " between; then nothing, the refusal that ends it, or more.
    view, document = asked_view(words), asked_bytes(words[4])
    place = Place(view, 0)
    said = []
    while True:
        item, following = iteration_step(document, place, asked, read_item)
        if following == place:
            said.append(NOTHING if item is NOTHING else say_refusal(item))
            break
        if len(said) == MOST_ITEMS:
            said.append("more")
            break
        said.append(say_refusal(item) if isinstance(item, Refused) else say_item(item))
        place = following
    return " ; ".join(said)


def answer_elements(words):
    # ANSWERS.md: ie KIND START COUNT SIZE DOC.
    return answer_iteration(words, "array", read_entry, say_value)


def answer_members(words):
    # ANSWERS.md: im KIND START COUNT SIZE DOC.
    return answer_iteration(words, "object", read_member, say_member)


def answer_keys(words):
    # ANSWERS.md: ik KIND START COUNT SIZE DOC.
    return answer_iteration(words, "object", read_key, say_key)


def answer_element_count(words):
    # ANSWERS.md: n KIND START COUNT SIZE DOC.
    view, document = asked_view(words), asked_bytes(words[4])
    return "%d" % element_count(document, view)


def answer_read_bin(words):
    # ANSWERS.md: r PRECISION SCALE KEEP BYTES.
    precision, scale = asked_number(words[0]), asked_number(words[1])
    keep, data = asked_number(words[2], 1) == 1, asked_bytes(words[3])
    return say_decimal(read_bin(precision, scale, keep, data))


def answer_read_packed(words):
    # ANSWERS.md: p KEEP BYTES.
    keep, data = asked_number(words[0], 1) == 1, asked_bytes(words[1])
    return say_decimal(read_packed(keep, data))


def answer_text(words):
    # ANSWERS.md: t BYTES.
    return say_decimal(parse_str_bytes(asked_bytes(words[0])))


def answer_compare_packed(words):
    # ANSWERS.md: c BYTES BYTES; the first that is refused decides.
    first, second = asked_bytes(words[0]), asked_bytes(words[1])
    return compare(read_packed(True, first), read_packed(True, second))


def answer_decimal_bin_size(words):
    # ANSWERS.md: s PRECISION SCALE.
    return "%d" % decimal_bin_size(asked_number(words[0]), asked_number(words[1]))


def answer_record(words):
    # ANSWERS.md: x INTG FRAC SIGN G1 .. G9 ROOM; nothing here can touch other bytes.
    record, room = asked_record(words), asked_number(words[12], MOST_ROOM)
    said = []
    for result in (lambda: "%d" % bin_size(record),
                   lambda: say_bytes(write_bin(record, room)),
                   lambda: print_decimal(record, room)):
        try:
            said.append(result())
        except Refused as refusal:
            said.append(say_refusal(refusal))
    return " ; ".join(said) + " ; kept"


def answer_compare_records(words):
    # ANSWERS.md: y and two records of twelve numbers.
    first, second = asked_record(words[:12]), asked_record(words[12:])
    return compare(first, second)


def answer_root_decimal(words):
    # ANSWERS.md: o KEEP DOC; the root, an opaque value of type NEWDECIMAL, as a decimal.
    keep, document = asked_number(words[0], 1) == 1, asked_bytes(words[1])
    value = root_value(document)
    if isinstance(value, Container) or value.code != OPAQUE or value.extra != NEWDECIMAL:
        return "other"
    return say_decimal(read_packed(keep, document[value.start:value.start + value.length]))


def answer_utf8(words):
    # ANSWERS.md: u BYTES.
    place = text_break(asked_bytes(words[0]))
    return "utf8" if place is None else "bad %d" % place


def answer_packed_time(words):
    # ANSWERS.md: d TYPE BYTES.
    column_type, data = asked_time_type(words[0]), asked_bytes(words[1])
    return say_moment(read_packed_time(column_type, data))


def answer_root_time(words):
    # ANSWERS.md: q DOC; the root, an opaque value of one of the four types, as a date or time.
    document = asked_bytes(words[0])
    value = root_value(document)
    if isinstance(value, Container) or value.code != OPAQUE or value.extra not in TIME_TYPES:
        return "other"
    return say_moment(read_packed_time(value.extra, document[value.start:value.start + value.length]))


def answer_time_record(words):
    # ANSWERS.md: z TYPE YEAR MONTH DAY HOUR MINUTE SECOND MICRO SIGN ROOM; nothing here can touch other bytes.
    column_type, fields = asked_time_type(words[0]), [asked_number(word) for word in words[1:8]]
    negative, room = asked_number(words[8], 1) == 1, asked_number(words[9], MOST_ROOM)
    try:
        said = say_bytes(write_packed_time(Moment(column_type, *fields, negative), room))
    except Refused as refusal:
        said = say_refusal(refusal)
    return said + " ; kept"


# Each request with the number of words that follow its name.
REQUESTS = {
    "w": (2, answer_walk),
    "v": (1, answer_root),
    "e": (6, answer_elem_at),
    "k": (6, answer_key_at),
    "ie": (5, answer_elements),
    "im": (5, answer_members),
    "ik": (5, answer_keys),
    "n": (5, answer_element_count),
    "r": (4, answer_read_bin),
    "p": (2, answer_read_packed),
    "t": (1, answer_text),
    "c": (2, answer_compare_packed),
    "s": (2, answer_decimal_bin_size),
    "x": (13, answer_record),
    "y": (24, answer_compare_records),
    "o": (2, answer_root_decimal),
    "u": (1, answer_utf8),
    "d": (2, answer_packed_time),
    "q": (1, answer_root_time),
    "z": (10, answer_time_record),
}


def answer(line):
    # ANSWERS.md: one line in (without its end), one line out.
    words = line.decode("latin-1").split(" ")
    if words[0] not in REQUESTS:
        return "what"
    count, answer_request = REQUESTS[words[0]]
    if len(words) != 1 + count:
        return "what"
    try:
        return answer_request(words[1:])
    except NotRequest:
        return "what"
    except Refused as refusal:
        return say_refusal(refusal)


def main():
    # ANSWERS.md: a line of more than 65,536 bytes, its end included, is answered long.
    source, target = sys.stdin.buffer, sys.stdout
    while True:
        line = source.readline(LONGEST_LINE + 1)
        if not line:
            break
        if len(line) > LONGEST_LINE:
            while line and not line.endswith(b"\n"):
                line = source.readline(LONGEST_LINE)
            said = "long"
        else:
            said = answer(line[:-1] if line.endswith(b"\n") else line)
        target.write(said + "\n")
        target.flush()


if __name__ == "__main__":
    main()
