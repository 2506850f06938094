#!/usr/bin/env python3
"""Asks the second reader (reader.py, beside this file) questions with known answers.

Part 1: every example of document 01. Part 2: cases at the edges of its rules, with
answers worked out by hand from the rules. Part 3: answers computed here by other
means: an encoder of documents, Python's own decimal numbers, RFC 3629's grammar.
Request W2 of the project overrides document 01 on negative zero: zero read from bytes
is positive, and a record with a sign on zero is refused, 26. All parts follow W2.
By request W6 an event has a ninth number, the index of its container's event. By W4
there are packed dates and times: worked out by hand, and as strings of bits.
Prints how many agree, and each that does not. Ends with 1 if any differs.
"""

import decimal
import os
import random
import re
import subprocess
import sys

HERE = os.path.dirname(os.path.abspath(__file__))
sys.path.insert(0, HERE)
sys.dont_write_bytecode = True
import reader  # for the two questions no request can ask

decimal.getcontext().prec = 200


def hexa(data):
    return data.hex() or "-"


def plain(words):
    return words.replace(" ", "") or "-"


def ask_raw(data):
    done = subprocess.run([sys.executable, os.path.join(HERE, "reader.py")],
                          input=data, stdout=subprocess.PIPE, check=True)
    return done.stdout.decode("ascii").split("\n")[:-1]


def ask(requests):
    return ask_raw("".join(request + "\n" for request in requests).encode("ascii"))


def compare(title, cases):
    answers = ask([request for request, _ in cases])
    good = 0
    for (request, expected), answer in zip(cases, answers):
        if answer == expected:
            good += 1
        else:
            print("DIFFERS %s\n  asked    %s\n  expected %s\n  answered %s"
                  % (title, request[:300], expected[:300], answer[:300]))
    print("%s: %d of %d agree" % (title, good, len(cases)))
    return len(answers) == len(cases) and good == len(cases)


def text(words):
    return "t " + hexa(words.encode("latin-1"))


# ---------------------------------------------------------------- nested documents

def nested_arrays(count):
    """A true inside this many small arrays."""
    body = b"\x01\x00\x07\x00\x04\x01\x00"
    for _ in range(count - 1):
        size = len(body) + 7
        body = b"\x01\x00" + size.to_bytes(2, "little") + b"\x02\x07\x00" + body
    return b"\x02" + body


def nested_answer(count):
    """What the walk says of nested_arrays(count)."""
    events = []
    for depth in range(min(count, 101)):
        # One event for each depth: the container's event is the one before.
        events.append("2 %d 0 0 0 %d %d 1 %d" % (depth, 1 + 7 * depth, 7 * (count - depth), max(depth, 1) - 1))
    last = 1 + 7 * (count - 1) + 4
    if count <= 100:
        events.append("4 %d 0 0 0 %d 1 0 %d" % (count, last + 1, count - 1))
    line = " / ".join(["%d" % len(events)] + events)
    return line if count <= 100 else line + " refused 11 at %d" % (1 + 7 * 100 + 4)


# ---------------------------------------------------------------- part 1

def examples():
    cases = []

    def add(request, expected):
        head, _, document = request.rpartition(" : ")
        cases.append((head + " " + plain(document) if head else request, expected))

    first = "02 02 00 0A 00 04 01 00 05 FE FF"
    two = "2 0 0 0 0 1 10 2 0 / 4 1 0 0 0 6 1 0 0"
    add("w 1820 : " + first, "3 / " + two + " / 5 1 1 0 0 9 2 0 0")
    add("w 2 : " + first, "2 / " + two + " refused 12 at 8")
    add("w 1820 : " + nested_arrays(100).hex(), nested_answer(100))
    add("w 1820 : " + nested_arrays(101).hex(), nested_answer(101))

    zoe = "00 01 00 11 00 0B 00 01 00 0C 0C 00 61 04 5A 6F C3 AB"
    root = "1 / 0 0 0 0 0 1 17 1 0"
    add("w 1820 : " + zoe, "2" + root[1:] + " / 12 1 0 12 1 14 4 0 0")
    add("im 0 1 1 17 : " + zoe, "key 12 1 = scalar 12 string 14 4 ; nothing")
    add("w 1820 : " + zoe[:-2] + "22", root + " refused 9 at 17")
    add("w 1820 : " + zoe.replace("0B 00", "0A 00"), root + " refused 5 at 5")

    shared = "02 02 00 0C 00 0C 07 00 04 01 00 41 42"
    add("e 2 1 2 12 0 : " + shared, "scalar 12 string 9 4")
    add("e 2 1 2 12 0 : " + shared.replace("0C 07", "0C 06"), "refused 6")

    add("e 2 1 1 11 0 : 02 01 00 0B 00 07 07 00 FF FF FF FF", "scalar 7 int -1")
    add("e 3 1 1 13 0 : 03 01 00 00 00 0D 00 00 00 07 FF FF FF FF", "scalar 7 int -1")

    add("v : 02 00 00 04 00", "container 2 1 0 4")
    add("v : 02 00 00 05 00", "refused 4")
    add("v : 02 01 00 04 00", "refused 4")
    add("v : 02 00 00", "refused 3")

    add("v : 04 01", "scalar 4 true")
    add("v : 04 03", "refused 7")
    add("v : 0D", "refused 2")
    add("v : 0C 80 80 80 80 10", "refused 8")
    add("v : 0C 80 80 80 80 0F", "refused 3")  # the length is good, its data are not there

    add("p 1 : 04 02 73 DD", "2 2 - -12.34 73dd")
    add("p 1 : 04 02 8C 22", "2 2 + 12.34 8c22")
    add("p 0 : 04 02 73 DD", "2 2 - -12.34 73dd")
    add("p 0 : 04 02 8C 22", "2 2 + 12.34 8c22")
    add("r 2 0 1 : E3", "2 0 + 99 e3")
    add("r 2 0 0 : E3", "2 0 + 99 e3")
    add("r 2 0 1 : E4", "refused 22")
    add("r 2 0 0 : E4", "refused 22")
    add("r 2 0 1 : 7F", "2 0 + 0 80")  # by request W2, not by document 01
    add("r 2 0 0 : 7F", "1 0 + 0 80")
    add(text("007"), "2 0 + 7 87")
    add(text(".5"), "0 1 + 0.5 85")
    add(text("."), "refused 23")
    add(text("0" * 66), "1 0 + 0 80")
    add(text("-" + "0" * 66), "refused 24")
    add("c 010089 03008064", "less")
    add("y 1 0 0 9 0 0 0 0 0 0 0 0 3 0 0 100 0 0 0 0 0 0 0 0", "less")
    # Figures that stand in the rules themselves.
    add("w 1820 -", "1 / 4 0 0 0 0 0 0 0 0")
    add("v -", "scalar 4 null")
    add("r 0 0 1 -", "1 0 + 0 80")
    add("y 1 0 0 1 0 0 0 0 0 0 0 0 1 1 0 1 0 0 0 0 0 0 0 0", "equal")
    for digits, size in enumerate((0, 1, 1, 2, 2, 3, 3, 4, 4, 4)):
        add("s %d 0" % digits, "%d" % size)
    return cases


def length_example():
    """Length 80 80 80 80 0F is 4,026,531,840: no answer line shows it, so it is asked directly."""
    found = reader.read_length_field(bytes.fromhex("808080800f"), 0, 5)
    good = found == (4026531840, 5)
    print("document 01, the length by itself: %d of 1 agrees" % good)
    return good


# ---------------------------------------------------------------- part 2

def edges():
    cases = []

    def add(request, expected):
        head, _, document = request.rpartition(" : ")
        cases.append((head + " " + plain(document) if head else request, expected))

    # Documents of one byte, and roots.
    for byte in range(256):
        known = byte <= 12 or byte == 15
        add("v : %02x" % byte, "refused 3" if known else "refused 2")
        add("w 3 : %02x" % byte, "0 refused %d at 0" % (3 if known else 2))
    add("v 0400", "scalar 4 null")
    add("v 0402", "scalar 4 false")
    add("v 04ff", "refused 7")
    add("v 0401ff", "scalar 4 true")
    add("v 050080", "scalar 5 int -32768")
    add("v 05ff7f", "scalar 5 int 32767")
    add("v 05ff", "refused 3")
    add("v 06ffff", "scalar 6 uint 65535")
    add("v 0700000080", "scalar 7 int -2147483648")
    add("v 07000080", "refused 3")
    add("v 08ffffffff", "scalar 8 uint 4294967295")
    add("v 090000000000000080", "scalar 9 int -9223372036854775808")
    add("v 0900000000000080", "refused 3")
    add("v 0affffffffffffffff", "scalar 10 uint 18446744073709551615")
    add("v 0b000000000000f83f", "scalar 11 double 3ff8000000000000")
    add("v 0b010000000000f07f", "scalar 11 double 7ff0000000000001")
    add("v 0b0000000000000080", "scalar 11 double 8000000000000000")
    add("v 0b00000000000080", "refused 3")

    # Length fields.
    add("v 0c00", "scalar 12 string 2 0")
    add("v 0c0141", "scalar 12 string 2 1")
    add("v 0c014142", "scalar 12 string 2 1")
    add("v 0c0241", "refused 3")
    add("v 0c80", "refused 3")
    add("v 0c8000", "scalar 12 string 3 0")
    add("v 0c808000", "scalar 12 string 4 0")
    add("v 0c80808000", "scalar 12 string 5 0")
    add("v 0c8080808000", "scalar 12 string 6 0")
    add("v 0c818080800041", "scalar 12 string 6 1")
    add("v 0c80808080", "refused 3")
    add("v 0c8080808080", "refused 8")
    add("v 0c808080808000", "refused 8")
    add("v 0cffffffff0f", "refused 3")
    add("v 0cffffffff10", "refused 8")
    add("v 0cffffffff7f", "refused 8")
    add("v 0cffffffff8f", "refused 8")
    for length in (127, 128, 129, 16383, 16384):
        field = "%02x" % length if length < 128 else "%02x%02x" % (length % 128 + 128, length // 128)
        if length == 16384:
            field = "808001"
        add("v 0c" + field + "61" * length, "scalar 12 string %d %d" % (1 + len(field) // 2, length))
        add("v 0c" + field + "61" * (length - 1), "refused 3")

    # Opaque values: 3, 10, then the length field.
    # The list is the reader's open point 1: where it changes there, it changes here.
    known_types = set(range(21)) | {242, 243} | set(range(245, 256))
    for column_type in range(256):
        known = column_type in known_types
        add("v 0f%02x" % column_type, "refused 3" if known else "refused 10")
        add("v 0f%02x0161" % column_type,
            "scalar 15 opaque %d 3 1" % column_type if known else "refused 10")
        add("w 1 0f%02x01ff" % column_type,
            "1 / 15 0 0 0 0 3 1 %d 0" % column_type if known else "0 refused 10 at 0")
    add("v 0ff600", "scalar 15 opaque 246 3 0")
    add("v 0ff68080808080", "refused 8")
    add("v 0ff60261", "refused 3")
    add("v 0f158080808080", "refused 10")

    # Containers at the root: sizes at the edges, count 0, header and size.
    add("v 0200000300", "refused 4")
    add("v 0200000400ff", "container 2 1 0 4")
    add("v 0200000500ff", "container 2 1 0 5")
    add("v 0200000600ff", "refused 4")
    add("v 02000004", "refused 3")
    add("v 02ffffffff", "refused 4")
    add("v 02ffff0400", "refused 4")
    add("v 0000000400", "container 0 1 0 4")
    add("v 030000000008000000", "container 3 1 0 8")
    add("v 010000000008000000", "container 1 1 0 8")
    add("v 0300000000080000", "refused 3")
    add("v 030000000007000000", "refused 4")
    add("v 030000000009000000", "refused 4")
    add("v 03ffffffff08000000", "refused 4")
    add("v : 02 01 00 07 00 04 00 00", "container 2 1 1 7")
    add("v : 02 01 00 06 00 04 00 00", "refused 4")
    add("v : 00 01 00 0b 00 0b 00 00 00 04 00 00", "container 0 1 1 11")
    add("v : 00 01 00 0a 00 0b 00 00 00 04 00 00", "refused 4")
    add("v : 03 01000000 0d000000 04 00000000", "container 3 1 1 13")
    add("v : 03 01000000 0c000000 04 00000000", "refused 4")
    add("v : 01 01000000 13000000 13000000 0000 04 00000000", "container 1 1 1 19")
    add("v : 01 01000000 12000000 13000000 0000 04 00000000", "refused 4")
    add("w 1 0200000400", "1 / 2 0 0 0 0 1 4 0 0")
    add("w 1 0000000400", "1 / 0 0 0 0 0 1 4 0 0")
    add("w 0 0200000400", "0 refused 12 at 0")

    # Views: 13 before nothing; the wrong kind; start 0.
    empty = "0200000400"
    add("n 2 1 0 4 " + empty, "0")
    add("n 2 1 1 4 " + empty, "refused 13")
    add("n 2 1 0 5 " + empty, "refused 13")
    add("n 2 1 0 3 " + empty, "refused 13")
    add("n 3 1 0 4 " + empty, "refused 13")
    add("n 2 2 0 4 " + empty, "refused 13")
    add("n 2 5 0 0 " + empty, "refused 13")
    add("n 2 6 0 4 " + empty, "refused 13")
    add("n 2 4294967295 0 4 " + empty, "refused 13")
    add("n 2 4294967295 4294967295 4294967295 " + empty, "refused 13")
    add("n 2 0 2 1024 " + empty, "refused 13")
    add("n 2 0 0 4 00000400", "0")
    add("n 0 1 0 4 " + empty, "0")
    add("n 2 1 0 4 -", "refused 13")
    add("n 2 1 0 5 0200000500", "refused 13")
    add("n 2 1 1 4 0201000400", "refused 13")
    add("e 2 1 0 4 0 " + empty, "nothing")
    add("e 2 1 0 4 4294967295 " + empty, "nothing")
    add("e 2 1 0 5 0 " + empty, "refused 13")
    add("k 2 1 0 4 0 " + empty, "refused 13")
    add("k 0 1 0 4 0 0000000400", "nothing")
    add("ie 2 1 0 4 " + empty, "nothing")
    add("im 2 1 0 4 " + empty, "refused 13")
    add("ik 2 1 0 4 " + empty, "refused 13")
    add("ie 0 1 0 4 0000000400", "refused 13")
    add("im 0 1 0 4 0000000400", "nothing")
    add("ik 0 1 0 4 0000000400", "nothing")
    add("ie 2 1 0 5 " + empty, "refused 13")

    # Key pointers: at the header's end, at the size, past it.
    def one_member(offset, length, value="040000", tail="", size=None):
        size = 11 + len(tail) // 2 if size is None else size
        return "00" + "0100" + "%02x00" % size + "%02x00" % offset + "%02x00" % length + value + tail
    add("k 0 1 1 11 0 " + one_member(11, 0), "key 12 0")
    add("k 0 1 1 11 1 " + one_member(11, 0), "nothing")
    add("k 0 1 1 11 0 " + one_member(10, 0), "refused 5")
    add("k 0 1 1 11 0 " + one_member(0, 0), "refused 5")
    add("k 0 1 1 11 0 " + one_member(11, 1), "refused 5")
    add("k 0 1 1 11 0 " + one_member(11, 1, size=11) + "61", "refused 5")
    add("k 0 1 1 11 0 " + one_member(12, 0, size=11) + "61", "refused 5")
    add("k 0 1 1 12 0 " + one_member(12, 0, tail="61"), "key 13 0")
    add("k 0 1 1 12 0 " + one_member(11, 1, tail="ff"), "key 12 1")
    add("w 9 " + one_member(11, 0), "2 / 0 0 0 0 0 1 11 1 0 / 4 1 0 12 0 10 1 0 0")
    add("w 9 " + one_member(11, 1, tail="ff"), "1 / 0 0 0 0 0 1 12 1 0 refused 9 at 12")
    add("w 9 " + one_member(11, 1, "0d0000", "ff"), "1 / 0 0 0 0 0 1 12 1 0 refused 9 at 12")
    add("w 9 " + one_member(11, 2, "0d0000", "ff"), "1 / 0 0 0 0 0 1 12 1 0 refused 5 at 5")
    add("w 9 " + one_member(11, 1, "0d0000", "61"), "1 / 0 0 0 0 0 1 12 1 0 refused 2 at 9")
    add("w 1 " + one_member(11, 1, "0d0000", "61"), "1 / 0 0 0 0 0 1 12 1 0 refused 2 at 9")
    add("w 1 " + one_member(11, 1, "040000", "61"), "1 / 0 0 0 0 0 1 12 1 0 refused 12 at 9")
    add("w 1 " + one_member(11, 1, "040000", "ff"), "1 / 0 0 0 0 0 1 12 1 0 refused 9 at 12")
    add("w 9 " + one_member(11, 1, "040300", "61"), "1 / 0 0 0 0 0 1 12 1 0 refused 7 at 9")
    # Key and value share their bytes; the value's length byte may be a key too.
    add("w 9 " + one_member(12, 1, "0c0b00", "0161"), "2 / 0 0 0 0 0 1 13 1 0 / 12 1 0 13 1 13 1 0 0")
    add("w 9 " + one_member(11, 2, "0c0b00", "0161"), "2 / 0 0 0 0 0 1 13 1 0 / 12 1 0 12 2 13 1 0 0")
    # A key stays faulty before its value; the value alone can still be had.
    add("im 0 1 1 11 " + one_member(0, 0, "0d0000"), "refused 5 ; nothing")
    add("im 0 1 1 11 " + one_member(11, 0, "0d0000"), "refused 2 ; nothing")
    add("ik 0 1 1 11 " + one_member(0, 0, "0d0000"), "refused 5 ; nothing")
    add("ik 0 1 1 11 " + one_member(11, 0, "0d0000"), "key 12 0 ; nothing")
    add("e 0 1 1 11 0 " + one_member(0, 0, "040100"), "scalar 4 true")
    add("ie 0 1 1 11 " + one_member(11, 0), "refused 13")
    # Large object: key entry of six bytes, value entry of five.
    large = "01 01000000 17000000 13000000 0100 08 feffffff 61 62 63 64"
    add("im 1 1 1 23 : " + large, "key 20 1 = scalar 8 uint 4294967294 ; nothing")
    add("w 9 : " + large, "2 / 1 0 0 0 0 1 23 1 0 / 8 1 0 20 1 16 4 0 0")
    add("k 1 1 1 23 0 : " + large.replace("13000000 0100", "16000000 0200"), "refused 5")
    add("k 1 1 1 23 0 : " + large.replace("13000000 0100", "16000000 0100"), "key 23 1")
    add("k 1 1 1 23 0 : " + large.replace("13000000 0100", "ffffffff ffff"), "refused 5")
    # Duplicate keys are all listed.
    twice = "00 0200 1300 1200 0100 1200 0100 04 0100 04 0200 61"
    add("w 9 : " + twice, "3 / 0 0 0 0 0 1 19 2 0 / 4 1 0 19 1 14 1 0 0 / 4 1 1 19 1 17 1 0 0")
    add("im 0 1 2 19 : " + twice, "key 19 1 = scalar 4 true ; key 19 1 = scalar 4 false ; nothing")
    # First member's value may point into the second's entry, the second's may not.
    add("e 0 1 2 19 0 : 00 0200 1300 1200 0100 1200 0100 05 0100 04 0200 61", "scalar 5 int 1")
    add("e 0 1 2 19 0 : 00 0200 1300 1200 0100 1200 0100 0c 0f00 00 0000 61", "scalar 12 string 17 0")
    add("e 0 1 2 19 0 : 00 0200 1300 1200 0100 1200 0100 0c 0e00 00 0000 61", "refused 6")
    add("e 0 1 2 19 1 : 00 0200 1300 1200 0100 1200 0100 0c 0f00 0c 1100 00", "refused 6")
    add("e 0 1 2 19 1 : 00 0200 1300 1200 0100 1200 0100 0c 0f00 0c 1200 00", "scalar 12 string 20 0")

    # Value pointers in a small array of one: 7 to the size.
    def one_element(code, offset, tail, size=None):
        size = 7 + len(plain(tail)) // 2 if size is None else size
        return "020100" + "%02x00" % size + "%02x" % code + "%02x00" % offset + tail.replace(" ", "")
    add("e 2 1 1 8 0 " + one_element(12, 7, "00"), "scalar 12 string 9 0")
    add("e 2 1 1 8 0 " + one_element(12, 6, "00"), "refused 6")
    add("e 2 1 1 8 0 " + one_element(12, 0, "00"), "refused 6")
    add("e 2 1 1 8 0 " + one_element(12, 8, "00"), "refused 3")
    add("e 2 1 1 8 0 " + one_element(12, 9, "00"), "refused 6")
    add("e 2 1 1 8 0 " + one_element(12, 8, "0000", 8), "refused 3")
    add("e 2 1 1 8 0 " + one_element(12, 9, "0000", 8), "refused 6")
    add("e 2 1 1 8 0 " + one_element(13, 0, "00"), "refused 2")
    add("e 2 1 1 8 0 " + one_element(14, 7, "00"), "refused 2")
    add("e 2 1 1 8 0 " + one_element(16, 7, "00"), "refused 2")
    add("e 2 1 1 8 0 " + one_element(15, 0, "15"), "refused 6")
    add("e 2 1 1 8 0 " + one_element(15, 7, "15"), "refused 10")
    add("e 2 1 1 8 0 " + one_element(15, 7, "14"), "refused 3")
    add("e 2 1 1 10 0 " + one_element(7, 7, "ffffff"), "refused 3")
    add("e 2 1 1 10 0 " + one_element(7, 7, "ffffffff", 10), "refused 3")
    add("e 2 1 1 11 0 " + one_element(8, 7, "ffffffff"), "scalar 8 uint 4294967295")
    add("e 2 1 1 11 0 " + one_element(7, 1, "ffffffff"), "refused 6")
    add("e 2 1 1 14 0 " + one_element(9, 7, "ffffffffffffff"), "refused 3")
    add("e 2 1 1 15 0 " + one_element(9, 7, "ffffffffffffffff"), "scalar 9 int -1")
    add("e 2 1 1 15 0 " + one_element(11, 7, "0000000000000080"), "scalar 11 double 8000000000000000")
    # A child is bounded by its parent, not by the document.
    add("e 2 1 1 11 0 " + one_element(2, 7, "00000400"), "container 2 8 0 4")
    add("e 2 1 1 11 0 " + one_element(2, 7, "0000050000", 11), "refused 4")
    add("e 2 1 1 10 0 " + one_element(2, 7, "00000400", 10), "refused 3")
    add("e 2 1 1 11 0 " + one_element(2, 7, "01000400"), "refused 4")
    add("e 2 1 1 11 0 " + one_element(0, 7, "00000400"), "container 0 8 0 4")
    add("e 2 1 1 11 0 " + one_element(3, 7, "00000400"), "refused 3")
    add("e 2 1 1 15 0 " + one_element(3, 7, "00000000 08000000"), "container 3 8 0 8")
    add("e 2 1 1 11 0 " + one_element(2, 11, "00000400"), "refused 3")
    add("e 2 1 1 11 0 " + one_element(2, 12, "00000400"), "refused 6")
    add("w 9 " + one_element(2, 7, "0000050000", 11), "1 / 2 0 0 0 0 1 11 1 0 refused 4 at 5")
    add("w 9 " + one_element(2, 7, "00000400"), "2 / 2 0 0 0 0 1 11 1 0 / 2 1 0 0 0 8 4 0 0")
    # Values in the entry, spare bytes not read.
    add("e 2 1 1 7 0 " + one_element(4, 1, "")[:-2] + "ff", "scalar 4 true")
    add("e 2 1 1 7 0 : 02 0100 0700 04 03ff", "refused 7")
    add("e 2 1 1 7 0 : 02 0100 0700 06 ffff", "scalar 6 uint 65535")
    add("e 3 1 1 13 0 : 03 01000000 0d000000 04 02ffffff", "scalar 4 false")
    add("e 3 1 1 13 0 : 03 01000000 0d000000 04 03000000", "refused 7")
    add("e 3 1 1 13 0 : 03 01000000 0d000000 05 feffaabb", "scalar 5 int -2")
    add("e 3 1 1 13 0 : 03 01000000 0d000000 06 feffaabb", "scalar 6 uint 65534")
    add("e 3 1 1 13 0 : 03 01000000 0d000000 08 ffffffff", "scalar 8 uint 4294967295")
    add("e 3 1 1 13 0 : 03 01000000 0d000000 09 0d000000", "refused 3")
    add("e 3 1 1 13 0 : 03 01000000 0d000000 09 0c000000", "refused 6")
    add("e 3 1 1 13 0 : 03 01000000 0d000000 09 0e000000", "refused 6")
    add("e 3 1 1 13 0 : 03 01000000 0d000000 0c ffffffff", "refused 6")
    add("w 9 : 03 01000000 0d000000 05 feffaabb", "2 / 3 0 0 0 0 1 13 1 0 / 5 1 0 0 0 10 2 0 0")
    add("w 9 : 03 01000000 0d000000 07 feffffff", "2 / 3 0 0 0 0 1 13 1 0 / 7 1 0 0 0 10 4 0 0")
    # Into the header: the first may point at the second's entry, the second not at itself.
    add("e 2 1 2 11 0 : 02 0200 0b00 0c 0700 00 0a00 00", "scalar 12 string 9 0")
    add("e 2 1 2 11 1 : 02 0200 0b00 0c 0700 0c 0a00 00", "scalar 12 string 12 0")
    add("e 2 1 2 11 1 : 02 0200 0b00 0c 0700 0c 0900 00", "refused 6")
    # A container may begin among later entries and hold its parent's bytes again.
    add("e 2 1 3 13 0 : 02 0300 0d00 02 0700 00 0004 00 0000", "container 2 8 0 4")
    add("e 2 1 3 13 0 : 02 0300 0d00 02 0700 00 0006 00 0000", "container 2 8 0 6")
    add("e 2 1 3 13 0 : 02 0300 0d00 02 0700 00 0007 00 0000", "refused 4")
    add("e 2 1 3 13 0 : 02 0300 0d00 02 0900 04 0000 04 0000", "refused 4")
    add("e 2 1 3 13 0 : 02 0300 0d00 02 0a00 04 0000 04 0000", "refused 3")
    add("w 9 : 02 0300 0d00 02 0700 00 0004 00 0000",
        "2 / 2 0 0 0 0 1 13 3 0 / 2 1 0 0 0 8 4 0 0 refused 6 at 8")
    # Two elements at one place: its bytes are listed twice.
    add("w 9 : 02 0200 0c00 0c 0a00 0c 0a00 01 61",
        "3 / 2 0 0 0 0 1 12 2 0 / 12 1 0 0 0 12 1 0 0 / 12 1 1 0 0 12 1 0 0")
    # Iteration: a faulty item and then the next.
    add("ie 2 1 2 10 : 02 0200 0a00 0d 0000 04 0100", "refused 2 ; scalar 4 true ; nothing")
    add("ie 2 1 2 10 : 02 0200 0a00 04 0100 04 0300", "scalar 4 true ; refused 7 ; nothing")
    add("w 9 : 02 0200 0a00 0d 0000 04 0100", "1 / 2 0 0 0 0 1 10 2 0 refused 2 at 5")
    add("w 9 : 02 0200 0a00 04 0100 04 0300",
        "2 / 2 0 0 0 0 1 10 2 0 / 4 1 0 0 0 6 1 0 0 refused 7 at 8")
    for count in (1023, 1024, 1025, 1026):
        size = 4 + 3 * count
        document = "02" + count.to_bytes(2, "little").hex() + size.to_bytes(2, "little").hex()
        document += "040000" * count
        items = ["scalar 4 null"] * min(count, 1024)
        add("ie 2 1 %d %d %s" % (count, size, document),
            " ; ".join(items + ["more" if count > 1024 else "nothing"]))
    count, size = 1025, 4 + 3 * 1025
    document = "02" + count.to_bytes(2, "little").hex() + size.to_bytes(2, "little").hex()
    add("ie 2 1 %d %d %s" % (count, size, document + "0d0000" * count),
        " ; ".join(["refused 2"] * 1024 + ["more"]))
    size = 4 + 7 * 1025
    document = "00" + count.to_bytes(2, "little").hex() + size.to_bytes(2, "little").hex()
    document += (size.to_bytes(2, "little").hex() + "0000") * count + "040000" * count
    add("ik 0 1 %d %d %s" % (count, size, document),
        " ; ".join(["key %d 0" % (1 + size)] * 1024 + ["more"]))

    # Room 0, 1, 2; room is the last thing asked at a path.
    add("w 0 -", "0 refused 12 at 0")
    add("w 0 0401", "0 refused 12 at 0")
    add("w 0 0403", "0 refused 7 at 0")
    add("w 0 0d", "0 refused 2 at 0")
    add("w 0 0c01ff", "0 refused 9 at 2")
    add("w 1 0c01ff", "0 refused 9 at 2")
    add("v 0c01ff", "scalar 12 string 2 1")
    add("w 1 0c0161", "1 / 12 0 0 0 0 2 1 0 0")
    add("w 1 0401", "1 / 4 0 0 0 0 1 1 0 0")
    first = "0202000a0004010005feff"
    add("w 0 " + first, "0 refused 12 at 0")
    add("w 1 " + first, "1 / 2 0 0 0 0 1 10 2 0 refused 12 at 5")
    add("w 3 " + first, "3 / 2 0 0 0 0 1 10 2 0 / 4 1 0 0 0 6 1 0 0 / 5 1 1 0 0 9 2 0 0")
    add("w 1 : 02 0200 0a00 04 0300 04 0100", "1 / 2 0 0 0 0 1 10 2 0 refused 7 at 5")
    add("w 1 " + one_element(12, 7, "01ff"), "1 / 2 0 0 0 0 1 9 1 0 refused 9 at 9")
    add("w 1820 " + nested_arrays(1).hex(), nested_answer(1))
    add("w 1820 " + nested_arrays(99).hex(), nested_answer(99))
    add("w 1820 " + nested_arrays(102).hex(), nested_answer(102))
    add("w 101 " + nested_arrays(101).hex(), nested_answer(101))
    add("w 101 " + nested_arrays(100).hex(), nested_answer(100))
    hundred = nested_answer(100).split(" / ")
    add("w 100 " + nested_arrays(100).hex(),
        " / ".join(["100"] + hundred[1:-1]) + " refused 12 at 698")
    # An empty array at depth 100 is read, at 101 refused.
    for outer in (100, 101):
        body = bytes.fromhex("00000400")
        for _ in range(outer):
            body = b"\x01\x00" + (len(body) + 7).to_bytes(2, "little") + b"\x02\x07\x00" + body
        said = ["2 %d 0 0 0 %d %d %d %d" % (depth, 1 + 7 * depth, 4 + 7 * (outer - depth), depth < outer, max(depth, 1) - 1)
                for depth in range(101)]
        line = " / ".join(["101"] + said)
        add("w 1820 02" + body.hex(), line if outer == 100 else line + " refused 11 at 705")
    # At depth 101 inside an object: 11 at the value entry, before the bad key.
    body = bytes.fromhex("01000b00" "00000900" "0d0000")
    for level in range(100):
        code = b"\x00" if level == 0 else b"\x02"
        body = b"\x01\x00" + (len(body) + 7).to_bytes(2, "little") + code + b"\x07\x00" + body
    said = ["%d %d 0 0 0 %d %d 1 %d" % (0 if depth == 100 else 2, depth, 1 + 7 * depth, len(body) - 7 * depth, max(depth, 1) - 1)
            for depth in range(101)]
    add("w 1820 02" + body.hex(), " / ".join(["101"] + said) + " refused 11 at 709")

    # Request W6: the container's index, where it is not the root's. Two arrays in an array, of two elements and of one.
    arrays = "02 0200 1b00 02 0a00 02 1400 0200 0a00 04 0000 04 0100 0100 0700 04 0200"
    four = " / 2 0 0 0 0 1 27 2 0 / 2 1 0 0 0 11 10 2 0 / 4 2 0 0 0 16 1 0 1 / 4 2 1 0 0 19 1 0 1"
    five = four + " / 2 1 1 0 0 21 7 1 0"
    add("w 9 : " + arrays, "6" + five + " / 4 2 0 0 0 26 1 0 4")
    # What was listed before a refusal keeps its containers: a bad literal, a bad type, no room.
    add("w 9 : " + arrays[:-4] + "0300", "5" + five + " refused 7 at 25")
    add("w 9 : " + arrays.replace("02 1400", "0d 1400"), "4" + four + " refused 2 at 8")
    add("w 5 : " + arrays, "5" + five + " refused 12 at 25")
    add("w 4 : " + arrays, "4" + four + " refused 12 at 8")
    # After a member that is an array its sibling's container is the object again.
    sibling = "00 0200 1e00 1200 0100 1300 0100 02 1400 04 0100 61 62 0200 0a00 04 0000 04 0000"
    four = " / 0 0 0 0 0 1 30 2 0 / 2 1 0 19 1 21 10 2 0 / 4 2 0 0 0 26 1 0 1 / 4 2 1 0 0 29 1 0 1"
    add("w 9 : " + sibling, "5" + four + " / 4 1 1 20 1 17 1 0 0")
    add("w 9 : " + sibling.replace("04 0100 61", "04 0300 61"), "4" + four + " refused 7 at 16")
    # An empty array contains nothing, so that what follows it has another container.
    add("w 9 : 02 0200 1c00 02 0a00 02 0e00 0000 0400 0100 0e00 02 0700 0100 0700 04 0100",
        "5 / 2 0 0 0 0 1 28 2 0 / 2 1 0 0 0 11 4 0 0 / 2 1 1 0 0 15 14 1 0 / 2 2 0 0 0 22 7 1 2 / 4 3 0 0 0 27 1 0 3")
    # Two elements at one place: the array there is listed twice, and each listing has its own element.
    add("w 9 : 02 0200 1100 02 0a00 02 0a00 0100 0700 04 0100",
        "5 / 2 0 0 0 0 1 17 2 0 / 2 1 0 0 0 11 7 1 0 / 4 2 0 0 0 16 1 0 1 / 2 1 1 0 0 11 7 1 0 / 4 2 0 0 0 16 1 0 3")
    # As many events as a request may have room for, and one more.
    for count in (1819, 1820):
        document = "02" + count.to_bytes(2, "little").hex() + (4 + 3 * count).to_bytes(2, "little").hex() + "040000" * count
        said = ["2 0 0 0 0 1 %d %d 0" % (4 + 3 * count, count)] + ["4 1 %d 0 0 %d 1 0 0" % (at, 6 + 3 * at) for at in range(1819)]
        line = " / ".join(["1820"] + said)
        add("w 1820 " + document, line if count == 1819 else line + " refused 12 at %d" % (5 + 3 * 1819))

    # The UTF-8 test.
    for good in ("", "00", "7f", "c280", "dfbf", "e0a080", "ed9fbf", "ee8080", "efbfbf", "f0908080", "f48fbfbf"):
        add("u " + (good or "-"), "utf8")
    for bad, place in (("80", 0), ("bf", 0), ("c0", 0), ("c080", 0), ("c1bf", 0), ("c2", 1), ("c241", 1), ("e09fbf", 1), ("e0a0", 2), ("eda080", 1),
                       ("edbfbf", 1), ("f08fbfbf", 1), ("f4908080", 1), ("f5808080", 0), ("f8", 0), ("fe", 0), ("ff", 0), ("f09080", 3),
                       ("c2c280", 1), ("e28281ff", 3), ("f0908041", 3), ("61c3", 2), ("61c322", 2), ("c3abff", 2)):
        add("u " + bad, "bad %d" % place)
    # A character that a string cuts breaks at the string's end, whether the document ends there or the missing byte follows.
    add("w 1 0c02e282", "0 refused 9 at 4")
    add("w 1 0c02e282ac", "0 refused 9 at 4")
    add("w 1 0c03e28241", "0 refused 9 at 4")
    add("w 1 0c03e282ac", "1 / 12 0 0 0 0 2 3 0 0")

    # Sizes.
    for precision, scale, size in ((0, 0, 0), (65, 30, 30), (65, 0, 29), (30, 30, 14), (18, 9, 8), (10, 1, 5)):
        add("s %d %d" % (precision, scale), "%d" % size)
    for precision, scale in ((66, 0), (65, 31), (5, 6), (0, 1), (31, 31), (4294967295, 0), (1, 4294967295)):
        add("s %d %d" % (precision, scale), "refused 20")
        add("r %d %d 1 -" % (precision, scale), "refused 20")
    add("s 4294967296 0", "what")

    # Binary decimals: zeros, bad groups, order of refusals.
    add("r 0 0 0 -", "1 0 + 0 80")
    add("r 0 0 0 7f", "1 0 + 0 80")
    add("p 1 0000", "1 0 + 0 80")
    add("p 0 0000ff", "1 0 + 0 80")
    add("r 1 0 1 -", "refused 21")
    add("r 1 0 1 80", "1 0 + 0 80")
    add("r 1 0 0 80", "1 0 + 0 80")
    add("r 1 0 1 7f", "1 0 + 0 80")
    add("r 1 0 0 7f", "1 0 + 0 80")
    add("r 1 0 1 89", "1 0 + 9 89")
    add("r 1 0 1 8a", "refused 22")
    add("r 1 0 1 76", "1 0 - -9 76")
    add("r 1 0 1 75", "refused 22")
    add("r 1 0 1 8977", "1 0 + 9 89")
    add("r 2 1 0 7fff", "0 1 + 0.0 80")
    add("r 2 1 1 7fff", "1 1 + 0.0 8000")
    add("r 2 1 0 8000", "0 1 + 0.0 80")
    add("r 1 1 1 85", "0 1 + 0.5 85")
    add("r 1 1 1 8a", "refused 22")
    add("r 1 1 0 7f", "0 1 + 0.0 80")
    add("r 10 0 0 800000000c", "9 0 + 12 8000000c")
    add("r 10 0 1 800000000c", "10 0 + 0000000012 800000000c")
    add("r 10 0 0 8000000000", "1 0 + 0 80")
    add("r 10 0 0 7fffffffff", "1 0 + 0 80")
    add("r 10 0 1 7fffffffff", "10 0 + 0000000000 8000000000")
    add("r 10 0 1 813b9aca00", "refused 22")
    add("r 10 0 1 813b9ac9ff", "10 0 + 1999999999 813b9ac9ff")
    add("r 10 0 1 8a3b9aca00", "refused 22")
    add("r 9 0 1 bb9ac9ff", "9 0 + 999999999 bb9ac9ff")
    add("r 9 0 1 bb9aca00", "refused 22")
    add("r 9 9 1 bb9ac9ff", "0 9 + 0.999999999 bb9ac9ff")
    add("r 10 10 1 8000000105", "0 10 + 0.0000000015 8000000105")
    add("r 10 10 1 800000010a", "refused 22")
    add("r 9 0 0 8000000c", "9 0 + 12 8000000c")
    add("p 1 -", "refused 21")
    add("p 1 04", "refused 21")
    add("p 1 42", "refused 21")
    add("p 1 0405", "refused 20")
    add("p 1 4200", "refused 20")
    add("p 1 ffff", "refused 20")
    add("p 1 0402", "refused 21")
    add("p 1 0402e4", "refused 21")
    add("p 1 04028c22ffff", "2 2 + 12.34 8c22")
    add("p 1 0402e422", "refused 22")
    add("p 1 04028c64", "refused 22")

    # Request W2: a zero read from bytes is positive, kept (first answer) or not (second).
    zeros = "0" * 30
    for precision, scale, size, kept, short in (
            (1, 0, 1, "1 0 + 0 80", "1 0 + 0 80"), (1, 1, 1, "0 1 + 0.0 80", "0 1 + 0.0 80"),
            (2, 0, 1, "2 0 + 0 80", "1 0 + 0 80"), (2, 1, 2, "1 1 + 0.0 8000", "0 1 + 0.0 80"),
            (2, 2, 1, "0 2 + 0.00 80", "0 2 + 0.00 80"), (4, 2, 2, "2 2 + 0.00 8000", "0 2 + 0.00 80"),
            (9, 0, 4, "9 0 + 0 80000000", "1 0 + 0 80"),
            (9, 9, 4, "0 9 + 0.000000000 80000000", "0 9 + 0.000000000 80000000"),
            (10, 0, 5, "10 0 + 0000000000 8000000000", "1 0 + 0 80"),
            (10, 1, 5, "9 1 + 0.0 8000000000", "0 1 + 0.0 80"),
            (10, 10, 5, "0 10 + 0.0000000000 8000000000", "0 10 + 0.0000000000 8000000000"),
            (18, 9, 8, "9 9 + 0.000000000 8000000000000000", "0 9 + 0.000000000 80000000"),
            (20, 5, 10, "15 5 + 0000000000.00000 80000000000000000000", "0 5 + 0.00000 800000"),
            (30, 30, 14, "0 30 + 0." + zeros + " 80" + "00" * 13, "0 30 + 0." + zeros + " 80" + "00" * 13),
            (65, 0, 29, "65 0 + 0" + "0" * 63 + " 80" + "00" * 28, "1 0 + 0 80"),
            (65, 1, 30, "64 1 + 0" + "0" * 63 + ".0 80" + "00" * 29, "0 1 + 0.0 80"),
            (65, 30, 30, "35 30 + 0" + "0" * 27 + "." + zeros + " 80" + "00" * 29, "0 30 + 0." + zeros + " 80" + "00" * 13)):
        for data in ("80" + "00" * (size - 1), "7f" + "ff" * (size - 1)):
            for keep, expected in ((1, kept), (0, short)):
                add("r %d %d %d %s" % (precision, scale, keep, data), expected)
                add("p %d %02x%02x%s" % (keep, precision, scale, data), expected)
                add("p %d %02x%02x%s01" % (keep, precision, scale, data), expected)
                add("o %d 0ff6%02x%02x%02x%s" % (keep, 2 + size, precision, scale, data), expected)
                add("r %d %d %d %s" % (precision, scale, keep, data[:-2] or "-"), "refused 21")
            add("c %02x%02x%s 010080" % (precision, scale, data), "equal")
            add("c 02017fff %02x%02x%s" % (precision, scale, data), "equal")
            add("c %02x%02x%s 01007e" % (precision, scale, data), "greater")
            add("c %02x%02x%s 010081" % (precision, scale, data), "less")
    # A negative value that is near zero, but not zero, stays negative.
    for precision, scale, data, kept, short in (
            (1, 0, "7e", "1 0 - -1 7e", "1 0 - -1 7e"), (1, 1, "7e", "0 1 - -0.1 7e", "0 1 - -0.1 7e"),
            (2, 0, "7e", "2 0 - -1 7e", "2 0 - -1 7e"), (2, 1, "7ffe", "1 1 - -0.1 7ffe", "0 1 - -0.1 7e"),
            (2, 1, "7eff", "1 1 - -1.0 7eff", "1 1 - -1.0 7eff"), (2, 2, "7e", "0 2 - -0.01 7e", "0 2 - -0.01 7e"),
            (10, 0, "7ffffffffe", "10 0 - -0000000001 7ffffffffe", "9 0 - -1 7ffffffe"),
            (10, 0, "7effffffff", "10 0 - -1000000000 7effffffff", "10 0 - -1000000000 7effffffff"),
            (10, 10, "7ffffffffe", "0 10 - -0.0000000001 7ffffffffe", "0 10 - -0.0000000001 7ffffffffe"),
            (20, 5, "7f" + "ff" * 8 + "fe", "15 5 - -0000000000.00001 7f" + "ff" * 8 + "fe", "0 5 - -0.00001 7ffffe"),
            (20, 5, "7ffffffffffffeffffff", "15 5 - -0000000001.00000 7ffffffffffffeffffff", "9 5 - -1.00000 7ffffffeffffff"),
            (65, 1, "7f" + "ff" * 28 + "fe", "64 1 - -0" + "0" * 63 + ".1 7f" + "ff" * 28 + "fe", "0 1 - -0.1 7e"),
            (30, 30, "7f" + "ff" * 12 + "fe", "0 30 - -0." + "0" * 29 + "1 7f" + "ff" * 12 + "fe",
             "0 30 - -0." + "0" * 29 + "1 7f" + "ff" * 12 + "fe")):
        for keep, expected in ((1, kept), (0, short)):
            add("r %d %d %d %s" % (precision, scale, keep, data), expected)
            add("p %d %02x%02x%s" % (keep, precision, scale, data), expected)
            add("o %d 0ff6%02x%02x%02x%s" % (keep, 2 + len(data) // 2, precision, scale, data), expected)
        add("c %02x%02x%s 01007f" % (precision, scale, data), "less")
        add("c 01007f %02x%02x%s" % (precision, scale, data), "greater")
    # Zeros beside a group out of range are no zero: the group is refused.
    add("r 2 1 1 7ff5", "refused 22")
    add("r 2 1 0 75ff", "refused 22")
    add("c 01007f 02017ff5", "refused 22")
    add("r 0 0 1 7f", "1 0 + 0 80")

    # Text.
    for words, expected in (
            ("+5", "1 0 + 5 85"), ("-5", "1 0 - -5 7a"), ("5.", "1 0 + 5 85"), ("+.5", "0 1 + 0.5 85"),
            ("-.5", "0 1 - -0.5 7a"), ("0", "1 0 + 0 80"), ("00", "1 0 + 0 80"), ("-0", "1 0 + 0 80"),
            ("-00", "2 0 + 0 80"), ("+00", "2 0 + 0 80"), ("-0.00", "1 2 + 0.00 8000"), ("05", "2 0 + 5 85"),
            ("0007.50", "2 2 + 7.50 8732"), ("00.5", "1 1 + 0.5 8005"), (".0", "0 1 + 0.0 80"),
            ("00.", "1 0 + 0 80"), ("-007", "3 0 - -7 7ff8"), ("0" * 66 + "1", "2 0 + 1 81"),
            ("1234567890", "10 0 + 1234567890 810dfb38d2"), ("-0.0000000015", "1 10 - -0.0000000015 7ffffffffefa"),
            ("9" * 65, "65 0 + " + "9" * 65 + " e3" + "3b9ac9ff" * 7), ("-" + "9" * 65, "65 0 - -" + "9" * 65 + " 1c" + "c4653600" * 7),
            ("0000000000" * 6 + "00000", "1 0 + 0 80"),
            ("+" + "0" * 65, "65 0 + 0" + "0" * 63 + " 80" + "00000000" * 7)):
        add(text(words), expected)
    for words in ("", "-", "+", "-.", "+.", "..", "1..2", "1.2.", ".1.", "+-5", "--5", "5-", "5+", "1e5", " 5", "5 ",
                  "5\n", "00-5", "0-5", "00+", "0x1", "1,5", "\xb2", "9" * 66 + "x", "9" * 66 + "-", "." + "1" * 31 + "."):
        add(text(words), "refused 23")
    for words in ("9" * 66, "0" + "9" * 65, "00" + "9" * 65, "-" + "0" * 66, "+" + "0" * 66, "0." + "0" * 31, "." + "1" * 31,
                  "9" * 36 + "." + "9" * 30, "9" * 65 + ".0", "9" * 66 + ".", "1" * 100):
        add(text(words), "refused 24")
    for before, after in ((35, 30), (36, 29), (64, 1), (55, 10), (1, 30), (0, 30), (65, 0)):
        shown = "9" * before + ("." + "9" * after if after else "")
        request = text(shown)
        answer = decimal_answer(before, after, False, "9" * (before + after))
        add(request, answer)

    # Records: room, and each way of being ill formed.
    def record(intg, frac, sign, *groups):
        return "%d %d %d " % (intg, frac, sign) + " ".join("%d" % group for group in groups + (0,) * (9 - len(groups)))
    bad = "refused 26 ; refused 26 ; refused 26 ; kept"
    for room, expected in ((0, "2 ; refused 25 ; refused 25 ; kept"), (1, "2 ; refused 25 ; refused 25 ; kept"),
                           (2, "2 ; 73dd ; refused 25 ; kept"), (5, "2 ; 73dd ; refused 25 ; kept"),
                           (6, "2 ; 73dd ; -12.34 ; kept"), (128, "2 ; 73dd ; -12.34 ; kept"), (129, "what")):
        add("x " + record(2, 2, 1, 12, 340000000) + " %d" % room, expected)
    add("x " + record(0, 1, 0, 500000000) + " 3", "1 ; 85 ; 0.5 ; kept")
    add("x " + record(1, 0, 1, 0) + " 2", bad)
    # Request W2: a sign on zero is ill formed, whatever the room and the digits; without
    # the sign the record is good, and so is the sign where one group is not zero.
    for intg, frac in ((1, 0), (2, 0), (9, 0), (10, 0), (65, 0), (0, 1), (0, 9), (0, 10), (0, 30), (1, 1), (2, 2), (9, 9),
                       (15, 5), (35, 30), (64, 1)):
        for room in (0, 1, 2, 6, 128):
            add("x " + record(intg, frac, 1) + " %d" % room, bad)
    add("x " + record(1, 0, 0) + " 0", "1 ; refused 25 ; refused 25 ; kept")
    add("x " + record(1, 0, 0) + " 1", "1 ; 80 ; 0 ; kept")
    add("x " + record(0, 1, 0) + " 2", "1 ; 80 ; refused 25 ; kept")
    add("x " + record(0, 1, 0) + " 3", "1 ; 80 ; 0.0 ; kept")
    add("x " + record(2, 2, 0) + " 4", "2 ; 8000 ; 0.00 ; kept")
    add("x " + record(15, 5, 0) + " 128", "10 ; 80000000000000000000 ; 0000000000.00000 ; kept")
    add("x " + record(1, 1, 1, 0, 100000000) + " 0", "2 ; refused 25 ; refused 25 ; kept")
    add("x " + record(1, 1, 1, 0, 100000000) + " 3", "2 ; 7ffe ; refused 25 ; kept")
    add("x " + record(1, 1, 1, 0, 100000000) + " 4", "2 ; 7ffe ; -0.1 ; kept")
    add("x " + record(0, 10, 1, 0, 100000000) + " 128", "5 ; 7ffffffffe ; -0.0000000001 ; kept")
    add("x " + record(15, 5, 1, 0, 1) + " 128", "10 ; 7ffffffffffffeffffff ; -0000000001.00000 ; kept")
    add("x " + record(64, 1, 1, *([0] * 8 + [100000000])) + " 128",
        "30 ; 7f" + "ff" * 28 + "fe ; -0" + "0" * 63 + ".1 ; kept")
    add("x " + record(64, 1, 0, 9, *([999999999] * 7 + [900000000])) + " 128",
        "30 ; 89" + "3b9ac9ff" * 7 + "09 ; " + "9" * 64 + ".9 ; kept")
    for groups in ((0, 0, 0), (66, 0, 0), (36, 30, 0), (34, 31, 0), (0, 31, 0), (4294967295, 1, 0), (1, 4294967295, 0),
                   (0, 1, 0, 5), (0, 1, 0, 1000000000), (0, 1, 0, 500000001), (1, 0, 0, 10), (2, 0, 0, 100),
                   (9, 0, 0, 1000000000), (10, 0, 0, 1, 1000000000), (10, 0, 0, 10, 1), (1, 0, 0, 5, 1),
                   (1, 0, 0, 5, 0, 0, 0, 0, 0, 0, 0, 1), (1, 9, 0, 1, 1000000000), (1, 10, 0, 1, 1, 10),
                   (1, 10, 0, 1, 1, 1000000000), (0, 9, 0, 4294967295),
                   # A sign on zero alone; then with no digit, too many, and zero only in the groups used.
                   (1, 0, 1), (0, 1, 1), (2, 2, 1), (15, 5, 1), (64, 1, 1),
                   (0, 0, 1), (66, 0, 1), (36, 30, 1), (0, 31, 1), (4294967295, 1, 1), (1, 4294967295, 1),
                   (1, 0, 1, 0, 1), (0, 1, 1, 5), (1, 0, 1, 0, 0, 0, 0, 0, 0, 0, 0, 1)):
        add("x " + record(*groups) + " 128", bad)
        add("x " + record(*groups) + " 0", bad)
        add("y " + record(*groups) + " " + record(1, 0, 0, 1), "refused 26")
        add("y " + record(1, 0, 0, 1) + " " + record(*groups), "refused 26")
        add("y " + record(*groups) + " " + record(1, 0, 1), "refused 26")
        add("y " + record(1, 0, 1) + " " + record(*groups), "refused 26")
    for first, second, expected in (
            ((1, 0, 0, 1), (1, 1, 0, 1, 0), "equal"), ((1, 0, 1, 0), (1, 0, 0, 0), "refused 26"),
            ((1, 0, 0, 0), (1, 0, 1, 0), "refused 26"), ((0, 1, 1), (0, 1, 1), "refused 26"),
            ((1, 0, 1, 0), (10, 5, 0, 0, 0, 0), "refused 26"), ((1, 0, 1, 1), (1, 0, 0, 0), "less"),
            ((1, 0, 1, 1), (10, 5, 1), "refused 26"), ((1, 0, 0, 0), (1, 0, 0, 0), "equal"),
            ((1, 0, 0, 0), (10, 5, 0), "equal"), ((0, 30, 0), (65, 0, 0), "equal"),
            ((1, 1, 1, 0, 100000000), (1, 0, 0, 0), "less"), ((0, 1, 0), (0, 10, 1, 0, 100000000), "greater"),
            ((1, 0, 0, 9), (3, 0, 0, 100), "less"), ((1, 0, 1, 9), (3, 0, 1, 100), "greater"),
            ((0, 1, 0, 500000000), (0, 2, 0, 490000000), "greater"), ((10, 0, 0, 0, 9), (1, 0, 0, 9), "equal"),
            ((0, 10, 0, 0, 100000000), (0, 9, 0, 1), "less"), ((0, 10, 1, 0, 100000000), (0, 9, 1, 1), "greater"),
            ((0, 10, 0, 1, 0), (0, 9, 0, 1), "equal"), ((1, 0, 0, 1), (0, 30, 0, 999999999, 999999999, 999999999, 999000000), "greater")):
        add("y " + record(*first) + " " + record(*second), expected)
    add("c - 01", "refused 21")
    add("c 010089 -", "refused 21")
    add("c 0200e4 4200", "refused 22")
    add("c 4200 0200e4", "refused 20")
    add("c 0000 010080", "equal")
    add("c 01007f 010080", "equal")
    add("c 0000 01007f", "equal")
    add("c 010089 01008a", "refused 22")
    add("c 03008064 010089", "greater")

    # The root as a decimal.
    add("o 1 0ff604040273dd", "2 2 - -12.34 73dd")
    add("o 1 0ff60402007f", "refused 3")
    add("o 1 0ff60302007f", "2 0 + 0 80")
    add("o 0 0ff60302007fff", "1 0 + 0 80")
    add("o 1 0ff603040273dd", "refused 21")
    add("o 1 0ff600", "refused 21")
    add("o 1 0ff6024200", "refused 20")
    add("o 1 0ff6030200e4", "refused 22")
    add("o 1 0f000302007f", "other")
    add("o 1 0401", "other")
    add("o 1 0c00", "other")
    add("o 1 0200000400", "other")
    add("o 1 -", "other")
    add("o 1 0d", "refused 2")
    add("o 1 0f15", "refused 10")

    # No requests.
    for line in ("", " ", "v", "v ", "v 0", "v 0g", "v  00", "V 00", "v 00 ", " v 00", "v\t00", "v 00\r", "v --", "v -00", "v 00 00",
                 "e 4 1 0 4 0 0200000400", "n 4 1 0 4 0200000400", "n 2 -1 0 4 0200000400", "n 2 +1 0 4 0200000400",
                 "n 2 4294967296 0 4 0200000400", "n 2 1 4294967296 4 0200000400", "n 2 1 0 4294967296 0200000400",
                 "e 2 1 0 4 4294967296 0200000400", "n 2 1 0 0200000400", "n 2 1 0 4", "w 1821 -", "w 2048 -", "w -1 -", "w x -",
                 "r 2 0 2 e3", "r 2 0 e3", "p 2 040273dd", "o 2 -", "z", "i", "in 2 1 0 4 0200000400", "c 00", "s 1", "s 1 0 0",
                 "x 1 0 2 1 0 0 0 0 0 0 0 0 9", "x 1 0 0 1 0 0 0 0 0 0 0 9", "x 1 0 0 4294967296 0 0 0 0 0 0 0 0 9",
                 "y 1 0 0 1 0 0 0 0 0 0 0 0", "u", "u x", "t", "t 5"):
        add(line, "what")
    add("n 02 01 00 0000000000004 0200000400", "0")
    add("v 0C01aF", "scalar 12 string 2 1")
    return cases


def line_edges():
    """Lines at the length limit, a last line with no end, and what follows a long line."""
    longest = b"w 10 0401" + b"00" * 32763
    cases = (
        (longest + b"\n", ["1 / 4 0 0 0 0 1 1 0 0"]),
        (longest + b"0\nv 0401\n", ["long", "scalar 4 true"]),
        (b"x" * 65535 + b"\nv -\n", ["what", "scalar 4 null"]),
        (b"x" * 65536 + b"\nv -\n", ["long", "scalar 4 null"]),
        (b"x" * 65537 + b"\nv -\n", ["long", "scalar 4 null"]),
        (b"x" * 400000 + b"\nv -\n", ["long", "scalar 4 null"]),
        (b"x" * 65536, ["what"]),
        (b"x" * 65537, ["long"]),
        (b"v 0401", ["scalar 4 true"]),
        (b"v 0401\n\nv 0400", ["scalar 4 true", "what", "scalar 4 null"]),
        (b"", []),
        (b"\n", ["what"]),
        (b"v \xff\n\x00\n", ["what", "what"]),
    )
    good = 0
    for data, expected in cases:
        if ask_raw(data) == expected:
            good += 1
        else:
            print("DIFFERS line edges", len(data), data[:40], expected)
    print("lines at the limit: %d of %d agree" % (good, len(cases)))
    return good == len(cases)


def document_limit():
    """Refusal 1 cannot be asked by a line; it is asked directly."""
    limit = 16777216
    answers = []
    for length in (limit, limit + 1):
        document = b"\x04\x01" + bytes(length - 2)
        events, refusal = reader.walk(document, 0)
        answers.append(refusal)
        try:
            answers.append(reader.root_value(document).case)
        except reader.Refused as refused:
            answers.append(refused.number)
        try:
            answers.append(reader.element_count(document, reader.Container(2, 1, 0, 5)))
        except reader.Refused as refused:
            answers.append(refused.number)
    expected = [(12, 0), "true", 13, (1, 0), 1, 1]
    good = sum(one == other for one, other in zip(answers, expected))
    print("refusal 1, asked directly: %d of %d agree" % (good, len(expected)))
    return answers == expected


# The numbers below are worked out by hand from W4: bit 24 is a second, bit 30 a minute, bit 36 an hour, bit 41 a day, bit 46 a month, and 13 months a year.
ZERO = "year 0 month 0 day 0 hour 0 minute 0 second 0 micro 0 +"
TIMES = (
    # one of each field; a time's hours take the rest
    ("d 11", "01 00 00 00 00 00 00 00", "year 0 month 0 day 0 hour 0 minute 0 second 0 micro 1 +"),
    ("d 11", "00 00 00 01 00 00 00 00", "year 0 month 0 day 0 hour 0 minute 0 second 1 micro 0 +"),
    ("d 11", "00 00 00 40 00 00 00 00", "year 0 month 0 day 0 hour 0 minute 1 second 0 micro 0 +"),
    ("d 11", "00 00 00 00 10 00 00 00", "year 0 month 0 day 0 hour 1 minute 0 second 0 micro 0 +"),
    ("d 11", "00 00 00 00 00 02 00 00", "year 0 month 0 day 0 hour 32 minute 0 second 0 micro 0 +"),
    ("d 12", "00 00 00 00 10 00 00 00", "year 0 month 0 day 0 hour 1 minute 0 second 0 micro 0 +"),
    ("d 12", "00 00 00 00 00 02 00 00", "year 0 month 0 day 1 hour 0 minute 0 second 0 micro 0 +"),
    ("d 12", "00 00 00 00 00 40 00 00", "year 0 month 1 day 0 hour 0 minute 0 second 0 micro 0 +"),
    ("d 12", "00 00 00 00 00 40 03 00", "year 1 month 0 day 0 hour 0 minute 0 second 0 micro 0 +"),
    ("d 7", "00 00 00 00 00 40 03 00", "year 1 month 0 day 0 hour 0 minute 0 second 0 micro 0 +"),
    ("d 10", "00 00 00 00 00 40 03 00", "year 1 month 0 day 0 hour 0 minute 0 second 0 micro 0 +"),
    # 2026-11-16: 2026 * 13 + 11 is 26349, and 26349 * 32 + 16 is 0CDDB0; 19:35:43 is 19 * 4096 + 35 * 64 + 43, 0138EB; 500000 is 07A120
    ("d 10", "00 00 00 00 00 60 bb 19", "year 2026 month 11 day 16 hour 0 minute 0 second 0 micro 0 +"),
    ("d 12", "20 a1 07 eb 38 61 bb 19", "year 2026 month 11 day 16 hour 19 minute 35 second 43 micro 500000 +"),
    ("d 7", "20 a1 07 eb 38 61 bb 19", "year 2026 month 11 day 16 hour 19 minute 35 second 43 micro 500000 +"),
    # zero, and the greatest of each type: 129999 * 32 + 31 is 3F79FF, 23:59:59 017EFB, 838:59:59 346EFB, 999999 0F423F
    ("d 7", "00 00 00 00 00 00 00 00", ZERO),
    ("d 10", "00 00 00 00 00 00 00 00", ZERO),
    ("d 11", "00 00 00 00 00 00 00 00", ZERO),
    ("d 12", "00 00 00 00 00 00 00 00", ZERO),
    ("d 7", "3f 42 0f fb 7e ff f3 7e", "year 9999 month 12 day 31 hour 23 minute 59 second 59 micro 999999 +"),
    ("d 12", "3f 42 0f fb 7e ff f3 7e", "year 9999 month 12 day 31 hour 23 minute 59 second 59 micro 999999 +"),
    ("d 10", "00 00 00 00 00 fe f3 7e", "year 9999 month 12 day 31 hour 0 minute 0 second 0 micro 0 +"),
    ("d 11", "3f 42 0f fb 6e 34 00 00", "year 0 month 0 day 0 hour 838 minute 59 second 59 micro 999999 +"),
    # day 31 in any month, a month without a day, a day without a month
    ("d 10", "00 00 00 00 00 be 00 00", "year 0 month 2 day 31 hour 0 minute 0 second 0 micro 0 +"),
    # the sign is the number's: the magnitude has the fields
    ("d 11", "ff ff ff ff ff ff ff ff", "year 0 month 0 day 0 hour 0 minute 0 second 0 micro 1 -"),
    ("d 11", "00 00 00 00 f0 ff ff ff", "year 0 month 0 day 0 hour 1 minute 0 second 0 micro 0 -"),
    ("d 11", "00 00 00 ff ef ff ff ff", "year 0 month 0 day 0 hour 1 minute 0 second 1 micro 0 -"),
    ("d 11", "c1 bd f0 04 91 cb ff ff", "year 0 month 0 day 0 hour 838 minute 59 second 59 micro 999999 -"),
    # a field out of range, alone
    ("d 11", "40 42 0f 00 00 00 00 00", "refused 30"),
    ("d 11", "ff ff ff 00 00 00 00 00", "refused 30"),
    ("d 11", "00 00 00 3c 00 00 00 00", "refused 30"),
    ("d 11", "00 00 00 3f 00 00 00 00", "refused 30"),
    ("d 11", "00 00 00 00 0f 00 00 00", "refused 30"),
    ("d 11", "00 00 00 c0 0f 00 00 00", "refused 30"),
    ("d 11", "00 00 00 00 70 34 00 00", "refused 30"),
    ("d 11", "00 00 00 00 f0 3f 00 00", "refused 30"),
    ("d 11", "00 00 00 00 00 40 00 00", "refused 30"),
    ("d 11", "00 00 00 00 90 cb ff ff", "refused 30"),
    ("d 11", "00 00 00 00 00 c0 ff ff", "refused 30"),
    ("d 12", "00 00 00 00 80 01 00 00", "refused 30"),
    ("d 12", "00 00 00 00 f0 01 00 00", "refused 30"),
    ("d 12", "00 00 00 3c 00 00 00 00", "refused 30"),
    ("d 12", "00 00 00 00 0f 00 00 00", "refused 30"),
    ("d 12", "40 42 0f 00 00 00 00 00", "refused 30"),
    ("d 12", "00 00 00 00 00 00 f4 7e", "refused 30"),
    ("d 7", "00 00 00 00 00 00 f4 7e", "refused 30"),
    ("d 10", "00 00 00 00 00 00 f4 7e", "refused 30"),
    # a clock part in a plain date
    ("d 10", "01 00 00 00 00 00 00 00", "refused 30"),
    ("d 10", "00 00 00 01 00 00 00 00", "refused 30"),
    ("d 10", "00 00 00 40 00 00 00 00", "refused 30"),
    ("d 10", "00 00 00 00 10 00 00 00", "refused 30"),
    # a negative date value
    ("d 7", "ff ff ff ff ff ff ff ff", "refused 30"),
    ("d 10", "00 00 00 00 00 fe ff ff", "refused 30"),
    ("d 12", "00 00 00 00 00 fe ff ff", "refused 30"),
    # the least and the greatest number
    ("d 7", "00 00 00 00 00 00 00 80", "refused 30"),
    ("d 10", "00 00 00 00 00 00 00 80", "refused 30"),
    ("d 11", "00 00 00 00 00 00 00 80", "refused 30"),
    ("d 12", "00 00 00 00 00 00 00 80", "refused 30"),
    ("d 7", "ff ff ff ff ff ff ff 7f", "refused 30"),
    ("d 10", "ff ff ff ff ff ff ff 7f", "refused 30"),
    ("d 11", "ff ff ff ff ff ff ff 7f", "refused 30"),
    ("d 12", "ff ff ff ff ff ff ff 7f", "refused 30"),
    # fewer than eight bytes, and more
    ("d 7", "", "refused 31"),
    ("d 10", "00", "refused 31"),
    ("d 11", "00 00 00 00 10 00 00", "refused 31"),
    ("d 12", "ff ff ff ff ff ff ff", "refused 31"),
    ("d 11", "00 00 00 00 10 00 00 00 ff", "year 0 month 0 day 0 hour 1 minute 0 second 0 micro 0 +"),
    ("d 10", "00 00 00 00 00 60 bb 19 00 00 00 00 00 00 00 80", "year 2026 month 11 day 16 hour 0 minute 0 second 0 micro 0 +"),
    # other types, and words that are none
    ("d 6", "00 00 00 00 00 00 00 00", "what"),
    ("d 8", "00 00 00 00 00 00 00 00", "what"),
    ("d 9", "", "what"),
    ("d 13", "00 00 00 00 00 00 00 00", "what"),
    ("d 0", "00", "what"),
    ("d 246", "00", "what"),
    ("d 4294967303", "00", "what"),
    ("d", "00 00 00 00 00 00 00 00", "what"),
    ("d 12 0", "00 00 00 00 00 00 00 00", "what"),
    ("d 012", "", "refused 31"),
    # the root of a document
    ("q", "0f 0b 08 00 00 00 00 10 00 00 00", "year 0 month 0 day 0 hour 1 minute 0 second 0 micro 0 +"),
    ("q", "0f 0a 08 00 00 00 00 00 60 bb 19", "year 2026 month 11 day 16 hour 0 minute 0 second 0 micro 0 +"),
    ("q", "0f 0c 08 20 a1 07 eb 38 61 bb 19", "year 2026 month 11 day 16 hour 19 minute 35 second 43 micro 500000 +"),
    ("q", "0f 07 08 20 a1 07 eb 38 61 bb 19", "year 2026 month 11 day 16 hour 19 minute 35 second 43 micro 500000 +"),
    ("q", "0f 0a 08 20 a1 07 eb 38 61 bb 19", "refused 30"),
    ("q", "0f 0b 88 00 00 00 00 00 10 00 00 00", "year 0 month 0 day 0 hour 1 minute 0 second 0 micro 0 +"),
    ("q", "0f 0b 09 00 00 00 00 10 00 00 00 ff", "year 0 month 0 day 0 hour 1 minute 0 second 0 micro 0 +"),
    ("q", "0f 0b 07 00 00 00 00 10 00 00 00", "refused 31"),
    ("q", "0f 0b 00 00 00 00 00 10 00 00 00", "refused 31"),
    ("q", "0f 0b 08 00 00 00 00 10 00 00", "refused 3"),
    ("q", "0f 0b 08", "refused 3"),
    ("q", "0f 0b", "refused 3"),
    ("q", "0f 0b ff ff ff ff 10", "refused 8"),
    ("q", "0f 15 08 00 00 00 00 10 00 00 00", "refused 10"),
    ("q", "0f 08 08 00 00 00 00 10 00 00 00", "other"),
    ("q", "0f 09 08 00 00 00 00 10 00 00 00", "other"),
    ("q", "0f 0d 08 00 00 00 00 10 00 00 00", "other"),
    ("q", "0f 0e 08 00 00 00 00 10 00 00 00", "other"),
    ("q", "0f 11 08 00 00 00 00 10 00 00 00", "other"),
    ("q", "0f 12 08 00 00 00 00 10 00 00 00", "other"),
    ("q", "0f 13 08 00 00 00 00 10 00 00 00", "other"),
    ("q", "0f 0d 00", "other"),
    ("q", "0f f6 04 04 02 73 dd", "other"),
    ("q", "09 00 00 00 00 10 00 00 00", "other"),
    ("q", "02 01 00 11 00 0f 07 00 0b 08 00 00 00 00 10 00 00 00", "other"),
    ("q", "", "other"),
    ("q", "04 01", "other"),
    ("q", "0d", "refused 2"),
    ("q 11", "00 00 00 00 10 00 00 00", "what"),
)

# Records to write, with their answers: type, year, month, day, hour, minute, second, microseconds, sign, room.
TIME_RECORDS = (
    ("11 0 0 0 1 0 0 0 0 8", "0000000010000000"),
    ("11 0 0 0 1 0 0 0 1 8", "00000000f0ffffff"),
    ("11 0 0 0 0 0 0 1 1 8", "ffffffffffffffff"),
    ("11 0 0 0 838 59 59 999999 0 8", "3f420ffb6e340000"),
    ("11 0 0 0 838 59 59 999999 1 128", "c1bdf00491cbffff"),
    ("10 2026 11 16 0 0 0 0 0 8", "000000000060bb19"),
    ("12 2026 11 16 19 35 43 500000 0 9", "20a107eb3861bb19"),
    ("7 2026 11 16 19 35 43 500000 0 8", "20a107eb3861bb19"),
    ("7 9999 12 31 23 59 59 999999 0 8", "3f420ffb7efff37e"),
    ("12 9999 12 31 23 59 59 999999 0 8", "3f420ffb7efff37e"),
    ("10 9999 12 31 0 0 0 0 0 8", "0000000000fef37e"),
    ("10 0 2 31 0 0 0 0 0 8", "0000000000be0000"),
    ("7 0 0 0 0 0 0 0 0 8", "0000000000000000"),
    ("10 0 0 0 0 0 0 0 0 8", "0000000000000000"),
    ("11 0 0 0 0 0 0 0 0 8", "0000000000000000"),
    ("12 0 0 0 0 0 0 0 0 8", "0000000000000000"),
    # a negative zero, a negative date, a clock part in a plain date, a date part in a time
    ("11 0 0 0 0 0 0 0 1 8", "refused 30"),
    ("7 0 0 0 0 0 0 0 1 8", "refused 30"),
    ("10 2026 11 16 0 0 0 0 1 8", "refused 30"),
    ("12 2026 11 16 19 35 43 0 1 8", "refused 30"),
    ("7 2026 11 16 19 35 43 0 1 8", "refused 30"),
    ("10 2026 11 16 1 0 0 0 0 8", "refused 30"),
    ("10 2026 11 16 0 1 0 0 0 8", "refused 30"),
    ("10 2026 11 16 0 0 1 0 0 8", "refused 30"),
    ("10 2026 11 16 0 0 0 1 0 8", "refused 30"),
    ("11 1 0 0 1 0 0 0 0 8", "refused 30"),
    ("11 0 1 0 1 0 0 0 0 8", "refused 30"),
    ("11 0 0 1 1 0 0 0 0 8", "refused 30"),
    # a field above its greatest
    ("12 10000 0 0 0 0 0 0 0 8", "refused 30"),
    ("12 4294967295 0 0 0 0 0 0 0 8", "refused 30"),
    ("12 0 13 0 0 0 0 0 0 8", "refused 30"),
    ("12 0 0 32 0 0 0 0 0 8", "refused 30"),
    ("12 0 0 0 24 0 0 0 0 8", "refused 30"),
    ("12 0 0 0 0 60 0 0 0 8", "refused 30"),
    ("12 0 0 0 0 0 60 0 0 8", "refused 30"),
    ("12 0 0 0 0 0 0 1000000 0 8", "refused 30"),
    ("11 0 0 0 839 0 0 0 0 8", "refused 30"),
    ("11 0 0 0 4294967295 0 0 0 1 8", "refused 30"),
    ("11 0 0 0 0 60 0 0 0 8", "refused 30"),
    ("11 0 0 0 0 0 60 0 0 8", "refused 30"),
    ("11 0 0 0 0 0 0 1000000 0 8", "refused 30"),
    # fewer than eight bytes come after that
    ("11 0 0 0 1 0 0 0 0 7", "refused 25"),
    ("11 0 0 0 1 0 0 0 0 0", "refused 25"),
    ("11 0 0 0 839 0 0 0 0 7", "refused 30"),
    ("11 0 0 0 0 0 0 0 1 0", "refused 30"),
)
NO_TIME_RECORDS = ("11 0 0 0 1 0 0 0 0 129", "11 0 0 0 1 0 0 0 2 8", "8 0 0 0 1 0 0 0 0 8", "13 0 0 0 1 0 0 0 0 8", "11 0 0 0 1 0 0 0 0", "11 0 0 0 1 0 0 0 0 8 8",
                   "11 4294967296 0 0 1 0 0 0 0 8", "11 0 0 0 -1 0 0 0 0 8", "9 0 0 0 839 0 0 0 0 0")


def times():
    cases = [(head + " " + plain(data), expected) for head, data, expected in TIMES]
    cases += [("z " + record, expected + " ; kept") for record, expected in TIME_RECORDS]
    return cases + [("z " + record, "what") for record in NO_TIME_RECORDS]


# ---------------------------------------------------------------- part 3

def bit_fields(kind):
    """W4's fields from the highest bit on: name, how many bits (None for the rest), the greatest number allowed."""
    clock = [("minute", 6, 0 if kind == 10 else 59), ("second", 6, 0 if kind == 10 else 59), ("micro", 24, 0 if kind == 10 else 999999)]
    if kind == 11:
        return [("hour", None, 838)] + clock
    return [("year and month", None, 9999 * 13 + 12), ("day", 5, 31), ("hour", 5, 0 if kind == 10 else 23)] + clock


def in_bits(kind, values):
    """The magnitude, written down as a string of bits."""
    return int("".join(format(value, "b" if bits is None else "0%db" % bits) for (_, bits, _), value in zip(bit_fields(kind), values)), 2)


def two_s_complement(number):
    return bytes((number % 2 ** 64) >> 8 * at & 255 for at in range(8))


def bit_strings():
    """Random fields of each type, in range and above, of both signs: reading gives them or 30, and writing the bytes back or 30."""
    chance = random.Random(6)
    cases = []
    for number in range(6000):
        kind = (7, 10, 11, 12)[number % 4]
        values, good = [], True
        for _, bits, greatest in bit_fields(kind):
            top = 2 ** bits - 1 if bits else (2 ** 27 - 1 if kind == 11 else 2 ** 17 - 1)
            value = chance.choice((0, greatest, chance.randint(0, greatest), chance.randint(0, greatest)))
            if chance.random() < 0.05:
                value = chance.choice((min(greatest + 1, top), top, chance.randint(0, top)))
            good &= value <= greatest
            values.append(value)
        magnitude = in_bits(kind, values)
        negative = magnitude > 0 and chance.random() < (0.5 if kind == 11 else 0.1)
        good &= kind == 11 or not negative
        data = two_s_complement(-magnitude if negative else magnitude)
        named = dict(zip((name for name, _, _ in bit_fields(kind)), values))
        year, month = divmod(named.get("year and month", 0), 13)
        record = (year, month, named.get("day", 0), named["hour"], named["minute"], named["second"], named["micro"])
        said = "year %d month %d day %d hour %d minute %d second %d micro %d " % record + ("-" if negative else "+")
        cases.append(("d %d %s" % (kind, data.hex()), said if good else "refused 30"))
        cases.append(("q 0f%02x08%s" % (kind, data.hex()), said if good else "refused 30"))
        cases.append(("z %d %d %d %d %d %d %d %d %d 8" % ((kind,) + record + (negative,)), (data.hex() if good else "refused 30") + " ; kept"))
    return cases


def pieces(intg, frac):
    """Ends of the digit groups, cut from a string of intg + frac digits."""
    cuts = list(range(intg, 0, -9))[::-1] if intg else []
    ends = cuts + [min(end, intg + frac) for end in range(intg + 9, intg + frac + 9, 9)]
    return list(zip([0] + ends[:-1], ends))


def encode(intg, frac, negative, digits):
    """Packed digit bytes, made from a string of digits."""
    data = b""
    for start, end in pieces(intg, frac):
        width = {1: 1, 2: 1, 3: 2, 4: 2, 5: 3, 6: 3}.get(end - start, 4)
        data += int(digits[start:end]).to_bytes(width, "big")
    number = int.from_bytes(data, "big")
    if negative:
        number = 256 ** len(data) - 1 - number
    return (number ^ (0x80 << 8 * (len(data) - 1))).to_bytes(len(data), "big")


def show(intg, frac, negative, digits):
    """The print of a string of digits: the zeros of the first integral group alone go."""
    shown = digits[:intg]
    first = intg % 9 or min(intg, 9)
    if intg:
        shown = str(int(shown[:first])) + shown[first:]
    else:
        shown = "0"
    return ("-" if negative else "") + shown + ("." + digits[intg:] if frac else "")


def decimal_answer(intg, frac, negative, digits):
    return "%d %d %s %s %s" % (intg, frac, "-" if negative else "+", show(intg, frac, negative, digits),
                               encode(intg, frac, negative, digits).hex())


def decimal_pairs():
    """All precisions and scales: sizes, digits of several kinds, both signs, kept and not; a sign on zero."""
    chance = random.Random(1)
    cases = []
    for precision in range(0, 70):
        for scale in range(0, 70):
            fine = 1 <= precision <= 65 and scale <= 30 and scale <= precision
            if not fine:
                if (precision, scale) != (0, 0):
                    cases.append(("s %d %d" % (precision, scale), "refused 20"))
                    cases.append(("p 1 %02x%02x" % (precision, scale) + "80" * 40, "refused 20"))
                continue
            intg = precision - scale
            kinds = ["9" * precision, "0" * precision, "0" * (precision - 1) + "1",
                     "".join(chance.choice("0123456789") for _ in range(precision))]
            zeros = chance.randrange(precision + 1)
            kinds.append("0" * zeros + "".join(chance.choice("0123456789") for _ in range(precision - zeros)))
            size = len(encode(intg, scale, False, kinds[0]))
            cases.append(("s %d %d" % (precision, scale), "%d" % size))
            for digits in kinds:
                for sign in (False, True):
                    data = encode(intg, scale, sign, digits)
                    negative = sign and int(digits) != 0
                    cases.append(("r %d %d 1 %s" % (precision, scale, data.hex()),
                                  decimal_answer(intg, scale, negative, digits)))
                    cases.append(("p 1 %02x%02x%s00" % (precision, scale, data.hex()),
                                  decimal_answer(intg, scale, negative, digits)))
                    cases.append(("r %d %d 1 %s" % (precision, scale, hexa(data[:-1])), "refused 21"))
                    left, rest = intg, digits
                    while left and int(rest[:left % 9 or 9]) == 0:
                        width = left % 9 or 9
                        left, rest = left - width, rest[width:]
                    if left + scale == 0:
                        short = "1 0 + 0 80"
                    else:
                        short = decimal_answer(left, scale, negative, rest)
                    cases.append(("r %d %d 0 %s" % (precision, scale, data.hex()), short))
                    words = ("-" if sign else "+") + digits[:intg] + "." + digits[intg:]
                    cases.append((text(words), decimal_answer(intg, scale, negative, digits)))
            zero = "%d %d %%d" % (intg, scale) + " 0" * 9
            said = encode(intg, scale, False, kinds[1]).hex() + " ; " + show(intg, scale, False, kinds[1])
            cases.append(("x " + zero % 0 + " 128", "%d ; %s ; kept" % (size, said)))
            for room in (0, 128):
                cases.append(("x " + zero % 1 + " %d" % room, "refused 26 ; refused 26 ; refused 26 ; kept"))
            cases.append(("y " + zero % 0 + " " + zero % 0, "equal"))
            cases.append(("y " + zero % 0 + " " + zero % 1, "refused 26"))
            cases.append(("y " + zero % 1 + " " + zero % 0, "refused 26"))
            for number, (start, end) in enumerate(pieces(intg, scale)):
                # Each group once at its limit: 10 to the number of its digits.
                if end - start in (1, 2, 3, 4, 5, 6, 7, 8, 9):
                    data = bytearray(encode(intg, scale, False, "0" * precision))
                    at = sum({1: 1, 2: 1, 3: 2, 4: 2, 5: 3, 6: 3}.get(b - a, 4)
                             for a, b in pieces(intg, scale)[:number])
                    width = {1: 1, 2: 1, 3: 2, 4: 2, 5: 3, 6: 3}.get(end - start, 4)
                    over = (10 ** (end - start)).to_bytes(width, "big")
                    for place, byte in enumerate(over):
                        data[at + place] ^= byte
                    cases.append(("r %d %d 1 %s" % (precision, scale, data.hex()), "refused 22"))
                    flipped = bytes(byte ^ 255 for byte in data)
                    cases.append(("r %d %d 0 %s" % (precision, scale, flipped.hex()), "refused 22"))
    return cases


def decimal_comparisons():
    """Comparisons against Python's own decimal numbers."""
    chance = random.Random(2)
    made = []
    for _ in range(1500):
        precision = chance.choice((1, 2, 3, 9, 10, 11, 18, 19, chance.randint(1, 65)))
        scale = chance.randint(0, min(30, precision))
        digits = "".join(chance.choice("0000019") for _ in range(precision))
        negative = chance.random() < 0.5
        value = decimal.Decimal(("-" if negative else "") + (digits[:precision - scale] or "0") + "." + (digits[precision - scale:] or "0"))
        made.append(("%02x%02x" % (precision, scale) + encode(precision - scale, scale, negative, digits).hex(), value))
    cases = []
    for _ in range(6000):
        (one, first), (two, second) = chance.choice(made), chance.choice(made)
        word = "less" if first < second else "greater" if first > second else "equal"
        cases.append(("c %s %s" % (one, two), word))
    return cases


UTF8 = re.compile(
    rb"(?:[\x00-\x7F]|[\xC2-\xDF][\x80-\xBF]|\xE0[\xA0-\xBF][\x80-\xBF]|[\xE1-\xEC][\x80-\xBF]{2}|\xED[\x80-\x9F][\x80-\xBF]"
    rb"|[\xEE-\xEF][\x80-\xBF]{2}|\xF0[\x90-\xBF][\x80-\xBF]{2}|[\xF1-\xF3][\x80-\xBF]{3}|\xF4[\x80-\x8F][\x80-\xBF]{2})*")


def utf8_cases():
    """All of one and two bytes, and three and four from the bytes that matter, by RFC 3629's grammar; the place by Python's decoder."""
    edge = (0x00, 0x7F, 0x80, 0x8F, 0x90, 0x9F, 0xA0, 0xBF, 0xC0, 0xC1, 0xC2, 0xDF, 0xE0, 0xE1, 0xEC, 0xED, 0xEE, 0xEF,
            0xF0, 0xF1, 0xF3, 0xF4, 0xF5, 0xFF)
    texts = [bytes((a,)) for a in range(256)] + [bytes((a, b)) for a in range(256) for b in edge]
    texts += [bytes((a, b, c)) for a in edge for b in edge for c in edge]
    chance = random.Random(3)
    texts += [bytes(chance.choice(edge[18:]) if i == 0 else chance.choice(edge[2:8]) for i in range(4)) for _ in range(8000)]
    return [("u " + hexa(data), "utf8" if UTF8.fullmatch(data) else "bad %d" % decoder_break(data)) for data in texts]


def decoder_break(data):
    """Where the decoder's fault is: at the byte that begins no character, else behind the bytes of one that it took."""
    try:
        data.decode("utf-8", "strict")
    except UnicodeDecodeError as fault:
        return fault.start if fault.reason == "invalid start byte" else fault.end
    return -1


class Encoder:
    """Writes a random value as a document and says which events the walk must give."""

    def __init__(self, chance):
        self.chance = chance

    def scalar(self):
        """Type code, bytes, where the event's value begins in them, its length, extra."""
        code = self.chance.choice((4, 5, 6, 7, 8, 9, 10, 11, 12, 15))
        if code == 4:
            return code, bytes((self.chance.randrange(3),)), 0, 1, 0
        if code < 12:
            width = {5: 2, 6: 2, 7: 4, 8: 4}.get(code, 8)
            return code, self.chance.randbytes(width), 0, width, 0
        data = "".join(self.chance.choice("aé€😀") for _ in range(self.chance.choice((0, 1, 3, 40)))).encode()
        field = bytearray()
        rest = len(data)
        while rest > 127:
            field.append(rest % 128 + 128)
            rest //= 128
        field.append(rest)
        for _ in range(self.chance.choice((0, 0, 0, 1, 5 - len(field)))):
            if len(field) < 5:
                field[-1] |= 128
                field.append(0)
        if code == 12:
            return code, bytes(field) + data, len(field), len(data), 0
        column_type = self.chance.choice((0, 19, 246, 252, 255))
        return code, bytes((column_type,)) + bytes(field) + data, 1 + len(field), len(data), column_type

    def value(self, depth, budget):
        """Type code, bytes, and a function that gives the events once start, key, the event's own index and its container's are known."""
        if budget == 0 or self.chance.random() < 0.4:
            code, data, shift, length, extra = self.scalar()
            return code, data, lambda start, position, key, index, parent: [
                (code, depth, position) + key + (start + shift, length, extra, parent)]
        kind = self.chance.randrange(4)
        width = 4 if kind in (1, 3) else 2
        count = self.chance.choice((0, 1, 2, 3))
        children = [self.value(depth + 1, budget - 1) for _ in range(count)]
        keys = ["".join(self.chance.choice("aé") for _ in range(self.chance.randrange(4))).encode() for _ in range(count)]
        keyed = kind < 2
        header = 2 * width + count * (1 + width) + (count * (width + 2) if keyed else 0)
        tail = b""
        key_entries = b""
        key_places = [(None, 0)] * count
        if keyed:
            for number, key in enumerate(keys):
                key_places[number] = (header + len(tail), len(key))
                key_entries += (header + len(tail)).to_bytes(width, "little") + len(key).to_bytes(2, "little")
                tail += key
        entries = b""
        places = []
        entries_start = header - count * (1 + width)
        for number, (code, data, _) in enumerate(children):
            if code in (4, 5, 6) or (code in (7, 8) and width == 4):
                places.append(entries_start + number * (1 + width) + 1)
                entries += bytes((code,)) + data + b"\xEE" * (width - len(data))
            else:
                places.append(header + len(tail))
                entries += bytes((code,)) + (header + len(tail)).to_bytes(width, "little")
                tail += data
        size = header + len(tail)
        data = count.to_bytes(width, "little") + size.to_bytes(width, "little") + key_entries + entries + tail
        assert len(data) == size

        def events(start, position, key, index, parent):
            said = [(kind, depth, position) + key + (start, size, count, parent)]
            for number, (_, _, child) in enumerate(children):
                offset, length = key_places[number]
                said += child(start + places[number], number, (start + offset, length) if keyed else (0, 0), index + len(said), index)
            return said
        return kind, data, events


def whole_documents():
    """Well formed documents, with their events; and the same with less room."""
    encoder = Encoder(random.Random(4))
    cases = []
    for _ in range(3000):
        code, data, events = encoder.value(0, 4)
        said = events(1, 0, (0, 0), 0, 0)
        if len(data) > 16000 or len(said) > 1820:
            continue
        document = (bytes((code,)) + data + b"\xEE" * encoder.chance.randrange(2)).hex()
        lines = [" ".join("%d" % number for number in event) for event in said]
        cases.append(("w 1820 " + document, " / ".join(["%d" % len(lines)] + lines)))
        cases.append(("w %d " % len(lines) + document, " / ".join(["%d" % len(lines)] + lines)))
        cases.append(("w 0 " + document, "0 refused 12 at 0"))
    return cases


def no_falls():
    """Damaged documents and random lines: each must be answered, whatever the answer is."""
    chance = random.Random(5)
    encoder = Encoder(chance)
    requests = []
    for _ in range(4000):
        code, data, _ = encoder.value(0, 3)
        document = bytearray(bytes((code,)) + data)
        for _ in range(chance.randrange(4)):
            document[chance.randrange(len(document))] = chance.choice((0, 1, 2, 3, 4, 7, 12, 15, 127, 128, 255, chance.randrange(256)))
        document = hexa(bytes(document[:chance.choice((len(document), chance.randrange(len(document) + 1)))]))
        requests += ["w %d %s" % (chance.choice((0, 1, 2, 5, 1820)), document), "v " + document, "o 1 " + document]
        view = "%d %d %d %d" % (chance.randrange(4), chance.randrange(8), chance.randrange(4), chance.randrange(30))
        requests += ["ie %s %s" % (view, document), "im %s %s" % (view, document), "ik %s %s" % (view, document)]
        requests.append("r %d %d %d %s" % (chance.randrange(70), chance.randrange(35), chance.randrange(2), hexa(chance.randbytes(chance.randrange(34)))))
    good = len(ask(requests)) == len(requests)
    print("damaged documents: %d asked, %s" % (len(requests), "each answered" if good else "NOT each answered"))
    return good


def main():
    results = [
        compare("document 01, its examples", examples()),
        length_example(),
        compare("edges, by hand", edges()),
        compare("dates and times, by hand", times()),
        line_edges(),
        document_limit(),
        compare("decimals of all precisions and scales", decimal_pairs()),
        compare("comparisons of decimals", decimal_comparisons()),
        compare("UTF-8 by the grammar", utf8_cases()),
        compare("dates and times as strings of bits", bit_strings()),
        compare("whole documents", whole_documents()),
        no_falls(),
    ]
    print("all agree" if all(results) else "SOME DIFFER")
    return 0 if all(results) else 1


if __name__ == "__main__":
    sys.exit(main())
