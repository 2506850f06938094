#!/usr/bin/env python3
"""record.py SEED COUNT --source SRC [--out FOLDER]: a list of requests with the answers that are right, for replay.

It writes FOLDER/stdin and FOLDER/stdout (FOLDER is crates/answers unless another is named). The values are as the original gives
them; where a rule in rules.py intends another answer they are as the second reader gives them, and so are the numbers and places of
refusals, which the original does not have. A request on which the two disagree, and no rule intends it, is printed and not written;
the exit status is then 1.
"""

import argparse
import collections
import os
import random
import shlex
import sys

HERE = os.path.dirname(os.path.realpath(__file__))
TOP = os.path.dirname(os.path.dirname(HERE))
sys.path.insert(0, HERE)
sys.dont_write_bytecode = True

import differential  # noqa: E402
import documents  # noqa: E402
import programs  # noqa: E402
import requests  # noqa: E402
import rules  # noqa: E402
import time_requests  # noqa: E402
import times  # noqa: E402

NUMBERS = tuple(range(2, 14)) + tuple(range(20, 27)) + (30, 31)
LONG = 500  # characters: a longer request is taken only for what no shorter one showed

PAPER = (
    "w 1820 0202000a0004010005feff", "w 2 0202000a0004010005feff", "w 0 0202000a0004010005feff", "v 0202000a0004010005feff", "ie 2 1 2 10 0202000a0004010005feff",
    "w 1820 00010011000b0001000c0c0061045a6fc3ab", "w 1820 00010011000b0001000c0c0061045a6fc322", "w 1820 00010011000a0001000c0c0061045a6fc3ab",
    "im 0 1 1 17 00010011000b0001000c0c0061045a6fc3ab", "ik 0 1 1 17 00010011000b0001000c0c0061045a6fc3ab", "im 0 1 1 17 00010011000a0001000c0c0061045a6fc3ab",
    "w 1820 0202000c000c07000401004142", "e 2 1 2 12 0 0202000c000c07000401004142", "e 2 1 2 12 0 0202000c000c06000401004142",
    "e 2 1 1 11 0 0201000b00070700ffffffff", "e 3 1 1 13 0 03010000000d00000007ffffffff",
    "v 0200000400", "v 0200000500", "v 0201000400", "v 020000", "v 0401", "v 0403", "v 0d", "v -", "w 1820 -", "v 0c808080800f", "v 0c8080808010",
    "p 1 040273dd", "p 1 04028c22", "r 2 0 1 e3", "r 2 0 1 e4", "r 2 0 1 7f", "r 2 0 0 7f",
    "t 303037", "t 2e35", "t 2e", "t " + "30" * 66, "t 2d" + "30" * 66, "c 010089 03008064", "c 010081 02018100", "c 01007f 010080", "s 0 0", "r 0 0 1 -",
    "r 0 0 0 -", "s 65 30", "s 66 0", "s 65 31", "o 1 0ff604040273dd", "o 0 0ff604040273dd", "o 1 0401", "u 5a6fc3ab", "u 5a6fc322",
    "u ff", "u e282", "u eda080", "u 61c3", "u c3abff", "w 1820 0c01ff", "w 1820 0c02e282", "w 1820 0c02e282ac", "w 1820 0c03e28241", "w 1820 0201000a000c07000261ff",
    "w 1820 0001000d000b000200040100c3ab", "w 1820 0001000d000b000200040100c322", "w 1820 0001000c000b000100040100c3ab",
    "w 1820 0001000c000b000100040100ff", "v 0ff6020102", "w 1820 0ff6020102",
    "r 2 1 1 7fff", "r 2 1 0 7fff", "r 2 1 1 7ffe", "p 1 01017f", "p 0 01017f", "o 1 0ff60402017fff", "o 0 0ff60402017fff", "c 02017fff 010080", "c 02017ffe 02017fff",
    "x 1 1 1 0 0 0 0 0 0 0 0 0 128", "x 1 1 0 0 0 0 0 0 0 0 0 0 128", "x 1 1 1 0 0 0 0 0 0 0 0 0 0", "x 1 1 1 0 100000000 0 0 0 0 0 0 0 128",
    "y 1 0 1 0 0 0 0 0 0 0 0 0 1 0 0 1 0 0 0 0 0 0 0 0", "y 1 0 0 1 0 0 0 0 0 0 0 0 1 0 1 0 0 0 0 0 0 0 0 0",
)


def deep_documents():
    """A literal inside 100 and inside 101 arrays, and inside as many containers of all four kinds."""
    plain = documents.Quirks.plain()
    for kinds in ((2,), (0, 1, 2, 3)):
        for depth in (100, 101):
            code, value = 4, b"\x01"
            for level in range(depth):
                kind = kinds[level % len(kinds)]
                code, value = kind, documents.container(random.Random(0), plain, kind, [(b"k" if kind < 2 else None, code, value)])
            yield bytes((code,)) + value


def features(request, answer):
    """What a line shows, for choosing lines that show all."""
    kind = request.partition(" ")[0]
    shown = {(kind, rules.answer_kind(request, answer))}
    for number in rules.NUMBER.findall(answer):
        shown.add((kind, "refusal", number))
    if kind == "w" and answer[:1].isdigit():
        for event in rules.events(answer)[0]:
            shown.add((kind, "code", event[0], min(event[1], 3)))
            if event[0] == 15:
                shown.add((kind, "column", event[7]))
    elif kind in ("v", "e", "ie", "im"):
        for item in answer.split(" ; "):
            words = item.partition(" = ")[2].split(" ") if kind == "im" and " = " in item else item.split(" ")
            if words[0] in ("scalar", "container") and len(words) > 1:
                shown.add((kind, request.split(" ")[1] if kind != "v" else "", words[0], words[1], words[2] if words[0] == "scalar" else ""))
    elif kind in ("r", "p", "t", "o") and answer[:1].isdigit():
        words = answer.split(" ")
        shown.add((kind, "digits", int(words[0]), words[2]))
        shown.add((kind, "fraction", int(words[1]), words[2]))
    elif kind == "s":
        shown.add(tuple(request.split(" ")[1:]))
    elif kind in ("d", "q") and (answer[:4] == "year" or answer == "refused 30"):
        asked = rules.asked_number(request.split(" "))
        shown.update((kind, asked[0], fault) for fault in times.faults(*asked))
        shown.add((kind, asked[0], answer[-1]))
    elif kind == "z" and answer != "what":
        shown.add((kind, request.split(" ")[1], answer.split(" ")[1]))
    return shown


def worth(feature):
    """How many lines are wanted of a feature where one is wanted of the others."""
    if "refusal" in feature:
        return 4
    return 3 if len(feature) == 2 or "column" in feature else 1


class Recorder:
    def __init__(self, original, reader, most):
        self.original, self.reader, self.most = original, reader, most
        self.wanted = set()
        self.lines, self.seen, self.asked = [], collections.Counter(), set()
        self.refused, self.spare = [], []
        self.quota = 1

    def answers(self, asked):
        """The second reader's answers; a request on which it and the original disagree is told and never taken."""
        batch = self.original.begin(asked)
        mine = self.reader.begin(asked).finish()
        theirs = batch.finish()
        walks = [at for at, request in enumerate(asked) if request.startswith("w 1820 ") and " refused 12 at " not in mine[at]]
        trees = self.original.ask(["j " + asked[at][7:] for at in walks])
        good = [agrees(request, a, b) for request, a, b in zip(asked, mine, theirs)]
        self.refused += [(request, a, b) for request, a, b, fine in zip(asked, mine, theirs, good) if not fine]
        for at, tree in zip(walks, trees):
            if not mine[at][:1].isdigit():
                continue
            told = rules.parsed(mine[at], rules.unhex(asked[at][7:]))
            if not agrees("j " + asked[at][7:], told, tree, mine[at]):
                good[at] = False
                self.refused.append(("j " + asked[at][7:], told, tree))
        for request, answer, fine in zip(asked, mine, good):
            if fine:
                self.offer(request, answer)
        return mine

    def offer(self, request, answer):
        if request in self.asked or answer in ("long", "died") or len(request) > 60000:
            return
        shown = features(request, answer)
        if request in self.wanted:
            return self.take(request, answer, shown)
        if len(self.lines) >= self.most:
            return
        least = min(self.seen[feature] // worth(feature) for feature in shown)
        if least < self.quota and (len(request) <= LONG or least == 0):
            self.take(request, answer, shown)
        elif len(request) <= LONG and len(self.spare) < 20000:
            self.spare.append((request, answer))

    def all_of(self, asked):
        """Takes every one of these requests, where the two agree."""
        self.wanted = set(asked)
        self.answers(asked)
        self.wanted = set()

    def take(self, request, answer, shown):
        self.asked.add(request)
        self.lines.append((request, answer))
        self.seen.update(shown)


def agrees(request, mine, theirs, walk=None):
    return mine == theirs or rules.bare(mine) == theirs or rules.explain(request, mine, theirs, walk) is not None


def main():
    parser = argparse.ArgumentParser(prog="tests/compare/record.py")
    parser.add_argument("seed", type=int)
    parser.add_argument("count", type=int)
    parser.add_argument("--source", help="the folder with the original's Rust files")
    parser.add_argument("--original", help="a command to run in place of the built original")
    parser.add_argument("--reader", help="a command to run in place of the second reader")
    parser.add_argument("--out", default=os.path.join(TOP, "crates", "answers"))
    chosen = parser.parse_args()
    if not chosen.source and not chosen.original:
        parser.error("--source is needed: the folder with the original's Rust files")
    original = programs.Program("the original", shlex.split(chosen.original) if chosen.original else differential.rust_command(chosen.source))
    reader = programs.Program("the second reader", shlex.split(chosen.reader) if chosen.reader else differential.second_command())
    recorder = Recorder(original, reader, chosen.count)
    recorder.all_of(list(PAPER) + ["w 1820 " + doc.hex() for doc in deep_documents()])
    recorder.all_of(["%s%02x0161" % (front, column) for column in documents.COLUMNS for front in ("v 0f", "w 1820 0201000a000f0700")])
    recorder.all_of(["v %02x" % code for code in documents.CODES + (13, 14, 16, 255)] + ["v 0f%02x0161" % column for column in (21, 127, 241, 244)])
    recorder.all_of([line for line in requests.odd_lines(random.Random(0)) if len(line) < 200])
    recorder.all_of(list(time_requests.listed_requests()))
    # All that the tasks ask, with a quota that grows until enough lines are taken.
    number = 0
    while len(recorder.lines) < chosen.count and number < 40:
        recorder.quota = 1 + number
        for kind, size in (("documents", 400), ("boundary", 1000), ("decimals", 600), ("text", 60), ("records", 200), ("times", 200)):
            if len(recorder.lines) < chosen.count:
                requests.run((kind, number, size, chosen.seed), recorder.answers)
        number += 1
    rng = random.Random(chosen.seed)
    rng.shuffle(recorder.spare)
    for request, answer in recorder.spare:
        if len(recorder.lines) < chosen.count and request not in recorder.asked:
            recorder.take(request, answer, features(request, answer))
    original.close()
    reader.close()
    finish(recorder, chosen)


def finish(recorder, chosen):
    numbers, codes, columns, kinds = (collections.Counter() for _ in range(4))
    for request, answer in recorder.lines:
        kinds[request.partition(" ")[0] if request.partition(" ")[0] in rules.KINDS else "no request"] += 1
        numbers.update(int(number) for number in rules.NUMBER.findall(answer))
        if request.startswith("w ") and answer[:1].isdigit():
            for event in rules.events(answer)[0]:
                codes[event[0]] += 1
                if event[0] == 15:
                    columns[event[7]] += 1
    os.makedirs(chosen.out, exist_ok=True)
    for name, column in (("stdin", 0), ("stdout", 1)):
        with open(os.path.join(chosen.out, name), "w", encoding="latin-1", newline="\n") as out:
            out.writelines(line[column] + "\n" for line in recorder.lines)
    print("%d lines, %d bytes asked, %d bytes answered" % (len(recorder.lines), *(sum(len(line[column]) + 1 for line in recorder.lines) for column in (0, 1))))
    print("requests: " + ", ".join("%s %d" % pair for pair in sorted(kinds.items())))
    print("refusals: " + ", ".join("%d: %d" % (number, numbers[number]) for number in NUMBERS))
    print("type codes: " + ", ".join("%d: %d" % (code, codes[code]) for code in documents.CODES))
    print("column types: " + ", ".join("%d: %d" % (column, columns[column]) for column in documents.COLUMNS))
    missing = ["refusal %d" % number for number in NUMBERS if not numbers[number]] + ["type code %d" % code for code in documents.CODES if not codes[code]]
    missing += ["column type %d" % column for column in documents.COLUMNS if not columns[column]]
    missing += ["request %s" % kind for kind in rules.KINDS if not kinds[kind]]
    for name in missing:
        print("not reached: " + name)
    for request, mine, theirs in recorder.refused[:50]:
        print("not written, for the two disagree:\n  %s\n  second reader  %s\n  original       %s" % tuple(map(differential.cut, (request, mine, theirs))))
    if len(recorder.refused) > 50:
        print("and %d more" % (len(recorder.refused) - 50))
    sys.exit(1 if missing or recorder.refused else 0)


if __name__ == "__main__":
    main()
