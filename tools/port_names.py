#!/usr/bin/env python3
"""Brings this repository's own definitions and lemmas to the spelling of today's Rattle, after the toolchain's own port script.

usage: python3 tools/port_names.py        at the top of the repository, once

Words are in snake case: `containerAt` becomes `container_at`. It goes over the .rt and .antt files and the must-fail edits of crates/, strings left out. Where a
word then has the name of a lemma or of an alias that stands beside it, the lemma gets `_lem` behind its name, and the alias another one. The crate hex becomes
hexadecimal, as the toolchain has a library hex.
"""

import os
import re
import subprocess
import sys

TOKEN = re.compile(r"[^\s(){}\[\],.;:@`\"«»!&*<>=|/#$]+")
STRING = re.compile(r"""b?"(?:[^"\\]|\\.)*"|(?<![\w'])b'(?:\\.|[^'\\])'""")
# (files, pattern, text): what would fall together with a word of the same name
BESIDE = [
    ("crates/decimal_laws/proofs/", r"(?<![\w'-])comes_back(?![\w'-])", "comes_back_lem"),
    ("crates/ranks/proofs/", r"(?<![\w'.-])in_order(?![\w'.-])", "in_order_lem"),
    ("crates/time_records/proofs/", r"TheVariants as record_of(?![\w'-])", "TheVariants as the_record"),
    ("crates/time_records/proofs/", r"(?<![\w'.-])record_of\.(Time|Nothing)(?![\w'-])", r"the_record.\1"),
]
OLD_CRATE, NEW_CRATE = "hex", "hexadecimal"


def snake(word):
    def part(p):
        if not p or not p[0].islower():
            return p
        p = re.sub(r"([a-z0-9'])([A-Z])", r"\1_\2", p)
        return re.sub(r"([A-Z])([A-Z][a-z])", r"\1_\2", p).lower()

    return "-".join(part(p) for p in word.split("-"))


def turned(text):
    """The text with each word in snake case, but for what stands in strings."""
    out, at = [], 0
    for m in STRING.finditer(text):
        out += [TOKEN.sub(lambda w: snake(w.group()), text[at : m.start()]), m.group()]
        at = m.end()
    return "".join(out + [TOKEN.sub(lambda w: snake(w.group()), text[at:])])


def main():
    if not os.path.isdir("crates"):
        sys.exit("run it at the top of the repository")
    if os.path.isdir(f"crates/{OLD_CRATE}"):
        subprocess.run(["git", "mv", f"crates/{OLD_CRATE}", f"crates/{NEW_CRATE}"], check=True)
        with open("crates.txt", encoding="utf-8") as f:
            lists = f.read()
        with open("crates.txt", "w", encoding="utf-8") as f:
            f.write(re.sub(rf"(?<!\w){OLD_CRATE}(?!\w)", NEW_CRATE, lists))
    changed = 0
    for folder, dirs, files in os.walk("crates"):
        dirs[:] = sorted(d for d in dirs if d != "out")
        for name in sorted(files):
            if not name.endswith((".rt", ".antt", ".edit")):
                continue
            path = os.path.join(folder, name)
            with open(path, encoding="utf-8") as f:
                old = f.read()
            new = old
            for where, pattern, text in BESIDE:
                if path.startswith(where):
                    new = re.sub(pattern, text, new)
            new = re.sub(rf"Rattle\.{OLD_CRATE}(?!\w)", f"Rattle.{NEW_CRATE}", new)
            if name.endswith(".rt"):
                new = re.sub(rf"(?<![\w:.]){OLD_CRATE}::", f"{NEW_CRATE}::", new)
            new = turned(new)
            if new != old:
                with open(path, "w", encoding="utf-8") as f:
                    f.write(new)
                changed += 1
    print(f"{changed} files changed")


main()
