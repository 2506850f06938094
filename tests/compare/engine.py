"""Asks the programs the same requests and keeps the counts and the differences."""

import collections
import zlib

import rules

KEPT = 5  # requests kept of each manner of difference; all are counted


class Found:
    """What a run found. Two of them can be added, in any order."""

    def __init__(self):
        self.requests = collections.Counter()
        self.answers = collections.Counter()
        self.refusals = collections.Counter()
        self.codes = collections.Counter()
        self.columns = collections.Counter()
        self.rows = collections.Counter()
        self.agreed = collections.Counter()
        self.manners = collections.Counter()
        self.kept = {}
        self.died = collections.Counter()
        self.sum = 0  # of the requests of all batches, whatever their order

    def add(self, other):
        self.sum += other.sum
        for name in ("requests", "answers", "refusals", "codes", "columns", "rows", "agreed", "manners", "died"):
            getattr(self, name).update(getattr(other, name))
        for key, kept in other.kept.items():
            mine = self.kept.setdefault(key, [])
            mine.extend(kept)
            mine.sort(key=lambda difference: (len(difference[0]), difference[0]))
            del mine[KEPT:]

    def differ(self, against, request, ours, theirs):
        key = (against,) + rules.manner(request, ours, theirs)
        self.manners[key] += 1
        kept = self.kept.setdefault(key, [])
        kept.append((request, ours, theirs))
        if len(kept) > 4 * KEPT:
            kept.sort(key=lambda difference: (len(difference[0]), difference[0]))
            del kept[KEPT:]


class Engine:
    """Ours, and what it is compared with: the original, the second reader, or both."""

    def __init__(self, ours, rust, second):
        self.ours, self.rust, self.second = ours, rust, second
        self.found = Found()

    def compare(self, requests):
        """Asks all programs, compares, counts; gives our answers."""
        found = self.found
        found.sum += zlib.crc32("\n".join(requests).encode("latin-1"))
        rust_batch = self.rust and self.rust.begin(requests)
        second_batch = self.second and self.second.begin(requests)
        ours = self.ours.begin(requests).finish()
        if self.rust:
            theirs = rust_batch.finish()
            # The original's own tree is asked for where our list had room: it may hold more values than memory does.
            walks = [at for at, request in enumerate(requests) if request.startswith("w 1820 ") and " refused 12 at " not in ours[at]]
            tree_batch = self.rust.begin(["j " + requests[at][7:] for at in walks])
            for request, mine, other in zip(requests, ours, theirs):
                if mine == other or rules.bare(mine) == other:
                    found.agreed["the original"] += 1
                else:
                    self.weigh(request, mine, other)
            trees = [rules.parsed(ours[at], rules.unhex(requests[at][7:])) if ours[at][:1].isdigit() else ours[at] for at in walks]
            found.requests["j"] += len(walks)
            for at, mine, other in zip(walks, trees, tree_batch.finish()):
                if mine == other or rules.bare(mine) == other:
                    found.agreed["the original"] += 1
                else:
                    self.weigh("j " + requests[at][7:], mine, other, ours[at])
        for request, answer in zip(requests, ours):
            self.count(request, answer)
        if self.second:
            for request, mine, other in zip(requests, ours, second_batch.finish()):
                if mine == other:
                    found.agreed["the second reader"] += 1
                else:
                    found.differ("the second reader", request, mine, other)
        return ours

    def count(self, request, answer):
        """Counts our answer by the request's kind, its own, and what it shows."""
        found = self.found
        kind = request.partition(" ")[0]
        if kind not in rules.KINDS:
            kind = "no request"
        found.requests[kind] += 1
        found.answers[kind, rules.answer_kind(request, answer)] += 1
        if "refused" in answer:
            for number in rules.NUMBER.findall(answer):
                found.refusals[int(number)] += 1
        if kind == "w" and answer[:1].isdigit():
            for event in answer.partition(" refused ")[0].split(" / ")[1:]:
                code = event[:event.index(" ")]
                found.codes[int(code)] += 1
                if code == "15":
                    found.columns[int(event.split(" ")[7])] += 1

    def weigh(self, request, mine, other, walk=None):
        row = rules.explain(request, mine, other, walk)
        if row:
            self.found.rows[row.name] += 1
        else:
            self.found.differ("the original", request, mine, other)

    def manners(self, against, requests):
        """For shrinking: (manner, ours, theirs) of each request, None where the two agree or a row explains it."""
        asked = ["w 1820 " + request[2:] if request.startswith("j ") else request for request in requests]
        other = self.second if against == "the second reader" else self.rust
        other_batch = other.begin(requests)
        ours = self.ours.begin(asked).finish()
        out = []
        for request, mine, theirs in zip(requests, ours, other_batch.finish()):
            walk = mine
            if request.startswith("j ") and mine[:1].isdigit():
                mine = rules.parsed(mine, rules.unhex(request[2:]))
            if mine == theirs:
                out.append(None)
            elif against == "the original" and (rules.bare(mine) == theirs or rules.explain(request, mine, theirs, walk)):
                out.append(None)
            else:
                out.append((rules.manner(request, mine, theirs), mine, theirs))
        return out

    def close(self):
        for program in (self.ours, self.rust, self.second):
            if program:
                self.found.died[program.name] += program.died
                program.close()
