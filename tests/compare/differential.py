"""The differential run: builds the programs, asks them the same requests, prints what agreed and every difference that no rule intends."""

import argparse
import fcntl
import multiprocessing
import os
import shlex
import signal
import subprocess
import sys
import time

HERE = os.path.dirname(os.path.realpath(__file__))
TOP = os.path.dirname(os.path.dirname(HERE))
sys.path.insert(0, HERE)
sys.dont_write_bytecode = True

import engine as engines  # noqa: E402
import programs  # noqa: E402
import requests  # noqa: E402
import rules  # noqa: E402
import shrink  # noqa: E402


def our_command():
    """Proves and builds our program, then what starts it: the same as ./run does."""
    os.makedirs(os.path.join(TOP, "target"), exist_ok=True)
    folder = os.path.join(TOP, "crates", "answers")
    with open(os.path.join(TOP, "target", "run.lock"), "w") as lock:
        fcntl.flock(lock, fcntl.LOCK_EX)  # as ./run does: two of them wait for each other
        if subprocess.run(["rt", "check"], cwd=folder, stdout=sys.stderr).returncode:
            sys.exit("rt check answers failed")
        subprocess.run(["rt", "run"], cwd=folder, stdin=subprocess.DEVNULL, stdout=subprocess.DEVNULL, stderr=subprocess.DEVNULL)  # builds it
    return [os.path.join(folder, "out", "answers")]


def rust_command(source):
    """Builds the original from its files and gives the command."""
    folder = os.path.join(TOP, "target", "differential")
    os.makedirs(folder, exist_ok=True)
    out = os.path.join(folder, "original")
    if subprocess.run([os.path.join(TOP, "tests", "rust", "build"), source, out], stdout=sys.stderr).returncode:
        sys.exit("tests/rust/build failed")
    return [out]


def second_command():
    return [sys.executable, os.path.join(TOP, "tests", "second", "reader.py")]


def make_engine(commands):
    ours, rust, second = commands
    return engines.Engine(programs.Program("ours", ours), rust and programs.Program("the original", rust), second and programs.Program("the second reader", second))


WORKER = None


def begin_worker(commands):
    global WORKER
    signal.signal(signal.SIGINT, signal.SIG_IGN)
    WORKER = commands, make_engine(commands)


def do_task(task):
    commands, engine = WORKER
    engine.found = engines.Found()
    requests.run(task, engine.compare)
    for program in (engine.ours, engine.rust, engine.second):
        if program and program.died:
            engine.found.died[program.name] += program.died
            program.died = 0
    return engine.found


def parse_arguments():
    parser = argparse.ArgumentParser(prog="tests/differential", description=__doc__)
    parser.add_argument("source", metavar="SRC", help="the folder with the original's Rust files (or - to leave the original out)")
    parser.add_argument("--seed", type=int, default=1, help="the same seed gives the same requests (default 1)")
    parser.add_argument("--documents", type=int, default=100000, help="random documents, three of four damaged (default 100,000)")
    parser.add_argument("--decimals", type=int, default=300000, help="requests about random decimals (default 300,000)")
    parser.add_argument("--times", type=int, default=100000, help="requests about random dates and times (default 100,000)")
    parser.add_argument("--second", action="store_true", help="compare with the second reader as well, to the letter")
    parser.add_argument("--no-short", action="store_true", help="leave out the exhaustive short inputs and the boundaries")
    parser.add_argument("--workers", type=int, default=os.cpu_count() or 1, help="processes that generate and compare, each with its own programs")
    parser.add_argument("--ours", help="a command to run in place of our program")
    parser.add_argument("--original", help="a command to run in place of the built original")
    parser.add_argument("--reader", help="a command to run in place of the second reader")
    return parser.parse_args()


def main():
    chosen = parse_arguments()
    rust = None if chosen.source == "-" else shlex.split(chosen.original) if chosen.original else rust_command(chosen.source)
    second = None if not chosen.second else shlex.split(chosen.reader) if chosen.reader else second_command()
    if not rust and not second:
        sys.exit("nothing to compare with: name the original's folder, or --second")
    commands = shlex.split(chosen.ours) if chosen.ours else our_command(), rust, second
    tasks = requests.tasks(chosen.seed, chosen.documents, chosen.decimals, chosen.times, not chosen.no_short)
    found = engines.Found()
    began = told = time.monotonic()
    pool = multiprocessing.Pool(max(1, chosen.workers), begin_worker, (commands,))
    try:
        for done, part in enumerate(pool.imap_unordered(do_task, tasks), 1):
            found.add(part)
            if time.monotonic() - told > 15:
                told = time.monotonic()
                print("%d of %d tasks, %d requests, %d unexplained" % (done, len(tasks), sum(found.requests.values()), sum(found.manners.values())), file=sys.stderr, flush=True)
    finally:
        pool.terminate()
        pool.join()
    took = time.monotonic() - began
    report(found, chosen, took)
    if found.manners:
        engine = make_engine(commands)
        unexplained(found, engine)
        engine.close()
        sys.exit(1)


def report(found, chosen, took):
    total = sum(found.requests.values())
    print("seed %d: %d requests in %.0f s, %.0f a second; their sum is %x" % (chosen.seed, total, took, total / max(took, 0.001), found.sum))
    print("\nrequests by kind")
    for kind, count in sorted(found.requests.items()):
        print("  %-10s %10d" % (kind, count))
    print("\nanswers by kind")
    for (kind, answer), count in sorted(found.answers.items()):
        print("  %-10s %-40s %10d" % (kind, answer[:40], count))
    print("\nrefusals by number")
    for number in sorted(set(range(1, 14)) | set(range(20, 27)) | {30, 31} | set(found.refusals)):
        print("  %-4d %10d" % (number, found.refusals[number]))
    print("\nvalues by type code")
    print("  " + ", ".join("%d: %d" % pair for pair in sorted(found.codes.items())))
    print("\nopaque values by column type")
    print("  " + ", ".join("%d: %d" % pair for pair in sorted(found.columns.items())))
    for against, count in sorted(found.agreed.items()):
        print("\nanswers as %s gives them: %d" % (against, count))
    if chosen.source != "-":
        print("\nintended differences from the original, and how many requests each explained")
        for row in rules.INTENDED:
            print("  %-28s %10d  %s" % (row.name, found.rows[row.name], row.reason))
    for name, count in sorted(found.died.items()):
        if count:
            print("\n%s died %d times" % (name, count))
    print("\nunexplained differences: %d" % sum(found.manners.values()))
    sys.stdout.flush()


def cut(text):
    return text if len(text) <= 2000 else text[:2000] + " .. (%d characters)" % len(text)


def unexplained(found, engine):
    """Each manner of difference: how often, and the smallest request of it. After ten minutes requests are printed as they were found."""
    end = time.monotonic() + 600
    for key, count in sorted(found.manners.items(), key=lambda pair: -pair[1]):
        against, manner = key[0], key[1:]
        print("\n%d times against %s: `%s` answered %s, there %s" % (count, against, manner[0], manner[1], manner[2]))
        request, ours, theirs = found.kept[key][0]
        if time.monotonic() < end:
            small = shrink.smallest(engine, against, request, manner)
            if small[1] is None:
                print("  seen in the run, not again when asked alone")
            else:
                request, ours, theirs = small
        print("  request  %s\n  ours     %s\n  theirs   %s" % (cut(request), cut(ours), cut(theirs)))
        sys.stdout.flush()


if __name__ == "__main__":
    main()
