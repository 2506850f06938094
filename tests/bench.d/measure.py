"""Measures what tests/bench has built, prints the table, and with --write writes docs/BENCHMARK.md and docs/benchmark.svg.

measure.py PROGRAM COUNTED DOCUMENTS COUNTER RUSTC [--write] [--where]: PROGRAM is the driver, COUNTED the one that counts memory, DOCUMENTS an empty
folder, COUNTER 'valgrind' or the path of the plugin for qemu-x86_64, RUSTC what the compiler says its version is. With --where, which takes valgrind,
it then prints in which functions of ours the instructions are.
"""
import collections
import datetime
import os
import platform
import re
import subprocess
import sys

# The cases, what they are called, and how many calls are counted. A count is the difference of a run of twice as many calls and a run of so many, so
# that what the program does besides is not in it.
DOCUMENTS = [
    ('settings', "a console's settings", 500),
    ('large', '64 KiB of such settings', 4),
    ('longest', '16 MiB of such settings', 1),
    ('accents', 'accents, 64 KiB', 4),
    ('ascii', '64 KiB of ASCII', 4),
    ('shared', 'one shared string', 2),
]
CALLS = ['read', 'print', 'compare', 'write', 'parse']
SIZES = ['(4,2)', '(20,6)', '(65,30)']
DECIMALS = [(call + size, call + ' ' + size, 1000) for size in SIZES for call in CALLS]
CASES = DOCUMENTS + DECIMALS
DEEPEST = {
    'arrays': '100 arrays',
    'objects': '100 objects',
    'turns': 'both by turns',
    'objects-refused': '101 objects, refused by 11',
    'large-objects-refused': '101 large objects, refused by 11',
}


def output(*command):
    return subprocess.run(command, check=True, stdout=subprocess.PIPE, text=True).stdout


def rows(text):
    """Lines of a name and numbers."""
    return {line.split()[0]: [float(word) for word in line.split()[1:]] for line in text.splitlines()}


class Measured:
    def __init__(self, program, counted, folder, counter):
        self.native = counter == 'valgrind'
        self.program, self.folder, self.counter = program, folder, counter
        emulator = [] if self.native else ['qemu-x86_64']
        self.size = rows(output(*emulator, program, 'write', folder))
        self.time = rows(output(program, 'time', folder)) if self.native else {}
        self.stack = rows(output(*emulator, program, 'stack', folder))
        self.heap = rows(output(*emulator, counted, 'memory', folder))
        self.instructions = {}
        for case, _, times in CASES:
            self.instructions[case] = [(self.run(case, side, 2 * times) - self.run(case, side, times)) / times for side in ('ours', 'rust')]

    def run(self, case, side, times):
        """All instructions of a process that makes so many calls."""
        command = [self.program, 'run', self.folder, case, side, str(times)]
        if self.native:
            command = ['valgrind', '--tool=callgrind', '--callgrind-out-file=/dev/null'] + command
        else:
            command = ['qemu-x86_64', '-plugin', self.counter] + command
        done = subprocess.run(command, stdout=subprocess.DEVNULL, stderr=subprocess.PIPE, text=True)
        found = re.search(r'Collected : (\d+)' if self.native else r'^instructions (\d+)$', done.stderr, re.MULTILINE)
        if done.returncode or not found:
            sys.exit('bench: no instructions were counted: ' + ' '.join(command) + '\n' + done.stderr)
        return int(found.group(1))

    def functions(self, case, times):
        """The instructions in each function, without those that it calls, in a process that makes so many calls of ours."""
        file = os.path.join(self.folder, 'functions')
        command = ['valgrind', '-q', '--tool=callgrind', '--callgrind-out-file=' + file, self.program, 'run', self.folder, case, 'ours', str(times)]
        subprocess.run(command, check=True)
        names, costs, name, called = {}, collections.Counter(), '', False
        with open(file, encoding='utf-8') as lines:
            for line in lines:
                # A function is named where it is met first, and has a number from then on.
                function = re.match(r"(c?)fn=\((\d+)\)(?: (.*?)('\d+)?)?$", line)
                if function:
                    if function.group(3):
                        names[function.group(2)] = function.group(3)
                    if not function.group(1):
                        name = names[function.group(2)]
                elif line.startswith('calls='):
                    called = True
                elif re.match(r'[+*\-\d]\S* \d+$', line):
                    # The line after a call holds what it cost as a whole.
                    if not called:
                        costs[name] += int(line.split()[1])
                    called = False
        return costs

    def where(self, case, times):
        costs = self.functions(case, 2 * times)
        costs.subtract(self.functions(case, times))
        total = sum(costs.values())
        values = self.size[case][1]
        return [[name, whole(cost / times), short(cost / times / values), f'{100 * cost / total:.1f}']
                for name, cost in costs.most_common() if cost * 200 > total]


def whole(number):
    return f'{number:,.0f}'


def short(number):
    return f'{number:,.1f}' if number < 1000 else whole(number)


def pair(ours, rust, form):
    return [form(ours), form(rust), f'{ours / rust:.2f}']


def tables(measured):
    """The tables: a title, the heads of the columns and the rows, each cell as text."""
    clock = ['ns', 'Rust', 'ratio'] if measured.native else []
    documents, decimals = [], []
    for case, name, _ in CASES:
        counts = measured.instructions[case]
        cost = pair(*counts, whole) + (pair(*measured.time[case], short) if measured.native else [])
        if case in measured.size:
            size, values = measured.size[case]
            documents.append([name, whole(size), whole(values), *cost, *(short(count / values) for count in counts), f'{counts[0] / size:.2f}'])
        else:
            decimals.append([name, *cost])
    stack = [[DEEPEST[name], *map(whole, numbers)] for name, numbers in measured.stack.items()]
    heap = [[name, *(whole(number) for number in measured.heap[case])] for case, name, _ in CASES]
    count = ['instructions', 'Rust', 'ratio']
    return [
        ('The walk of a document', ['document', 'bytes', 'values', *count, *clock, 'instructions a value', 'Rust', 'a byte'], documents),
        ('A call on a decimal', ['call', *count, *clock], decimals),
        ('Stack of the deepest walk, in bytes', ['document', 'bytes', 'values', 'ours', 'Rust'], stack),
        ('Heap of one call', ['call', 'blocks', 'most bytes at once', 'Rust: blocks', 'Rust: most bytes at once'], heap),
    ]


def plain(title, heads, lines):
    widths = [max(map(len, column)) for column in zip(heads, *lines)]
    print(title)
    for line in [heads, *lines]:
        cells = [cell.rjust(width) for cell, width in zip(line, widths)]
        print('  '.join([line[0].ljust(widths[0]), *cells[1:]]))
    print()


def markdown(title, heads, lines):
    marks = ['---', *('---:' for _ in heads[1:])]
    return f'## {title}\n\n' + ''.join('| ' + ' | '.join(line) + ' |\n' for line in [heads, marks, *lines])


def machine():
    model = platform.machine()
    if os.path.exists('/proc/cpuinfo'):
        with open('/proc/cpuinfo', encoding='utf-8') as file:
            found = re.search(r'^model name\s*: (.*)$', file.read(), re.MULTILINE)
        if found:
            model += ', ' + found.group(1)
    memory = os.sysconf('SC_PAGE_SIZE') * os.sysconf('SC_PHYS_PAGES') / 2**30
    return f'{model}, {os.cpu_count()} cores, {memory:.0f} GiB of memory, {platform.system()} {platform.release().split("-")[0]}'


def chart(measured):
    """Bars of the ratios, each with its number, which a bar that is too long for the chart has too."""
    left, scale, bar, most = 190, 300, 9, 2.0
    step = 2 * bar + 8 if measured.native else bar + 8
    high = 62 + step * len(CASES) + 10
    width = left + round(most * scale) + 60
    parts = [
        f'<svg xmlns="http://www.w3.org/2000/svg" width="{width}" height="{high}" viewBox="0 0 {width} {high}"',
        ' font-family="sans-serif" font-size="12">',
        '<title>Cost of a call, ours divided by that of the Rust original</title>',
        '<style>.paper{fill:#fff}.text{fill:#222}.line{stroke:#999}.count{fill:#1f6fb2}.time{fill:#d98a1f}',
        '@media (prefers-color-scheme:dark){',
        '.paper{fill:#15181c}.text{fill:#e6e6e6}.line{stroke:#777}.count{fill:#5aa9e6}.time{fill:#f0b35a}}</style>',
        f'<rect class="paper" width="{width}" height="{high}"/>',
        '<text class="text" x="10" y="18">Ours divided by the Rust original: less is better, 1 is equal, a bar ends at 2</text>',
        '<rect class="count" x="10" y="28" width="10" height="10"/><text class="text" x="25" y="37">instructions</text>',
    ]
    if measured.native:
        parts.append('<rect class="time" x="110" y="28" width="10" height="10"/><text class="text" x="125" y="37">time</text>')
    for mark in (0, 0.5, 1, 1.5, 2):
        x = left + round(mark * scale)
        dash = '' if mark in (0, 1) else ' stroke-dasharray="3 3"'
        parts.append(f'<line class="line" x1="{x}" y1="56" x2="{x}" y2="{high - 8}"{dash}/>'
                     f'<text class="text" x="{x}" y="52" text-anchor="middle">{mark:g}</text>')
    for i, (case, name, _) in enumerate(CASES):
        y = 62 + i * step
        sides = [('count', measured.instructions[case])] + ([('time', measured.time[case])] if measured.native else [])
        parts.append(f'<text class="text" x="{left - 8}" y="{y + len(sides) * bar // 2 + 4}" text-anchor="end">{name}</text>')
        for line, (kind, (ours, rust)) in enumerate(sides):
            length = round(min(ours / rust, most) * scale)
            top = y + line * bar
            parts.append(f'<rect class="{kind}" x="{left}" y="{top}" width="{max(length, 1)}" height="{bar - 1}"/>'
                         f'<text class="text" x="{left + length + 4}" y="{top + 8}" font-size="9">{ours / rust:.2f}</text>')
    return '\n'.join([*parts, '</svg>', ''])


INTRODUCTION = """# What a call costs

Written by `tests/bench SRC --write`, where SRC is the folder src of mysql_common 0.38.2. It builds our archive and that original, links both into one
program with optimisation and without overflow checks, sees that they answer alike, and then measures. Nothing here is a promise: another machine
or compiler gives other numbers, and only the ratios, ours divided by Rust's, are of one run.

- Date: {date}
- Machine: {machine}
- Compiler of the original and of the program: {rustc}
- {how}

![Bars of the ratios]({chart})

"""

NOTES = """
## What is compared

- Documents: `bratthelm_walk` into lent room, against a listing over the original's views, which has none of its own: `key_at` and `elem_at` by
  position, `from_utf8` on keys and strings, the same events into the same kind of room. tests/bench.d/driver/listing.rs is that listing.
- The settings are those of one console, with nested objects, arrays, texts, numbers, literals and a decimal. The documents of 64 KiB and 16 MiB are
  arrays of such settings. In the one with accents more than half of the letters take two bytes. The one of ASCII is a single string, so that
  nearly all of it is the UTF-8 test. In the last, 1,000 entries share one string of 20,000 bytes.
- Decimals: `read_packed`, printing, `cmp`, `write_bin` and `parse_str_bytes` of the original, its printing and writing into room that is used
  again. Its order is of written bytes and not of values; it answers as ours does on the pairs here, which differ in the last digit.
- The stack is counted from the caller's stack pointer. The heap is what one call takes, a block that grows
  counted as a new one; the lent room is not in it.
"""


def main():
    program, counted, folder, counter, rustc = sys.argv[1:6]
    measured = Measured(program, counted, folder, counter)
    parts = tables(measured)
    for part in parts:
        plain(*part)
    if '--where' in sys.argv[6:] and measured.native:
        for case, name, times in DOCUMENTS:
            plain('Our instructions: ' + name, ['function', 'a call', 'a value', 'percent'], measured.where(case, times))
    if '--write' in sys.argv[6:]:
        how = ('Nanoseconds are of processor time, the median of 25 rounds, the two sides by turns; instructions are counted by valgrind'
               if measured.native else 'Instructions are counted under qemu-x86_64, whose nanoseconds would say nothing')
        mark = '' if measured.native else '-arm'
        text = INTRODUCTION.format(date=datetime.date.today(), machine=machine(), rustc=rustc, how=how, chart=f'benchmark{mark}.svg')
        with open(f'docs/BENCHMARK{mark}.md', 'w', encoding='utf-8') as file:
            file.write(text + '\n'.join(markdown(*part) for part in parts) + NOTES)
        with open(f'docs/benchmark{mark}.svg', 'w', encoding='utf-8') as file:
            file.write(chart(measured))


main()
