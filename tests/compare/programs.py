"""A program that answers a line with a line, asked in batches through pipes."""

import os
import subprocess
import threading

PATIENCE = 600  # seconds without an end of the batch: the program is taken to hang


class Program:
    """One process for all batches. Where it dies, the request that killed it is answered `died`, and a new one goes on."""

    def __init__(self, name, command):
        self.name = name
        self.command = command
        self.process = None
        self.lasting = None
        self.died = 0

    def start(self):
        self.process = subprocess.Popen(self.command, stdin=subprocess.PIPE, stdout=subprocess.PIPE, stderr=subprocess.DEVNULL)

    def stop(self):
        if self.process is None:
            return
        for pipe in (self.process.stdin, self.process.stdout):
            try:
                pipe.close()
            except OSError:
                pass
        self.process.kill()
        self.process.wait()
        self.process = None

    def close(self):
        """Ends the process by ending its input; gives its exit status."""
        if self.process is None:
            return 0
        try:
            self.process.stdin.close()
        except OSError:
            pass
        try:
            status = self.process.wait(timeout=20)
        except subprocess.TimeoutExpired:
            status = None
        self.stop()
        return status

    def begin(self, lines):
        """Starts a batch; finish() has its answers."""
        return Batch(self, lines)

    def ask(self, lines):
        return self.begin(lines).finish()


class Batch:
    def __init__(self, program, lines):
        self.program = program
        self.lines = lines
        self.chunks = []
        self.counted = 0
        self.threads = ()
        if not lines:
            return
        if program.lasting is None:
            learn(program)
        if program.process is None:
            program.start()
        pipe_in, pipe_out = program.process.stdin, program.process.stdout
        data = ("\n".join(lines) + "\n").encode("latin-1")

        def write():
            try:
                pipe_in.write(data)
                pipe_in.flush()
                if not program.lasting:
                    pipe_in.close()
            except (OSError, ValueError):
                pass

        def read():
            while self.counted < len(lines):
                try:
                    chunk = os.read(pipe_out.fileno(), 1 << 20)
                except (OSError, ValueError):
                    return
                if not chunk:
                    return
                self.chunks.append(chunk)
                self.counted += chunk.count(b"\n")

        self.threads = (threading.Thread(target=write, daemon=True), threading.Thread(target=read, daemon=True))
        for thread in self.threads:
            thread.start()

    def finish(self):
        if not self.lines:
            return []
        program = self.program
        self.threads[1].join(PATIENCE)
        whole = self.counted >= len(self.lines)
        if whole:
            self.threads[0].join(PATIENCE)
        answers = b"".join(self.chunks).decode("latin-1").split("\n")[:-1]
        if whole and len(answers) == len(self.lines):
            if not program.lasting:
                program.stop()
            return answers
        program.stop()
        if len(answers) > len(self.lines):
            raise SystemExit("%s wrote more lines than it was asked: %d for %d" % (program.name, len(answers), len(self.lines)))
        # It died, and what it had not yet written is lost: ask the rest again, by halves, until the guilty request stands alone.
        rest = self.lines[len(answers):]
        if len(rest) == 1:
            program.died += 1
            return answers + ["died"]
        half = len(rest) // 2
        return answers + program.ask(rest[:half]) + program.ask(rest[half:])


def learn(program):
    """Whether the program answers before its input ends. If not, each batch takes a process of its own."""
    program.lasting = True
    program.start()
    seen = []

    def read():
        try:
            seen.append(os.read(program.process.stdout.fileno(), 4096))
        except (OSError, ValueError):
            pass

    thread = threading.Thread(target=read, daemon=True)
    thread.start()
    try:
        program.process.stdin.write(b"u -\n")
        program.process.stdin.flush()
    except OSError:
        raise SystemExit("%s does not take requests: %s" % (program.name, " ".join(program.command)))
    thread.join(30)
    if seen and seen[0].endswith(b"\n"):
        return
    if seen and not seen[0]:
        raise SystemExit("%s ended at its first request: %s" % (program.name, " ".join(program.command)))
    program.lasting = False
    program.stop()
