"""Programs at work on sessions, timed command by command."""
import glob
import os
import subprocess
import sys
import threading
import time

# The most edits of a batch.
BATCH = 4096


class Session:
    """A program at work, and the processor seconds from a command to its last reply."""

    def __init__(self, program, text):
        words = [program, text, "--horizon", "0"]
        self.program = subprocess.Popen(words, stdin=subprocess.PIPE, stdout=subprocess.PIPE)

    def used(self):
        """The processor seconds of the program, which waits for a command, so far; where the system does not tell them, those
        that passed."""
        time.sleep(0.002)
        try:
            texts = [open(path, encoding="ascii").read() for path in glob.glob(f"/proc/{self.program.pid}/task/*/schedstat")]
        except OSError:
            texts = []
        return sum(int(it.split()[0]) for it in texts) / 1e9 if texts else time.perf_counter()

    def ask(self, *commands):
        begun = self.used()
        self.write(commands)
        for command in commands:
            self.reply(command)
        return self.used() - begun

    def flood(self, questions):
        """The processor seconds of many questions, written while their replies are read, and the bytes of these."""
        begun = self.used()
        writer = threading.Thread(target=self.write, args=(questions,))
        writer.start()
        size = sum(self.reply(it) for it in questions)
        writer.join()
        return self.used() - begun, size

    def write(self, commands):
        self.program.stdin.write(("\n".join(commands) + "\n").encode())
        self.program.stdin.flush()

    def reply(self, command):
        """Reads a reply up to its last line, and gives its bytes."""
        size = 0
        while True:
            line = self.program.stdout.readline()
            size += len(line)
            if not line or line.startswith(b"no "):
                sys.exit(f"{os.path.basename(sys.argv[0])}: `{command}` gave `{line.decode().strip()}`")
            if line.startswith(b"ok "):
                return size

    def close(self):
        self.program.stdin.close()
        self.program.wait()


def batches(commands):
    for first in range(0, len(commands), BATCH):
        yield ["begin"] + commands[first:first + BATCH] + ["commit"]


def part_of(times, tenths):
    """Of the times of each program the one that so many tenths of them are below."""
    return [sorted(of)[len(of) * tenths // 10] for of in zip(*times)]
