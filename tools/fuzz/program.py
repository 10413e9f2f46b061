"""A built gatebench, run in a folder of its own; a run costs as little as it can beside the program's own start."""
import os
import signal

from case import Answer

SECONDS = 300


class Program:
    """The program at a path, with its files in a folder. SIGALRM is used, so it runs in a process's first thread."""

    def __init__(self, path, folder):
        self.path, self.pid = path, 0
        self.files = {name: os.path.join(folder, name) for name in ("design.v", "in", "out", "err")}
        reads, writes = os.O_RDONLY, os.O_WRONLY | os.O_CREAT | os.O_TRUNC
        modes = [("in", reads), ("out", writes), ("err", writes)]
        opened = [(self.files[name], mode, 0o600) for name, mode in modes]
        self.streams = [(os.POSIX_SPAWN_OPEN, number, *it) for number, it in enumerate(opened)]
        signal.signal(signal.SIGALRM, lambda *_: os.kill(self.pid, signal.SIGKILL))

    def write(self, name, content):
        with open(self.files[name], "wb", buffering=0) as file:
            file.write(content)

    def read(self, name):
        with open(self.files[name], "rb", buffering=0) as file:
            return file.read()

    def answer(self, case):
        """How a run over a case ends."""
        self.write("design.v", case.text)
        self.write("in", case.commands)
        words = ["gatetool" if case.tool else self.path, self.files["design.v"], *case.words]
        self.pid = os.posix_spawn(self.path, words, os.environ, file_actions=self.streams)
        signal.setitimer(signal.ITIMER_REAL, SECONDS)
        _, status = os.waitpid(self.pid, 0)
        signal.setitimer(signal.ITIMER_REAL, 0)
        ended = os.WEXITSTATUS(status) if os.WIFEXITED(status) else f"signal {os.WTERMSIG(status)}"
        return Answer(ended, self.read("out"), self.read("err"))
