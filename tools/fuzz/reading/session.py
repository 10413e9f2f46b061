"""A session: of each line of commands the reply."""
from dataclasses import replace

from .edits import check, check_new
from .lines import EDITS, FAULT, QUESTIONS, TOOL_QUESTIONS, Line, name, verb_of
from .questions import Snapshot, diff
from .tables import CAUSES, MAX_BATCH, MAX_HOLDS, MAX_LINE, Refused

WHOLE = ("begin", "commit", "abort", "quit")
OF_HOLDS = ("hold", "free")


class Session:
    """A session over a design. `made` is called with each design that a commit makes, before it stands. With `tools` it knows
    the questions of tools too."""

    def __init__(self, design, horizon, made=lambda design: None, tools=False):
        self.questions = {**QUESTIONS, **({**TOOL_QUESTIONS, "diff": (self.diff, name)} if tools else {})}
        self.verbs = {*EDITS, *self.questions, *WHOLE, *OF_HOLDS, "at"}
        self.tools = tools
        self.snapshot = Snapshot(0, replace(design, horizon=horizon))
        self.holds, self.batch, self.ended, self.made = {}, None, False, made

    def replies(self, commands):
        """All that it prints."""
        lines = commands.split(b"\n")
        last = lines.pop()
        return b"".join(self.reply(line) for line in [*lines, *([last] if last else [])])

    def reply(self, line):
        """What it prints for a line, without the line feed."""
        if self.ended:
            return b""
        if len(line) > MAX_LINE:
            return b"no 17 LongLine\n"
        line = line[:-1] if line.endswith(b"\r") else line
        words = line.replace(b"\t", b" ").split(b" ")
        words = [it.decode("latin-1") for it in words if it]
        if not words or words[0].startswith("#"):
            return b""
        is_named = self.tools and words[0] == FAULT
        try:
            lines, snapshot = self.command(Line(words[1:] if is_named else words))
        except Refused as refused:
            word = f" {refused.word}" if is_named and refused.word is not None else ""
            return f"no {refused.code} {CAUSES[refused.code]}{word}\n".encode()
        return "".join(f"{it}\n" for it in [*lines, f"ok {snapshot.version}"]).encode()

    def command(self, line):
        """The lines of a command's reply, and the snapshot that was asked."""
        verb = line.read(verb_of(self.verbs))
        if verb in EDITS and not (verb in self.questions and len(line.left) == 1):
            edit, *forms = EDITS[verb]
            said = line.read_all(forms)
            self.edit(lambda design: edit(design, *said))
        elif verb in self.questions:
            return self.question(verb, line)(self.snapshot), self.snapshot
        elif verb == "at":
            return self.asked_of_held(line)
        else:
            getattr(self, verb)(*line.read_all((name,) if verb in OF_HOLDS else ()))
        return [], self.snapshot

    def question(self, verb, line):
        """What a question with the words of a line gives of a snapshot."""
        ask, *forms = self.questions[verb]
        said = line.read_all(forms)
        return lambda snapshot: ask(snapshot, *said)

    def asked_of_held(self, line):
        word = line.read(name)
        ask = self.question(line.read(verb_of(self.questions)), line)
        held = self.held(word)
        return ask(held), held

    def held(self, word):
        check(word in self.holds, "UnknownHold", word)
        return self.holds[word]

    def diff(self, snapshot, word):
        return diff(snapshot, self.held(word))

    def edit(self, change):
        if self.batch is None:
            self.carry_out([change])
        else:
            check(len(self.batch) < MAX_BATCH, "TooMany")
            self.batch.append(change)

    def carry_out(self, batch):
        design = self.snapshot.design
        for change in batch:
            design = change(design)
        self.made(design)
        self.snapshot = Snapshot(self.snapshot.version + 1, design)

    def begin(self):
        check(self.batch is None, "InBatch")
        self.batch = []

    def commit(self):
        check(self.batch is not None, "NoBatch")
        batch, self.batch = self.batch, None
        self.carry_out(batch)

    def abort(self):
        check(self.batch is not None, "NoBatch")
        self.batch = None

    def quit(self):
        self.ended = True

    def hold(self, word):
        check_new(word, self.holds, MAX_HOLDS)
        self.holds[word] = self.snapshot

    def free(self, word):
        self.held(word)
        del self.holds[word]
