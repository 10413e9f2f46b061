"""The definitions of specs/ and the contracts of functions, read from the sources, and what rests on what.

A definition is one word of a file of crates/NAME/specs/ or its folder kept/, with the lines that say what it is and the comment
above them. A word is looked for in the definitions of its own file and in what the file imports; other words are bound in the line.
A file is called as in the folder specs/: `Keys`, or `kept/Keys`."""
import os
import re

from workspace import ROOT, crates, folder_of

# Where a definition's lines begin: perhaps words of the language, then its name, then a colon or an argument.
HEAD = re.compile(r"^(?:(?:abbrev|unfoldable|pub|record|data|opaque)\s+)*([^\s:({]+)\s*(?=[:({])")
IMPORT = re.compile(r"\buse\s+Rattle\.([\w.]+?)(?:\.\{([^}]*)\}|\s+as\s+(\w+))?\s*;?\s*(?:--.*)?$")
WORD = re.compile(r"[^\s(){}\[\];,\\λ→×:|=]+")
# Two dashes within a text in quotes begin no comment.
COMMENT = re.compile(r"(?:^|\s)--(?:\s.*)?$")
# The folder of specs/ for definitions that proofs alone need.
KEPT = "kept"


# A line of a definition of data that says a value of it.
VARIANT = re.compile(r"^\s+([^\s:({]+)\s*:")


class Definition:
    """A word, the comment above it, and its lines; a module's arguments count as part of no definition."""

    def __init__(self, crate, file, name, line, comment, lines):
        self.crate, self.file, self.name, self.line = crate, file, name, line
        self.comment, self.lines = comment, lines

    def key(self):
        return self.crate, self.file, self.name

    def is_kept(self):
        """Whether it stands among those that proofs alone need."""
        return self.file.startswith(KEPT + "/")

    def text(self):
        return "\n".join(COMMENT.sub("", it) for it in self.lines)

    def place(self):
        return f"crates/{self.crate}/specs/{self.file}.antt:{self.line}"

    def variants(self):
        """The values that a definition of data gives names to."""
        if not re.match(r"^\s*(pub )?data\b", self.lines[0]):
            return []
        return [it.group(1) for it in map(VARIANT.match, self.lines[1:]) if it]


class Imports:
    """The words that a file takes from elsewhere: by name, or behind the name of a module."""

    def __init__(self):
        self.words, self.modules = {}, {}
        # What the file says of itself at its beginning.
        self.head = ""

    def read(self, line):
        """Takes an import in; whether the line is one."""
        found = IMPORT.search(line)
        if not found:
            return False
        module, words, alias = found.groups()
        if alias:
            self.modules[alias] = module
        for word in (words or "").split(","):
            if word.strip():
                self.words[word.strip()] = module
        return True

    def find(self, word):
        """The module and the name behind a word, if it is imported."""
        if word in self.words:
            return self.words[word], word
        head, _, rest = word.partition(".")
        if head in self.modules and rest:
            return self.modules[head], rest.split(".")[0]
        if head in self.words and rest:
            return self.words[head], head
        return None


def blocks(lines):
    """The groups of lines between blank ones, each with the number of its first line."""
    at, group = 0, []
    for number, line in enumerate(lines, 1):
        if line.strip():
            at = at if group else number
            group.append(line)
        elif group:
            yield at, group
            group = []
    if group:
        yield at, group


def head_of(lines):
    """The comment at the beginning of a file, up to its first line without words."""
    found = []
    for line in lines:
        words = line[2:].strip()
        if not line.startswith("--") or not words:
            break
        found.append(words)
    return " ".join(found)


def read_definitions(crate, file, text):
    """The definitions of a file and what it imports."""
    imports, found = Imports(), []
    imports.head = head_of(text.split("\n"))
    for at, group in blocks(text.split("\n")):
        rest = [(at + i, line) for i, line in enumerate(group) if not imports.read(line)]
        comment = [line.strip()[2:].strip() for _, line in rest if line.strip().startswith("--")]
        body = [(number, line) for number, line in rest if not line.strip().startswith("--")]
        body = [(number, line) for number, line in body if not re.match(r"^\s*(module|(pub )?mod) ", line)]
        if not body:
            continue
        head = HEAD.match(body[0][1].strip())
        if head:
            found.append(Definition(crate, file, head.group(1), body[0][0], " ".join(comment), [line for _, line in body]))
    return found, imports


def file_of(parts):
    """The file that a module is or is part of, by what stands behind `specs` in its path."""
    return "/".join(parts[:2]) if parts[0] == KEPT else parts[0]


class Sources:
    """All definitions of the repository, and of each what it rests on."""

    def __init__(self):
        self.definitions, self.variants, self.imports = {}, {}, {}
        for crate in crates():
            top = os.path.join(folder_of(crate), "specs")
            for inside in ("", KEPT):
                folder = os.path.join(top, inside)
                for name in sorted(os.listdir(folder)) if os.path.isdir(folder) else []:
                    if name.endswith(".antt"):
                        self.read(crate, top, os.path.join(inside, name[: -len(".antt")]))

    def read(self, crate, folder, file):
        with open(os.path.join(folder, file + ".antt"), encoding="utf-8") as text:
            found, self.imports[crate, file] = read_definitions(crate, file, text.read())
        for it in found:
            self.definitions[it.key()] = it
            for variant in it.variants():
                self.variants[crate, file, variant] = it

    def resolve(self, module, name):
        """The definition of a word of a module, or nothing where it is of the library, or a type of the code."""
        parts = module.split(".")
        if len(parts) < 3 or parts[1] != "specs" or parts[2] == "declared":
            return None
        key = parts[0], file_of(parts[2:]), name
        handed_on = self.imports[key[:2]].find(name) if key[:2] in self.imports else None
        return self.definitions.get(key) or self.variants.get(key) or (self.resolve(*handed_on) if handed_on else None)

    def below(self, it):
        """The definitions that one names, in the order of its words."""
        return self.named(it.text(), self.imports[it.crate, it.file], (it.crate, it.file))

    def named(self, text, imports, own=None):
        """The definitions that a text names."""
        found = []
        for word in WORD.findall(text):
            there = imports.find(word)
            key = (*own, word.split(".")[0]) if own else None
            it = self.resolve(*there) if there else self.definitions.get(key) or self.variants.get(key)
            if it and it not in found:
                found.append(it)
        return found

    def borrowed(self, definitions):
        """What definitions name that is none: words of the library, and words of the code with their modules."""
        library, code = set(), {}
        for it in definitions:
            imports = self.imports[it.crate, it.file]
            for module, name in filter(None, map(imports.find, WORD.findall(it.text()))):
                parts = module.split(".")
                if parts[0] == "std":
                    library.add(name)
                elif parts[1:3] == ["specs", "declared"]:
                    code.setdefault(parts[0], {}).setdefault(".".join(parts[3:]), set()).add(name)
        return library, code

    def closure(self, seeds):
        """All that these definitions rest on with them, what is rested on first."""
        order, seen = [], set()

        def walk(it):
            if it.key() in seen:
                return
            seen.add(it.key())
            for other in self.below(it):
                walk(other)
            order.append(it)

        for it in seeds:
            walk(it)
        return order


class Contract:
    """The clauses of one function, and what its file imports."""

    def __init__(self, call, file, line, clauses, imports, seen_as):
        self.call, self.file, self.line, self.clauses, self.imports = call, file, line, clauses, imports
        # What its type is seen as: the words of its `Value`.
        self.seen_as = seen_as


def clauses_of(lines, at):
    """The requires and the ensures below the head of a function, with the lines that go on."""
    found = []
    for line in lines[at:]:
        if re.match(r"^\s*\{\s*$|^\s*\{.*\}\s*$", line) and found:
            break
        # A call of a trait has no body.
        if line.rstrip().endswith("};"):
            last = line.strip().rstrip(";")
            found = [*found, last] if re.match(r"^(requires|ensures)\b", last) else [*found[:-1], found[-1] + " " + last]
            break
        if re.match(r"^\s*(requires|ensures)\b", line):
            found.append(line.strip())
        elif found and line.strip() and not line.strip().startswith("//"):
            found[-1] += " " + line.strip()
        if line.rstrip() in ("{", "    {"):
            break
    return found


def contract_of(call):
    """The contract of crate::function, crate::module::function, crate::Type::function or crate::Trait::function."""
    parts = call.split("::")
    crate, name = parts[0], parts[-1]
    owner = parts[1] if len(parts) == 3 and parts[1][0].isupper() else None
    folder = os.path.join(folder_of(crate), "src")
    for at, _, files in sorted(os.walk(folder)):
        for file in sorted(files):
            if not file.endswith(".rt"):
                continue
            path = os.path.join(at, file)
            with open(path, encoding="utf-8") as text:
                lines = text.read().split("\n")
            found = function_in(lines, name, owner)
            if found is not None:
                imports = Imports()
                for line in lines:
                    imports.read(line)
                return Contract(call, os.path.relpath(path, ROOT), found + 1, clauses_of(lines, found), imports, value_of(lines, owner))
    raise SystemExit(f"believe: no public function {call}")


def function_in(lines, name, owner):
    """The line of the head of a public function, in the block of its type where it has one."""
    inside, head = owner is None, "pub fn"
    for number, line in enumerate(lines):
        if owner and re.match(r"^(impl|pub trait)\b", line):
            inside = " for " not in line and re.search(rf"\b{owner}\b", line) is not None
            head = "pub fn" if line.startswith("impl") else "fn"
        if inside and re.match(rf"^\s*{head} {name}\b", line) and (owner is None) == (not line.startswith(" ")):
            return number
    return None


def answer_of(kind):
    """The line that says the answer of a stepper, crate::Type, with its file."""
    crate, name = kind.split("::")
    folder = os.path.join(folder_of(crate), "src")
    for file in sorted(os.listdir(folder)):
        with open(os.path.join(folder, file), encoding="utf-8") as text:
            found = re.search(rf"^impl\b[^\n]*\bStepper for {name}\b.*?^    (ghost answer = .*?;)", text.read(), re.S | re.M)
        if found:
            return os.path.relpath(os.path.join(folder, file), ROOT), found.group(1)
    raise SystemExit(f"believe: no stepper {kind}")


def constant_of(crate, module, name):
    """The number that the code gives a constant, as it is written."""
    path = os.path.join(folder_of(crate), "src", *module.split(".")[:-1]) + ".rt"
    with open(path, encoding="utf-8") as text:
        return re.search(rf"^pub const {name}: \w+ = (.*?);", text.read(), re.M).group(1)


def is_pinned(crate, name):
    """Whether a law of its crate says which number a constant of the code is."""
    path = os.path.join(folder_of(crate), "src", "laws.rt")
    with open(path, encoding="utf-8") as text:
        return re.search(rf"\bensures\b[^\n]*\{{ {name} ≡ \d+ \}}", text.read()) is not None


def value_of(lines, owner):
    """What a type is seen as in contracts."""
    head = rf"^impl\b[^{{]*\bModel\s+for {owner}\b.*\n"
    found = re.search(head + r"(?:(?!\}).*\n)*?\s*ghost Value = \{(.*)\};", "\n".join(lines), re.M)
    return found.group(1).strip() if owner and found else ""
