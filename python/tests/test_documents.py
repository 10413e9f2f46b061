"""The scripts and the commands of the documents, with what they say is printed, their links, and the limit that they name."""
import os
import re
import subprocess
import sys
import unittest
from typing import Iterator, List, Set

from gatebench import causes, limits

from .support import INVERTER, ROOT, WithFolder


SCRIPTS = "docs/scripts.md"


def text_of(name: str) -> str:
    with open(os.path.join(ROOT, name), encoding="utf-8") as file:
        return file.read()


def blocks(name: str) -> List[str]:
    """The indented blocks of a document, without their indentation."""
    found = re.findall(r"(?:^    .*\n(?:\n+(?=    ))?)+", text_of(name), re.M)
    return [re.sub("^    ", "", it, flags=re.M) for it in found]


# Folders with what was made here: by checks, and by the lines of docs/scripts.md for an installation.
MADE = ("out", "environment")


def documents() -> Iterator[str]:
    """Each page of the repository, by its path from the root."""
    for folder, inside, files in os.walk(ROOT):
        inside[:] = [it for it in inside if it not in MADE and not it.startswith(".")]
        yield from (os.path.relpath(os.path.join(folder, it), ROOT) for it in files if it.endswith(".md"))


def section(head: str, name: str = "docs/PROOFS.md") -> str:
    """What stands under a heading of a document."""
    return text_of(name).split(f"\n## {head}\n")[1].split("\n## ")[0]


def without_code(name: str) -> str:
    """A page without its blocks of code and what stands in backticks: links are not meant there."""
    text = re.sub(r"^(```|~~~).*?^\1.*?$", "", text_of(name), flags=re.M | re.S)
    return re.sub(r"`[^`\n]*`", "", re.sub(r"^    .*$", "", text, flags=re.M))


def links(name: str) -> List[str]:
    """Where the links and pictures of a page lead, but for those to other machines."""
    found = re.findall(r"\]\(\s*([^)\s]+)\s*\)", without_code(name))
    return [it for it in found if not re.match("[a-z]+:", it)]


def anchors(name: str) -> Set[str]:
    """What a link may name within a page: each heading, as the pages of a repository are shown."""
    heads = re.findall(r"^#+ +(.+?) *$", re.sub(r"^(```|~~~).*?^\1.*?$", "", text_of(name), flags=re.M | re.S), re.M)
    slugs: List[str] = []
    for head in heads:
        words = re.sub(r"\[([^]]*)\]\([^)]*\)", r"\1", head)
        slug = re.sub(r"[^\w\- ]", "", words.lower()).replace(" ", "-")
        again = sum(1 for it in slugs if re.fullmatch(re.escape(slug) + r"(-\d+)?", it))
        slugs.append(f"{slug}-{again}" if again else slug)
    return set(slugs)


def broken(name: str) -> List[str]:
    """The links of a page that lead nowhere."""
    wrong = []
    for link in links(name):
        path, _, anchor = link.partition("#")
        target = os.path.normpath(os.path.join(os.path.dirname(name), path)) if path else name
        there = os.path.exists(os.path.join(ROOT, target))
        if not there or anchor and anchor not in anchors(target):
            wrong.append(f"{name}: {link}")
    return wrong


class Links(unittest.TestCase):
    def test_each_link_leads_somewhere(self) -> None:
        pages = list(documents())
        self.assertIn("README.md", pages)
        self.assertEqual([it for page in pages for it in broken(page)], [])

    def test_each_document_is_reached_from_the_readme(self) -> None:
        reached, left = set(), ["README.md"]
        while left:
            page = left.pop()
            if page in reached or not page.endswith(".md") or not os.path.exists(os.path.join(ROOT, page)):
                continue
            reached.add(page)
            targets = [it.partition("#")[0] for it in links(page)]
            left += [os.path.normpath(os.path.join(os.path.dirname(page), it)) for it in targets if it]
        pages = [it for it in documents() if it == "README.md" or it.startswith("docs" + os.sep)]
        self.assertEqual(sorted(set(pages) - reached), [])


class Crates(unittest.TestCase):
    """What the documents say of the crates is complete."""

    def setUp(self) -> None:
        lines = re.findall(r"^(\w+)([^:\n]*):(.*)$", re.sub("#.*", "", text_of("crates.txt")), re.M)
        self.crates = {name: (settings, libraries.split()) for name, settings, libraries in lines}

    def test_each_crate_is_on_the_map(self) -> None:
        first = re.findall(r"^\| (`[^|]+`) \|", section("The crates", "docs/ARCHITECTURE.md"), re.M)
        self.assertEqual(sorted(re.findall(r"`(\w+)`", " ".join(first))), sorted(self.crates))

    def test_each_library_of_others_is_named_as_trusted(self) -> None:
        used = {it for _, libraries in self.crates.values() for it in libraries if it not in self.crates}
        self.assertGreater(len(used), 10)
        self.assertEqual(used - set(re.findall(r"`(\w+)`", section("Trusted"))), set())

    def test_each_crate_that_may_wait_is_named(self) -> None:
        waiting = {name for name, (settings, _) in self.crates.items() if "may_wait" in settings}
        self.assertEqual(set(re.findall(r"^\| `(\w+)` \|", section("Each call returns"), re.M)), waiting)


class Decisions(unittest.TestCase):
    """docs/DECISIONS.md has each number once, in order within its subject, and names those that stand."""

    def test_numbers_go_on_within_each_subject(self) -> None:
        head, *subjects = text_of("docs/DECISIONS.md").split("\n## ")
        ranges = re.findall(r"^\| \[(.+)\]\(.+\) \| (\d+) to (\d+) \|$", head, re.M)
        self.assertEqual([name for name, _, _ in ranges], [it.partition("\n")[0] for it in subjects[:-1]])
        for (name, first, last), subject in zip(ranges, subjects):
            numbers = [int(it) for it in re.findall(r"^(\d+)\. ", subject, re.M)]
            self.assertEqual(numbers, list(range(int(first), int(last) + 1)), name)

    def test_what_took_the_place_of_another_stands(self) -> None:
        *subjects, replaced = text_of("docs/DECISIONS.md").split("\n## ")
        standing = set(re.findall(r"^(\d+)\. ", "\n".join(subjects), re.M))
        named = re.findall(r"replaced by\s+(\d+)\.$", replaced, re.M)
        self.assertGreater(len(named), 10)
        self.assertEqual(set(named) - standing, set())


class Documents(WithFolder):
    def printed(self, *words: str, cwd: str = ROOT) -> str:
        environment = {**os.environ, "PYTHONPATH": os.path.join(ROOT, "python"), "PYTHONIOENCODING": "utf-8"}
        ran = subprocess.run(
            [sys.executable, *words], cwd=cwd, env=environment, capture_output=True, encoding="utf-8", timeout=60
        )
        self.assertEqual(ran.stderr, "")
        return ran.stdout

    def scripts_of(self, name: str) -> int:
        """Runs each Python script of a document. The block behind it is what it prints. How many there are."""
        found = blocks(name)
        pairs = [(script, after) for script, after in zip(found, found[1:]) if script.startswith("from gatebench")]
        for script, after in pairs:
            self.assertEqual(self.printed("-c", script), after)
        return len(pairs)

    def test_the_script_of_the_readme(self) -> None:
        self.assertEqual(self.scripts_of("README.md"), 1)

    def test_the_scripts_of_their_page(self) -> None:
        self.assertEqual(self.scripts_of(SCRIPTS), 6)

    def test_the_failures_of_a_check(self) -> None:
        found = blocks(SCRIPTS)
        [at] = [it for it, block in enumerate(found) if block.startswith("design m.v")]
        self.write("m.v", INVERTER)
        self.write("commands", found[at])
        self.assertEqual(self.printed("-m", "gatebench", "check", "commands", cwd=self.folder), found[at + 1])

    def test_the_causes_of_refusals_are_those_of_the_guide(self) -> None:
        commands = text_of("docs/commands.md")
        codes = {int(code): (name, means) for code, name, means in re.findall(r"^\| (\d+) \| ([A-Z]\w+) \| (.*) \|$", commands, re.M)}
        self.assertEqual(codes, causes.COMMANDS)
        forms = re.findall(r"^\| `([a-z][^`]*)` \| [^|]* \|$", commands.split("\n## ")[0], re.M)
        self.assertEqual(sorted(forms), sorted(causes.EDITS_AND_MORE + causes.QUESTIONS))
        of_tools = section("Questions of tools", "docs/SPEC.md")
        tools = re.findall(r"^\| `([a-z][^`]*)` \|[^|]*\|[^|]*\|$", of_tools, re.M)
        self.assertEqual(sorted({*tools} - {"gate G"}), sorted((*causes.OF_TOOLS, "fault LINE")))
        shown = re.findall(r"^\| `([a-z][^`]*)` \|[^|]*\|[^|]*\|$", text_of("docs/tool-questions.md"), re.M)
        self.assertEqual({*shown} - {*tools, "at K LINE"}, set())
        rows = re.findall(r"^\| `(\d+) (\w+)` \| (.*) \| (.*) \|$", text_of("docs/does-not-load.md"), re.M)
        self.assertEqual([(int(code), *rest) for code, *rest in rows], [tuple(it) for it in causes.TEXTS])
        cures = re.findall(r"^\| (`[^`].*?`|`` .*? ``) \| `(\d+) (\w+)` \| (.*) \|$", text_of("docs/does-not-load.md"), re.M)
        self.assertEqual([(text, int(code), *rest) for text, code, *rest in cures], [tuple(it)[:4] for it in causes.CURES])

    def test_a_drawing_and_a_campaign(self) -> None:
        for task in ("draw", "faults"):
            found = blocks(SCRIPTS)
            [at] = [it for it, block in enumerate(found) if f"-m gatebench {task} docs" in block]
            words = found[at].replace("\\\n", "").split()
            self.assertEqual(words[:2], ["PYTHONPATH=python", "python3"])
            self.assertEqual(self.printed(*words[2:]), found[at + 1])

    def test_the_keys_of_the_page(self) -> None:
        keys = re.findall(r'^  \["(.)", ', text_of("python/gatebench/viewing/page/keys.js"), re.M)
        self.assertGreater(len(keys), 20)
        table = section("Keys", "docs/view.md")
        self.assertEqual([it for it in keys if f"`{it}`" not in table], [])

    def test_a_check(self) -> None:
        [block] = [it for it in blocks(SCRIPTS) if it.startswith("PYTHONPATH") and "check" in it]
        self.assertTrue(self.printed(*block.split()[2:]).endswith("failures: 0\n"))

    def test_the_last_moment_is_that_of_the_code(self) -> None:
        [digits] = re.findall(r"MAX_TIME: u64 = ([0-9_]+);", text_of("crates/fourstate/src/limits.rt"))
        last = int(digits.replace("_", ""))
        named = {
            "README.md": (f"{last:,}", 1),
            "crates/app/src/help.rt": (f"{last}", 1),
            "docs/GLOSSARY.md": (f"{last:,}", 1),
            "docs/running.md": (f"{last}", 1),
            "docs/commands.md": (f"{last}", 1),
            "docs/SPEC.md": (f"{last:,}", 2),
            "tests/slow_inputs.py": (f"{last:_}", 1),
            "python/gatebench/limits.py": (f"{last:_}", 1),
            "python/gatebench/causes.py": (f"{last}", 1),
        }
        for name, (number, times) in named.items():
            self.assertEqual(len(re.findall(rf"\b{number}\b", text_of(name))), times, name)

    def test_the_package_has_the_limits_of_the_specification(self) -> None:
        spec = text_of("docs/SPEC.md")
        for name, limit in vars(limits).items():
            if name.startswith("MOST_"):
                self.assertIn(f"{limit:,}", spec, name)
