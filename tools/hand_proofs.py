"""The proofs that were written by hand, step by step: those in the crates have to be those that docs/PROOFS.md lists.

Every other proof follows the code of its function. One by hand may say of a value of no bytes whatever its contract says, so
each is to be known, and no other file may reach into the types that are proved so."""
import os
import re

from workspace import ROOT, fail, folder_of

NAMES = ("Proof.antt", "Send.antt", "Sync.antt")
DOCUMENT = os.path.join("docs", "PROOFS.md")
# What a proof names that reaches into a type: its contracts and its code, by crate, module and type.
INSIDE = re.compile(r"\bRattle\.(\w+)\.(?:specs\.contracts|proofs)\.(\w+)\.(\w+)\b")


def listed():
    with open(os.path.join(ROOT, DOCUMENT), encoding="utf-8") as text:
        paths = re.findall(r"`(crates/[^`\s]+)`", text.read())
    return {path for path in paths if os.path.basename(path) in NAMES}


def found():
    paths = set()
    for folder, inside, files in os.walk(folder_of("")):
        inside[:] = [it for it in inside if it != "out"]
        paths |= {os.path.relpath(os.path.join(folder, it), ROOT) for it in files if it in NAMES}
    return paths


def inside(path):
    """The types that a file reaches into, as they stand in the path of a proof."""
    with open(os.path.join(ROOT, path), encoding="utf-8") as text:
        return {"/".join(("crates", crate, "proofs", module, kind, "")) for crate, module, kind in INSIDE.findall(text.read())}


def reaching(known):
    """The other files that reach into a type which is proved by hand."""
    kinds = {path.rpartition("/")[0].rpartition("/")[0] + "/" for path in known}
    paths = []
    for folder, inner, files in os.walk(folder_of("")):
        inner[:] = [it for it in inner if it != "out"]
        paths += [os.path.relpath(os.path.join(folder, it), ROOT) for it in files if it.endswith(".antt")]
    return {path for path in paths if path not in known and inside(path) & kinds}


def check():
    there, known = found(), listed()
    wrong = [f"  {it} is there, and {DOCUMENT} does not list it" for it in sorted(there - known)]
    wrong += [f"  {it} is listed in {DOCUMENT}, and is not there" for it in sorted(known - there)]
    wrong += [f"  {it} reaches into a type that is proved by hand" for it in sorted(reaching(known))]
    if wrong:
        fail("\n".join(["the proofs by hand are not those that are listed:", *wrong]))
