"""The results of a campaign in a file that can be gone on with, as JSON and as CSV."""
import csv
import hashlib
import json
import os
from typing import IO, Any, Dict, List, NamedTuple, Optional, Sequence

from ..errors import GatebenchError
from .judge import Verdict
from .what_if import WhatIf

COLUMNS = ("name", "module", "status", "time", "net", "note")
# What a line of a result has at least.
ROW = {"place", *Verdict._fields}


class OtherResults(GatebenchError):
    """A file of results is not one that can be gone on with."""


class Campaign(NamedTuple):
    """What-ifs with a title. `about` has all else that their verdicts hang on, as text."""

    kind: str
    title: str
    what_ifs: Sequence[WhatIf]
    about: str

    def head(self) -> Dict[str, Any]:
        """What a file of results says of its campaign, with a sum over all that the verdicts hang on."""
        whole = repr((self.about, [tuple(it) for it in self.what_ifs]))
        sum_ = hashlib.sha256(whole.encode("utf-8", "surrogateescape")).hexdigest()
        return {"campaign": self.kind, "design": self.title, "count": len(self.what_ifs), "sha256": sum_}

    def row(self, place: int, verdict: Verdict) -> Dict[str, Any]:
        what_if = self.what_ifs[place]
        return {"name": what_if.name, "module": what_if.module, **verdict._asdict()}


class Journal:
    """A file that has a line of JSON for each what-if that is done, behind one for the campaign.

    While the campaign runs, lines come as they come; at its end they stand in the order of the what-ifs."""

    def __init__(self, path: str, campaign: Campaign, goes_on: bool) -> None:
        self.path, self.campaign = path, campaign
        self.done: Dict[int, Verdict] = {}
        lines = lines_of(path)
        if lines and not goes_on:
            count = lines[0]["count"]
            if len(lines) <= count:
                raise OtherResults(f"{path} has {len(lines) - 1} of {count} results: --resume goes on with it, or take it away")
        if goes_on and lines:
            if lines[0] != campaign.head():
                raise OtherResults(f"{path} is of another campaign: take it away, or name another file")
            for it in lines[1:]:
                self.done[it["place"]] = Verdict(*(it[name] for name in Verdict._fields))
        self.write_all()
        self.file: IO[str] = open(path, "a", encoding="utf-8", newline="\n")

    def add(self, place: int, verdict: Verdict) -> None:
        self.done[place] = verdict
        self.file.write(self.line(place))
        self.file.flush()

    def line(self, place: int) -> str:
        return json.dumps({"place": place, **self.campaign.row(place, self.done[place])}) + "\n"

    def write_all(self) -> None:
        """Writes the file anew, all that is done in order; it is whole at each moment."""
        with open(f"{self.path}.new", "w", encoding="utf-8", newline="\n") as file:
            file.write(json.dumps(self.campaign.head()) + "\n")
            file.writelines(self.line(place) for place in sorted(self.done))
        os.replace(f"{self.path}.new", self.path)

    def close(self) -> None:
        """Ends the file, in the order of the what-ifs."""
        self.file.close()
        self.write_all()


def lines_of(path: str) -> List[Dict[str, Any]]:
    """What the whole lines of a file say; a last one that was cut off is left out. Nothing where there is no file."""
    try:
        with open(path, encoding="utf-8") as file:
            whole, _, _ = file.read().rpartition("\n")
    except FileNotFoundError:
        return []
    try:
        found = [json.loads(it) for it in whole.splitlines()]
        if all(isinstance(it, dict) and fields <= set(it) for it, fields in zip(found, [{"count"}, *[ROW] * len(found)])):
            return found
        raise ValueError("a line is none of results")
    except ValueError:
        raise OtherResults(f"{path} has no results: take it away, or name another file") from None


def write_csv(path: str, campaign: Campaign, verdicts: Sequence[Verdict]) -> None:
    with open(path, "w", encoding="utf-8", newline="") as file:
        writer = csv.DictWriter(file, COLUMNS, lineterminator="\n")
        writer.writeheader()
        writer.writerows(campaign.row(place, it) for place, it in enumerate(verdicts))


def write_json(path: str, campaign: Campaign, verdicts: Sequence[Verdict], modules: Optional[List[Dict[str, Any]]]) -> None:
    document = {**campaign.head(), "modules": modules, "results": [campaign.row(*it) for it in enumerate(verdicts)]}
    with open(path, "w", encoding="utf-8", newline="\n") as file:
        json.dump(document, file, indent=1)
        file.write("\n")
