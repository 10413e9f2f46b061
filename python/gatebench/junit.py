"""The reports of checked files as JUnit XML, which CI systems read."""
import re
import xml.etree.ElementTree as ElementTree
from typing import Sequence

from .check import Report

# What XML can't hold, not even escaped.
FORBIDDEN = re.compile("[^\t\n\r -\ud7ff\ue000-\ufffd\U00010000-\U0010ffff]")


def clean(text: str) -> str:
    return FORBIDDEN.sub("?", text)


def junit_of(reports: Sequence[Report]) -> bytes:
    """One suite for each file, one case for each expectation and each command that failed."""
    top = ElementTree.Element("testsuites")
    for report in reports:
        top.append(suite_of(report))
    text: bytes = ElementTree.tostring(top, encoding="utf-8", xml_declaration=True)
    return text + b"\n"


def suite_of(report: Report) -> ElementTree.Element:
    failed = sum(it.failure is not None for it in report.cases)
    # A file that expects nothing, or could not be run, counts as one case.
    is_one = report.error is not None or not report.cases
    suite = ElementTree.Element(
        "testsuite",
        name=clean(report.path),
        tests=str(len(report.cases) + is_one),
        failures=str(failed),
        errors=str(int(report.error is not None)),
        time=f"{report.seconds:.3f}",
    )
    for number, text, failure in report.cases:
        case = add_case(suite, report, f"line {number}: {text.strip()}", number)
        if failure is not None:
            note(case, "failure", f"{report.path}:{failure.number}: {failure.message}", failure.message)
    if is_one:
        case = add_case(suite, report, "the file", report.error.number if report.error is not None else 0)
        if report.error is not None:
            note(case, "error", f"{report.path}:{report.error.number}: {report.error.message}", report.error.message)
    return suite


def add_case(suite: ElementTree.Element, report: Report, name: str, number: int) -> ElementTree.Element:
    """A case of the line with this number; 0 is the file as a whole."""
    path = clean(report.path)
    return ElementTree.SubElement(suite, "testcase", classname=path, name=clean(name), file=path, line=str(max(1, number)))


def note(case: ElementTree.Element, tag: str, text: str, message: str) -> None:
    ElementTree.SubElement(case, tag, message=clean(message)).text = clean(text)
