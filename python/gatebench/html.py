"""What notebooks show of sessions and differences, as HTML."""
from typing import Sequence
from xml.sax.saxutils import escape


def table(head: Sequence[str], rows: Sequence[Sequence[str]]) -> str:
    """A table with a head."""
    lines = [row_of("th", head), *(row_of("td", it) for it in rows)]
    return "<table>" + "".join(lines) + "</table>"


def row_of(tag: str, cells: Sequence[str]) -> str:
    return "<tr>" + "".join(f"<{tag}>{escape(it)}</{tag}>" for it in cells) + "</tr>"


def line(text: str) -> str:
    return f"<p>{escape(text)}</p>"
