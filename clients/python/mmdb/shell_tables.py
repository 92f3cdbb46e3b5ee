"""Output for people: aligned tables, lines of CSV, and a line with a mark under the place of an error."""

from __future__ import annotations

import csv
import io
import unicodedata
from collections.abc import Iterator, Sequence

from mmdb._library import Row, Value, decoded

# What stands for the parts of a line that the terminal has no room for.
CUT = ".."
LEAST_COLUMNS = 20


def shown_character(character: str) -> str:
    """Returns a character, or an escape if a terminal cannot show it."""
    if character.isprintable() or unicodedata.category(character) == "Zs":
        return character
    code = ord(character)
    if 0xDC80 <= code <= 0xDCFF:
        return f"\\x{code - 0xDC00:02x}"
    return character.encode("unicode_escape").decode("ascii")


def shown(value: Value) -> str:
    """Returns a value as a table shows it: texts without quotes, control characters and broken UTF-8 escaped."""
    text = str(value)
    return text if text.isprintable() else "".join(map(shown_character, text))


def width_of(text: str) -> int:
    """Returns the number of terminal columns of a text."""
    if text.isascii():
        return len(text)
    return sum(
        0 if unicodedata.combining(character) else 2 if unicodedata.east_asian_width(character) in "FW" else 1
        for character in text
    )


def padded(text: str, width: int, to_the_right: bool) -> str:
    """Pads a text to a width; numbers are aligned to the right."""
    blanks = " " * (width - width_of(text))
    return blanks + text if to_the_right else text + blanks


def count_of(number: int, one: str, many: str = "") -> str:
    """Returns a number with a noun in the singular or plural."""
    return f"{number:,} {one if number == 1 else many or one + 's'}"


def aligned(names: Sequence[str], types: Sequence[type], rows: Sequence[Row]) -> Iterator[str]:
    """Yields the lines of a table: the names of its columns, a rule, and a line for each row."""
    cells = [[shown(value) for value in row] for row in rows]
    columns = list(zip(*cells)) or [()] * len(names)
    widths = [max([width_of(name), *map(width_of, column)]) for name, column in zip(names, columns)]
    are_numbers = [its_type is int for its_type in types]
    yield " " + " | ".join(padded(*place) for place in zip(names, widths, are_numbers)).rstrip()
    yield "-" + "-+-".join("-" * width for width in widths) + "-"
    for row in cells:
        yield " " + " | ".join(padded(*place) for place in zip(row, widths, are_numbers)).rstrip()


def literal_row(row: Row) -> str:
    """Returns a row in the form of an INSERT."""
    return "(" + ", ".join(str(value) if isinstance(value, int) else literal_text(value) for value in row) + ")"


def literal_text(text: str) -> str:
    """Returns a text as a literal: in quotes, with each quote in it doubled."""
    return "'" + text.replace("'", "''") + "'"


def csv_lines(rows: Sequence[Sequence[Value]]) -> Iterator[str]:
    """Yields the lines of a CSV file (RFC 4180), each with its line end."""
    line = io.StringIO(newline="")
    writer = csv.writer(line)
    for row in rows:
        writer.writerow(row)
        yield line.getvalue()
        line.seek(0)
        line.truncate()


def marked(line: bytes, place: int, columns: int) -> tuple[str, str]:
    """Returns a line, and a line with a mark under the byte at a place. Both are cut to fewer columns than a width."""
    before, after = (shown(decoded(part).replace("\t", " ")) for part in (line[:place], line[place:]))
    room = max(columns, LEAST_COLUMNS) - 1
    if width_of(before) + width_of(after) > room:
        before = tail(before, room * 2 // 3)
        after = head(after, room - width_of(before))
    return before + after, " " * width_of(before) + "^"


def head(text: str, columns: int) -> str:
    """Returns a text, or its beginning if it is wider than a number of columns."""
    if width_of(text) <= columns:
        return text
    left = text[: columns - len(CUT)]
    while width_of(left) + len(CUT) > columns:
        left = left[:-1]
    return left + CUT


def tail(text: str, columns: int) -> str:
    """Returns a text, or its end if it is wider than a number of columns."""
    if width_of(text) <= columns:
        return text
    left = text[len(text) - columns + len(CUT) :]
    while width_of(left) + len(CUT) > columns:
        left = left[1:]
    return CUT + left
