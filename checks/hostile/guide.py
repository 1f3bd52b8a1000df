"""The lists of docs/GUIDE.md that the trials read: statuses, what a refusal means, and limits."""

import re

from .running import TOP

GUIDE = TOP / "docs" / "GUIDE.md"
LIMITS = TOP / "docs" / "LIMITS.md"
DEFINITION = re.compile(r"\[(\w+)\]\(\.\./([\w/.]+)\)")


def rows(title):
    """Returns the cells of each row of the tables below a title of the guide."""
    return rows_of(GUIDE.read_text(encoding="utf-8").partition(f"\n## {title}\n")[2].partition("\n## ")[0])


def rows_of(text):
    """Returns the cells of each row of the tables in a text, without the heads of tables."""
    lines = text.splitlines()
    found = []
    for at, line in enumerate(lines):
        if line.startswith("| ") and not (at + 1 < len(lines) and lines[at + 1].startswith("|---")):
            found.append([cell.strip() for cell in line.strip("|").split(" | ")])
    return found


def limits():
    """Returns each limit by its name: its number, and what one more gets."""
    found = {}
    for name, number, told in rows("Limits"):
        if name in found:
            raise ValueError(f"docs/GUIDE.md has two limits {name}")
        found[name] = (int(number.replace(",", "")), told.replace("`", ""))
    return found


def definitions():
    """Returns each limit of docs/LIMITS.md by its name: its definition, and the text of the file in which that stands."""
    found = {}
    for name, definition, *_ in rows_of(LIMITS.read_text(encoding="utf-8").partition("\n## ")[0]):
        word, path = DEFINITION.fullmatch(definition).groups()
        found[name] = word, (TOP / path).read_text(encoding="utf-8")
    return found


def statuses():
    """Returns what is said on standard error with each status, as an expression of what may be said."""
    found = {}
    for status, _, said in rows("How a command ends"):
        text = said.strip("`") if said.startswith("`") else ""
        words = {"N": r"\d+", "M": r"\d+", "L": r"\d+", "PATH": r"/[^\n]*", "LINE": r"\d+", "KIND": "[A-Za-z0-9]+", "..": ".*"}
        pattern = re.sub(r"\b(?:N|M|L|PATH|LINE|KIND)\b|\\\.\\\.", lambda it: words[it[0].replace("\\", "")], re.escape(text))
        found[int(status)] = re.compile(f"{pattern}\n" if text else "")
    return found


def kinds():
    """Returns the kinds of faults that a site may have."""
    return {kind.strip("`") for cells in rows("What a refusal means") for kind in cells[0].split(", ")}


def kinds_of_program():
    """Returns the kinds of faults that the program knows; `NotYet` is one that no site has."""
    text = (TOP / "crates" / "vb_value" / "src" / "site_file.rt").read_text(encoding="utf-8")
    text = text.partition("pub enum FaultKind {")[2].partition("\n}")[0]
    return set(re.findall(r"^    (\w+),", text, re.MULTILINE)) - {"NotYet"}
