"""What a trial of a limit is: pages, each with the body of its answer, and sites that are refused."""

from typing import NamedTuple

ERRORS = {14: "Out of string space", 28: "Out of stack space"}


class Row(NamedTuple):
    """A site and what `get` of its page gives. One that nests deep is also run with little stack, by workers."""

    what: str
    files: dict
    wanted: str
    is_deep: bool = False
    # what one more of the row before is
    is_more: bool = False


class Refused(NamedTuple):
    """A site that is refused, and the line that says so."""

    what: str
    files: dict
    said: str


class Accepted(NamedTuple):
    """A site that is accepted, and how many pages and files it has."""

    what: str
    files: dict
    pages: int
    statics: int


def site(text):
    """Returns the files of a site of one page."""
    return {"/p.asp": text}


def limit(kind, line=1):
    """Returns the body of an answer of which a limit is told."""
    return f"Active Server Pages limit '{kind}'\n/p.asp, line {line}\n"


def error(number, line=1):
    """Returns the body of an answer of which an error is told."""
    return f"Microsoft VBScript runtime error '800a{number:04x}'\n{ERRORS[number]}\n/p.asp, line {line}\n"


def both(what, at, wanted, more, told, is_deep=False):
    """Returns the rows of a page at a limit, and of the page with one more."""
    return [Row(what, site(at), wanted, is_deep), Row(f"{what}, one more", site(more), told, is_deep, True)]


def refused(what, at, wanted, more, line, kind, is_deep=False):
    """Returns the rows of a page at a limit, and of the page with one more, which is refused."""
    return [Row(what, site(at), wanted, is_deep), Refused(f"{what}, one more", site(more), f"/p.asp:{line}: {kind}")]
