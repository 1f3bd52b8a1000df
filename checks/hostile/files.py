"""Sites at each limit of files, by the numbers of the guide."""

from .rows import Accepted, Refused, Row


def chains(most):
    def of(count):
        files = {"/p.asp": '<!-- #include file="1.inc" -->'}
        for number in range(1, count):
            files[f"/{number}.inc"] = f'<!-- #include file="{number + 1}.inc" -->'
        return {**files, f"/{count}.inc": "x"}

    return [
        Row("a chain of includes", of(most), "x", True),
        Refused("a chain of includes, one more", of(most + 1), f"/{most}.inc:1: Depth"),
    ]


def sizes(most):
    return [
        Row("a page", {"/p.asp": b"x" * most}, "x" * most),
        Refused("a page, one more", {"/p.asp": b"x" * (most + 1)}, "/p.asp:0: TooLarge"),
    ]


def sites(most):
    full = {f"/{number:02}.css": b"x" * (most // 16) for number in range(16)}
    return [
        Accepted("a site", full, 0, 16),
        Refused("a site, one more", {**full, "/z.css": b"x"}, "/z.css:0: TooLarge"),
    ]


def counts(most):
    full = {f"/{number:04}.css": b"" for number in range(most)}
    return [
        Accepted("files", full, 0, most),
        Refused("files, one more", {**full, f"/{most:04}.css": b""}, f"/{most:04}.css:0: TooLarge"),
    ]


TRIALS = {
    "files in a chain of includes": [chains],
    "bytes of a file": [sizes],
    "bytes of a site": [sites],
    "files of a site": [counts],
}
