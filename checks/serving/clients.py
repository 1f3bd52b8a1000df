"""A client over a socket, and the answers that it is to get, by RFC 9112 and the order of fields in answers of this host.

Of an answer that comes, a date of this minute is put down as `*`, and so are the sixteen random letters of a session
cookie: the eight before them tell the number of its key.
"""

import email.utils
import re
import select
import socket
import struct
import time

HTML = "Content-Type: text/html; Charset=utf-8"
PLAIN = "Content-Type: text/plain"
PRIVATE = "Cache-control: private"
FORM = "Content-Type: application/x-www-form-urlencoded"
# The fields that may not be told of an answer before it comes.
DATE = re.compile(rb"(?<=\r\nDate: )[A-Z][a-z]{2}, \d\d [A-Z][a-z]{2} \d{4} \d\d:\d\d:\d\d GMT(?=\r\n)")
LETTERS = re.compile(rb"(?<=\r\nSet-Cookie: ASPSESSIONIDPROFILE=)([A-Z]{8})([A-Z]{16})(?=; path=/\r\n)")
# How long a client waits for anything, in seconds.
PATIENCE = 60


def request(target, *fields, method="GET", version="1.1", body=None):
    """Returns the bytes of a request. One of version 1.1 has a Host, and one with a body its length."""
    lines = [f"{method} {target} HTTP/{version}", *(["Host: x"] if version == "1.1" else []), *fields]
    if body is not None:
        lines.append(f"Content-Length: {len(body)}")
    return "".join(f"{line}\r\n" for line in [*lines, ""]).encode() + (body or b"")


def answer(status, *fields, body=b"", close=False, is_head=False):
    """Returns the bytes of an answer with this status and its reason, these fields and this content."""
    lines = [f"HTTP/1.1 {status}", "Date: *", *fields]
    has_content = status[:3] not in ("204", "304")
    if has_content:
        lines.append(f"Content-Length: {len(body)}")
    if close:
        lines.append("Connection: close")
    return "".join(f"{line}\r\n" for line in [*lines, ""]).encode() + (body if has_content and not is_head else b"")


def page(body, *fields, status="200 OK", key=None, **how):
    """Returns the answer of a page, which gives its client the session key of a number, if there is one."""
    cookie = [f"Set-Cookie: ASPSESSIONIDPROFILE={letters(key)}*; path=/"] if key else []
    return answer(status, HTML, *cookie, *fields, PRIVATE, body=body, **how)


def plain(status, *fields, **how):
    """Returns a fixed answer, whose content is its reason."""
    return answer(status, PLAIN, *fields, body=f"{status[4:]}\n".encode(), **how)


def refusal(status):
    """Returns the answer to what is no request that the host takes."""
    return plain(status, close=True)


def letters(key):
    """Returns the letters that tell the number of a key: base 26 in eight digits, the highest first."""
    return "".join(chr(ord("A") + key // 26**place % 26) for place in reversed(range(8)))


def masked(text):
    """Returns the bytes of an answer without what nobody can tell before."""

    def put_down(found):
        moment = email.utils.parsedate_to_datetime(found[0].decode()).timestamp()
        return b"*" if abs(moment - time.time()) < 60 else found[0]

    return LETTERS.sub(rb"\1*", DATE.sub(put_down, text))


def cookie(text):
    """Returns the field by which a browser sends back the session cookie of an answer."""
    found = LETTERS.search(text)
    return f"Cookie: ASPSESSIONIDPROFILE={(found[1] + found[2]).decode()}" if found else "Cookie: none=none"


def lone(field, head):
    """Returns the value of a field in a head, or None."""
    found = re.search(rb"(?i)\r\n" + field + rb": *([^\r]*)\r\n", head)
    return found and found[1]


class Client:
    """A connection to a port of this machine."""

    def __init__(self, port, segment=None, room=None):
        self.link = socket.socket()
        if segment:
            self.link.setsockopt(socket.IPPROTO_TCP, socket.TCP_MAXSEG, segment)
        if room:
            self.link.setsockopt(socket.SOL_SOCKET, socket.SO_RCVBUF, room)
        self.link.settimeout(PATIENCE)
        self.link.connect(("127.0.0.1", port))
        self.link.setsockopt(socket.IPPROTO_TCP, socket.TCP_NODELAY, 1)
        self.came = b""

    def __enter__(self):
        return self

    def __exit__(self, *_):
        self.link.close()

    def send(self, *texts):
        self.link.sendall(b"".join(texts))

    def send_cut(self, text, at):
        """Sends a text in two pieces, the second once the first has come."""
        self.send(text[:at])
        time.sleep(0.002)
        self.send(text[at:])

    def end(self):
        """Says that no more comes."""
        self.link.shutdown(socket.SHUT_WR)

    def reset(self):
        """Breaks the connection off."""
        self.link.setsockopt(socket.SOL_SOCKET, socket.SO_LINGER, struct.pack("ii", 1, 0))
        self.link.close()

    def more(self):
        """Reads what comes next. Tells whether anything came; how the connection broke stands in the text."""
        try:
            piece = self.link.recv(65536)
        except ConnectionResetError:
            piece = b""
            self.came += b"<reset>"
        except TimeoutError:
            piece = b""
            self.came += b"<nothing>"
        self.came += piece
        return bool(piece)

    def answer(self, is_head=False):
        """Returns the next answer, or what came of it."""
        while b"\r\n\r\n" not in self.came and self.more():
            pass
        head, empty, _ = self.came.partition(b"\r\n\r\n")
        length = 0 if is_head else int(lone(b"Content-Length", head + b"\r\n") or 0)
        whole = len(head) + len(empty) + length
        while len(self.came) < whole and self.more():
            pass
        text, self.came = self.came[:whole], self.came[whole:]
        return text

    def heard(self, seconds):
        """Returns what comes within some seconds."""
        return self.link.recv(65536) if select.select([self.link], [], [], seconds)[0] else b""

    def rest(self):
        """Returns all that still comes, to the end."""
        while self.more():
            pass
        text, self.came = self.came, b""
        return text


def asked(port, *texts):
    """Returns all that comes for these bytes, behind which the client says that no more comes."""
    with Client(port) as client:
        client.send(*texts)
        client.end()
        return client.rest()
