"""A relay between a client and a host, which keeps what goes each way; and what `replay` writes for the requests."""

import re
import select
import socket
import subprocess
import threading

from .clients import LETTERS, lone

SEED = "0" * 64


class Relay:
    """Takes connections, one after another, and hands on what comes, for the time of a `with`."""

    def __init__(self, port):
        self.there = port
        self.listener = socket.create_server(("127.0.0.1", 0))
        self.port = self.listener.getsockname()[1]
        self.sent = b""
        self.came = b""
        self.connections = 0
        self.thread = threading.Thread(target=self.work)

    def __enter__(self):
        self.thread.start()
        return self

    def __exit__(self, *_):
        self.listener.shutdown(socket.SHUT_RDWR)
        self.thread.join()
        self.listener.close()

    def work(self):
        while True:
            try:
                link, _ = self.listener.accept()
            except OSError:
                return
            self.connections += 1
            with link, socket.create_connection(("127.0.0.1", self.there)) as host:
                self.hand_on(link, host)

    def hand_on(self, link, host):
        """Hands on what comes from either side until one has ended."""
        while True:
            for side in select.select([link, host], [], [])[0]:
                piece = side.recv(65536)
                if not piece:
                    return
                if side is link:
                    self.sent += piece
                    host.sendall(piece)
                else:
                    self.came += piece
                    link.sendall(piece)


def requests_of(text):
    """Returns the requests in the bytes of a client, each with its body."""
    found = []
    while text:
        head, empty, rest = text.partition(b"\r\n\r\n")
        length = int(lone(b"Content-Length", head + b"\r\n") or 0)
        found.append(head + empty + rest[:length])
        text = rest[length:]
    return found


def without_moments(text):
    """Returns answers without their dates and the random letters of keys."""
    dated = re.sub(rb"(?<=\r\nDate: )[^\r]*GMT(?=\r\n)", b"*", text)
    return LETTERS.sub(rb"\1*", dated)


def replayed(check, site, client, requests):
    """Returns the answers that `replay` writes for these requests of a client, in their order."""
    items = [b"request %d 0 %d\n%s\n" % (client, len(it), it) for it in requests]
    recording = f"ASPREC 1\nseed {SEED}\n".encode() + b"".join(items) + b"end\n"
    words = [*check.program, "replay", site, "--workers", "1"]
    ran = subprocess.run(words, input=recording, stdout=subprocess.PIPE, check=True)
    answers, text = [], ran.stdout
    while text.startswith(b"answer "):
        line, _, rest = text.partition(b"\n")
        length = int(line.split()[2])
        answers.append(rest[:length])
        text = rest[length + 1 :]
    check.same("the end of the replay", text, b"done %d\n" % len(requests))
    return answers
