"""The Application object as all runs of a site share it: the reply to each call, and whom a lock keeps out."""

from .lines import Unfit

MOST = 16 * 1024 * 1024
# The calls that the lock of another run keeps out, under the plain rule; under the strict one it is all but an unlock.
KEPT_OUT = ("put", "remove", "removeall", "lock")


def is_kept_out(call, strict):
    """Whether the lock of another run keeps the call out, under the strict rule or the plain one."""
    word = call.split(" ")[0]
    return word != "unlock" if strict else word in KEPT_OUT


def chars(name):
    """Returns how many characters a name or a text has, by its `s` and its bytes in hexadecimal."""
    return len(bytes.fromhex(name[1:]).decode())


def weight(value):
    """Returns what a value weighs: a text 32 and 4 a character, an array 32 and its items, and any other 32."""
    if value.startswith("s"):
        return 32 + 4 * chars(value)
    if not value.startswith(("[", "!")):
        return 32
    depth, items, begin = 0, [], value.index("|") + 1
    for at, sign in enumerate(value):
        depth += (sign == "[") - (sign == "]")
        if at >= begin and (sign == "," and depth == 1 or sign == "]" and depth == 0) and at > begin:
            items.append(value[begin:at])
            begin = at + 1
    return 32 + sum(map(weight, items))


class Application:
    """Its values, by their names in the order of their first storing, the run that holds the lock, and the lock's rule."""

    def __init__(self, strict=False):
        self.strict = strict
        self.values = {}
        self.holder = None

    def weighs(self):
        return sum(32 + 4 * chars(name) + weight(value) for name, value in self.values.items())

    def blocks(self, run, call):
        """Whether the lock of another run keeps the call out."""
        return self.holder not in (None, run) and is_kept_out(call, self.strict)

    def put(self, name, value):
        if bytes.fromhex(name[1:]).lower() != bytes.fromhex(name[1:]):
            raise Unfit(f"a name with capitals: {name}")
        before = self.values.get(name)
        self.values[name] = value
        if self.weighs() <= MOST:
            return "done"
        if before is None:
            del self.values[name]
        else:
            self.values[name] = before
        return "full"

    def called(self, run, call):
        """Makes a call of a run, and returns the reply."""
        word, *rest = call.split(" ")
        names = list(self.values)
        if self.blocks(run, call):
            raise Unfit(f"run {self.holder} holds the lock, and run {run} calls {call}")
        if word == "get":
            return self.values.get(rest[0], "e")
        if word == "put":
            return self.put(*rest)
        if word == "remove":
            self.values.pop(rest[0], None)
        elif word == "removeall":
            self.values.clear()
        elif word == "lock":
            self.holder = run
        elif word == "unlock" and self.holder == run:
            self.holder = None
        elif word == "count":
            return f"number {len(names)}"
        elif word == "keyat":
            return f"name {names[int(rest[0]) - 1]}" if 1 <= int(rest[0]) <= len(names) else "noname"
        elif word == "names":
            return " ".join(["names", *filter(None, [",".join(names)])])
        return "done"

    def ended(self, run):
        """The run has ended, and its lock with it."""
        if self.holder == run:
            self.holder = None
