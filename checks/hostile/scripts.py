"""Pages at each limit of scripts, by the numbers of the guide. What they answer was worked out from the language's rules."""

from .rows import both, error, limit, refused, site, Row


def ticks(most):
    """A `For` is a tick, each turn of it one, and the last statement one."""
    page = '<% For i = 1 To {} : Next : Response.Write "x" %>'
    forever = '<% On Error Resume Next\nDo\nLoop %>'
    return [
        *both("ticks", page.format(most - 2), "x", page.format(most - 1), limit("Ticks")),
        Row("a loop without an end", site(forever), limit("Ticks", 2)),
    ]


def chain(count, last):
    """Returns so many sums in one another, the innermost of which adds to this."""
    return "1 + (" * (count - 1) + f"1 + {last}" + ")" * (count - 1)


def calls(most):
    """A function that calls itself, so often that with its first call there are so many."""
    page = "<% Function f(n)\nIf n = 0 Then f = 0 Else f = 1 + f(n - 1)\nEnd Function\n%><%= f({}) %>"
    at, more = (page.replace("{}", str(count)) for count in (most - 1, most))
    return both("calls", at, str(most - 1), more, error(28, 2), True)


# How many sums stand in one another in a call of `f`, which with the two statements around them, the path and the call makes
# so many levels.
SUMS, LEVELS = 6, 10
NESTED = f"Function f(n)\nIf n = 0 Then f = 0 Else f = {chain(SUMS, 'f(n - 1)')}\nEnd Function\n"


def levels(most):
    """A page's write, its sums, the path and the call of `f` are open around the last call, in which an `If`, its condition
    and a variable in that are."""
    deep = 199
    sums = most - 6 - deep * LEVELS
    page = f"<% {NESTED}%><%= {{}} %>"
    at, more = (page.format(chain(count, f"f({deep})")) for count in (sums, sums + 1))
    return both("levels", at, str(sums + SUMS * deep), more, error(28, 2), True)


def levels_of_terminator(most):
    """The same in a Class_Terminate, in which it is a limit. A statement and the terminator's call are open around its own."""
    deep = 198
    sums = most - 8 - deep * LEVELS
    page = (
        "<% Dim r\nClass C\nPrivate Sub Class_Terminate\nr = {}\nEnd Sub\nEnd Class\n"
        + NESTED
        + "Set x = New C\nSet x = Nothing\nResponse.Write r %>"
    )
    at, more = (page.format(chain(count, f"f({deep})")) for count in (sums, sums + 1))
    return both("levels of a terminator", at, str(sums + SUMS * deep), more, limit("Depth", 8), True)


def texts(most):
    at = f'<%= Len(String({most}, "x")) %>'
    return both("a text", at, str(most), f'<% s = String({most}, "x") : t = s & "y" %>', error(14))


def data(most):
    """A value weighs 32, each character of a text 4, an object 32 and each of its entries what its key and item weigh."""
    quarter = (most // 4 - 32) // 4
    elements = "<% Dim a() : ReDim a({}) : Response.Write UBound(a) %>"
    cells = f'<% s = String({quarter}, "x") : t = s : u = s : v = String({{}}, "x") : Response.Write "ok" %>'
    entries = (
        f'<% Set d = CreateObject("Scripting.Dictionary") : For i = 1 To 3 : d.Add i, String({quarter}, "x") : Next : '
        'd.Add 4, String({}, "x") : Response.Write "ok" %>'
    )
    last = (most - 3 * (32 + 32 + 4 * quarter) - 96 - 64) // 4
    objects = (
        f'<% Class C : End Class : s = String({quarter}, "x") : t = s : u = s : v = String({{}}, "x") : Set o = New C : '
        'Response.Write "ok" %>'
    )
    room = (most - 3 * (32 + 4 * quarter) - 32 - 32 - 32) // 4
    rows = []
    for what, page, count, wanted in (
        ("elements", elements, most // 32 - 2, str(most // 32 - 2)),
        ("cells", cells, quarter, "ok"),
        ("entries", entries, last, "ok"),
        ("objects", objects, room, "ok"),
    ):
        rows += both(f"data by {what}", page.format(count), wanted, page.format(count + 1), limit("Data"))
    return rows


def references(most):
    """An array of as many arrays of references is held four times in one statement."""
    side = round((most // 4) ** 0.5)
    page = (
        f"<% Class C\nEnd Class\nDim b({side - 1}), d({side - 1})\nSet o = New C\n"
        f"For i = 0 To {side - 1} : Set b(i) = o : Next\nFor i = 0 To {side - 1} : d(i) = b : Next\n"
        "Response.Write IsArray(d) And IsArray(d) And IsArray(d) And IsArray(d){} %>"
    )
    return both("references", page.format(""), "True", page.format(" And IsObject(o)"), limit("Data", 7))


def nest(most):
    """Arrays in one another are stored, copied, passed and read again."""
    page = '<% a = 0 : For i = 1 To {} : a = Array(a) : Next %>ok'
    rows = both("arrays in arrays", page.format(most), "ok", page.format(most + 1), limit("Nest"), True)
    used = (
        f"<% Function deep(ByVal x)\nIf IsArray(x) Then deep = 1 + deep(x(0)) Else deep = 0\nEnd Function\n"
        f'a = 0 : For i = 1 To {most} : a = Array(a) : Next\nb = a : Session("a") = b : Application("a") = Session("a")\n'
        'Set d = CreateObject("Scripting.Dictionary") : d.Add 1, Application("a") : On Error Resume Next\n'
        'If a = b Then c = 1\nResponse.Write deep(d(1)) & "," & Err.Number %>'
    )
    return [*rows, Row("arrays in arrays that are used", site(used), f"{most},13", True)]


def bodies(most):
    page = f'<% s = String({most // 4}, "x") : For i = 1 To 4 : Response.Write s : Next{{}} %>'
    rows = both("a body", page.format(""), "x" * most, page.format(' : Response.Write "x"'), limit("Body"))
    kept = f'<% s = String({most // 4}, "x") : For i = 1 To 4 : Response.Write s : Next : Response.Flush : x = "y" %><%= x %>'
    # what was flushed stays, and there is no room for more
    return [*rows, Row("a body that was flushed, one more", site(kept), "x" * most)]


def sessions(most):
    """An entry weighs 32, 4 for each character of its name, and what its value weighs."""
    page = '<% Session("s") = String({}, "x") %>ok'
    count = (most - 32 - 4 - 32) // 4
    return both("a session", page.format(count), "ok", page.format(count + 1), limit("Session"))


def applications(most):
    page = (
        '<% s = String(1048576, "x") : For i = 1 To 3 : Application("a" & i) = s : Next : '
        'Application("a4") = String({}, "x") %>ok'
    )
    count = (most - 3 * (32 + 8 + 32 + 4 * 1048576) - 32 - 8 - 32) // 4
    four = '<% s = String(1048576, "x") : For i = 1 To 4\nApplication("a" & i) = s : Next %>'
    rows = both("the application", page.format(count), "ok", page.format(count + 1), limit("Application"))
    return [*rows, Row("the application, four texts", site(four), limit("Application", 2))]


# How constructs open and close, each line of both.
BLOCKS = {
    "If": (["If True Then"], ["End If"]),
    "Do": (["Do"], ["Loop Until True"]),
    "For": (["For i = 1 To 1"], ["Next"]),
    "For Each": (["For Each j In one"], ["Next"]),
    "While": (["While w = 0"], ["Wend"]),
    "With": (["With 1"], ["End With"]),
    "Select": (["Select Case 1", "Case 1"], ["End Select"]),
}
INNER = 'w = 1 : Response.Write "x"'
BEFORE = ("one = Array(1)",)


def nested(kinds, before=BEFORE, behind=()):
    """Returns a page in which these constructs are open in one another, and the line of the last."""
    opened = [line for kind in kinds for line in BLOCKS[kind][0]]
    closed = [line for kind in reversed(kinds) for line in BLOCKS[kind][1]]
    last = len(before) + len(opened) + 1 - len(BLOCKS[kinds[-1]][0])
    return "<% " + "\n".join([*before, *opened, INNER, *closed, *behind]) + " %>", last


def blocks(most):
    rows = []
    turns = [*BLOCKS]
    for name, kinds in [*((kind, [kind]) for kind in BLOCKS if kind != "For Each"), ("all in turn", turns)]:
        at = [kinds[number % len(kinds)] for number in range(most)]
        (page, _), (more, line) = nested(at), nested([*at, kinds[most % len(kinds)]])
        rows += refused(f"{most} of {name}", page, "x", more, line, "TooDeep", True)
    around = (["Class C", "Public w", "Sub s"], ["End Sub", "End Class", "Set o = New C", "o.s"])
    at = ["If", "Do"] * ((most - 2) // 2)
    (page, _), (more, line) = nested(at, *around), nested([*at, "If"], *around)
    return rows + refused("blocks in a class", page, "x", more, line, "TooDeep", True)


def expressions(most):
    even = "True" if most % 2 == 0 else "False"
    size = "1" if most % 2 == 0 else "-1"
    rows = []
    for what, opened, inner, closed, wanted in (
        ("parentheses", "(", "1", ")", "1"),
        ("Not", "Not ", "True", "", even),
        ("minus", "-", "1", "", size),
        ("calls of functions", "Abs(", "1", ")", "1"),
        ("sums in parentheses", "1 + (", "1", ")", str(most + 1)),
    ):
        at, more = (f"<%= {opened * count}{inner}{closed * count} %>" for count in (most, most + 1))
        rows += refused(f"{most} of {what}", at, wanted, more, 1, "TooDeep", True)
    at, more = (f'<% {"If True Then " * count}Response.Write "x" %>' for count in (most, most + 1))
    return rows + refused("one-line Ifs", at, "x", more, 1, "TooDeep", True)


def syntax(most):
    return blocks(most) + expressions(most)


def dimensions(most):
    dim = "<% Dim a({}) : Response.Write UBound(a, {}) %>"
    redim = "<% ReDim a({}) : Response.Write UBound(a, {}) %>"
    rows = []
    for what, page in (("Dim", dim), ("ReDim", redim)):
        at, more = (page.format(", ".join(["0"] * count), count) for count in (most, most + 1))
        rows += refused(f"dimensions of {what}", at, "0", more, 1, "TooMany")
    return rows


def parameters(most):
    page = "<% Sub s({})\nResponse.Write p{}\nEnd Sub\ns {} %>"

    def of(count):
        return page.format(", ".join(f"p{it}" for it in range(count)), count - 1, ", ".join(map(str, range(count))))

    return refused("parameters", of(most), str(most - 1), of(most + 1), 1, "TooMany")


def arguments(most):
    at, more = (f"<%= UBound(Array({', '.join(['0'] * count)})) %>" for count in (most, most + 1))
    return refused("arguments", at, str(most - 1), more, 1, "TooMany")


def names(most):
    at, more = (f"<% Dim {', '.join(f'n{it}' for it in range(count))} %>x" for count in (most, most + 1))
    return refused("names", at, "x", more, 1, "TooMany")


def long_names(most):
    at, more = ("<% {0} = 5 : Response.Write {0} %>".format("n" * count) for count in (most, most + 1))
    return refused("a name", at, "5", more, 1, "LongName")


def numbers(most):
    return refused("a number", f"<%= {most} %>", str(most), f"<%= {most + 1} %>", 1, "BadNumber")


TRIALS = {
    "statements, turns of loops and calls of one act": [ticks],
    "calls open at once": [calls],
    "statements, operators, paths and calls open at once": [levels, levels_of_terminator],
    "characters of a text that a function makes": [texts],
    "weight of a page's data": [data],
    "references to objects that one statement holds": [references],
    "arrays in arrays": [nest],
    "bytes of a body": [bodies],
    "weight of a session": [sessions],
    "weight of the application": [applications],
    "blocks and parentheses open at one place": [syntax],
    "dimensions of an array": [dimensions],
    "parameters of a procedure": [parameters],
    "arguments of a call": [arguments],
    "names in a page": [names],
    "characters of a name": [long_names],
    "a number in a script": [numbers],
}
