"""Reads the files NAME.cases below a folder. README.md has their form."""

import os
import re

from harness.case import Begins, Case, Exactly, Lines
from model.messages import framed
from model.stops import Runs

ESCAPES = {b"n": b"\n", b"t": b"\t", b"r": b"\r", b"s": b" ", b"\\": b"\\", b".": b""}
SPELLED = {"escaped", "repeated"}
# The words that may follow the name of a section; a file has those of SPELLED.
KNOWN = {
    "stdin": SPELLED | {"framed", "cut"},
    "stdout": SPELLED | {"begins", "lines", "runs"},
    "stderr": SPELLED | {"begins", "lines"},
    "rows": {"stdout", "stderr", "begins", "framed"},
}


class Malformed(Exception):
    """An invalid case file, or a case that expects nothing."""


def unescaped(text):
    r"""The bytes of a text with \n, \t, \r, \s (a space), \. (nothing), \\ and \xHH."""

    def byte(found):
        word = found[1]
        if word.startswith(b"x"):
            return bytes([int(word[1:], 16)])
        if word not in ESCAPES:
            raise Malformed(f"there is no escape \\{word.decode()}")
        return ESCAPES[word]

    return re.sub(rb"\\(x[0-9a-fA-F]{2}|.)", byte, text.encode())


def repeated(lines):
    """The lines, with N lines of TEXT for `N * TEXT`."""
    for line in lines:
        found = re.fullmatch(r"([0-9]+) \* (.*)", line)
        yield from [found[2]] * int(found[1]) if found else [line]


def bytes_of(section, lines):
    """What a section of a stream or a file spells."""
    words = section.split()[1:]
    if "repeated" in words:
        lines = list(repeated(lines))
    if "framed" in words:
        return b"".join(framed(unescaped(line)) for line in lines)
    if "escaped" in words:
        return b"".join(unescaped(line) for line in lines)
    return "".join(f"{line}\n" for line in lines).encode()


def check_of(section, lines):
    """What a section wants of a stream."""
    words = section.split()[1:]
    if "lines" in words:
        pairs = (line.split(": ", 1) for line in lines)
        return Lines({int(number): text.encode() for number, text in pairs})
    text = bytes_of(section, lines)
    if "begins" in words:
        return Begins(text.rstrip(b"\n"))
    return Exactly(text)


def test_words(section):
    """Refuses a section whose name is followed by unknown words."""
    kind, *words = section.split()
    known = KNOWN.get(kind, SPELLED)
    if kind != "status" and not known.issuperset(words):
        raise Malformed(f"-- {section}: the words may be {', '.join(sorted(known))}")


def sections_of(lines):
    """The sections of a case, each as its heading and its lines without empty ones at the end."""
    sections = []
    for line in lines:
        if line.startswith("-- "):
            sections.append((line[3:], []))
        elif sections:
            sections[-1][1].append(line)
    for _, content in sections:
        while content and not content[-1]:
            content.pop()
    return sections


def rows_of(section, lines):
    """Pairs of an input and what is wanted of it: what is wanted comes once, after all inputs that it is for."""
    inputs, wanted = [], []
    for line in [*lines, ""]:
        if line.startswith("    "):
            wanted.append(line[4:])
            continue
        if wanted:
            yield from ((each, wanted) for each in inputs)
            inputs, wanted = [], []
        if line:
            inputs.append(line)
    if inputs:
        raise Malformed(f"nothing is wanted of the row {inputs[0]}")


def case_of(name, lines):
    """The cases of one `==` heading: one, one for each row, or one for each cut of the input."""
    command = next((line[2:] for line in lines if line.startswith("$ ")), None)
    if command is None:
        raise Malformed("it has no line $ cardswitch ..")
    case = Case(name, command)
    rows = None
    for section, content in sections_of(lines):
        test_words(section)
        kind = section.split()[0]
        if kind == "stdin":
            case.stdin = bytes_of(section, content)
            if "cut" in section.split():
                case.pieces = []
        elif section == "stdout runs":
            case.stdout = Runs(case.files["script"])
        elif kind in ("stdout", "stderr"):
            setattr(case, kind, check_of(section, content))
        elif kind == "status":
            case.status = int(section.split()[1])
        elif kind == "rows":
            rows = (section, list(rows_of(section, content)))
        else:
            case.files[kind] = bytes_of(section, content)
    if not (case.stdout or case.stderr or rows):
        raise Malformed("it expects nothing: give it -- stdout, -- stderr or -- rows")
    return spread(case, rows)


def spread(case, rows):
    """One case for each row or cut, with what goes without saying: no output, and no message at status 0."""
    if rows:
        section, pairs = rows
        stream = section.split()[1]
        made = []
        for number, (given, wanted) in enumerate(pairs, 1):
            spelled = framed(unescaped(given)) if "framed" in section.split() else unescaped(given)
            one = Case(f"{case.name}: row {number}, {given[:60]}", case.command, spelled)
            one.files, one.status = case.files, case.status
            one.stdout, one.stderr = case.stdout, case.stderr
            setattr(one, stream, check_of(section.replace("framed", "").partition(" ")[2], wanted))
            made.append(one)
    elif case.pieces is not None:
        made = [cut_at(case, place) for place in range(len(case.stdin) + 1)]
    else:
        made = [case]
    for one in made:
        one.stdout = one.stdout or Exactly(b"")
        if one.status == 0:
            one.stderr = one.stderr or Exactly(b"")
    return made


def cut_at(case, place):
    one = Case(f"{case.name}: cut at {place}", case.command)
    one.pieces = [case.stdin[:place], case.stdin[place:]]
    one.files, one.status, one.stdout, one.stderr = case.files, case.status, case.stdout, case.stderr
    return one


def cases_in(path, name):
    """The cases of one file; in place of an invalid one, a case that fails and says why."""
    with open(path, encoding="utf-8") as file:
        lines = file.read().split("\n")
    heads = [number for number, line in enumerate(lines) if line.startswith("== ")]
    if not heads:
        yield Case(name, "", fault=f"{path}: it has no case")
    for begin, end in zip(heads, [*heads[1:], len(lines)]):
        title = f"{name}: {lines[begin][3:]}"
        try:
            yield from case_of(title, lines[begin + 1 : end])
        except (Malformed, ValueError, IndexError) as error:
            yield Case(title, "", fault=f"{path}, line {begin + 1}: {error}")


def cases_below(folder, with_many):
    """The cases of all files NAME.cases below a folder, by their paths. Those named many.cases take minutes, and are read only
    if they are wanted."""
    for at, folders, files in sorted(os.walk(folder)):
        folders.sort()
        for file in sorted(files):
            if file.endswith(".cases") and (with_many or file != "many.cases"):
                path = os.path.join(at, file)
                yield from cases_in(path, os.path.relpath(path, folder).removesuffix(".cases"))
