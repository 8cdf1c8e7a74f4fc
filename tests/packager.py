#!/usr/bin/env python3
"""Has contrib/packager.py make profile files of GenericPackagers.

    tests/packager.py

`packager/worked.xml` is a small packager, and what comes of it, on both streams, was written by hand from docs/use/FORMATS.md. That page
shows it too, with a table `frame`. Each XML of `REFUSED` has to be refused with its message, and with nothing on standard output. `packager/iso87ascii.xml` and `iso87binary.xml` have
the form of jPOS's own, with the fields of ISO 8583:1987: what is made of each, read by Python's `tomllib`, has to be the file of the
same name in examples/profiles, without its table `frame`. The fields that these files keep have to be those of the model's table without
the MACs. The crate's tests read these files, and the one of the page, from `dialect_toml/src/tests/files.rt`, whose texts have to be those
of the files. The classes that the script takes have to be those of the crate.

The last line has the counts; the status is 1 if something is wrong.
"""

import os
import re
import subprocess
import sys
import tempfile
import tomllib

sys.dont_write_bytecode = True

from model import messages  # noqa: E402

TOP = os.path.dirname(os.path.dirname(os.path.abspath(__file__)))
SCRIPT = os.path.join(TOP, "contrib", "packager.py")
FOLDER = os.path.join(TOP, "tests", "packager")
PROFILES = os.path.join(TOP, "examples", "profiles")
CRATE = os.path.join(TOP, "crates", "dialect_toml", "src")
PAGE = os.path.join(TOP, "docs", "use", "FORMATS.md")
FRAME = '\n[frame]\nlength = "binary2"\nheader = "6000000000"\n'
MACS = {64, 128}

FIELDS = '<isofield id="0" length="4" class="a.b.IFA_NUMERIC"/><isofield id="1" length="16" class="a.b.IFA_BITMAP"/>'
# What is between `<isopackager>` and its end, and the message.
REFUSED = [
    ("", "field 0, the message type, is missing"),
    (FIELDS[: FIELDS.index('<isofield id="1"')], "field 1, the bitmap, is missing"),
    (
        FIELDS.replace("IFA_BITMAP", "IFB_BINARY"),
        "field 1: class: expected one of IFA_BITMAP, IFB_BITMAP, IFE_BITMAP; found 'a.b.IFB_BINARY'",
    ),
    (
        FIELDS + '<isofieldpackager id="48" length="999" class="a.b.IFA_LLLCHAR"/>',
        "field 48: expected isofield; found isofieldpackager",
    ),
    (FIELDS + '<isofield id="129" length="8" class="a.b.IF_CHAR"/>', "isofield: id: expected a number from 0 to 128; found '129'"),
    (FIELDS + '<isofield id="39" length="2" class="a.b.IF_CHAR"/>' * 2, "field 39: there are two"),
    (FIELDS + '<isofield id="39" class="a.b.IF_CHAR"/>', "field 39: attribute length is missing"),
    (FIELDS + '<isofield id="39" length="0" class="a.b.IF_CHAR"/>', "field 39: length: expected a number from 1 to 9999; found '0'"),
]


def made(path):
    """What comes on both streams, and the status."""
    came = subprocess.run([sys.executable, SCRIPT, path], capture_output=True, text=True, check=False)
    return came.stdout, came.stderr, came.returncode


def text_of(path):
    with open(path, encoding="utf-8") as file:
        return file.read()


def indented(text):
    return "".join(f"    {line}\n" if line else "\n" for line in text.splitlines())


def worked():
    text = text_of(os.path.join(FOLDER, "worked.toml"))
    yield "worked.xml", (text, text_of(os.path.join(FOLDER, "worked.notes")), 0), made(os.path.join(FOLDER, "worked.xml"))
    yield "the file that FORMATS.md shows", True, f"\n\n{indented(text + FRAME)}\n" in text_of(PAGE)


def refused():
    with tempfile.TemporaryDirectory() as folder:
        path = os.path.join(folder, "it.xml")
        for inside, message in REFUSED:
            with open(path, "w", encoding="utf-8") as file:
                file.write(f"<isopackager>{inside}</isopackager>")
            yield message, ("", f"packager.py: {path}: {message}\n", 1), made(path)
        with open(path, "w", encoding="utf-8") as file:
            file.write(f'<isopackager>{FIELDS}<isofield id="52" length="8" class="a.b.IFA_LLABINARY"/></isopackager>')
        out, errors, status = made(path)
        begin, end = f"packager.py: {path}: field 52: class: expected one of ", "; found 'a.b.IFA_LLABINARY'\n"
        wanted = sorted(re.findall(r'FieldClass::\w+ => "(\w+)"', text_of(os.path.join(CRATE, "words.rt"))))
        listed = sorted(errors.removeprefix(begin).removesuffix(end).split(", "))
        yield "an unknown class", ("", begin, end, wanted, 1), (out, errors[: len(begin)], errors[-len(end) :], listed, status)
        with open(path, "w", encoding="utf-8") as file:
            file.write("<isopackager>")
        out, errors, status = made(path)
        yield "no XML", ("", 1, 1), (out, errors.count("\n"), status)


def examples():
    quoted = dict(re.findall(r'pub const (\w+): &str =\s+r#"(.*?)"#;', text_of(os.path.join(CRATE, "tests", "files.rt")), re.DOTALL))
    yield "FORMATS.md in files.rt", text_of(os.path.join(FOLDER, "worked.toml")) + FRAME, quoted.pop("PAGE", None)
    names = sorted(name.removesuffix(".toml") for name in os.listdir(PROFILES))
    yield "the texts of files.rt", [name.upper() for name in names], sorted(quoted)
    for name in names:
        text = text_of(os.path.join(PROFILES, f"{name}.toml"))
        yield f"{name}.toml in files.rt", text, quoted.get(name.upper())
        profile = tomllib.loads(text)
        kept = {row["number"] for row in profile["field"] if row.get("keep", True)}
        yield f"what {name}.toml keeps", messages.FORMS.keys() - MACS, kept
        path = os.path.join(FOLDER, f"{name}.xml")
        if os.path.exists(path):
            del profile["frame"]
            yield f"what is made of {name}.xml", profile, tomllib.loads(made(path)[0])


def main():
    passed, failed = 0, 0
    for case in worked, refused, examples:
        for name, wanted, came in case():
            passed, failed = passed + (came == wanted), failed + (came != wanted)
            if came != wanted:
                print(f"FAILED {name}:\nwanted {wanted!r}\ncame   {came!r}")
    print(f"{passed} passed, {failed} failed")
    return 1 if failed else 0


if __name__ == "__main__":
    sys.exit(main())
