#!/usr/bin/env python3
"""Writes the files of cases that tests/README.md tells of from the outside vectors.

usage: vectors.py FOLDER

FOLDER has the vectors, a set in each file NAME.jsonl and a case in each line, and the files go to crates/m2_cases/data. Of
answers with stages the `final` one is taken, that of the finished language. Units have no stages: those of brought.jsonl are of the
finished language, those of rows.jsonl of an earlier one, in which imported enumeration types bring nothing. So of the latter
the units that import one are left out, and how many is printed.
"""
import functools
import json
import pathlib
import re
import sys

ROOT = pathlib.Path(__file__).resolve().parent.parent
KIND = re.compile(r"^    ([A-Z][A-Za-z]+) = ([0-9]+),$", re.M)
STRING, CUT = 4, 6
# the kinds of the rows of types' names, of aliases and of enumerations
TYPE_NAME, ALIAS, ENUM = 2, 6, 11
# a place in one number: the scope, and the ordinal in so many bits
ORDINAL_BITS = 32
TRAP = re.compile(rb"trap ([0-9]) [a-z]+ in ([A-Za-z0-9_]+) procedure ([0-9]+) at ([0-9]+)\n\Z")
SPENT = b"steps spent\n"
# the codes of what the text alone is refused for
FAULTS = ("10", "11", "12", "13", "20")


def escaped(text):
    """A text of bytes, each one character, in printable ASCII."""
    return "".join("\\\\" if c == "\\" else c if " " <= c <= "~" else "\\x%02x" % ord(c) for c in text)


def quoted(text):
    return '"%s"' % escaped(text)


def quoted_bytes(digits):
    return quoted(bytes.fromhex(digits).decode("latin-1"))


def text_line(text):
    """A line of a text. No line of a file ends with a blank."""
    line = escaped(text)
    if line.endswith(" "):
        line = line[:-1] + "\\x20"
    return "| " + line if line else "|"


def text_lines(text):
    return [text_line(line) for line in text.split("\n")]


@functools.cache
def kinds():
    """The names of the kinds of token by their numbers, from the enum that declares them."""
    source = (ROOT / "crates/m2_base/src/kind.rt").read_text()
    return {int(number): name for name, number in KIND.findall(source)}


def read(folder, name):
    return [json.loads(line) for line in open(folder / (name + ".jsonl"))]


def files_of(case):
    for name, text in case["files"].items():
        yield "file " + name
        yield from text_lines(text)


def token(names, found):
    kind, value, line, column = found
    spelled = quoted(value) if kind == STRING else value
    return "> %d:%d %s %s" % (line, column, names[kind], spelled)


def lex(case):
    names = kinds()
    return text_lines(case["text"]) + [token(names, found) for found in case["tokens"]]


def stream(names, tokens):
    yield "> stream"
    for kind, value, at in tokens:
        yield "> %d %s%s" % (at, names[kind], " %d" % value if kind == CUT else "")


def streams(case):
    names, lines = kinds(), text_lines(case["text"])
    for found in case["streams"]:
        lines += stream(names, found if isinstance(found, list) else found["tokens"])
    return lines


def row(found):
    name, kind, at, a, b, c, e = found
    b = quoted(b) if isinstance(b, str) else b
    return "> row %s %d %d %d %s %d %s" % ("-" if name is None else name, kind, at, a, b, c, "-" if e is None else e)


def rows(case):
    lines = ["main " + case["main"], *files_of(case)]
    for block in case["blocks"]:
        chain = " ".join(map(str, block["chain"]))
        lines.append("> block %(scope)d %(kind)s %(file)s outer %(outer)d level %(level)d" % block + " chain " + chain)
        lines += map(row, block["rows"])
    lines += ["> diagnostic %s %d %d" % tuple(diag) for diag in case["diags"]]
    lines += ["> answer %s %d %d %d" % tuple(answer) for answer in case["answers"]]
    return lines


def row_at(blocks, place):
    """The row at a place; none in the standard scope, whose block no case has."""
    return blocks[place >> ORDINAL_BITS][place % 2**ORDINAL_BITS] if place >> ORDINAL_BITS else None


def leads_to(blocks, found):
    """Where a row leads, aliases followed."""
    while found and found[1] == ALIAS:
        found = row_at(blocks, found[3])
    return found


def imports_enumeration(case):
    """An import of one of the unit's blocks leads to the name of a type that is an enumeration."""
    blocks = {block["scope"]: block["rows"] for block in case["blocks"]}
    aliases = [found for rows_of in blocks.values() for found in rows_of if found[1] == ALIAS]
    names = [found for found in (leads_to(blocks, alias) for alias in aliases) if found and found[1] == TYPE_NAME]
    types = [row_at(blocks, name[3]) for name in names]
    return any(found and found[1] == ENUM for found in types)


def units(folder):
    """The units of the finished language: those of rows.jsonl on which both languages agree, and all of brought.jsonl."""
    earlier = read(folder, "rows")
    agreed = [case for case in earlier if not imports_enumeration(case)]
    print("rows: %d units of an earlier language left out" % (len(earlier) - len(agreed)))
    return agreed + read(folder, "brought")


def fault(case, answer):
    """The line and the column of the text's fault, with its code, where the text alone is refused."""
    found = re.match(r"(\w+)\.mod:(\d+:\d+: \d+) ", answer["printed"])
    if found and found[1] == case["main"] and found[2].split()[-1] in FAULTS:
        return ["fault " + found[2].replace(": ", " ")]
    return []


def module(case):
    answer = case["final"]
    lines = ["main " + case["main"], *files_of(case), "status %d" % answer["status"]]
    lines += ["object " + answer["object"]] if answer["object"] else []
    for code in case.get("procedures", []):
        lines.append("procedure %d %d %s %s" % (code["locals"], code["high"], code["data"] or "-", code["code"]))
    return lines + ["> " + escaped(line) for line in answer["printed"].splitlines()]


def syntax(case):
    return module(case) + fault(case, case["final"])


def objects(case):
    answer = case["final"]
    told = "object" if answer["valid"] else "bad object at %(offset)d code %(code)d" % answer
    return [("object " + case["hex"]).rstrip(), "> " + told]


def end(case):
    """How a run ends, and what it has printed before the command's own line."""
    printed = bytes.fromhex(case["printed"])
    trap = TRAP.search(printed)
    if trap:
        told = tuple(part.decode() for part in trap.groups())
        return "trap %s in %s procedure %s at %s" % told, printed[:trap.start()]
    if printed.endswith(SPENT):
        return "steps spent", printed[:-len(SPENT)]
    if case["status"] == 0:
        return "halted", printed
    return printed.decode().rstrip("\n"), b""


def runs(case):
    command, name, _, steps, _, cells = case["words"]
    told, printed = end(case)
    lines = ["main " + name, "steps " + steps, "cells " + cells, "input " + quoted_bytes(case["input"])]
    lines += ["object %s %s" % found for found in case["files"].items()]
    lines.append("> " + told)
    if case["status"] in (0, 9, 10):
        lines += ["> printed " + quoted(printed.decode("latin-1")), "> left " + quoted_bytes(case["left"])]
    return lines


SETS = {"lex": lex, "syntax": syntax, "streams": streams, "rows": rows, "objects": objects, "runs": runs,
        "blocks": module, "rules": module, "worked": module, "compile": module, "enums": module}


def name_of(case):
    return case.get("name") or "%s%d" % (case.get("kind", "run"), case["seed"])


def main():
    if len(sys.argv) != 2:
        sys.exit(__doc__)
    folder = pathlib.Path(sys.argv[1])
    for name, lines_of in SETS.items():
        cases = units(folder) if name == "rows" else read(folder, name)
        lines = [["case " + name_of(case), *lines_of(case), ""] for case in cases]
        text = "\n".join(line for case in lines for line in case)
        (ROOT / "crates/m2_cases/data" / (name + ".txt")).write_text(text, "ascii")


main()
