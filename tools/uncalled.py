#!/usr/bin/env python3
"""Prints the functions of the program's crates that can answer that there is no memory and that no run calls.

usage: uncalled.py

No clause can say that memory is left, so a function that no run calls, of the program or of a test, might always answer
so. Calls are told by their names: where two functions have one name, a call of it counts for both. The status is 1 where
a function is printed.
"""
import re
import sys

import rooms

PROGRAM = "m2c_main"
FUNCTION = re.compile(r"^ *(?:#\[test\]\s+)?(?:pub(?:\(\w+\))? )?(?:const )?fn (\w+)|^macro_rules! (\w+)", re.M)
COMMENT = re.compile(r"^\s*//.*$", re.M)
# The front of a function, before its clauses and its body.
FRONT = re.compile(r"[^{]*?(?=\n\s*(?:requires|ensures)\b|\{)")


def functions(crate):
    """The functions and macros of a crate: the name, its text up to the next one, and whether it is a test."""
    for file in rooms.files_of(crate):
        if file.endswith(".rt"):
            with open(file, encoding="utf-8") as it:
                text = COMMENT.sub("", it.read())
            found = list(FUNCTION.finditer(text))
            for one, end in zip(found, [*(it.start() for it in found[1:]), len(text)]):
                yield one[1] or one[2], text[one.end() : end], "#[test]" in one[0]


def main():
    texts, left = {}, ["main"]
    for crate in rooms.ROWS:
        for name, text, is_test in functions(crate):
            texts.setdefault(name, []).append((crate, text))
            left += [name] * is_test
    called = set(left)
    while left:
        for _, text in texts[left.pop()]:
            found = {it for it in re.findall(r"\w+", text) if it in texts} - called
            called |= found
            left += found
    product = [*rooms.below(PROGRAM), PROGRAM]
    lost = [
        f"{crate}: {name}"
        for name, them in texts.items()
        for crate, text in them
        if name not in called and crate in product and "Result<" in FRONT.match(text)[0]
    ]
    for it in lost:
        print(it)
    return 1 if lost else 0


if __name__ == "__main__":
    sys.exit(main())
