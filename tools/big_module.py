#!/usr/bin/env python3
"""Writes the module of so many procedures that module_gen's specs/BigModule tells of, and the same program in Pascal.

usage: big_module.py FOLDER PROCEDURES

FOLDER gets Big.mod and big.pas. In Pascal a variable is declared before it is used, so there `w` stands before the
procedures; and the integer of 32 bits is longint.
"""
import pathlib
import sys


def modula(procedures):
    lines = ["MODULE Big;", "VAR v: INTEGER;"]
    for number in range(1, procedures + 1):
        lines += ["PROCEDURE p%d;" % number, "BEGIN v := v + w END p%d;" % number]
    return lines + ["VAR w: INTEGER;", "BEGIN", *("p%d;" % number for number in range(1, procedures + 1)), "END Big."]


def pascal(procedures):
    lines = ["program Big;", "var v: longint;", "var w: longint;"]
    for number in range(1, procedures + 1):
        lines += ["procedure p%d;" % number, "begin v := v + w end;"]
    return lines + ["begin", *("p%d;" % number for number in range(1, procedures + 1)), "end."]


def main():
    if len(sys.argv) != 3:
        sys.exit(__doc__)
    folder, procedures = pathlib.Path(sys.argv[1]), int(sys.argv[2])
    folder.mkdir(parents=True, exist_ok=True)
    for name, lines in (("Big.mod", modula(procedures)), ("big.pas", pascal(procedures))):
        (folder / name).write_text("\n".join(lines) + "\n")


if __name__ == "__main__":
    main()
