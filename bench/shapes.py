"""The texts and objects of a growing size that bench/run times."""
import struct

LEVELS = 98
SYMBOLS = "+-*/:=.,;([{^=#<><=>=..:)]}|<>&~"


def procedure(number):
    """A procedure in ordinary layout; 67 of them have different names."""
    own, other = number % 67, number * 7 % 67
    return (f"PROCEDURE Step{own};\n  VAR total{own}, count{own}: INTEGER;\nBEGIN\n  total{own} := count{other} + {number};\n"
            f"  IF total{own} > 10 THEN count{own} := total{other} * 2 END\nEND Step{own};\n\n")


def filled(size, piece):
    """So many bytes of pieces, one after another, the last cut off."""
    pieces, length, number = [], 0, 0
    while length < size:
        pieces.append(piece(number))
        length += len(pieces[-1])
        number += 1
    return "".join(pieces)[:size]


def repeated(before, piece, behind, size):
    """A text of at most so many bytes with a piece as often as it fits."""
    return before + piece * ((size - len(before) - len(behind)) // len(piece)) + behind


# Refused at the first token, or at the end of a text of blanks: nearly all that is done is lexing. Each is of so many bytes.
LEXED = {
    "ordinary": lambda size: filled(size, procedure),
    "names": lambda size: filled(size, lambda number: f"n{number:04} "),
    "digits": lambda size: filled(size, lambda number: "00000000"),
    "blanks": lambda size: filled(size, lambda number: "       \n"),
    "symbols": lambda size: filled(size, lambda number: SYMBOLS),
}

# Refused at the end, where the point is missing: they are lexed, cut and parsed. Each is of so many bytes.
PARSED = {
    "statements": lambda size: repeated("MODULE A;BEGIN ", "a:=1;", "END A", size),
    "semicolons": lambda size: repeated("MODULE A;BEGIN ", ";", "END A", size),
    "operators": lambda size: repeated("MODULE A;BEGIN a:=1", "+1", " END A", size),
    "names": lambda size: repeated("MODULE A;VAR a", ",a", ":CHAR;END A", size),
    "brackets": lambda size: repeated("MODULE A;BEGIN ", "a:=" + "(" * LEVELS + "1" + ")" * LEVELS + ";", "END A", size),
    "loops": lambda size: repeated("MODULE A;BEGIN ", "LOOP " * LEVELS + "END " * LEVELS + ";", "END A", size),
    "procedures": lambda size: repeated("MODULE A;", "PROCEDURE P;BEGIN" + ";" * 39 + "END P;\n", "END A", size),
}


def assignments(size):
    """Variables, and an assignment to each, in at most so many bytes."""
    many = (size - 27) // 43
    variables = "".join(f"  v{number:05}: INTEGER;\n" for number in range(many))
    return "MODULE A;\nVAR\n" + variables + "BEGIN\n" + "".join(
        f"  v{number:05} := v{many - 1 - number:05} + 1;\n" for number in range(many)) + "END A.\n"


def declarations(many):
    """Constants, types and variables in one scope, each with a name of its own."""
    third = many // 3
    sections = (("CONST", "c", "=1", third), ("TYPE", "t", "=CHAR", third), ("VAR", "v", ":CHAR", many - 2 * third))
    return "MODULE A;\n" + "".join(word + "\n" + "".join(f"{letter}{number:05}{rest};\n" for number in range(count))
                                   for word, letter, rest, count in sections) + "END A.\n"


def statements(many):
    """Assignments to one variable."""
    return "MODULE A;\nVAR x: INTEGER;\nBEGIN\n" + "x:=x+1;\n" * many + "END A.\n"


def nested(many):
    """About so many statements: towers of loops within one another, each round an assignment."""
    tower = "WHILE x<9 DO " * LEVELS + "x:=x+1" + " END" * LEVELS + ";\n"
    return "MODULE A;\nVAR x: INTEGER;\nBEGIN\n" + tower * (many // (LEVELS + 1)) + "END A.\n"


def importing(modules):
    """The texts of a unit: so many definition modules that each import all before them, and a module that imports all."""
    def imports(count):
        return "IMPORT " + ", ".join(f"X{number}" for number in range(count)) + ";" if count else ""
    texts = {f"X{number}.def": f"DEFINITION MODULE X{number}; {imports(number)} END X{number}." for number in range(modules)}
    return {**texts, "A.mod": f"MODULE A; {imports(modules)} END A."}


# The loops of bench/machine.c, made so many times.
LOOPS = {
    "add": ("s, t: INTEGER", "s := t + 7"),
    "index": ("a: ARRAY [0..4] OF INTEGER", "a[3] := a[2]"),
    "call": ("", "P(i)"),
}


def loop(shape, times):
    variables, body = LOOPS[shape]
    return (f"MODULE A;\nVAR i: INTEGER; {variables}{';' if variables else ''}\nPROCEDURE P(x: INTEGER); BEGIN x := x + 1 END P;\n"
            f"BEGIN WHILE i < {times} DO {body}; i := i + 1 END END A.\n")


# The instructions of objects (docs/OBJECT.md).
RETURN, LOAD, STORE, ADD, TEST = b"\x2e", b"\x05", b"\x06", b"\x0e\x00", b"\x26" + bytes(4)
VARIABLE = b"\x03" + bytes(8)
SUM = 2 * VARIABLE + LOAD + b"\x01" + struct.pack("<q", 1) + ADD + STORE + VARIABLE + LOAD + TEST


def coded(outer, high, code):
    """A procedure of one cell without data, within the procedure `outer`."""
    return struct.pack("<7I", outer, 0, 0, 1, high, 0, len(code)) + code


def object_of(procedures):
    """The object of a module A of one variable, whose body returns at once."""
    head = b"M2OB" + struct.pack("<2I", 2, 1) + b"A" + struct.pack("<2I", 1, 0) + bytes(32)
    body = struct.pack("<7I", 0, 0, 0, 0, 0, 0, 1) + RETURN
    return head + struct.pack("<3I", 0, 0, len(procedures) + 1) + body + b"".join(procedures)


def outermost(steps):
    return b"\x02" + struct.pack("<2I", steps, 0) + LOAD + TEST + RETURN


# Objects of at most so many bytes: procedures side by side, each within the one before, one with all the code, and one with
# all the code in instructions of one byte.
OBJECTS = {
    "flat": lambda size: object_of([coded(0, 3, 10 * SUM + RETURN)] * ((size - 94) // (29 + 10 * len(SUM)))),
    "deep": lambda size: object_of([coded(k, 1, outermost(k)) for k in range((size - 94) // 44)]),
    "long": lambda size: object_of([coded(0, 3, SUM * ((size - 123) // len(SUM)) + RETURN)]),
    "short": lambda size: object_of([coded(0, 1, VARIABLE + LOAD * (size - 138) + TEST + RETURN)]),
}
