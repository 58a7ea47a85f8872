#!/usr/bin/env python3
"""Writes laws, proved by computing, that the static rules give what was calculated apart for small units.

usage: unit_laws.py CASES.jsonl FOLDER NAME..

A line of CASES.jsonl is a unit: its files, and for each block its finished rows as [name, kind, at, a, b, c, e], with
names, strings and fields' names written out; all diagnostics as [file, token, code] and all answers as [file, token,
scope, ordinal]. What stands in a body is left out here, as are the diagnostics of a block's size. FOLDER is the folder
of m2_base's proofs; each unit NAME gets a file in FOLDER/units, and FOLDER/units.antt lists all that are there.
"""
import json
import pathlib
import re
import sys

RESERVED = """AND ARRAY BEGIN BY CASE CONST DEFINITION DIV DO ELSE ELSIF END EXIT EXPORT FOR FROM IF IMPLEMENTATION
IMPORT IN LOOP MOD MODULE NOT OF OR POINTER PROCEDURE QUALIFIED RECORD REPEAT RETURN SET THEN TO TYPE UNTIL VAR WHILE
WITH""".split()
SYMBOLS = [":=", "<>", "<=", ">=", ".."] + list("+-*/.,;([{^=#<>:)]}|&~")
STANDARD = """INTEGER CARDINAL CHAR BOOLEAN BITSET PROC TRUE FALSE NIL ABS CAP CHR DEC DISPOSE EXCL HALT HIGH INC INCL
MAX MIN NEW ODD ORD SIZE VAL InOut""".split()
INOUT = """DEFINITION MODULE InOut; CONST EOL = 12C; VAR Done: BOOLEAN; PROCEDURE Read(VAR ch: CHAR);
PROCEDURE ReadInt(VAR x: INTEGER); PROCEDURE ReadCard(VAR x: CARDINAL); PROCEDURE Write(ch: CHAR);
PROCEDURE WriteString(s: ARRAY OF CHAR); PROCEDURE WriteLn; PROCEDURE WriteInt(x: INTEGER; n: CARDINAL);
PROCEDURE WriteCard(x, n: CARDINAL); END InOut."""
OPERATORS = {"=": "Equal", "#": "Unequal", "<": "Less", "<=": "LessEqual", ">": "Greater", ">=": "GreaterEqual",
             "IN": "In", "+": "Plus", "-": "Minus", "OR": "Or", "*": "Times", "/": "Slash", "DIV": "Div", "MOD": "Mod",
             "AND": "And", "NOT": "Not"}


def skip_blank(text, i):
    while i < len(text):
        if 9 <= ord(text[i]) <= 13 or text[i] == " ":
            i += 1
        elif text.startswith("(*", i):
            depth = 0
            while True:
                if text.startswith("(*", i):
                    depth, i = depth + 1, i + 2
                elif text.startswith("*)", i):
                    depth, i = depth - 1, i + 2
                else:
                    i += 1
                if depth == 0:
                    break
        else:
            break
    return i


def lex(text):
    """The tokens: their kind (a name, number, char, string or the word itself) and value."""
    tokens, i = [], 0
    while True:
        i = skip_blank(text, i)
        if i == len(text):
            return tokens + [("end", None)]
        number = re.compile(r"[0-9][0-9A-F]*H|[0-7]+[BC]|[0-9]+").match(text, i)
        word = re.compile(r"[A-Za-z_][A-Za-z_0-9]*").match(text, i)
        if word:
            w = word.group()
            tokens.append((w, None) if w in RESERVED else ("name", w))
            i = word.end()
        elif number:
            w = number.group()
            if w[-1] == "C":
                tokens.append(("char", int(w[:-1], 8)))
            else:
                tokens.append(("number", int(w[:-1], 16) if w[-1] == "H" else int(w[:-1], 8) if w[-1] == "B" else int(w)))
            i = number.end()
        elif text[i] in "\"'":
            end = text.index(text[i], i + 1)
            tokens.append(("string", text[i + 1:end]))
            i = end + 1
        else:
            w = next(s for s in SYMBOLS if text.startswith(s, i))
            tokens.append(({"<>": "#", "&": "AND", "~": "NOT"}.get(w, w), None))
            i += len(w)


def listed(xs):
    return "(" + "".join(x + " ∷ " for x in xs) + "[])"


def optional(x):
    return "None" if x is None else "(Some %s)" % x


def truth(x):
    return "true" if x else "false"


class Parser:
    """The trees of a text, as terms of the specs. `bodies` gets the tokens from each BEGIN to its END."""

    def __init__(self, unit, tokens, next_stream=0):
        self.unit, self.tokens, self.i = unit, tokens, 0
        self.next_stream, self.procedures, self.bodies = next_stream, [], []

    def kind(self):
        return self.tokens[self.i][0]

    def take(self, kind):
        if self.kind() != kind:
            raise SyntaxError("%s at %d, not %s" % (self.kind(), self.i, kind))
        self.i += 1
        return self.tokens[self.i - 1][1]

    def maybe(self, kind):
        if self.kind() == kind:
            self.i += 1
            return True
        return False

    def ident(self):
        at = self.i
        return "(ident %d %d)" % (self.unit.number(self.take("name")), at)

    def idents(self):
        names = [self.ident()]
        while self.maybe(","):
            names.append(self.ident())
        return names

    def qual(self):
        first = self.ident()
        return "(qual %s %s)" % (first, optional(self.ident() if self.maybe(".") else None))

    def expr(self):
        at, left = self.i, self.sum()
        if self.kind() in ("=", "#", "<", "<=", ">", ">=", "IN"):
            return self.many(at, left, [self.operator(self.sum)])
        return left

    def operator(self, operand):
        at, op = self.i, self.kind()
        self.i += 1
        return "(next %s %d %s)" % (OPERATORS[op], at, operand())

    def many(self, at, first, rest):
        return "(expr %d (many_form %s (nexts %s)))" % (at, first, listed(rest)) if rest else first

    def sum(self):
        at = self.i
        if self.kind() in ("+", "-"):
            op = OPERATORS[self.kind()]
            self.i += 1
            first = "(expr %d (one_form %s %d %s))" % (at, op, at, self.term())
        else:
            first = self.term()
        rest = []
        while self.kind() in ("+", "-", "OR"):
            rest.append(self.operator(self.term))
        return self.many(at, first, rest)

    def term(self):
        at, first, rest = self.i, self.factor(), []
        while self.kind() in ("*", "/", "DIV", "MOD", "AND"):
            rest.append(self.operator(self.factor))
        return self.many(at, first, rest)

    def factor(self):
        at, kind = self.i, self.kind()
        if kind in ("number", "char"):
            return "(expr %d (%s_form %d))" % (at, kind, self.take(kind))
        if kind == "string":
            return "(expr %d (string_form %d))" % (at, self.unit.number(self.take(kind)))
        if kind == "{":
            return "(expr %d (set_form %s))" % (at, self.elements())
        if self.maybe("("):
            inner = self.expr()
            self.take(")")
            return re.sub(r"^\(expr \d+", "(expr %d" % at, inner)
        if self.maybe("NOT"):
            return "(expr %d (one_form Not %d %s))" % (at, at, self.factor())
        d = self.designator()
        if self.kind() == "{":
            return "(expr %d (typed_set_form %s %s))" % (at, d, self.elements())
        if self.kind() == "(":
            return "(expr %d (call_form %s %s))" % (at, d, self.actuals())
        return "(expr %d (name_form %s))" % (at, d)

    def elements(self):
        self.take("{")
        items = []
        if self.kind() != "}":
            items.append(self.label())
            while self.maybe(","):
                items.append(self.label())
        self.take("}")
        return "(labels %s)" % listed(items)

    def label(self):
        low = self.expr()
        return "(range_label %s %s)" % (low, self.expr()) if self.maybe("..") else "(one_label %s)" % low

    def exprs(self):
        es = [self.expr()]
        while self.maybe(","):
            es.append(self.expr())
        return "(exprs %s)" % listed(es)

    def actuals(self):
        self.take("(")
        es = "(exprs [])" if self.kind() == ")" else self.exprs()
        self.take(")")
        return es

    def designator(self):
        first, rest = self.ident(), []
        while self.kind() in (".", "[", "^"):
            at = self.i
            if self.maybe("."):
                rest.append("(field_selector %s %d)" % (self.ident(), at))
            elif self.maybe("["):
                rest.append("(index_selector %s %d)" % (self.exprs(), at))
                self.take("]")
            else:
                self.take("^")
                rest.append("(deref_selector %d)" % at)
        return "(designator %s (selectors %s))" % (first, listed(rest))

    def simple(self):
        at = self.i
        if self.maybe("("):
            names = self.idents()
            self.take(")")
            return "(type_expr %d (enum_type %s))" % (at, listed(names))
        base = self.qual() if self.kind() == "name" else None
        if not self.maybe("["):
            return "(type_expr %d (named_type %s))" % (at, base)
        low = self.expr()
        self.take("..")
        high = self.expr()
        self.take("]")
        return "(type_expr %d (sub_type %s %s %s))" % (at, optional(base), low, high)

    def type(self):
        at = self.i
        if self.maybe("ARRAY"):
            index = [self.simple()]
            while self.maybe(","):
                index.append(self.simple())
            self.take("OF")
            return "(type_expr %d (array_type (type_exprs %s) %s))" % (at, listed(index), self.type())
        if self.maybe("RECORD"):
            fields = self.fields()
            self.take("END")
            return "(type_expr %d (record_type %s))" % (at, fields)
        if self.maybe("SET"):
            self.take("OF")
            return "(type_expr %d (set_type %s))" % (at, self.simple())
        if self.maybe("POINTER"):
            self.take("TO")
            return "(type_expr %d (pointer_type %s))" % (at, self.type())
        if self.maybe("PROCEDURE"):
            formals, result = [], None
            if self.maybe("("):
                if self.kind() != ")":
                    formals.append(self.formal())
                    while self.maybe(","):
                        formals.append(self.formal())
                self.take(")")
                result = self.qual() if self.maybe(":") else None
            return "(type_expr %d (proc_type %s %s))" % (at, listed(formals), optional(result))
        return self.simple()

    def formal(self):
        by_ref, is_open = self.maybe("VAR"), self.open()
        return "(formal %s %s %s)" % (truth(by_ref), truth(is_open), self.qual())

    def open(self):
        if self.maybe("ARRAY"):
            self.take("OF")
            return True
        return False

    def fields(self):
        lists = []
        while True:
            if self.kind() == "name":
                names = self.idents()
                self.take(":")
                lists.append("(plain_fields %s %s)" % (listed(names), self.type()))
            elif self.kind() == "CASE":
                lists.append(self.cases())
            if not self.maybe(";"):
                return "(field_lists %s)" % listed(lists)

    def cases(self):
        self.take("CASE")
        tag = self.ident() if self.kind() == "name" else None
        self.take(":")
        of, arms, other = self.qual(), [], "(field_lists [])"
        self.take("OF")
        while True:
            if self.kind() not in ("|", "ELSE", "END"):
                labels = [self.label()]
                while self.maybe(","):
                    labels.append(self.label())
                self.take(":")
                arms.append("(variant_arm (labels %s) %s)" % (listed(labels), self.fields()))
            if not self.maybe("|"):
                break
        if self.maybe("ELSE"):
            other = self.fields()
        self.take("END")
        return "(case_fields %s %s (variant_arms %s) %s)" % (optional(tag), of, listed(arms), other)

    def heading(self):
        self.take("PROCEDURE")
        name, sections, result = self.ident(), [], None
        if self.maybe("("):
            if self.kind() != ")":
                sections.append(self.section())
                while self.maybe(";"):
                    sections.append(self.section())
            self.take(")")
            result = self.qual() if self.maybe(":") else None
        return "(heading %s %s %s)" % (name, listed(sections), optional(result))

    def section(self):
        by_ref, names = self.maybe("VAR"), self.idents()
        self.take(":")
        is_open = self.open()
        return "(section %s %s %s %s)" % (truth(by_ref), listed(names), truth(is_open), self.qual())

    def imports(self):
        found, modules = [], []
        while self.kind() in ("FROM", "IMPORT"):
            from_at = self.i
            from_ = self.ident() if self.maybe("FROM") else None
            self.take("IMPORT")
            first = self.i
            names = self.idents()
            modules += [self.tokens[from_at + 1][1]] if from_ else [self.tokens[j][1] for j in range(first, self.i, 2)]
            self.take(";")
            found.append("(an_import %s %s)" % (optional(from_), listed(names)))
        return listed(found), modules

    def declarations(self, definition):
        decls = []
        while True:
            if self.maybe("CONST"):
                while self.kind() == "name":
                    name = self.ident()
                    self.take("=")
                    decls.append("(const_decl %s %s)" % (name, self.expr()))
                    self.take(";")
            elif self.maybe("TYPE"):
                while self.kind() == "name":
                    name = self.ident()
                    typ = None if definition and self.kind() == ";" else self.take("=")
                    typ = None if self.kind() == ";" else self.type()
                    decls.append("(type_decl %s %s)" % (name, optional(typ)))
                    self.take(";")
            elif self.maybe("VAR"):
                while self.kind() == "name":
                    names = self.idents()
                    self.take(":")
                    decls.append("(vars_decl %s %s)" % (listed(names), self.type()))
                    self.take(";")
            elif self.kind() == "PROCEDURE":
                decls.append(self.procedure(definition))
            else:
                return listed(decls)

    def procedure(self, definition):
        heading = self.heading()
        self.take(";")
        if definition:
            return "(proc_decl %s 0)" % heading
        stream = self.next_stream
        self.next_stream += 1
        self.procedures.append(None)
        place = len(self.procedures) - 1
        decls, close = self.block()
        self.take(";")
        self.procedures[place] = "stream Procedure false None [] (Some %s) %s (statements []) %s" % (heading, decls, close)
        return "(proc_decl %s %d)" % (heading, stream)

    def block(self):
        """The declarations and the closing name; the body is only passed over."""
        decls = self.declarations(False)
        if self.maybe("BEGIN"):
            first, depth = self.i, 1
            while depth:
                depth += {"END": -1, "CASE": 1, "IF": 1, "WHILE": 1, "FOR": 1, "LOOP": 1, "WITH": 1}.get(self.kind(), 0)
                self.i += 1
            self.bodies.append(range(first, self.i))
        else:
            self.take("END")
        return decls, self.ident()

    def main(self):
        implementation = self.maybe("IMPLEMENTATION")
        self.take("MODULE")
        name = self.ident()
        self.take(";")
        imports, _ = self.imports()
        decls, close = self.block()
        self.take(".")
        self.take("end")
        module = "stream Main %s (Some %s) %s None %s (statements []) %s" % (truth(implementation), name, imports, decls, close)
        return [module] + self.procedures

    def definition(self):
        self.take("DEFINITION")
        self.take("MODULE")
        name = self.ident()
        self.take(";")
        imports, _ = self.imports()
        if self.maybe("EXPORT"):
            self.take("QUALIFIED")
            self.idents()
            self.take(";")
        decls = self.declarations(True)
        self.take("END")
        close = self.ident()
        return "stream Definition false (Some %s) %s None %s (statements []) %s" % (name, imports, decls, close)

    def front(self):
        implementation = self.kind() == "IMPLEMENTATION"
        self.i = 4 if self.kind() in ("IMPLEMENTATION", "DEFINITION") else 3
        return implementation, self.imports()[1]


class Unit:
    def __init__(self, case):
        self.case, self.names = case, [""] + list(STANDARD)
        self.files = dict(case["files"], **{"InOut.def": INOUT})
        main = case["main"]
        self.texts = [main + ".mod"]
        implementation, modules = Parser(self, lex(self.files[main + ".mod"])).front()
        self.implementation, self.main = implementation, main
        queue = ([main] if implementation else []) + modules
        while queue:
            name = queue.pop(0) + ".def"
            if name not in self.texts:
                self.texts.append(name)
                queue += Parser(self, lex(self.files[name])).front()[1]

    def number(self, name):
        if name not in self.names:
            self.names.append(name)
        return self.names.index(name)

    def trees(self):
        order = [b["file"] for b in self.case["blocks"] if b["kind"] == "Definition"]
        definitions = [Parser(self, lex(self.files[f])).definition() for f in order]
        parser = Parser(self, lex(self.files[self.texts[0]]), len(order) + 2)
        main = parser.main()
        own = order.index(self.main + ".def") + 1 if self.implementation else None
        return order, definitions, main, own, [i for r in parser.bodies for i in r]


def integer(n):
    return "(pos %d)" % n if n >= 0 else "(negsuc %d)" % (-n - 1)


def row(unit, r):
    name, kind, at, a, b, c, e = r
    numbers = [n if isinstance(n, int) else 0 if n is None else unit.number(n) for n in (a, b, c, e)]
    return "(numbers_row %d %d %d %s)" % (unit.number(name or ""), at, kind, " ".join(map(integer, numbers)))


def triple(numbers):
    return listed(map(str, numbers))


def comment(text):
    """A text as comment lines."""
    words, lines = " ".join(text.split()).split(" "), [""]
    for w in words:
        if len(lines[-1]) + len(w) > 110:
            lines.append("")
        lines[-1] += (" " if lines[-1] else "") + w
    return ["--     " + line for line in lines]


def law(case):
    unit = Unit(case)
    order, definitions, main, own, body = unit.trees()
    name = case["name"]
    # that a block is too big stands at its name, and is no declaration's diagnostic
    tokens = {f: lex(unit.files[f]) for f in unit.texts}
    diags = sorted((unit.texts.index(f), t, c) for f, t, c in case["diags"]
                   if not (c == 62 and tokens[f][t][0] == "name") and (f != unit.texts[0] or t not in body))
    answers = sorted(set((t, s, o) for f, t, s, o in case["answers"] if f != unit.texts[0] or t not in body))
    rows = [[row(unit, r) for r in b["rows"]] for b in case["blocks"]]
    spellings = [listed(map(str, n.encode("latin-1"))) for n in unit.names[len(STANDARD) + 1:]]
    modules = ["(definition_module %d %d)" % (unit.number(f[:-4]), unit.texts.index(f)) for f in order]
    trees = "".join("\n\nabbrev tree_%d : Stream\ntree_%d = %s" % (i + 1, i + 1, t) for i, t in enumerate(definitions + main))
    names = ["tree_%d" % (i + 1) for i in range(len(definitions + main))]
    tables = "".join("\n\nabbrev rows_%d : List Row\nrows_%d = %s" % (i + 1, i + 1, listed(r)) for i, r in enumerate(rows))
    texts = [line for f in unit.texts if f in case["files"] for line in ["--", "-- %s:" % f] + comment(case["files"][f])]
    return "\n".join(["-- A unit, with what its declarations give. Names are numbered from 28 on as they come here.", *texts]) + """
%s%s%s

abbrev unit : UnitTrees
unit = record {
  source = record { spellings = standard_names ++ %s; definitions = %s };
  own = %s;
  definitions = %s;
  main = %s;
}

pub rows_are : unit_rows unit ≡ standard_rows ∷ %s
unfolding unit_rows declare_block blocks_of standard_names
rows_are = refl

pub diagnostics_are : sorted_diags (declaration_diags unit) ≡ %s
unfolding unit_rows declare_block blocks_of declaration_diags standard_names
diagnostics_are = refl

pub answers_are : sorted_answers (declaration_answers unit) ≡ %s
unfolding unit_rows declare_block blocks_of declaration_answers standard_names
answers_are = refl
""" % (HEAD.rstrip(), trees, tables, listed(spellings), listed(modules), optional(own), listed(names[:len(order)]), listed(names[len(order):]),
       listed("rows_%d" % (i + 1) for i in range(len(rows))), listed(map(triple, diags)), listed(map(triple, answers)))


HEAD = """use Rattle.std.specs.Prelude.{◌≡◌, ℕ, pos, negsuc, true, false, List, [], ◌∷◌, ◌++◌, Some, None}
use Rattle.std.proofs.Common.{refl}
use Rattle.m2_base.specs.Names.{standard_names}
use Rattle.m2_base.specs.Rows.{Row, numbers_row}
use Rattle.m2_base.specs.Standard.{standard_rows}
use Rattle.m2_base.specs.Statics.BlockRows.{declare_block}
use Rattle.m2_base.specs.Statics.Blocks.{UnitTrees, blocks_of}
use Rattle.m2_base.specs.Statics.UnitNotes.{declaration_diags, declaration_answers}
use Rattle.m2_base.specs.Statics.UnitRows.{unit_rows}
use Rattle.m2_base.specs.Trees.{Stream, Main, Definition, Procedure, expr, number_form, char_form, string_form, set_form, typed_set_form, name_form, call_form, one_form, many_form, exprs, next, nexts, designator, field_selector, index_selector, deref_selector, selectors, one_label, range_label, labels, type_expr, named_type, enum_type, sub_type, array_type, record_type, set_type, pointer_type, proc_type, type_exprs, plain_fields, case_fields, field_lists, variant_arm, variant_arms, const_decl, type_decl, vars_decl, proc_decl, statements}
use Rattle.m2_base.specs.declared.trees.operators.Operator.TheVariants.{Equal, Unequal, Less, LessEqual, Greater, GreaterEqual, In, Plus, Minus, Or, Times, Slash, Div, Mod, And, Not}
use Rattle.m2_base.proofs.UnitTerms.{ident, qual, formal, section, heading, an_import, stream, definition_module, sorted_diags, sorted_answers}
"""


def used(text):
    """The text without imports that nothing uses."""
    lines = text.split("\n")
    code = "\n".join(l for l in lines if not l.startswith("use ") and not l.startswith("--"))
    words = set(re.findall(r"[^\s(){},;]+", code)) | {"◌≡◌", "◌∷◌", "[]"} | ({"◌++◌"} if "++" in code else set())
    out = []
    for l in lines:
        m = re.match(r"use (.*)\.\{(.*)\}$", l)
        if m:
            kept = [n for n in m.group(2).split(", ") if n in words]
            if not kept:
                continue
            l = "use %s.{%s}" % (m.group(1), ", ".join(kept))
        out.append(l)
    return "\n".join(out)


def module(name):
    """The name of a unit's file: own_name_too has OwnNameToo."""
    return "".join(word.capitalize() for word in name.split("_"))


def main():
    folder = pathlib.Path(sys.argv[2])
    cases = {c["name"]: c for c in map(json.loads, open(sys.argv[1], encoding="latin-1"))}
    for name in sys.argv[3:]:
        (folder / "units" / (module(name) + ".antt")).write_text(used(law(cases[name])), "utf-8")
    lines = ["pub mod %s\n" % path.stem for path in sorted((folder / "units").glob("*.antt"))]
    head = "-- Units whose rows, diagnostics and answers were calculated apart, and are computed here.\n"
    (folder / "units.antt").write_text(head + "".join(lines), "utf-8")


if __name__ == "__main__":
    main()
