#!/usr/bin/env python3
"""Writes modules of ordinary code by fixed rules, so that compilers can be measured on what people write.

usage: ordinary_modules.py FOLDER [MODULES [LINES]]

FOLDER gets MODULES main texts (100 if left out) of about LINES lines (1000 if left out) each, the definition texts that
they import, and a file `modules` with the main texts' names, one a line. A fifth are implementation modules, the others
are program modules. They declare constants, types, variables and procedures of every kind, and their statements are
nested. What is written depends on these words alone: each choice is a draw of a generator of numbers that begins with
the module's number.

The modules are of the language of docs/LANGUAGE.md, and GNU Modula-2 takes the same texts. NEW and DISPOSE need an
import there and none here, so each text imports ALLOCATE and DEALLOCATE from Storage, whose definition text here stands
in for GNU Modula-2's own.
"""
import dataclasses
import pathlib
import sys

LIBRARIES = ("Account", "Parcel", "Sensor", "Ticket", "Vehicle", "Recipe", "Invoice", "Ledger", "Rental", "Flight",
             "Patient", "Catalog", "Meter", "Payroll", "Voter", "Planet", "Tenant", "Harvest", "Signal", "Cargo")
STATES = ("Fresh", "Open", "Held", "Late", "Paid", "Closed", "Lost")
FIELDS = ("amount", "weight", "price", "level", "serial", "rank")
VERBS = ("Find", "Count", "Move", "Merge", "Check", "Update", "Adjust", "Collect", "Measure", "Reset", "Scan", "Choose",
         "Balance", "Report", "Split", "Trim", "Sort", "Shift", "Rate", "Review")
OBJECTS = ("Rows", "Items", "Totals", "Limits", "Words", "Levels", "Pages", "Prices", "Steps", "Marks", "Weights",
           "Queues", "Scores")
LOCALS = {
    "INTEGER": ("sum", "delta", "offset", "balance", "error", "margin"),
    "CARDINAL": ("total", "length", "size", "place", "hits", "width"),
    "CHAR": ("letter", "mark", "sign"),
    "BOOLEAN": ("found", "done", "valid", "ready"),
    "BITSET": ("flags", "mask"),
}
COUNTERS = ("i", "j", "k", "m")
INOUT = "Read, ReadInt, ReadCard, Write, WriteString, WriteLn, WriteInt, WriteCard, Done, EOL"
STORAGE = """DEFINITION MODULE Storage;
(* Stands in for the definition of GNU Modula-2, whose address is of any type. *)
TYPE Block;
PROCEDURE ALLOCATE(VAR block: Block; size: CARDINAL);
PROCEDURE DEALLOCATE(VAR block: Block; size: CARDINAL);
END Storage.
"""
MOST_DEPTH = 4
WIDTH = 100


class Draws:
    """Numbers that look drawn, and are the same for one seed on every machine."""

    def __init__(self, seed):
        self.state = seed * 2654435761 + 12345

    def below(self, bound):
        self.state = (self.state * 6364136223846793005 + 1442695040888963407) % 2**64
        return (self.state >> 33) % bound

    def pick(self, choices):
        return choices[self.below(len(choices))]

    def percent(self, share):
        return self.below(100) < share


@dataclasses.dataclass(frozen=True)
class Kind:
    """A type: its name, its form, and what the form has."""
    name: str
    form: str
    constants: tuple = ()
    of: object = None


@dataclasses.dataclass(frozen=True)
class Place:
    """A variable or a part of one, of a scalar type. `%` stands where an index goes."""
    text: str
    kind: Kind
    index: object = None


@dataclasses.dataclass(frozen=True)
class Procedure:
    """A procedure that may be called, with the mode and kind of each parameter."""
    name: str
    parameters: tuple
    result: object = None


INTEGER, CARDINAL, CHAR, BOOLEAN, BITSET = (Kind(name, name) for name in LOCALS)
BASIC = (INTEGER, CARDINAL, CHAR, BOOLEAN, BITSET)
TEXT = Kind("", "text")
SET_MARKS = ("+", "-", "*", "/")
MARKS = {"INTEGER": ("+", "-", "*"), "CARDINAL": ("+", "*"), "BITSET": SET_MARKS, "set": SET_MARKS}


def grouped(text):
    """An operand, in brackets where it has operators."""
    return "(%s)" % text if " " in text else text


@dataclasses.dataclass
class View:
    """What a piece of code sees."""
    places: list = dataclasses.field(default_factory=list)
    readable: list = dataclasses.field(default_factory=list)
    records: list = dataclasses.field(default_factory=list)
    pointers: list = dataclasses.field(default_factory=list)
    texts: list = dataclasses.field(default_factory=list)
    numbers: list = dataclasses.field(default_factory=list)
    procedures: list = dataclasses.field(default_factory=list)
    enumerations: list = dataclasses.field(default_factory=list)

    def joined(self, other):
        return View(*(getattr(self, part.name) + getattr(other, part.name) for part in dataclasses.fields(View)))

    def of_kind(self, kind, writing=False):
        return [place for place in self.places + ([] if writing else self.readable) if place.kind == kind]


class Expressions:
    """Writes expressions of a view. A first operand is never constant, so nothing is folded out of its range."""

    def __init__(self, draws, view):
        self.draws, self.view = draws, view

    def place(self, kind, writing=False):
        choices = self.view.of_kind(kind, writing)
        return self.filled(self.draws.pick(choices)) if choices else None

    def filled(self, place):
        """A place with an index where it needs one."""
        if place.index is None:
            return place.text
        if isinstance(place.index, Kind):
            return place.text.replace("%", self.value(place.index, 0))
        return place.text.replace("%", self.index_below(place.index))

    def index_below(self, bound):
        counters = [place.text for place in self.view.readable if place.text in COUNTERS]
        if self.draws.percent(60) and counters:
            return "%s MOD %d" % (self.draws.pick(counters), bound)
        return str(self.draws.below(bound))

    def literal(self, kind):
        if kind.form in ("INTEGER", "CARDINAL"):
            named = self.draws.percent(30) and self.view.numbers
            return self.draws.pick(self.view.numbers) if named else str(1 + self.draws.below(99))
        if kind.form == "CHAR":
            return self.draws.pick(('"%s"' % chr(97 + self.draws.below(26)), "0C", "' '", "15C"))
        if kind.form == "BOOLEAN":
            return self.draws.pick(("TRUE", "FALSE"))
        if kind.form == "enumeration":
            return self.draws.pick(kind.constants)
        return self.set_literal(kind)

    def set_literal(self, kind):
        if kind.form == "BITSET":
            low = self.draws.below(12)
            return "{%d, %d .. %d}" % (low, low + 2, low + 5)
        return "%s{%s, %s}" % (kind.name, kind.of.constants[0], self.draws.pick(kind.of.constants[1:]))

    def value(self, kind, depth):
        """An expression of a kind, at most so deep."""
        first = self.place(kind)
        if first is None or (depth == 0 and self.draws.percent(35)):
            return self.literal(kind)
        if depth == 0:
            return first
        if kind.form == "BOOLEAN":
            return self.condition(depth)
        called = self.draws.percent(15) and self.call_of(kind, depth)
        if called:
            return called
        if kind.form in MARKS:
            return self.combined(kind, first, depth)
        if self.draws.percent(30):
            return self.converted(kind, depth)
        return self.draws.pick((first, self.literal(kind)))

    def varying(self, kind, depth):
        """An expression that begins with a variable."""
        return self.value(kind, depth) if depth else self.place(kind) or self.literal(kind)

    def combined(self, kind, first, depth):
        """One to three operands with operators between."""
        is_number = kind.form in ("INTEGER", "CARDINAL")
        text = self.converted(kind, depth) if is_number and self.draws.percent(15) else first
        for _ in range(1 + self.draws.below(2)):
            if is_number and self.draws.percent(25):
                text = "%s %s %d" % (grouped(text), self.draws.pick(("DIV", "MOD")), 2 + self.draws.below(60))
            else:
                text += " %s %s" % (self.draws.pick(MARKS[kind.form]), grouped(self.value(kind, depth - 1)))
        return text

    def converted(self, kind, depth):
        """What a standard function makes of a value of another kind."""
        if kind.form == "INTEGER" and self.draws.percent(50):
            return "VAL(INTEGER, %s)" % self.varying(CARDINAL, depth - 1)
        if kind.form == "INTEGER":
            return "ABS(%s)" % self.varying(INTEGER, depth - 1)
        if kind.form == "CARDINAL" and self.draws.percent(50):
            return "ORD(%s)" % self.varying(self.draws.pick([CHAR] + self.view.enumerations), 0)
        if kind.form == "CARDINAL":
            return "VAL(CARDINAL, ABS(%s))" % self.varying(INTEGER, depth - 1)
        if kind.form == "CHAR" and self.draws.percent(50):
            return "CAP(%s)" % self.value(CHAR, 0)
        if kind.form == "CHAR":
            return 'CHR(ORD("a") + %s MOD 26)' % self.value(CARDINAL, 0)
        return "VAL(%s, %s MOD %d)" % (kind.name, self.value(CARDINAL, 0), len(kind.constants))

    def condition(self, depth):
        choice = self.draws.below(10)
        if depth > 1 and choice < 2:
            mark = self.draws.pick(("&", "AND", "OR"))
            return "(%s) %s (%s)" % (self.condition(depth - 1), mark, self.condition(depth - 1))
        if choice == 2 and self.place(BOOLEAN):
            return self.draws.pick(("NOT %s", "~%s", "%s")) % self.place(BOOLEAN)
        if choice == 3:
            return "ODD(%s)" % self.value(self.draws.pick((INTEGER, CARDINAL)), depth - 1)
        if choice == 4 and self.view.pointers:
            return "%s %s NIL" % (self.draws.pick(self.view.pointers).text, self.draws.pick(("=", "#", "<>")))
        if choice == 5:
            return "%s IN %s" % (self.value(CARDINAL, 0) + " MOD 32", self.place(BITSET) or "{1, 3}")
        sets = [place for place in self.view.places if place.kind.form == "set"]
        if choice == 6 and sets:
            place = self.draws.pick(sets)
            return "%s IN %s" % (self.place(place.kind.of) or self.literal(place.kind.of), self.filled(place))
        return self.relation(depth)

    def relation(self, depth):
        kind = self.draws.pick([INTEGER, CARDINAL, INTEGER, CARDINAL, CHAR] + self.view.enumerations)
        first = self.place(kind) or self.literal(kind)
        mark = self.draws.pick(("=", "#", "<", "<=", ">", ">="))
        return "%s %s %s" % (first, mark, self.value(kind, min(depth - 1, 1)))

    def call_of(self, kind, depth):
        """A call of a function with such a result, where one is there."""
        choices = [procedure for procedure in self.view.procedures if procedure.result == kind]
        return self.call(self.draws.pick(choices), depth) if choices else None

    def call(self, procedure, depth):
        arguments = [self.argument(mode, kind, depth) for mode, kind in procedure.parameters]
        if None in arguments:
            return None
        return procedure.name + ("(%s)" % ", ".join(arguments) if arguments or procedure.result else "")

    def argument(self, mode, kind, depth):
        if kind.form == "text":
            return self.draws.pick([text for text, _ in self.view.texts] or ['"none"'])
        if kind.form in ("record", "opaque"):
            choices = [name for name, record in self.view.records if record == kind]
            return self.draws.pick(choices) if choices else None
        return self.place(kind, writing=True) if mode == "VAR " else self.value(kind, max(0, depth - 1))


class Statements:
    """Writes statements of a view, a line each."""

    def __init__(self, draws, view):
        self.draws, self.view, self.counters, self.lines = draws, view, 0, []
        self.expressions = Expressions(draws, view)

    def value(self, kind, depth=2):
        return self.expressions.value(kind, depth)

    def add(self, level, text):
        """Adds a line, and breaks it at blanks where it is long."""
        line = "  " * level
        for word in text.split(" "):
            if len(line) + len(word) > WIDTH and line.strip():
                self.lines.append(line.rstrip())
                line = "  " * (level + 2)
            line += word + " "
        self.lines.append(line.rstrip())

    def sequence(self, level, count):
        """So many statements, at this level, with semicolons between them."""
        for number in range(count):
            self.statement(level)
            if number + 1 < count:
                self.lines[-1] += ";"

    def statement(self, level):
        simple = (self.assignment,) * 3 + (self.step, self.calling, self.element, self.printing)
        nested = (self.choice,) * 2 + (self.counting, self.repeating, self.cases, self.within)
        nested += (self.looping, self.linking)
        if level <= MOST_DEPTH and self.draws.percent(27 - 5 * level):
            self.draws.pick(nested)(level)
        else:
            self.draws.pick(simple)(level)

    def body(self, level):
        self.sequence(level + 1, 1 + self.draws.below(3))

    def assignment(self, level):
        kind = self.draws.pick([INTEGER, CARDINAL, INTEGER, CARDINAL, CHAR, BOOLEAN, BITSET] + self.view.enumerations)
        texts = [(name, size) for name, size in self.view.texts if size]
        if self.draws.percent(12) and texts:
            name, size = self.draws.pick(texts)
            self.add(level, '%s := "%s"' % (name, self.draws.pick(STATES + OBJECTS)[:size]))
        else:
            place = self.expressions.place(kind, True)
            self.add(level, "%s := %s" % (place, self.value(kind, self.draws.pick((0, 1, 1, 1, 2, 2)))))

    def step(self, level):
        kind = self.draws.pick((INTEGER, CARDINAL, CARDINAL))
        words = self.expressions.place(kind, True)
        if self.draws.percent(40):
            words += ", " + self.value(kind, self.draws.below(2))
        self.add(level, "%s(%s)" % (self.draws.pick(("INC", "INC", "DEC")), words))

    def element(self, level):
        verb = self.draws.pick(("INCL", "EXCL"))
        sets = [place for place in self.view.places if place.kind.form == "set"]
        if sets and self.draws.percent(60):
            place = self.draws.pick(sets)
            self.add(level, "%s(%s, %s)" % (verb, self.expressions.filled(place), self.value(place.kind.of, 0)))
        else:
            place = self.expressions.place(BITSET, True)
            self.add(level, "%s(%s, %s MOD 32)" % (verb, place, self.expressions.place(CARDINAL)))

    def printing(self, level):
        texts = [name for name, _ in self.view.texts] + ['"%s: "' % self.draws.pick(OBJECTS)]
        self.add(level, self.draws.pick((
            "WriteString(%s)" % self.draws.pick(texts), "WriteLn", "Write(%s)" % self.value(CHAR, 1),
            "WriteInt(%s, %d)" % (self.value(INTEGER, 1), 1 + self.draws.below(8)),
            "WriteCard(%s, %d)" % (self.value(CARDINAL, 1), 1 + self.draws.below(8)))))

    def calling(self, level):
        choices = [procedure for procedure in self.view.procedures if procedure.result is None]
        called = self.expressions.call(self.draws.pick(choices), 2) if choices else None
        self.add(level, called or "WriteLn")

    def choice(self, level):
        self.add(level, "IF %s THEN" % self.expressions.condition(2))
        self.body(level)
        for _ in range(self.draws.below(3)):
            self.add(level, "ELSIF %s THEN" % self.expressions.condition(2))
            self.body(level)
        if self.draws.percent(50):
            self.add(level, "ELSE")
            self.body(level)
        self.add(level, "END")

    def counting(self, level):
        """FOR with the next counter, which the body sees and never sets."""
        if self.counters == len(COUNTERS):
            return self.assignment(level)
        name = COUNTERS[self.counters]
        ends = self.draws.pick((
            "0 TO %s" % self.draws.pick(self.view.numbers), "1 TO %s" % self.expressions.place(CARDINAL),
            "%d TO 0 BY -1" % (2 + self.draws.below(40)), "0 TO %d BY 2" % (10 + self.draws.below(60))))
        self.add(level, "FOR %s := %s DO" % (name, ends))
        self.counters += 1
        self.view.readable.append(Place(name, CARDINAL))
        self.body(level)
        self.view.readable.pop()
        self.counters -= 1
        return self.add(level, "END")

    def repeating(self, level):
        if self.draws.percent(50):
            self.add(level, "WHILE %s DO" % self.expressions.condition(2))
            self.body(level)
            self.add(level, "END")
        else:
            self.add(level, "REPEAT")
            self.body(level)
            self.add(level, "UNTIL %s" % self.expressions.condition(2))

    def looping(self, level):
        self.add(level, "LOOP")
        self.body(level)
        self.lines[-1] += ";"
        self.add(level + 1, "IF %s THEN EXIT END" % self.expressions.condition(2))
        self.add(level, "END")

    def cases(self, level):
        """CASE over numbers, characters or an enumeration, each label once."""
        kind = self.draws.pick([CARDINAL, CHAR] + self.view.enumerations)
        if kind.form == "CARDINAL":
            selector, labels = self.expressions.place(CARDINAL) + " MOD 20", ("0", "1, 2", "3 .. 7", "8, 10 .. 12")
        elif kind.form == "CHAR":
            selector, labels = self.expressions.place(CHAR), ('"a" .. "f"', '"g", "h"', '"A" .. "Z"', '"0" .. "9", "_"')
        else:
            selector, labels = self.expressions.place(kind) or kind.constants[0], kind.constants
        self.add(level, "CASE %s OF" % selector)
        for number, label in enumerate(labels):
            self.add(level, "%s %s:" % ("|" if number else " ", label))
            self.body(level + 1)
        self.add(level, "ELSE")
        self.body(level)
        self.add(level, "END")

    def within(self, level):
        """WITH over a record, whose fields are then seen by their names alone."""
        records = [(name, record) for name, record in self.view.records if record.form == "record"]
        if not records:
            return self.assignment(level)
        name, record = self.draws.pick(records)
        self.add(level, "WITH %s DO" % name)
        outer, hidden = self.view.places, [field for field, _ in record.of]
        self.view.places = [place for place in outer if place.text not in hidden]
        self.view.places += [place for field, kind in record.of for place in places_of(field, kind)]
        self.body(level)
        self.view.places = outer
        return self.add(level, "END")

    def linking(self, level):
        """A node is put before a list, or one is taken from it."""
        if not self.view.pointers:
            return self.choice(level)
        name = self.draws.pick(self.view.pointers).text
        if self.draws.percent(50):
            words = ("NEW(fresh);", "fresh^.next := %s;", "fresh^.amount := VAL(INTEGER, total);", "%s := fresh")
        else:
            words = ("IF %s # NIL THEN", "  fresh := %s;", "  %s := %s^.next;", "  DISPOSE(fresh)", "END")
        for line in words:
            self.lines.append("  " * level + line.replace("%s", name))
        return None


def places_of(name, kind):
    """The scalar places in a variable."""
    if kind.form == "record":
        return [place for field, of in kind.of for place in places_of("%s.%s" % (name, field), of)]
    if kind.form == "array":
        return [Place(name + "[%]", kind.of[1], kind.of[0])]
    if kind.form == "grid":
        return [Place(name + "[%%, %s]" % constant, kind.of[1], kind.of[0]) for constant in kind.constants]
    return [] if kind.form in ("text", "opaque", "action") else [Place(name, kind)]


def see(view, name, kind):
    """The view sees a variable."""
    view.places += [place for place in places_of(name, kind) if place.kind.form != "pointer"]
    if kind.form in ("record", "opaque"):
        view.records.append((name, kind))
    if kind.form == "pointer":
        view.pointers.append(Place(name, kind))
        view.places += places_of(name + "^", kind.of)
    if kind.form == "text":
        view.texts.append((name, kind.of))
    if kind == TEXT:
        view.places.append(Place(name + "[0]", CHAR))
        view.readable.append(Place("HIGH(%s)" % name, CARDINAL))


class Library:
    """A definition module: what its definition text declares, and how other modules see it."""

    def __init__(self, number):
        noun = LIBRARIES[number]
        draws = Draws(1000 + number)
        self.noun, self.name = noun, noun + "s"
        states = tuple(noun.lower() + state for state in STATES[: 4 + draws.below(4)])
        self.state = Kind(noun + "State", "enumeration", states)
        self.states = Kind(noun + "States", "set", of=self.state)
        self.label = Kind(noun + "Name", "text", of=8 + draws.below(16))
        fields = [("label", self.label), ("state", self.state)]
        fields += [(field, draws.pick((INTEGER, CARDINAL))) for field in FIELDS[: 2 + draws.below(5)]]
        fields += [("seen", self.states)]
        self.record = Kind(noun, "record", of=tuple(fields))
        self.handle = Kind(noun + "List", "opaque")
        self.constants = ["Most" + self.name, "First" + noun]
        self.values = [10 + draws.below(90), 1 + draws.below(9)]
        self.variable = "count" + self.name
        self.procedures = self.headings()

    def headings(self):
        noun, record = self.noun, self.record
        return [
            Procedure("Create%sList" % noun, (("VAR ", self.handle),)),
            Procedure("Put" + noun, (("VAR ", self.handle), ("", record))),
            Procedure("Rate" + noun, (("", record), ("", CARDINAL)), INTEGER),
            Procedure("Is" + noun, (("", TEXT),), BOOLEAN),
            Procedure("StateOf" + noun, (("", CARDINAL),), self.state),
            Procedure("SizeOf" + noun, (("", self.handle),), CARDINAL),
            Procedure("Mark" + noun, (("VAR ", self.states), ("", self.state), ("VAR ", CARDINAL))),
            Procedure("KeyOf" + noun, (("", TEXT),), CHAR),
            Procedure("Name" + noun, (("VAR ", record), ("", TEXT)))]

    def qualified(self, kind):
        """A kind as it is written behind the module's name."""
        marked = tuple("%s.%s" % (self.name, constant) for constant in kind.constants)
        of = self.qualified(kind.of) if isinstance(kind.of, Kind) else kind.of
        if kind.form == "record":
            of = tuple((field, self.qualified(inner)) for field, inner in kind.of)
        return kind if kind in BASIC or kind == TEXT else Kind("%s.%s" % (self.name, kind.name), kind.form, marked, of)

    def view(self, qualify=False):
        """What is seen of it, by names alone or behind the module's name."""
        turn = self.qualified if qualify else lambda kind: kind
        prefix = self.name + "." if qualify else ""
        view = View(numbers=[prefix + name for name in self.constants], enumerations=[turn(self.state)])
        view.places.append(Place(prefix + self.variable, CARDINAL))
        for one in self.procedures:
            parameters = tuple((mode, turn(kind)) for mode, kind in one.parameters)
            view.procedures.append(Procedure(prefix + one.name, parameters, one.result and turn(one.result)))
        return view

    def exported(self):
        kinds = (self.state, self.states, self.label, self.record, self.handle)
        called = [procedure.name for procedure in self.procedures]
        return self.constants + [kind.name for kind in kinds] + [self.variable] + called

    def text(self):
        """The definition text."""
        told = "(* What is kept of one %s. *)" % self.noun.lower()
        lines = ["DEFINITION MODULE %s;" % self.name, told, "", "CONST"]
        lines += ["  %s = %d;" % pair for pair in zip(self.constants, self.values)]
        lines += ["", "TYPE", "  %s;" % self.handle.name]
        lines += declared_types([self.state, self.states, self.label, self.record])
        lines += ["", "VAR %s: CARDINAL;" % self.variable, ""]
        lines += [line for one in self.procedures for line in (told, heading(one) + ";", "")]
        return "\n".join(lines + ["END %s." % self.name]) + "\n"


PARAMETERS = ("first", "second", "third", "fourth")
RULE = Procedure("rule", (("", INTEGER), ("VAR ", CARDINAL)), INTEGER)


def heading(procedure):
    """The heading of a procedure."""
    sections = ["%s%s: %s" % (mode, name, "ARRAY OF CHAR" if kind == TEXT else kind.name)
                for name, (mode, kind) in zip(PARAMETERS, procedure.parameters)]
    words = "(%s)" % "; ".join(sections) if sections or procedure.result else ""
    return "PROCEDURE %s%s%s" % (procedure.name, words, ": " + procedure.result.name if procedure.result else "")


def declared_types(kinds):
    """A line or more for each type."""
    lines = []
    for kind in kinds:
        if kind.form == "record":
            lines += ["  %s = RECORD" % kind.name] + ["    %s: %s;" % (field, inner.name) for field, inner in kind.of]
            lines += ["    CASE special: BOOLEAN OF", "      TRUE: bonus: INTEGER; code: CHAR"]
            lines += ["    | FALSE: spare: CARDINAL", "    END", "  END;"]
        else:
            lines.append("  %s = %s;" % (kind.name, type_words(kind)))
    return lines


def type_words(kind):
    if kind.form == "enumeration":
        return "(%s)" % ", ".join(kind.constants)
    if kind.form == "set":
        return "SET OF " + kind.of.name
    if kind.form == "text":
        return "ARRAY [0 .. %d] OF CHAR" % kind.of
    if kind.form == "array" and isinstance(kind.of[0], Kind):
        return "ARRAY %s OF %s" % (kind.of[0].name, kind.of[1].name)
    if kind.form == "array":
        return "ARRAY [0 .. %d] OF %s" % (kind.of[0] - 1, kind.of[1].name)
    if kind.form == "grid":
        return "ARRAY [0 .. %d], %s OF %s" % (kind.of[0] - 1, kind.of[2].name, kind.of[1].name)
    if kind.form == "pointer":
        return "POINTER TO " + kind.of.name
    return "PROCEDURE (INTEGER, VAR CARDINAL): INTEGER"


class Module:
    """A main text of about so many lines."""

    def __init__(self, number, size, libraries, own=None):
        self.draws, self.size, self.own = Draws(number), size, own
        self.name = own.name if own else "Program%d" % number
        self.view, self.lines, self.taken = View(), [], set()
        others = [library for library in libraries if library is not own]
        start = self.draws.below(len(others))
        self.imports = (others + others)[start: start + min(len(others), 2 + self.draws.below(4))]

    def text(self):
        self.front()
        self.constants()
        self.types()
        self.variables()
        self.procedure(Procedure("Standard", RULE.parameters, RULE.result))
        self.view.procedures.append(RULE)
        for procedure in self.own.procedures if self.own else ():
            self.procedure(procedure)
        while len(self.lines) < self.size - 60:
            self.procedure(self.fresh_procedure())
        self.lines += ["BEGIN", "  rule := Standard;", "  digit := total MOD 10;", "  turn := sum MOD 9;"]
        self.take(Statements(self.draws, self.view), 1, 12)
        return "\n".join(self.lines + ["END %s." % self.name]) + "\n"

    def take(self, statements, level, count):
        statements.sequence(level, count)
        self.lines += statements.lines

    def front(self):
        self.lines += ["%sMODULE %s;" % ("IMPLEMENTATION " if self.own else "", self.name)]
        self.lines += ["(* Written by tools/ordinary_modules.py. *)", "", "FROM InOut IMPORT %s;" % INOUT]
        self.lines += ["FROM Storage IMPORT ALLOCATE, DEALLOCATE;"]
        for number, library in enumerate(self.imports):
            if number % 3 == 1:
                self.lines.append("IMPORT %s;" % library.name)
            else:
                writer = Statements(self.draws, self.view)
                writer.add(0, "FROM %s IMPORT %s;" % (library.name, ", ".join(library.exported())))
                self.lines += writer.lines
            self.view = self.view.joined(library.view(qualify=number % 3 == 1))
        if self.own:
            self.view = self.view.joined(self.own.view())
            self.view.procedures = self.view.procedures[: -len(self.own.procedures)]

    def constants(self):
        self.lines += ["", "CONST"]
        names = ["Most" + one for one in OBJECTS[: 4 + self.draws.below(6)]]
        for name in names:
            bound = self.draws.pick(self.view.numbers)
            sums = "%s + %d" % (bound, self.draws.below(9)), "2 * (%s + 1)" % bound
            words = self.draws.pick((str(5 + self.draws.below(90)), *sums, "17B", "0FH"))
            self.lines.append("  %s = %s;" % (name, words))
        self.view.numbers += names
        self.lines += ["  Banner = \"%s\";" % self.name, "  Tab = 11C;", "  Usual = {1, 3 .. 6};"]

    def types(self):
        modes = Kind("Mode", "enumeration", tuple("mode" + state for state in STATES[: 3 + self.draws.below(4)]))
        self.enumerations = self.view.enumerations + [modes]
        self.view.enumerations = self.enumerations
        node = Kind("Node", "record", of=(("amount", INTEGER), ("mode", modes), ("weight", CARDINAL), ("key", CHAR)))
        self.link, self.node = Kind("Link", "pointer", of=node), node
        self.text_kind = Kind("Line", "text", of=20 + self.draws.below(40))
        own = [modes, Kind("Modes", "set", of=modes), self.text_kind]
        row = Kind("Row", "array", of=(8 + self.draws.below(24), self.draws.pick((INTEGER, CARDINAL))))
        grid = Kind("Grid", "grid", modes.constants, (4 + self.draws.below(9), INTEGER, modes))
        tally = Kind("Tally", "array", of=(modes, CARDINAL))
        fields = (("title", self.text_kind), ("mode", modes), ("size", CARDINAL), ("price", INTEGER), ("open", BOOLEAN))
        entry = Kind("Entry", "record", of=fields)
        self.kinds = own + [row, grid, tally, entry]
        self.lines += ["", "TYPE"] + declared_types(self.kinds) + ["  Link = POINTER TO Node;", "  Node = RECORD"]
        self.lines += ["    %s: %s;" % (field, kind.name) for field, kind in node.of] + ["    next: Link", "  END;"]
        self.lines += ["  Small = [0 .. 9];", "  Turn = INTEGER [-9 .. 9];"]
        self.lines += ["  Rule = PROCEDURE (INTEGER, VAR CARDINAL): INTEGER;"]
        if self.own:
            handle = self.own.handle.name
            self.lines += ["  %s = POINTER TO %sNode;" % (handle, self.own.noun), "  %sNode = RECORD" % self.own.noun,
                           "    value: %s;" % self.own.record.name, "    next: %s" % handle, "  END;"]

    def variables(self):
        self.lines += ["", "VAR"]
        for kind in self.kinds:
            for number in range(1 + self.draws.below(2)):
                self.variable("the%s%s" % (kind.name, number or ""), kind)
        for name in ("head", "tail", "fresh"):
            self.variable(name, self.link)
        for kind in BASIC:
            for name in LOCALS[kind.name][:2]:
                self.variable(name, kind)
        self.lines += ["  %s: CARDINAL;" % ", ".join(COUNTERS), "  digit: Small;", "  turn: Turn;", "  rule: Rule;"]
        self.view.readable += [Place("digit", CARDINAL), Place("turn", INTEGER)]
        self.view.pointers.pop()
        for library, number in zip(self.imports, range(9)):
            self.library_variables(library, "%s." % library.name if number % 3 == 1 else "")
        if self.own:
            self.library_variables(self.own, "")

    def library_variables(self, library, prefix):
        turn = library.qualified if prefix else lambda kind: kind
        kinds = (library.record, library.handle, library.states, library.state)
        for word, kind in zip(("this", "all", "marked", "last"), kinds):
            self.variable(word + library.noun, turn(kind))

    def variable(self, name, kind):
        self.lines.append("  %s: %s;" % (name, kind.name))
        see(self.view, name, kind)

    def fresh_procedure(self):
        """A procedure with a name of its own, up to three parameters and perhaps a result."""
        name = self.draws.pick(VERBS) + self.draws.pick(OBJECTS)
        number = 1
        while (name, number) in self.taken:
            number += 1
        self.taken.add((name, number))
        kinds = [INTEGER, CARDINAL, INTEGER, CARDINAL, CHAR, BOOLEAN, TEXT, self.kinds[-1]] + self.enumerations[-1:]
        parameters = [(self.draws.pick(("", "", "VAR ")), self.draws.pick(kinds)) for _ in range(self.draws.below(4))]
        result = self.draws.pick([None, None, INTEGER, CARDINAL, BOOLEAN, CHAR, self.enumerations[-1]])
        return Procedure(name + (str(number) if number > 1 else ""), tuple(parameters), result)

    def procedure(self, one):
        """A procedure with its variables, perhaps with one inside, and its statements; it is seen from then on."""
        self.lines += ["", "(* %s: %d parameters. *)" % (one.name, len(one.parameters)), heading(one) + ";"]
        inner = View()
        for name, (_, kind) in zip(PARAMETERS, one.parameters):
            see(inner, name, kind)
        hidden = self.local_variables(inner)
        outer, self.view = self.view, self.view.joined(inner)
        self.view.places = [place for place in outer.places if place.text not in hidden] + inner.places
        if self.draws.percent(20):
            self.inner_procedure()
        self.lines.append("BEGIN")
        self.statements_of(one.result, 3 + self.draws.below(6), 1)
        self.lines.append("END %s;" % one.name)
        self.view = outer
        self.view.procedures.append(one)

    def local_variables(self, inner):
        """Variables of each basic type; the answer is their names, which hide those outside."""
        self.lines += ["VAR", "  %s: CARDINAL;" % ", ".join(COUNTERS)]
        hidden = []
        for kind in BASIC:
            names = [name for name in LOCALS[kind.name] if self.draws.percent(45)] or [LOCALS[kind.name][0]]
            self.lines.append("  %s: %s;" % (", ".join(names), kind.name))
            hidden += names
            for name in names:
                see(inner, name, kind)
        return hidden

    def inner_procedure(self):
        """A function of one number within a procedure, which sees the variables round it."""
        one = Procedure("Inner", (("", INTEGER),), INTEGER)
        self.lines += ["", "  PROCEDURE Inner(given: INTEGER): INTEGER;", "  VAR"]
        self.lines += ["    %s: CARDINAL;" % ", ".join(COUNTERS), "  BEGIN"]
        self.view.readable.append(Place("given", INTEGER))
        self.statements_of(INTEGER, 3, 2)
        self.view.readable.pop()
        self.lines += ["  END Inner;", ""]
        self.view.procedures.append(one)

    def statements_of(self, result, count, level):
        statements = Statements(self.draws, self.view)
        statements.sequence(level, count)
        if result:
            statements.lines[-1] += ";"
            statements.add(level, "RETURN %s" % statements.value(result))
        self.lines += statements.lines


def main():
    if not 2 <= len(sys.argv) <= 4:
        sys.exit(__doc__)
    folder = pathlib.Path(sys.argv[1])
    modules, size = (int(word) for word in sys.argv[2:] + ["100", "1000"][len(sys.argv) - 2:])
    libraries = [Library(number) for number in range(max(2, min(len(LIBRARIES), modules // 5)))]
    folder.mkdir(parents=True, exist_ok=True)
    (folder / "Storage.def").write_text(STORAGE)
    names = []
    for number in range(modules):
        own = libraries[number] if number < len(libraries) else None
        module = Module(number + 1, size, libraries, own)
        (folder / (module.name + ".mod")).write_text(module.text())
        names.append(module.name)
    for library in libraries:
        (folder / (library.name + ".def")).write_text(library.text())
    (folder / "modules").write_text("\n".join(names) + "\n")


if __name__ == "__main__":
    main()
