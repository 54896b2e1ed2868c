"""The cases of bindings/cases, as Python has them: those that all calls answer alike, and those of `wide`."""

import datetime
import decimal
import pathlib
import re
import struct

import mysql_params

CASES = pathlib.Path(__file__).resolve().parent.parent / "cases"

ERRORS = {
    "FORM_END": mysql_params.FormEndError,
    "FORM_LENGTH_LEAD": mysql_params.FormLengthLeadError,
    "FORM_TYPE": mysql_params.FormTypeError,
    "FORM_MIXED": mysql_params.FormMixedError,
    "FORM_REPEATED": mysql_params.RepeatedNameError,
    "MIXED": mysql_params.MixedError,
    "MISSING": mysql_params.MissingError,
    "NAMED_FOR_POSITIONAL": mysql_params.NamedForPositionalError,
    "POSITIONAL_FOR_NAMED": mysql_params.PositionalForNamedError,
    "MARK_COUNT": mysql_params.MarkCountError,
    "NOT_ALONE": mysql_params.NotAloneError,
    "UNBRACKETED": mysql_params.UnbracketedError,
    "FLOAT": mysql_params.FloatError,
    "UNSTEADY": mysql_params.UnsteadyError,
    "UNPORTABLE": mysql_params.UnportableError,
    "FAULT": mysql_params.FragmentError,
    "BACKSLASH": mysql_params.BackslashError,
    "UNSTEADY_FRAGMENT": mysql_params.UnsteadyFragmentError,
}

FIELDS = {
    "FORM_END": ("parameter", "position"),
    "FORM_LENGTH_LEAD": ("parameter", "position", "byte"),
    "FORM_TYPE": ("parameter", "position", "column_type"),
    "FORM_MIXED": ("parameter", "position"),
    "FORM_REPEATED": ("parameter", "position", "name"),
    "MISSING": ("place", "position", "name"),
    "MARK_COUNT": ("marks", "values"),
    "NOT_ALONE": ("place", "position"),
    "UNBRACKETED": ("place", "position"),
    "FLOAT": ("place",),
    "UNSTEADY": ("position",),
    "UNPORTABLE": ("position", "construct"),
    "FAULT": ("place", "fault", "in_row", "item"),
    "BACKSLASH": ("position",),
    "UNSTEADY_FRAGMENT": ("place",),
}

NUMBERS = {"FORM_END": 3, "FORM_LENGTH_LEAD": 4, "FORM_TYPE": 5, "FORM_MIXED": 6, "FORM_REPEATED": 7, "MIXED": 8}
NUMBERS.update({"MISSING": 9, "NAMED_FOR_POSITIONAL": 10, "POSITIONAL_FOR_NAMED": 11, "MARK_COUNT": 12})
NUMBERS.update({"NOT_ALONE": 13, "FLOAT": 14, "UNSTEADY": 15, "UNPORTABLE": 16, "FAULT": 17, "BACKSLASH": 18})
NUMBERS.update({"UNSTEADY_FRAGMENT": 19, "UNBRACKETED": 21})

CONSTRUCTS = ["EXECUTABLE_COMMENT", "HINT", "MARIADB_COMMENT", "DASHES", "ESCAPED_QUOTE", "BRACKET", "DOLLAR_QUOTE"]
CONSTRUCTS += ["DASHES_AFTER_EXPONENT", "PLACE_AFTER_EXPONENT", "OPENER_IN_COMMENT", "JOINING_COMMENT"]
CONSTRUCTS += ["DASHES_BEFORE_COMMENT", "CLIENT_COMMAND", "DASH_IN_FRONT", "DELIMITER", "CLIENT_WORD"]
CONSTRUCTS += ["ESCAPED_NEWLINE", "ZERO_BYTE", "ESCAPED_BACKQUOTE", "RETURN_IN_COMMENT"]
"""Names of the constructs in cases, in the order of their numbers from 1 on."""

FIELDS_OF_CASES = {"parameter": "place", "column_type": "byte", "construct": "byte"}
FIELDS_OF_CASES.update({"fault": "byte", "in_row": "position", "item": "values"})
"""What cases call the fields that errors have by other names."""


def text_of(text):
    """Return the bytes of a text: pairs of hexadecimal digits within { }, or as they stand."""
    return re.sub(rb"\{([0-9A-F]+)\}", lambda found: bytes.fromhex(found[1].decode()), text.encode())


def identifier_of(text):
    """Return the identifier of names between bars."""
    return mysql_params.Identifier(*(text_of(part).decode() for part in text.split("|")))


def column_of(text):
    """Return the column of names between bars: a str if it is one name."""
    names = identifier_of(text)
    return names.parts[0] if len(names.parts) == 1 else names


def value_of(text):
    """Return the value of a parameter as Python has it."""
    kind, _, rest = text.partition(":")
    if kind == "s":
        return text_of(rest)
    if kind in ("i", "u"):
        return int(rest)
    if kind == "d":
        return decimal.Decimal(rest)
    if kind in ("list", "implicit_list"):
        items = [value_of(item) for item in rest.split("|") if rest]
        return mysql_params.In(items) if kind == "list" else items
    if kind in ("rows", "implicit_rows"):
        rows = [tuple(value_of(item) for item in row.split("|")) for row in rest.split("||")]
        return mysql_params.In(rows) if kind == "rows" else rows
    if kind in ("identifier", "qualified"):
        return identifier_of(rest)
    if kind == "identifiers":
        return [identifier_of(names) for names in rest.split("||")] if rest else mysql_params.In([])
    if kind == "assignments":
        pairs = [pair.partition("=") for pair in rest.split("||") if rest]
        return mysql_params.Assignments([(column_of(names), value_of(value)) for names, _, value in pairs])
    if kind == "keyword":
        return mysql_params.Keyword(rest, among=(rest, "ASC"))
    if kind == "date":
        fields = [int(field) for field in rest.split()]
        return datetime.datetime(*fields) if any(fields[3:]) else datetime.date(*fields[:3])
    if kind == "time":
        sign, *fields = rest.split()
        days, hours, minutes, seconds, microseconds = map(int, fields)
        time = datetime.timedelta(days, seconds, microseconds, hours=hours, minutes=minutes)
        return -time if sign == "-" else time
    if kind == "float":
        return struct.unpack("<f", struct.pack("<f", float(rest)))[0]
    if kind == "double":
        return float(rest)
    return {"null": None}[kind]


PLACE, NAME = r"at place (\d+)", r"the value of (`:\w+`)"

MESSAGES = (
    (r"Named and positional params in one query", "The query has both `:name` and `?`: write one of them everywhere"),
    (r"Named params given where positional params are expected", "The values have names, and the query has none"),
    (r"Positional params given .*", "The values are in order, and the query has names: give a dict"),
    (r"Missing named parameter `(\w+)` for statement", r"`:\1` has no value"),
    (r"Redefinition of named parameter `(.*)'", r"`:\1` is given twice"),
    (r"Query has (\d+) marks and (\d+) values", r"The query has \1 `?`, and \2 values are given"),
    (rf"Float {PLACE}: {NAME};", r"The value for \2 is a float:"),
    (rf"Float {PLACE};", r"The value for place \1 is a float:"),
    (r"Backslash or byte that is not ASCII (at byte )(\d+) of the query", r"Byte \2 of the query is a backslash or is not ASCII"),
    (r"Backslash in a string (at byte \d+) of the query", r"A string of the query has a backslash \1"),
    (rf"Fragment {PLACE} has a name .*: {NAME}", r"A name for \2 has a backslash or a character that is not ASCII"),
    (rf"Fragment {PLACE} has a name .*", r"A name for place \1 has a backslash or a character that is not ASCII"),
    (rf"Fragment {PLACE} can't be written: it is empty: {NAME}", r"The list for \2 is empty"),
    (rf"Fragment {PLACE} can't be written: it is empty", r"The list for place \1 is empty"),
    (rf"Fragment {PLACE} can't be written: row (\d+) (.*)", r"Row \2 for place \1 \3"),
    (rf"Fragment {PLACE} can't be written: name (\d+) (.*)", r"Name \2 for place \1 \3"),
)
"""Messages of the cases, and how Python says them."""

TOUCHES = {
    b"1?": "`?` at byte 1 touches `1`: put a space between",
    b"?A": "`?` at byte 0 touches `A`: put a space between",
    b":abc, x:b": "`:b` at byte 7 touches `x`: put a space between, or behind the colon of a label",
    b"lbl:LOOP": "`:LOOP` at byte 3 touches `lbl`: put a space between, or behind the colon of a label",
    b"SELECT 'a\\':b": "`:b` at byte 11 touches `'`: put a space between, or behind the colon of a label",
    "SELECT :Gr\u00f6\u00dfe".encode(): "`:Gr` at byte 7 touches `\\xc3\\xb6\\xc3\\x9fe`: names are of ASCII letters, digits and _, "
    "so `:Gr\\xc3\\xb6\\xc3\\x9fe` ends after `Gr`",
}
"""What Python says of cases whose places don't stand alone, by the query."""


def message_of(told, query):
    """Return how Python says a message of a case."""
    if "does not stand alone" in told:
        return TOUCHES[query]
    for pattern, own in MESSAGES:
        if re.match(pattern, told):
            return re.sub(pattern, own, told, count=1)
    return told


class Case:
    """A case, and the lines that it stands in."""

    def __init__(self, lines):
        self.lines, self.query, self.params, self.form = lines, b"", [], b""
        self.text, self.renamed, self.names, self.refusal, self.message = None, None, [], None, None
        self.no_backslash_escape, self.portable, self.construct = False, False, None
        self.rows, self.texts = [], []
        for line in lines:
            word, _, rest = line.partition(" ")
            self.read(word, rest)

    def read(self, word, rest):
        if word == "row":
            self.params = []
            self.rows.append(self.params)
        elif word == "text" and self.rows:
            self.texts.append(text_of(rest))
        elif word in ("query", "text", "renamed"):
            setattr(self, word, text_of(rest))
        elif word == "param":
            name, _, value = rest.partition("=")
            self.params.append((name, value_of(value)))
        elif word == "form":
            self.form += bytes.fromhex(rest)
        elif word == "no_backslash_escape":
            self.no_backslash_escape = True
        elif word == "name":
            self.names.append(rest)
        elif word == "message":
            self.message = message_of(rest, self.query)
        elif word == "message_in_c":
            pass
        elif word == "refused":
            self.refusal, *fields = rest.split(" ")
            self.fields = dict(field.split("=") for field in fields)
        elif word == "portable":
            self.portable = True
        elif word == "unportable":
            self.construct, *fields = rest.split(" ")
            self.fields = dict(field.split("=") for field in fields)
        else:
            raise ValueError(f"{word} is no word of a case")

    def given(self):
        """Return the parameters as a list or a dict; a name that stands twice is given as str and as bytes."""
        return self.given_of(self.params)

    @staticmethod
    def given_of(params):
        """Return these parameters so."""
        if not params or not params[0][0]:
            return [value for _, value in params] or None
        given = {}
        for name, value in params:
            given[name.encode() if name in given else name] = value
        return given

    def error(self):
        """Return the type and the arguments of the error that is wanted."""
        arguments = []
        for field in FIELDS.get(self.refusal, ()):
            told = self.fields.get(FIELDS_OF_CASES.get(field, field), "0")
            arguments.append(text_of(told) if field == "name" else int(told))
        return ERRORS[self.refusal], tuple(arguments)


def cases_of(path):
    """Return the cases of one file."""
    parts = path.read_text().split("\n\n")
    lines = [[line for line in part.splitlines() if not line.startswith("#")] for part in parts]
    found = [Case(part) for part in lines if part]
    assert found, f"{path} has no case"
    return found


def cases(file):
    """Return the cases of a file, and those of the file of its name in `wide`, if there is one."""
    wide = CASES / "wide" / file
    return cases_of(CASES / file) + (cases_of(wide) if wide.exists() else [])
