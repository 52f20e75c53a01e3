"""What docs/LANGUAGE.md says of a script, read a second time.

The proofs hold the program to the definitions in crates/aria_model/specs. They can't show that these definitions say
what the manual says. So this is the manual once more, as plainly as Python says it, for tests/random_scripts.py to
compare with the program. It is kept apart from the definitions on purpose: whoever changes the language changes both,
and reads the manual anew for each.

`run` takes tables and a script, changes the tables, and gives what is told and the status. A full log, want of memory
and faults of the disk and of the streams are left out: no script by itself brings them about.

Values are None, an int or bytes; names are str. So a text is never equal to a word, and a word never to a text."""

import functools
import re
from collections import deque, namedtuple
from dataclasses import dataclass
from types import SimpleNamespace

LONGEST_LINE = 1048576
LEAST_NUMBER, GREATEST_NUMBER = -(2**63), 2**63 - 1
MOST_ROWS_OF_A_TABLE = 16777216
MOST_ROWS_OF_A_STATEMENT = 65536
LONGEST_STORED_ROW = 65536
MOST_COLUMNS = 32
LONGEST_TEXT_LIMIT = 65535
MOST_KEYS = 8
LONGEST_ENTRY = 1000


class Refusal(Exception):
    """A statement is refused; the text stands behind `no` in the reply."""


# Tokens

BLANKS = re.compile(rb"[ \t\r]*")
# A text ends at the first quote that isn't doubled, and a word where no byte of a word follows. An x directly before a
# quote begins a hexadecimal text or nothing.
TOKEN = re.compile(
    rb"""(?P<hexadecimal> x'(?:[0-9A-Fa-f]{2})*' )
       | (?P<word> (?!x')[A-Za-z_][A-Za-z0-9_]{0,63}(?![A-Za-z0-9_]) )
       | (?P<number> -?[0-9]+ )
       | (?P<text> '[^']*(?:''[^']*)*'(?!') )
       | (?P<sign> [(),:=] )""",
    re.VERBOSE,
)
Token = namedtuple("Token", "at kind value")


def token_value(kind, spelling):
    if kind == "hexadecimal":
        return bytes.fromhex(spelling[2:-1].decode())
    if kind == "text":
        return spelling[1:-1].replace(b"''", b"'")
    if kind == "number":
        # Twenty digits are too wide already, and Python takes no number of very many.
        digits = spelling.lstrip(b"-").lstrip(b"0")[:20]
        return int(digits or b"0") * (-1 if spelling.startswith(b"-") else 1)
    return spelling.decode()


def tokens(line):
    """The tokens of a line, one after another, up to where none begins."""
    at = BLANKS.match(line).end()
    while at < len(line):
        found = TOKEN.match(line, at)
        if found is None:
            raise Refusal(f"bad statement at {at}")
        yield Token(at, found.lastgroup, token_value(found.lastgroup, found.group()))
        at = BLANKS.match(line, found.end()).end()


# The grammar. What is to be read is a tuple of parts. A part is one token (a word or a sign as it stands, or one of the
# three classes), or one of several tuples of parts, or a tuple of parts that comes once or more.

NAME, NUMBER, VALUE = "NAME", "NUMBER", "VALUE"


@dataclass(frozen=True)
class OneOf:
    ways: tuple


@dataclass(frozen=True)
class Repeated:
    parts: tuple


def maybe(*parts):
    return OneOf((parts, ()))


def listed(*parts):
    """The parts once or more, with commas between."""
    return (*parts, maybe(Repeated((",", *parts))))


KIND = OneOf((("trans",), ("plain",), ("packed",)))
TYPE = OneOf((("int",), ("text", "(", NUMBER, ")")))
COLUMN = (NAME, ":", TYPE)
KEY = (NAME, "(", *listed(NAME), ")", maybe(":", OneOf((("spatial",), ("fulltext",)))))
ROW = ("(", *listed(VALUE), ")")
STATEMENT = OneOf((
    ("create", NAME, KIND, maybe("max_rows", "=", NUMBER), Repeated(COLUMN), "keys", Repeated(KEY)),
    ("insert", NAME, Repeated(ROW)),
    ("delete", NAME, NAME, maybe(*ROW)),
    ("update", NAME, NAME, maybe(*ROW), "set", *listed(NAME, "=", VALUE)),
    ("select", NAME, NAME, maybe(*ROW)),
    ("drop", NAME),
    ("flush", NAME),
    ("checkpoint",),
))


def readings(parts):
    """The ways in which these parts may come: each begins with a token, or is () where nothing need come any more."""
    if not parts:
        return {()}
    first, behind = parts[0], parts[1:]
    if isinstance(first, OneOf):
        return set().union(*(readings(way + behind) for way in first.ways))
    if isinstance(first, Repeated):
        return readings(first.parts + (maybe(first),) + behind)
    return {parts}


def fits(part, kind, word):
    if part == NAME:
        return kind == "word"
    if part == NUMBER:
        return kind == "number"
    if part == VALUE:
        return kind in ("number", "text", "hexadecimal") or word == "null"
    return word == part


# the ways in which a line may begin
BEGINNING = frozenset(readings((STATEMENT,)))


@functools.cache
def after(before, kind, word):
    """What may come behind a token, of all the ways in which a statement might go on before it."""
    behind = [readings(parts[1:]) for parts in before if parts and fits(parts[0], kind, word)]
    return frozenset().union(*behind)


def parse(line):
    """The statement that a line spells, or None where it is blank."""
    if len(line) > LONGEST_LINE:
        raise Refusal("line too long")
    if BLANKS.fullmatch(line):
        return None
    ways = BEGINNING
    values = []
    for token in tokens(line):
        ways = after(ways, token.kind, token.value if token.kind in ("word", "sign") else None)
        if not ways:
            raise Refusal(f"bad statement at {token.at}")
        if token.kind == "number" and not LEAST_NUMBER <= token.value <= GREATEST_NUMBER:
            raise Refusal(f"number too wide at {token.at}")
        values.append(token.value)
    if () not in ways:
        raise Refusal(f"bad statement at {len(line)}")
    return statement_of(deque(values))


Column = namedtuple("Column", "name limit")  # the limit of a text, None for whole numbers
Key = namedtuple("Key", "name columns kind")  # the kind is "spatial", "fulltext" or None


def statement_of(rest):
    """The statement of these tokens, which are known to spell one."""
    take = rest.popleft

    def comes(token):
        return bool(rest) and rest[0] == token

    def behind(count):
        """The token behind so many that say nothing more."""
        for _ in range(count):
            take()
        return take()

    def value():
        token = take()
        return None if token == "null" else token

    def in_brackets(item):
        take()
        items = [item()]
        while take() == ",":
            items.append(item())
        return items

    statement = SimpleNamespace(word=take())
    if statement.word == "checkpoint":
        return statement
    statement.table = take()
    if statement.word == "create":
        statement.kind, statement.max_rows = take(), MOST_ROWS_OF_A_TABLE
        # A column may be called max_rows, and one may be called keys.
        if comes("max_rows") and rest[1] == "=":
            statement.max_rows = behind(2)
        statement.columns, statement.keys = [], []
        while rest[1] == ":":
            name, is_number = take(), behind(1) == "int"
            statement.columns.append(Column(name, None if is_number else in_brackets(take)[0]))
        take()  # keys
        while rest:
            name, columns = take(), in_brackets(take)
            statement.keys.append(Key(name, columns, behind(1) if comes(":") else None))
    elif statement.word == "insert":
        statement.rows = []
        while rest:
            statement.rows.append(in_brackets(value))
    elif statement.word in ("delete", "update", "select"):
        statement.key = take()
        statement.sought = in_brackets(value) if comes("(") else []
        statement.settings = []
        while rest:
            name = behind(1)  # `set`, or a comma
            take()
            statement.settings.append((name, value()))
    return statement


# Tables

def has_type(column, value):
    return value is None or isinstance(value, int) == (column.limit is None)


def stored_length(row):
    return sum(1 if value is None else 9 if isinstance(value, int) else 5 + len(value) for value in row)


PRINTED = re.compile(rb"[\x20-\x7e]*")


def spelled(value):
    if value is None:
        return "null"
    if isinstance(value, int):
        return str(value)
    if PRINTED.fullmatch(value):
        return "'" + value.decode().replace("'", "''") + "'"
    return "x'" + value.hex() + "'"


def twice(names):
    return len(set(names)) < len(names)


def bad_definition(statement):
    """What is wrong with the definition of a create, or None."""
    names = [column.name for column in statement.columns]
    limits = [column.limit for column in statement.columns if column.limit is not None]
    keys = statement.keys
    if statement.kind == "packed":
        return "packed"
    if not 1 <= statement.max_rows <= MOST_ROWS_OF_A_TABLE:
        return "max_rows"
    if len(names) > MOST_COLUMNS or twice(names):
        return "columns"
    if not all(1 <= limit <= LONGEST_TEXT_LIMIT for limit in limits):
        return "type"
    if len(keys) > MOST_KEYS or twice([key.name for key in keys]):
        return "keys"
    if any(twice(key.columns) or not set(key.columns) <= set(names) for key in keys):
        return "keys"
    for kind in ("spatial", "fulltext"):
        if any(key.kind == kind for key in keys):
            return kind
    parts = {column.name: 9 if column.limit is None else 2 * column.limit + 3 for column in statement.columns}
    entries = [sum(parts[name] for name in key.columns) for key in keys]
    if entries[0] > LONGEST_ENTRY or any(entries[0] + entry > LONGEST_ENTRY for entry in entries[1:]):
        return "entry"
    return None


class Table:
    def __init__(self, create):
        self.max_rows = create.max_rows
        self.columns = create.columns
        self.names = [column.name for column in create.columns]
        # the numbers of each key's columns, by the key's name
        self.keys = {key.name: [self.names.index(name) for name in key.columns] for key in create.keys}
        self.first_key = create.keys[0].name
        # each row by its values in the columns of the first key
        self.rows = {}

    def identity(self, row):
        return tuple(row[number] for number in self.keys[self.first_key])

    def test_value(self, number, value):
        """Refuses a value that may not be put in this column."""
        column = self.columns[number]
        too_long = isinstance(value, bytes) and column.limit is not None and len(value) > column.limit
        no_null = value is None and number in self.keys[self.first_key]
        if not has_type(column, value) or too_long or no_null:
            raise Refusal(f"bad value {column.name}")

    def put(self, rows, row):
        """Puts a row beside these rows, unless another has its identity."""
        if self.identity(row) in rows:
            raise Refusal(f"duplicate {self.first_key}")
        rows[self.identity(row)] = row

    def insert(self, new_rows):
        if len(new_rows) > MOST_ROWS_OF_A_STATEMENT:
            raise Refusal("too many rows")
        rows = dict(self.rows)
        for row in new_rows:
            for number, value in enumerate(row[: len(self.columns)]):
                self.test_value(number, value)
            if len(row) != len(self.columns):
                raise Refusal(f"bad value {self.names[min(len(row), len(self.columns) - 1)]}")
            if stored_length(row) > LONGEST_STORED_ROW:
                raise Refusal("row too long")
            self.put(rows, row)
            if len(rows) > self.max_rows:
                raise Refusal("rows full")
        self.rows = rows
        return [f"ok {len(new_rows)}"]

    def test_sought(self, key, sought):
        """Refuses values by which no rows can be found."""
        numbers = self.keys[key]
        for number, value in zip(numbers, sought):
            if not has_type(self.columns[number], value):
                raise Refusal(f"bad value {self.names[number]}")
        if len(sought) > len(numbers):
            raise Refusal(f"bad value {self.names[numbers[-1]]}")

    def concerned(self, key, sought):
        """The rows that have these values first in the key's columns, in the key's order."""
        numbers = self.keys[key]
        known = list(zip(numbers, sought))
        rows = [row for row in self.rows.values() if all(row[number] == value for number, value in known)]
        # Null comes before all else.
        order = numbers + self.keys[self.first_key]
        return sorted(rows, key=lambda row: [(row[number] is not None, row[number]) for number in order])

    def by_key(self, statement):
        """A select, an update or a delete."""
        if statement.key not in self.keys:
            raise Refusal(f"key {statement.key}")
        for name, _ in statement.settings:
            if name not in self.names:
                raise Refusal(f"column {name}")
        self.test_sought(statement.key, statement.sought)
        settings = [(self.names.index(name), value) for name, value in statement.settings]
        for number, value in settings:
            self.test_value(number, value)
        concerned = self.concerned(statement.key, statement.sought)
        count = f"ok {len(concerned)}"
        if statement.word == "select":
            return ["row " + ",".join(map(spelled, row)) for row in concerned] + [count]
        if len(concerned) > MOST_ROWS_OF_A_STATEMENT:
            raise Refusal("too many rows")
        rows = dict(self.rows)
        for row in concerned:
            if statement.word == "update":
                new_row = list(row)
                for number, value in settings:
                    new_row[number] = value
                if stored_length(new_row) > LONGEST_STORED_ROW:
                    raise Refusal("row too long")
            del rows[self.identity(row)]
            if statement.word == "update":
                self.put(rows, new_row)
        self.rows = rows
        return [count]


def execute(tables, statement):
    """Changes the tables, a dict by their names, as the statement says, and gives the lines that it tells."""
    if statement.word == "checkpoint":
        return ["ok"]
    name = statement.table
    if statement.word == "create":
        wrong = bad_definition(statement)
        if wrong is not None:
            raise Refusal(f"bad definition {wrong}")
        if name in tables:
            raise Refusal(f"table exists {name}")
        if statement.kind == "plain":
            raise Refusal("not built")
        tables[name] = Table(statement)
        return ["ok"]
    if name not in tables:
        raise Refusal(f"table {name}")
    if statement.word == "insert":
        return tables[name].insert(statement.rows)
    if statement.word in ("delete", "update", "select"):
        return tables[name].by_key(statement)
    if statement.word == "drop":
        del tables[name]
    return ["ok"]


def run(tables, script):
    """Changes the tables as the script says, and gives what it tells and the status."""
    lines = script.split(b"\n")
    if not lines[-1]:
        lines.pop()
    told, status = [], 0
    for line in lines:
        try:
            statement = parse(line)
            if statement is not None:
                told += execute(tables, statement)
        except Refusal as refusal:
            told.append(f"no {refusal}")
            status = 1
    return "".join(line + "\n" for line in told).encode(), status
