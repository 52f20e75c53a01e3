"""random_scripts.py PROGRAM SEED COUNT: runs the program on random scripts, and compares what it tells and its status
with what tests/language.py says, byte for byte. Prints nothing and ends with 0 where all agree. At the first
difference it prints the seed of the script, the script and both outputs, and ends with 1.

Each script has the next seed, so PROGRAM with the printed seed and the count 1 shows the difference again. Each has a
new folder, in which some go on with a second script.

Statements are made to meet: names and values come from small pools, rows are sought by values that are there, and
limits are met and passed by one. Some lines slip at many places at once, so that it shows which refusal comes first."""

import os
import random
import subprocess
import sys
import tempfile
from collections import namedtuple

sys.dont_write_bytecode = True
import language

# Many names are words of statements, too.
TABLES = ["t", "u", "create", "x"]
COLUMNS = ["id", "a", "b", "x", "keys", "null", "max_rows", "set", "int"]
KEYS = ["k", "k1", "keys", "set", "x", "text", "_2"]
NUMBERS = [-1, 5, 20, 2**63 - 1, -(2**63), 2**63, -(2**63) - 1, 2**64 + 1, 10**30]
TEXTS = [b"", b"a", b"b", b"Z", b"ab", b"a ", b"a\0", b"abcd", b"'", b"''"]
# bytes that are told as they are, and such that aren't
TEXTS += [b" ", b"~", b"\n", b"\x1f", b"\x7f", b"\xff"]
WORDS = (
    "create trans plain packed max_rows keys int text spatial fulltext null insert delete update set select drop flush "
    "checkpoint Create NULL x"
).split()
SIGNS = ["(", ")", ",", ":", "="]
# odd tokens, and bytes with which none begins
ODD = [
    "n" * 64, "n" * 65, "_" * 65, "'", "''", "'a", "x'", "x''", "x'0'", "x'0g'", "x'4a'", "X'00'", "-", "--1", "5-3",
    "-0", "007", "1a", "+1", "1.5", "9223372036854775808", "\0", "\v", "\f", "\x80", ".", ";", '"',
]
BLANKS = [b" ", b" ", b"\t", b"\r", b"  ", b" \t "]

# A script has the limits of its texts, the most long columns of a table, and how often a line slips or is any sentence
# of the grammar.
Manner = namedtuple("Manner", "limits long_columns slips sentences")
CROWDED = Manner([2, 3], 0, 0.05, 0.02)
SLIPPING = Manner([1, 3, 0, 494, 494, 494, 495, 499, 65535, 65536], 0, 0.3, 0.1)
LONG = Manner([1, 3], 2, 0.05, 0)
SPELLED = Manner([2, 3], 0, 0.3, 0.8)
MANNERS = [CROWDED, CROWDED, SLIPPING, LONG, SPELLED]


def is_word_byte(byte):
    return byte.isalnum() or byte == b"_"


class Maker:
    """Makes lines for the tables as they are."""

    def __init__(self, seed):
        self.random = random.Random(seed)
        self.pick, self.between = self.random.choice, self.random.randint
        self.tables = {}
        self.manner = self.pick(MANNERS)
        self.slip_rate = 0

    def chance(self, rate):
        return self.random.random() < rate

    def slips(self):
        return self.chance(self.slip_rate)

    # values

    def any_value(self):
        return self.pick([None, self.pick(NUMBERS), self.between(-2, 4), self.pick(TEXTS)])

    def value(self, number, table, row):
        """A value for this column of a row; the row's other values are None where they aren't known."""
        limit = table.columns[number].limit
        keyed = number in table.keys[table.first_key]
        if self.slips():
            return self.any_value()
        if self.chance(0.01 if keyed else 0.15):
            return None
        if limit is None:
            return self.between(0, 3) if self.chance(0.9) else self.pick(NUMBERS[:5])
        if limit >= 1000 and self.chance(0.7):
            # The stored row comes to its limit, or near it.
            others = language.stored_length(row[:number] + row[number + 1 :])
            length = 65536 - others - 5 + self.pick([-9, -1, 0, 0, 1])
            return self.pick([b"z", b"z", b"z", b"'", b"\0"]) * min(length, limit + self.slips())
        if self.chance(0.1):
            return b"z" * (min(limit, 500) + self.slips())
        return self.pick(TEXTS)[:limit]

    def spelled(self, value):
        if isinstance(value, int) and self.chance(0.05):
            return ("-" if value < 0 or value == 0 else "") + "00" + str(abs(value))
        if isinstance(value, bytes):
            if b"\n" in value or self.chance(0.2):
                return "x'" + self.pick([value.hex(), value.hex().upper()]) + "'"
            return "'" + value.decode("latin-1").replace("'", "''") + "'"
        return "null" if value is None else str(value)

    def brackets(self, items):
        tokens = ["("]
        for item in items:
            tokens += [item, ","]
        return tokens[:-1] + [")"]

    # statements, as lists of tokens

    def create(self):
        kind = self.pick(["plain", "packed"]) if self.chance(self.slip_rate + 0.05) else "trans"
        tokens = ["create", self.pick(TABLES), kind]
        if self.slips() or self.chance(0.3):
            most = self.pick([0, -1, 16777216, 16777217, 2**63 - 1]) if self.slips() else self.between(1, 8)
            tokens += ["max_rows", "=", self.spelled(most)]
        names = self.random.sample(COLUMNS, self.between(2, 5))
        if self.slips():
            names += [self.pick(names)]
        if self.slips() or self.chance(0.01):
            names = [f"c{number}" for number in range(self.pick([31, 32, 33]))]
        for name in names:
            limit = str(self.pick(self.manner.limits))
            tokens += [name, ":"] + self.pick([["int"], ["text", "(", limit, ")"]])
        for number in range(self.between(1, self.manner.long_columns) if self.manner.long_columns else 0):
            tokens += [f"long{number}", ":", "text", "(", "65535", ")"]
        keys = self.random.sample(KEYS, self.between(1, 4))
        if self.slips():
            keys += [self.pick(keys)]
        if self.slips() or self.chance(0.01):
            keys = [f"k{number}" for number in range(self.pick([7, 8, 9]))]
        tokens.append("keys")
        for key in keys:
            columns = self.random.sample(names, self.between(1, min(3, len(names))))
            if self.slips():
                columns.append(self.pick(COLUMNS))
            tokens += [key] + self.brackets(columns)
            tokens += [":", self.pick(["spatial", "fulltext"])] if self.slips() else []
        return tokens

    def row(self, table):
        row = [None] * len(table.columns)
        for number in range(len(row)):
            row[number] = self.value(number, table, row)
        if self.slips():
            row = row[: self.between(1, len(row))] if self.chance(0.5) else row + [self.any_value()]
        return self.brackets(map(self.spelled, row))

    def sought(self, table, key):
        if self.chance(0.4):
            return []
        numbers = table.keys[key][: self.between(1, len(table.keys[key]))]
        row = self.pick(list(table.rows.values()) or [[None] * len(table.columns)])
        known = self.chance(0.7)
        values = [row[number] if known else self.value(number, table, row) for number in numbers]
        if self.slips():
            values[self.between(0, len(values) - 1)] = self.any_value()
        if self.slips():
            values += [self.any_value()] * self.between(1, 3)
        return self.brackets(map(self.spelled, values))

    def settings(self, table):
        row = list(self.pick(list(table.rows.values()) or [[None] * len(table.columns)]))
        tokens = ["set"]
        for _ in range(self.pick([1, 1, 2, 3])):
            number = self.pick(table.keys[table.first_key] if self.chance(0.4) else range(len(row)))
            row[number] = self.value(number, table, row)
            name = self.pick(COLUMNS) if self.slips() else table.names[number]
            tokens += [name, "=", self.spelled(row[number]), ","]
        return tokens[:-1]

    def statement(self):
        name = self.pick(TABLES) if self.slips() or not self.tables else self.pick(sorted(self.tables))
        if name not in self.tables or self.chance(0.05):
            return self.create()
        table = self.tables[name]
        rare = self.pick(["drop", "flush", "checkpoint"])
        word = self.pick(["insert"] * 3 + ["update"] * 3 + ["select"] * 2 + ["delete", rare])
        if word == "checkpoint":
            return [word]
        if self.slips():
            name = self.pick(TABLES)
        tokens = [word, name]
        if word == "insert":
            for _ in range(self.pick([1, 1, 2, 3, 6])):
                tokens += self.row(table)
        elif word in ("update", "select", "delete"):
            key = self.pick(sorted(table.keys))
            tokens += [self.pick(KEYS) if self.slips() else key] + self.sought(table, key)
            tokens += self.settings(table) if word == "update" else []
        return tokens

    def sentence(self, parts):
        """Any tokens that spell these parts of the grammar."""
        tokens = []
        for part in parts:
            if isinstance(part, language.OneOf):
                tokens += self.sentence(self.pick(part.ways))
            elif isinstance(part, language.Repeated):
                tokens += self.sentence(part.parts + ((part,) if self.chance(0.4) else ()))
            elif part == language.NAME:
                tokens.append(self.pick(TABLES + COLUMNS + KEYS + ["n" * 64]))
            elif part in (language.NUMBER, language.VALUE):
                tokens.append(self.spelled(self.pick(NUMBERS) if part == language.NUMBER else self.any_value()))
            else:
                tokens.append(part)
        return tokens

    # lines

    def with_wrong_tokens(self, tokens):
        tokens = list(tokens)
        for _ in range(self.pick([1, 1, 2])):
            place, other = self.between(0, len(tokens)), self.pick(self.pick([WORDS, SIGNS, ODD]))
            change = self.pick(["put", "put", "take", "twice", "cut"])
            if change == "put":
                tokens[place : place + self.between(0, 1)] = [other]
            elif change == "take":
                del tokens[place : place + 1]
            elif change == "twice":
                tokens[place:place] = tokens[place : place + 2]
            else:
                del tokens[place:]
        return tokens

    def with_wrong_bytes(self, line):
        for _ in range(self.pick([1, 1, 2])):
            place = self.between(0, len(line))
            byte = self.pick([b"'", b"x", b"-", b"0", b"_", b"(", b" ", b"\r", b"", bytes([self.between(11, 255)])])
            line = line[:place] + byte + line[place + self.between(0, 1) :]
        return line

    def joined(self, tokens):
        """The tokens with blanks between: one, or any, or none but where two words would be one."""
        blanks = self.pick([[b" "], BLANKS, [b""], BLANKS + [b""] * 4])
        line = b""
        for token in tokens:
            token = token.encode("latin-1")
            blank = self.pick(blanks) if line or self.chance(0.2) else b""
            if not blank and is_word_byte(line[-1:]) and is_word_byte(token[:1]) and self.chance(0.99):
                blank = b" "
            line += blank + token
        return line + (b"" if self.chance(0.8) else self.pick(blanks))

    def line(self):
        if self.chance(0.03):
            return self.pick([b"", b" ", b"\r", b"\t \r", bytes(self.between(11, 255) for _ in range(9))])
        self.slip_rate = 0.3 if self.chance(self.manner.slips) else 0.005
        tokens = self.sentence((language.STATEMENT,)) if self.chance(self.manner.sentences) else self.statement()
        if self.chance(self.manner.slips / 2):
            tokens = self.with_wrong_tokens(tokens)
        line = self.joined(tokens)
        if self.chance(self.manner.slips / 4):
            line = self.with_wrong_bytes(line)
        # a line as long as may be, or one byte longer
        return line.ljust(self.pick([1048576, 1048577])) if self.chance(0.002) else line

    def many_rows(self):
        """As many rows as a statement may put, set and take out, and one more."""
        rows = b"".join(b"(%d)" % number for number in range(65536))
        lines = [b"create t trans n:int keys k(n)", b"insert t" + rows + b"(-1)", b"insert t" + rows, b"insert t(-1)"]
        lines += [b"update t k set n=5", b"delete t k", b"delete t k(-1)"]
        lines += [b"update t k set n=5", b"delete t k", b"select t k"]
        return b"\n".join(lines)

    def script(self):
        """A script for the tables, which become what they are behind it."""
        if not self.tables and self.chance(0.005):
            script = self.many_rows()
            language.run(self.tables, script)
            return script
        lines = []
        for _ in range(self.between(10, 20 if self.manner is LONG else 60)):
            lines.append(self.line())
            language.run(self.tables, lines[-1])
            if self.manner is not LONG and self.chance(0.1):
                lines += self.selects()
        lines += self.selects()
        return b"\n".join(lines) + self.pick([b"", b"\n"])

    def selects(self):
        """All rows by each key of each table."""
        keys = [(name, key) for name, table in self.tables.items() for key in table.keys]
        return [f"select {name} {key}".encode() for name, key in keys]


def run_program(program, folder, script):
    """What the program tells, its status, and its line on standard error."""
    try:
        ended = subprocess.run([program, "run"], cwd=folder, input=script, capture_output=True, timeout=600)
    except subprocess.TimeoutExpired as late:
        return late.stdout or b"", "none within ten minutes", b""
    return ended.stdout, ended.returncode, ended.stderr


def agrees(program, seed):
    maker, tables = Maker(seed), {}
    with tempfile.TemporaryDirectory() as folder:
        for nth in ("first", "second")[: maker.pick([1, 1, 2])]:
            script = maker.script()
            wanted = (*language.run(tables, script), b"")
            found = run_program(program, folder, script)
            if found != wanted:
                print(f"seed {seed}, the {nth} script in its folder: {script!r}")
                print("told {!r}, status {}, standard error {!r}".format(*found))
                print("the language says: told {!r}, status {}, standard error {!r}".format(*wanted))
                return False
    return True


if __name__ == "__main__":
    program, first, count = os.path.abspath(sys.argv[1]), int(sys.argv[2]), int(sys.argv[3])
    sys.exit(0 if all(agrees(program, seed) for seed in range(first, first + count)) else 1)
