#!/usr/bin/env python3
"""A second implementation of `scql explain`, after the rules of docs/commands.md and docs/status-words.md, and apart
from the proved code.

    scripts/explain_model.py < crates/scql/stdin > crates/scql/stdout

The gate compares what `scql explain` prints with crates/scql/stdout.
"""
import re
import sys

CAUSES = {
    1: ("6500", "the answer area is under 255 bytes"),
    2: ("6700", "not a command"),
    3: ("6E00", "CLA is not 00"),
    4: ("6D00", "INS is unknown"),
    5: ("6A00", "P1 is not 00"),
    6: ("6A81", "P2 is unknown"),
    7: ("6700", "data or Le is missing or unwanted"),
    9: ("6A80", "the field breaks its form"),
}
HEADER_BYTE = {3: 0, 4: 1, 5: 2, 6: 3}

NAME = rb"[A-Z][A-Z0-9_]{0,7}"
COLUMN = rb"(?P<name>" + NAME + rb")(?P<unique>\.U)?(?:\.V(?P<longest>.))?"
OPERATORS = {b"\x3D": "=", b"\x3C": "<", b"\x3E": ">", b"\x4C": "<=", b"\x47": ">=", b"\x23": "<>"}
RIGHTS = {b"\x41": "INSERT", b"\x42": "SELECT", b"\x44": "UPDATE", b"\x48": "DELETE", b"\x4F": "ALL"}
PROFILES = {b"DBOO": "DBOO", b"DBBU": "DBBU"}


class Fault(Exception):
    """A cause and, for a field that breaks its form, its place."""

    def __init__(self, cause, place=0):
        super().__init__(cause, place)
        self.cause, self.place = cause, place

    def told(self, command):
        word, meaning = CAUSES[self.cause]
        layer = 2 if self.cause == 9 else 1
        marked = self.place if self.cause == 9 else HEADER_BYTE.get(self.cause)
        digits = [f"{byte:02X}" for byte in command]
        if marked == len(digits):
            digits.append("[]")
        elif marked is not None:
            digits[marked] = f"[{digits[marked]}]"
        return f"{word} cause {self.cause} layer {layer} place {self.place}: {meaning}: {' '.join(digits)}"


class Field:
    """The data of a command, read from left to right. Offsets are those of the whole command."""

    def __init__(self, command):
        self.command = command
        self.at = 5
        self.end = 5 + command[4]

    def left(self):
        return self.end - self.at

    def broken_unless(self, good, place):
        if not good:
            raise Fault(9, place)

    def byte(self):
        self.broken_unless(self.left() >= 1, self.end)
        self.at += 1
        return self.command[self.at - 1]

    def count(self, least, most):
        place = self.at
        number = self.byte()
        self.broken_unless(least <= number <= most, place)
        return number

    def string(self):
        length = self.byte()
        self.broken_unless(length <= self.left(), self.end)
        self.at += length
        return self.command[self.at - length:self.at]

    def identifier(self, but=()):
        """A name; one that stands in `but` is repeated, and so at fault."""
        place = self.at
        name = self.string()
        self.broken_unless(re.fullmatch(NAME, name), place)
        self.broken_unless(name.decode() not in but, place)
        return name.decode()

    def one_of(self, choices):
        place = self.at
        choice = self.string()
        self.broken_unless(choice in choices, place)
        return choices[choice]

    def grantee(self):
        place = self.at
        grantee = self.string()
        self.broken_unless(grantee == b"*" or re.fullmatch(NAME, grantee), place)
        return "all users" if grantee == b"*" else grantee.decode()

    def column(self, columns):
        """A new table's column: name, whether unique, longest length."""
        place = self.at
        parts = re.fullmatch(COLUMN, self.string(), re.DOTALL)
        self.broken_unless(parts, place)
        name = parts["name"].decode()
        self.broken_unless(name != "USER" and name not in columns, place)
        longest = 24 if parts["longest"] is None else parts["longest"][0]
        columns[name] = (parts["unique"] is not None, longest)

    def limit(self):
        if self.left() == 0:
            return 16
        place = self.at
        limit = self.string()
        self.broken_unless(len(limit) == 1 and limit[0] >= 1, place)
        return limit[0]

    def selection(self):
        table = self.identifier()
        columns = []
        for _ in range(self.count(0, 12)):
            columns.append(self.identifier(but=columns))
        conditions = []
        if self.left() > 0:
            for _ in range(self.count(0, 4)):
                column = self.identifier()
                operator = self.one_of(OPERATORS)
                conditions.append(f"{column} {operator} {written(self.string())}")
        text = f"on {table}: {', '.join(columns) or 'all columns'}"
        return text + (" where " + " and ".join(conditions) if conditions else "")

    def no_more(self):
        self.broken_unless(self.left() == 0, self.at)


def written(string):
    if all(0x20 <= byte <= 0x7E and byte != 0x22 for byte in string):
        return '"' + string.decode() + '"'
    return "'" + string.hex().upper() + "'"


def present_user(field):
    place = field.at
    name = field.command[field.at:field.end]
    field.at = field.end
    field.broken_unless(re.fullmatch(NAME, name), place)
    return f"PRESENT USER {name.decode()}"


def create_user(field):
    name = field.identifier()
    return f"CREATE USER {name} as {field.one_of(PROFILES)}"


def create_table(field):
    name = field.identifier()
    columns = {}
    for _ in range(field.count(1, 12)):
        field.column(columns)
    limit = field.limit()
    texts = [f"{column} ({'unique, ' if unique else ''}up to {longest} bytes)"
             for column, (unique, longest) in columns.items()]
    return f"CREATE TABLE {name}, at most {limit} rows: {', '.join(texts)}"


def create_view(field):
    name = field.identifier()
    return f"CREATE VIEW {name} {field.selection()}"


def right_on_object(field):
    right = field.one_of(RIGHTS)
    thing = field.identifier()
    return f"{right} on {thing}", field.grantee()


def grant(field):
    return "GRANT {} to {}".format(*right_on_object(field))


def revoke(field):
    return "REVOKE {} from {}".format(*right_on_object(field))


def insert(field):
    table = field.identifier()
    number = field.count(0, 255)
    strings = [written(field.string()) for _ in range(number)]
    text = f"INSERT into {table}: {number} string{'' if number == 1 else 's'}"
    return text + (": " + ", ".join(strings) if strings else "")


def update(field):
    pairs = {}
    for _ in range(field.count(1, 12)):
        column = field.identifier(but=pairs)
        pairs[column] = written(field.string())
    return "UPDATE " + ", ".join(f"{column} to {string}" for column, string in pairs.items())


# An operation with data has a reader; one without data has its name, and whether it needs Le.
OPERATIONS = {
    0x14: {
        0x80: present_user,
        0x81: create_user,
    },
    0x10: {
        0x80: create_table,
        0x81: create_view,
        0x83: lambda field: f"DROP TABLE {field.identifier()}",
        0x84: lambda field: f"DROP VIEW {field.identifier()}",
        0x85: grant,
        0x86: revoke,
        0x87: lambda field: f"DECLARE CURSOR {field.selection()}",
        0x88: ("OPEN", False),
        0x89: ("NEXT", False),
        0x8A: ("FETCH", True),
        0x8B: ("FETCH NEXT", True),
        0x8C: insert,
        0x8D: update,
        0x8E: ("DELETE", False),
    },
}


def understood(command, area):
    """What the command asks for, in words; a Fault where it has a cause."""
    if area < 255:
        raise Fault(1)
    # The envelope: header; header, Le; header, Lc, data; header, Lc, data, Le.
    size = len(command)
    if size < 4:
        raise Fault(2)
    has_data = size > 5
    if has_data and (command[4] == 0 or size not in (5 + command[4], 6 + command[4])):
        raise Fault(2)
    has_le = size == 5 or (has_data and size == 6 + command[4])
    if command[0] != 0x00:
        raise Fault(3)
    if command[1] not in OPERATIONS:
        raise Fault(4)
    if command[2] != 0x00:
        raise Fault(5)
    if command[3] not in OPERATIONS[command[1]]:
        raise Fault(6)
    operation = OPERATIONS[command[1]][command[3]]
    if isinstance(operation, tuple):
        name, needs_le = operation
        if has_data or has_le != needs_le:
            raise Fault(7)
        return f"{name} up to {command[4] or 256} bytes" if needs_le else name
    if has_le or not has_data:
        raise Fault(7)
    field = Field(command)
    text = operation(field)
    field.no_more()
    return text


def explained(command, area):
    try:
        return understood(command, area)
    except Fault as fault:
        return fault.told(command)


def explain(lines):
    area = 255
    for number, line in enumerate(lines, 1):
        text = line.split("#")[0].strip()
        digits = "".join(text.split())
        if not text:
            continue
        if re.fullmatch(r"area +[0-9]+", text):
            area = int(text.split()[1])
        elif re.fullmatch(r"([0-9A-Fa-f]{2})+", digits):
            yield explained(bytes.fromhex(digits), area)
        else:
            sys.exit(f"line {number}: not a script line")


if __name__ == "__main__":
    for answer in explain(sys.stdin):
        print(answer)
