#!/usr/bin/env python3
"""Writes the script of commands that `scql explain` is tested with.

    scripts/explain_vectors.py > stdin         the script
    scripts/explain_vectors.py check < stdout  compares the faults told in stdout with those marked here

Each vector is written by hand as pieces, and the piece HERE stands in front of the byte at fault (at the end: just
past the data). The cut and the random commands at the end have no marks.
"""
import random
import sys

HERE = object()
script, faults = [], []


def p(text):
    """A parameter: length byte and bytes."""
    raw = text.encode() if isinstance(text, str) else bytes(text)
    return bytes([len(raw)]) + raw


def n(number):
    """A count, or any single byte."""
    return bytes([number])


def joined(pieces):
    """The bytes of the pieces, and the offset at which HERE stands among them."""
    data, here = b"", None
    for piece in pieces:
        if piece is HERE:
            here = len(data)
        else:
            data += piece
    return data, here


def line(command, note=""):
    text = command.hex(" ").upper()
    script.append(f"{text}  # {note}" if note else text)


def head(title):
    script.extend(["", f"# {title}", ""])


def says(text):
    script.append(f"# {text}")


def area(length):
    script.append(f"area {length}")


def raw(text, cause, note):
    """A command as it stands, and its cause: 0 for one that is understood."""
    line(bytes.fromhex(text), note)
    faults.append((cause, 0))


def with_data(ins, p2):
    """The vectors of one operation with data: a note, then the pieces of its data."""
    def vector(note, *pieces):
        data, here = joined(pieces)
        line(bytes([0x00, ins, 0x00, p2, len(data)]) + data, note)
        faults.append((0, 0) if here is None else (9, 5 + here))
    return vector


present = with_data(0x14, 0x80)
create_user = with_data(0x14, 0x81)
create_table = with_data(0x10, 0x80)
create_view = with_data(0x10, 0x81)
drop_table = with_data(0x10, 0x83)
drop_view = with_data(0x10, 0x84)
grant = with_data(0x10, 0x85)
revoke = with_data(0x10, 0x86)
declare = with_data(0x10, 0x87)
insert = with_data(0x10, 0x8C)
update = with_data(0x10, 0x8D)

LETTERS = "ABCDEFGHIJKLMNOPQRSTUVWXYZ"
TWELVE = [p(letter) for letter in LETTERS[:12]]
THIRTEEN = [p(letter) for letter in LETTERS[:13]]
LONG = [f"COLUMN{number:02}" for number in range(12)]


# ---------------------------------------------------------------------------------------------------------------------

script.append("# Commands for `scql explain`. Made by scripts/explain_vectors.py; do not edit by hand.")

head("The stall card: one command of every operation")
present("the trader", b"ANNA")
create_user("her office", p("OFFICE"), p("DBBU"))
create_table("unique receipt number, limit 2", p("DAY"), n(3), p("NO.U"), p("AMT"), p("COST"), p(b"\x02"))
create_view("what the office may see", p("FEE"), p("DAY"), n(2), p("NO"), p("AMT"))
drop_table("", p("DAY"))
drop_view("", p("FEE"))
grant("", p(b"\x42"), p("FEE"), p("OFFICE"))
revoke("", p(b"\x42"), p("FEE"), p("OFFICE"))
declare("", p("FEE"), n(0))
raw("00 10 00 88", 0, "OPEN")
raw("00 10 00 89", 0, "NEXT")
raw("00 10 00 8A 07", 0, "FETCH")
raw("00 10 00 8B 00", 0, "FETCH NEXT; Le 00 means 256")
insert("", p("DAY"), n(3), p("7"), p("250"), p("90"))
update("", n(2), p("AMT"), p("300"), p("COST"), p(""))
raw("00 10 00 8E", 0, "DELETE")

head("How a line may be written: small digits, no blanks, blanks anywhere, a comment behind")
script.append("0010008c0e03444159030137033235300239" + "30")
faults.append((0, 0))
script.append("  0 0 1 0 0 0 8 8  ")
faults.append((0, 0))
script.append("00100088# no blank before the comment, and # again")
faults.append((0, 0))
script.append("   # only a comment")
script.append("")
script.append("   ")

head("Cause 2: not a command")
raw("00", 2, "one byte")
raw("00 10", 2, "two bytes")
raw("00 10 00", 2, "three bytes")
raw("00 10 00 83 00 41", 2, "a data length of 0")
raw("00 10 00 83 00 00", 2, "a data length of 0, then what might be Le")
raw("00 10 00 83 00 00 04 03 44 41 59", 2, "a data length of 0 does not announce a longer form")
raw("00 10 00 83 04 03 44 41", 2, "one data byte too few")
raw("00 10 00 83 04 03", 2, "three too few")
raw("00 10 00 83 03 03 44 41 59 00", 2, "two bytes behind the data")
raw("00 10 00 83 04 03 44 41 59 00 00", 2, "two bytes behind the data")
raw("00 10 00 8A 07 00", 2, "read as a data length of 7 and one byte of it")
raw("00 10 00 83 FF 03 44 41 59", 2, "255 promised, 4 there")
line(bytes([0x00, 0x10, 0x00, 0x83, 0xFF]) + bytes(257), "262 bytes: one more than any command has")
faults.append((2, 0))

head("Cause 3: CLA is not 00")
raw("80 10 00 88", 3, "")
raw("01 10 00 88", 3, "")
raw("FF 14 00 80 04 41 4E 4E 41", 3, "")
raw("80 10 00 8A 07", 3, "")

head("Cause 4: INS is unknown")
raw("00 16 00 80", 4, "")
raw("00 00 00 80", 4, "")
raw("00 12 00 80 04 41 4E 4E 41", 4, "transactions are left out")
raw("00 11 00 88", 4, "")
raw("00 15 00 80 04 41 4E 4E 41", 4, "")
raw("00 FF 00 8A 07", 4, "")

head("Cause 5: P1 is not 00")
raw("00 10 01 88", 5, "")
raw("00 10 80 88", 5, "")
raw("00 14 FF 80 04 41 4E 4E 41", 5, "")

head("Cause 6: P2 is unknown")
raw("00 10 00 82", 6, "dictionaries are left out")
raw("00 10 00 82 04 03 44 41 59", 6, "")
raw("00 10 00 7F", 6, "")
raw("00 10 00 8F", 6, "")
raw("00 10 00 00", 6, "")
raw("00 14 00 7F 04 41 4E 4E 41", 6, "")
raw("00 14 00 82 04 41 4E 4E 41", 6, "deleting a user is left out")
raw("00 14 00 88", 6, "an operation of the other INS")

head("Cause 7: data or Le is missing or unwanted. No data where data are due")
NAMES = {(0x14, 0x80): "PRESENT USER", (0x14, 0x81): "CREATE USER", (0x10, 0x80): "CREATE TABLE",
         (0x10, 0x81): "CREATE VIEW", (0x10, 0x83): "DROP TABLE", (0x10, 0x84): "DROP VIEW", (0x10, 0x85): "GRANT",
         (0x10, 0x86): "REVOKE", (0x10, 0x87): "DECLARE CURSOR", (0x10, 0x8C): "INSERT", (0x10, 0x8D): "UPDATE"}
GOOD = {(0x14, 0x80): b"ANNA", (0x14, 0x81): p("OFFICE") + p("DBBU"), (0x10, 0x80): p("DAY") + n(1) + p("NO"),
        (0x10, 0x81): p("FEE") + p("DAY") + n(0), (0x10, 0x83): p("DAY"), (0x10, 0x84): p("FEE"),
        (0x10, 0x85): p("B") + p("FEE") + p("*"), (0x10, 0x86): p("B") + p("FEE") + p("*"),
        (0x10, 0x87): p("FEE") + n(0), (0x10, 0x8C): p("DAY") + n(0), (0x10, 0x8D): n(1) + p("AMT") + p("")}
for (ins, p2), name in NAMES.items():
    raw(f"00 {ins:02X} 00 {p2:02X}", 7, name)
head("Le in the place of data")
for (ins, p2), name in NAMES.items():
    raw(f"00 {ins:02X} 00 {p2:02X} 00", 7, name)
head("Data as due, and an unwanted Le")
for (ins, p2), name in NAMES.items():
    good = GOOD[ins, p2]
    raw(f"00 {ins:02X} 00 {p2:02X} {len(good):02X} {good.hex()} 00", 7, name)
head("Unwanted data or Le, or no Le")
for p2, name in (0x88, "OPEN"), (0x89, "NEXT"), (0x8E, "DELETE"):
    raw(f"00 10 00 {p2:02X} 00", 7, f"{name} with Le 00")
    raw(f"00 10 00 {p2:02X} 07", 7, f"{name} with Le")
    raw(f"00 10 00 {p2:02X} 01 41", 7, f"{name} with data")
    raw(f"00 10 00 {p2:02X} 01 41 00", 7, f"{name} with data and Le")
for p2, name in (0x8A, "FETCH"), (0x8B, "FETCH NEXT"):
    raw(f"00 10 00 {p2:02X}", 7, f"{name} without Le")
    raw(f"00 10 00 {p2:02X} 01 41", 7, f"{name} with data and no Le")
    raw(f"00 10 00 {p2:02X} 01 41 07", 7, f"{name} with data and Le")

head("Le from the least to the greatest")
for p2 in 0x8A, 0x8B:
    raw(f"00 10 00 {p2:02X} 01", 0, "1")
    raw(f"00 10 00 {p2:02X} 02", 0, "2")
    raw(f"00 10 00 {p2:02X} FF", 0, "255")
    raw(f"00 10 00 {p2:02X} 00", 0, "256")

head("Cause 1: the answer area is under 255 bytes; it comes before all others")
area(254)
raw("00 10 00 88", 1, "OPEN would be understood")
raw("00 14 00 80 04 41 4E 4E 41", 1, "")
raw("00 10 00", 1, "also not a command")
raw("80 10 00 88", 1, "CLA is wrong as well")
raw("00 14 00 80 04 61 6E 6E 61", 1, "the field is broken as well")
area(0)
raw("00 10 00 8A 07", 1, "")
area(1)
raw("00 10 00 8A 01", 1, "the area counts, not Le")
area(255)
raw("00 10 00 88", 0, "")
area(256)
raw("00 10 00 88", 0, "")
area("255   # with a comment")
raw("00 10 00 8A 00", 0, "an area of 255 is enough, also for Le 00")

head("Two faults in one command: the first in the order of causes is told")
raw("80 10 00", 2, "2 before 3")
raw("00 16 00 80 00 00", 2, "2 before 4")
raw("00 10 01 88 00 00", 2, "2 before 5")
raw("00 10 00 82 05 41", 2, "2 before 6")
raw("00 10 00 88 00 00", 2, "2 before 7")
raw("00 14 00 80 05 61 6E 6E 61", 2, "2 before 9")
raw("80 16 00 80", 3, "3 before 4")
raw("80 10 01 88", 3, "3 before 5")
raw("80 10 00 82", 3, "3 before 6")
raw("80 10 00 88 00", 3, "3 before 7")
raw("80 14 00 80 04 61 6E 6E 61", 3, "3 before 9")
raw("00 16 01 80", 4, "4 before 5")
raw("00 16 00 FF", 4, "4 before 6")
raw("00 16 00 88 00", 4, "4 before 7")
raw("00 16 00 80 04 61 6E 6E 61", 4, "4 before 9")
raw("00 10 01 82", 5, "5 before 6")
raw("00 10 01 88 00", 5, "5 before 7")
raw("00 14 01 80 04 61 6E 6E 61", 5, "5 before 9")
raw("00 10 00 82 00", 6, "6 before 7: no operation, so nothing is wanted")
raw("00 14 00 82 04 61 6E 6E 61", 6, "6 before 9")
raw("00 14 00 80 04 61 6E 6E 61 00", 7, "7 before 9: Le unwanted, id broken")
raw("FF FF FF FF", 3, "3 before 4, 5 and 6")
raw("00 FF FF FF FF", 4, "4 before 5, 6 and 7")

head("PRESENT USER: the whole data are the id")
present("the shortest", b"A")
present("8 bytes", b"ABCDEFGH")
present("digits and underscores", b"Z_09_AZ_")
present("USER is an id like others", b"USER")
present("the first letter", b"AZ")
present("9 bytes", HERE, b"ABCDEFGHI")
present("17 bytes: group ids are left out", HERE, b"COMPANY.DIV.SMITH")
present("255 bytes", HERE, b"A" * 255)
present("small letters", HERE, b"anna")
present("a small letter at the end", HERE, b"ANNa")
present("a digit first", HERE, b"7ANNA")
present("an underscore first", HERE, b"_ANNA")
present("a blank at the end", HERE, b"ANNA ")
present("a dot", HERE, b"AN.NA")
present("all users cannot be presented", HERE, b"*")
present("a length byte is not due here", HERE, p("ANNA"))
present("a zero byte", HERE, b"\x00")
present("just below A", HERE, b"@")
present("just above Z", HERE, b"[")
present("just below 0", HERE, b"A/")
present("just above 9", HERE, b"A:")
present("just below the underscore", HERE, b"A^")
present("just above the underscore", HERE, b"A`")
present("a byte above 7F", HERE, b"A\xC1")
present("a line feed at the end", HERE, b"ANNA\n")

head("CREATE USER: id, then DBOO or DBBU")
create_user("", p("ANNA"), p("DBOO"))
create_user("the shortest id", p("A"), p("DBBU"))
create_user("8 bytes", p("ABCDEFGH"), p("DBBU"))
create_user("9 bytes", HERE, p("ABCDEFGHI"), p("DBBU"))
create_user("no bytes", HERE, p(""), p("DBBU"))
create_user("small letters", HERE, p("anna"), p("DBBU"))
create_user("a star", HERE, p("*"), p("DBBU"))
create_user("a digit first", HERE, p("1A"), p("DBOO"))
create_user("the owner's profile is not given away", p("ANNA"), HERE, p("DB_O"))
create_user("small letters", p("ANNA"), HERE, p("dboo"))
create_user("three letters", p("ANNA"), HERE, p("DBO"))
create_user("five letters", p("ANNA"), HERE, p("DBOOO"))
create_user("no bytes", p("ANNA"), HERE, p(""))
create_user("the profile is missing", p("ANNA"), HERE)
create_user("the profile has 3 of 4 bytes", p("ANNA"), n(4), b"DBO", HERE)
create_user("the profile is only its length byte", p("ANNA"), n(4), HERE)
create_user("the id promises more than is left", n(5), b"ANNA", HERE)
create_user("the id promises 255", n(255), b"ANNA", p("DBOO"), HERE)
create_user("a byte left over", p("ANNA"), p("DBOO"), HERE, n(0))
create_user("a whole parameter left over", p("ANNA"), p("DBOO"), HERE, p("DBBU"))
create_user("id and profile both broken: the first", HERE, p("anna"), p("DB_O"))
create_user("profile broken and a byte left over: the first", p("ANNA"), HERE, p("DB_O"), n(0))
create_user("id broken and profile missing: the first", HERE, p("anna"))
create_user("profile broken, and its length too long: the byte missing", p("ANNA"), n(9), b"DB_O", HERE)

head("CREATE TABLE: names and counts")
create_table("the shortest", p("A"), n(1), p("A"))
create_table("name of 8 bytes", p("ABCDEFGH"), n(1), p("NO"))
create_table("name of 9 bytes", HERE, p("ABCDEFGHI"), n(1), p("NO"))
create_table("a table may be called USER", p("USER"), n(1), p("NO"))
create_table("name of no bytes", HERE, p(""), n(1), p("NO"))
create_table("name with a mark", HERE, p("DAY.U"), n(1), p("NO"))
create_table("small letters", HERE, p("day"), n(1), p("NO"))
create_table("count 0", p("DAY"), HERE, n(0))
create_table("count 0, columns there", p("DAY"), HERE, n(0), p("NO"))
create_table("count 12", p("DAY"), n(12), *TWELVE)
create_table("count 12, limit 255", p("DAY"), n(12), *TWELVE, p(b"\xFF"))
create_table("count 13", p("DAY"), HERE, n(13), *THIRTEEN)
create_table("count 255", p("DAY"), HERE, n(255), *TWELVE)
create_table("twelve long columns, all marks: 180 data bytes, the longest",
             p("LONGNAME"), n(12), *[p(name.encode() + b".U.V\xFF") for name in LONG], p(b"\xFF"))
create_table("count missing", p("DAY"), HERE)
create_table("count 1, no column", p("DAY"), n(1), HERE)
create_table("count 2, one column", p("DAY"), n(2), p("NO"), HERE)
create_table("count 12, eleven columns", p("DAY"), n(12), *TWELVE[:11], HERE)
create_table("count 1, two columns: the second is no limit", p("DAY"), n(1), p("NO"), HERE, p("AMT"))
create_table("count 1, and a column of one letter too many: it is the limit 65", p("DAY"), n(1), p("NO"), p("A"))

head("CREATE TABLE: columns and their marks")
create_table("unique", p("DAY"), n(1), p("NO.U"))
create_table("a longest length", p("DAY"), n(1), p(b"NO.V\x0C"))
create_table("both", p("DAY"), n(1), p(b"NO.U.V\x0A"))
create_table("length 0", p("DAY"), n(1), p(b"NO.V\x00"))
create_table("length 1", p("DAY"), n(1), p(b"NO.V\x01"))
create_table("length 255", p("DAY"), n(1), p(b"NO.V\xFF"))
create_table("length 0A, a line feed", p("DAY"), n(1), p(b"NO.V\x0A"))
create_table("length 2E, a dot", p("DAY"), n(1), p(b"NO.V\x2E"))
create_table("length 55, the letter U", p("DAY"), n(1), p(b"NO.U.V\x55"))
create_table("column of 8 bytes with all marks", p("DAY"), n(1), p(b"ABCDEFGH.U.V\x05"))
create_table("column of 9 bytes", p("DAY"), n(1), HERE, p("ABCDEFGHI"))
create_table("column of 9 bytes with a mark", p("DAY"), n(1), HERE, p("ABCDEFGHI.U"))
create_table("columns called U and V", p("DAY"), n(2), p("U.U"), p(b"V.V\x09"))
create_table("column of no bytes", p("DAY"), n(1), HERE, p(""))
create_table("a mark alone", p("DAY"), n(1), HERE, p(".U"))
create_table("a length alone", p("DAY"), n(1), HERE, p(b".V\x09"))
create_table("USER", p("DAY"), n(1), HERE, p("USER"))
create_table("USER, unique", p("DAY"), n(1), HERE, p("USER.U"))
create_table("USER with a length", p("DAY"), n(1), HERE, p(b"USER.V\x09"))
create_table("USER behind another", p("DAY"), n(2), p("NO"), HERE, p("USER"))
create_table("USERS and USE are free", p("DAY"), n(2), p("USERS"), p("USE"))
create_table("a dot and nothing", p("DAY"), n(1), HERE, p("NO."))
create_table("an unknown mark", p("DAY"), n(1), HERE, p("NO.X"))
create_table("a small mark", p("DAY"), n(1), HERE, p("NO.u"))
create_table("unique twice", p("DAY"), n(1), HERE, p("NO.U.U"))
create_table("a length without its byte", p("DAY"), n(1), HERE, p("NO.V"))
create_table("unique, and a length without its byte", p("DAY"), n(1), HERE, p("NO.U.V"))
create_table("a length of two bytes", p("DAY"), n(1), HERE, p(b"NO.V\x00\x09"))
create_table("length twice", p("DAY"), n(1), HERE, p(b"NO.V\x09.V\x09"))
create_table("length before unique", p("DAY"), n(1), HERE, p(b"NO.V\x09.U"))
create_table("unique without a dot is a name", p("DAY"), n(1), p("NOU"))
create_table("a dot and unique, then a byte", p("DAY"), n(1), HERE, p("NO.U "))
create_table("a digit first", p("DAY"), n(1), HERE, p("1NO"))
create_table("a small letter", p("DAY"), n(1), HERE, p("No"))
create_table("the third of three", p("DAY"), n(3), p("NO.U"), p("AMT"), HERE, p("cost"), p(b"\x02"))
create_table("the column promises more than is left", p("DAY"), n(1), n(3), b"NO", HERE)
create_table("the name promises more than is left", n(4), b"DAY", HERE)
create_table("the name promises all but a byte, and is broken", HERE, n(4), b"DAY\x01", n(2))

head("CREATE TABLE: a repeated column, with and without marks")
create_table("", p("DAY"), n(2), p("NO"), HERE, p("NO"))
create_table("the first unique", p("DAY"), n(2), p("NO.U"), HERE, p("NO"))
create_table("the second unique", p("DAY"), n(2), p("NO"), HERE, p("NO.U"))
create_table("lengths differ", p("DAY"), n(2), p(b"NO.V\x01"), HERE, p(b"NO.V\x02"))
create_table("not side by side", p("DAY"), n(3), p("NO.U"), p("AMT"), HERE, p(b"NO.U.V\x05"))
create_table("the twelfth is the first again", p("DAY"), n(12), *TWELVE[:11], HERE, p("A"))
create_table("repeated, and a column missing behind it", p("DAY"), n(3), p("NO"), HERE, p("NO"))
create_table("repeated, and a broken column behind it", p("DAY"), n(3), p("NO"), HERE, p("NO"), p("no"))
create_table("repeated, and a broken limit behind it", p("DAY"), n(2), p("NO"), HERE, p("NO"), p(b"\x00"))
create_table("a beginning of another name is another name", p("DAY"), n(3), p("NO"), p("N"), p("NOO"))

head("CREATE TABLE: the limit")
create_table("none: 16", p("DAY"), n(1), p("NO"))
create_table("1", p("DAY"), n(1), p("NO"), p(b"\x01"))
create_table("255", p("DAY"), n(1), p("NO"), p(b"\xFF"))
create_table("0", p("DAY"), n(1), p("NO"), HERE, p(b"\x00"))
create_table("no bytes", p("DAY"), n(1), p("NO"), HERE, p(b""))
create_table("two bytes", p("DAY"), n(1), p("NO"), HERE, p(b"\x00\x02"))
create_table("only its length byte", p("DAY"), n(1), p("NO"), n(1), HERE)
create_table("a length byte of 2 that promises too much", p("DAY"), n(1), p("NO"), n(2), b"\x05", HERE)
create_table("a byte left over", p("DAY"), n(1), p("NO"), p(b"\x02"), HERE, n(0))
create_table("a second limit", p("DAY"), n(1), p("NO"), p(b"\x02"), HERE, p(b"\x02"))
create_table("limit 0 and a byte left over: the first", p("DAY"), n(1), p("NO"), HERE, p(b"\x00"), n(0))

head("CREATE VIEW: names, counts, columns")
create_view("the shortest: all columns, no conditions", p("F"), p("D"), n(0))
create_view("all columns, conditions counted 0", p("FEE"), p("DAY"), n(0), n(0))
create_view("names of 8 bytes", p("ABCDEFGH"), p("HGFEDCBA"), n(1), p("ABCDEFGH"))
create_view("view of 9 bytes", HERE, p("ABCDEFGHI"), p("DAY"), n(0))
create_view("table of 9 bytes", p("FEE"), HERE, p("ABCDEFGHI"), n(0))
create_view("column of 9 bytes", p("FEE"), p("DAY"), n(1), HERE, p("ABCDEFGHI"))
create_view("view small", HERE, p("fee"), p("DAY"), n(0))
create_view("table small", p("FEE"), HERE, p("day"), n(0))
create_view("view of no bytes", HERE, p(""), p("DAY"), n(0))
create_view("table of no bytes", p("FEE"), HERE, p(""), n(0))
create_view("view and table of one name: no matter of form", p("DAY"), p("DAY"), n(0))
create_view("12 columns", p("FEE"), p("DAY"), n(12), *TWELVE)
create_view("13 columns", p("FEE"), p("DAY"), HERE, n(13), *THIRTEEN)
create_view("count 255", p("FEE"), p("DAY"), HERE, n(255), *TWELVE)
create_view("a mark is not due here", p("FEE"), p("DAY"), n(1), HERE, p("NO.U"))
create_view("a length is not due here", p("FEE"), p("DAY"), n(1), HERE, p(b"NO.V\x09"))
create_view("USER may be named here; only a new table may not have it", p("FEE"), p("DAY"), n(1), p("USER"))
create_view("column of no bytes", p("FEE"), p("DAY"), n(2), p("NO"), HERE, p(""))
create_view("repeated", p("FEE"), p("DAY"), n(2), p("NO"), HERE, p("NO"))
create_view("repeated, not side by side", p("FEE"), p("DAY"), n(3), p("NO"), p("AMT"), HERE, p("NO"))
create_view("repeated, and one missing behind it", p("FEE"), p("DAY"), n(3), p("NO"), HERE, p("NO"))
create_view("the twelfth is the first again", p("FEE"), p("DAY"), n(12), *TWELVE[:11], HERE, p("A"))
create_view("table missing", p("FEE"), HERE)
create_view("count missing", p("FEE"), p("DAY"), HERE)
create_view("a column missing", p("FEE"), p("DAY"), n(2), p("NO"), HERE)
create_view("a column promises more than is left", p("FEE"), p("DAY"), n(1), n(3), b"NO", HERE)
create_view("a left-over column is read as a count of conditions: 3, then N, O, .. as lengths",
            p("FEE"), p("DAY"), n(1), p("NO"), p("AMT"), HERE)
create_view("a left-over column of 5 bytes is a count out of range",
            p("FEE"), p("DAY"), n(1), p("NO"), HERE, p("PRICE"))

head("CREATE VIEW: conditions")
for code, name in (0x3D, "="), (0x3C, "<"), (0x3E, ">"), (0x4C, "<="), (0x47, ">="), (0x23, "<>"):
    create_view(name, p("FEE"), p("DAY"), n(2), p("NO"), p("AMT"), n(1), p("NO"), p([code]), p("10"))
create_view("two conditions", p("FEE"), p("DAY"), n(2), p("NO"), p("AMT"), n(2),
            p("NO"), p(">"), p("10"), p("AMT"), p("#"), p(b"\x00\xFF"))
create_view("four, all on one column", p("FEE"), p("DAY"), n(0), n(4),
            p("NO"), p(">"), p("1"), p("NO"), p("<"), p("9"), p("NO"), p("#"), p("5"), p("NO"), p("#"), p("5"))
create_view("five", p("FEE"), p("DAY"), n(0), HERE, n(5), *[p("NO"), p("="), p("1")] * 5)
create_view("count 255", p("FEE"), p("DAY"), n(0), HERE, n(255), p("NO"), p("="), p("1"))
create_view("empty string", p("FEE"), p("DAY"), n(0), n(1), p("NO"), p("="), p(""))
create_view("a column that is not shown: no matter of form", p("FEE"), p("DAY"), n(1), p("NO"), n(1),
            p("COST"), p("="), p("1"))
create_view("column small", p("FEE"), p("DAY"), n(0), n(1), HERE, p("no"), p("="), p("1"))
create_view("column of no bytes", p("FEE"), p("DAY"), n(0), n(1), HERE, p(""), p("="), p("1"))
create_view("column of 9 bytes", p("FEE"), p("DAY"), n(0), n(1), HERE, p("ABCDEFGHI"), p("="), p("1"))
create_view("a mark is not due here", p("FEE"), p("DAY"), n(0), n(1), HERE, p("NO.U"), p("="), p("1"))
create_view("operator of no bytes", p("FEE"), p("DAY"), n(0), n(1), p("NO"), HERE, p(""), p("1"))
create_view("operator of two bytes", p("FEE"), p("DAY"), n(0), n(1), p("NO"), HERE, p("<="), p("1"))
create_view("operator 00", p("FEE"), p("DAY"), n(0), n(1), p("NO"), HERE, p(b"\x00"), p("1"))
create_view("operator 3B", p("FEE"), p("DAY"), n(0), n(1), p("NO"), HERE, p(b"\x3B"), p("1"))
create_view("operator 3F", p("FEE"), p("DAY"), n(0), n(1), p("NO"), HERE, p(b"\x3F"), p("1"))
create_view("operator 6C, a small l", p("FEE"), p("DAY"), n(0), n(1), p("NO"), HERE, p("l"), p("1"))
create_view("operator 48", p("FEE"), p("DAY"), n(0), n(1), p("NO"), HERE, p("H"), p("1"))
create_view("operator without its length byte", p("FEE"), p("DAY"), n(0), n(1), p("NO"), n(0x3D), p("1"), HERE)
create_view("second condition's operator", p("FEE"), p("DAY"), n(0), n(2),
            p("NO"), p("="), p("1"), p("NO"), HERE, p("!"), p("1"))
create_view("condition missing", p("FEE"), p("DAY"), n(0), n(1), HERE)
create_view("operator missing", p("FEE"), p("DAY"), n(0), n(1), p("NO"), HERE)
create_view("string missing", p("FEE"), p("DAY"), n(0), n(1), p("NO"), p("="), HERE)
create_view("string promises more than is left", p("FEE"), p("DAY"), n(0), n(1), p("NO"), p("="), n(3), b"10", HERE)
create_view("second condition missing", p("FEE"), p("DAY"), n(0), n(2), p("NO"), p("="), p("1"), HERE)
create_view("a byte left over", p("FEE"), p("DAY"), n(0), n(1), p("NO"), p("="), p("1"), HERE, n(0))
create_view("conditions counted 0, and a byte left over", p("FEE"), p("DAY"), n(0), n(0), HERE, n(0))
create_view("a condition too many", p("FEE"), p("DAY"), n(0), n(1), p("NO"), p("="), p("1"), HERE,
            p("NO"), p("="), p("1"))
create_view("255 data bytes", p("LONGVIEW"), p("LONGNAME"), n(12), *map(p, LONG), n(4),
            *[piece for name in LONG[:4] for piece in (p(name), p("G"), p("x" * 19))][:11], p("y" * 22))

head("DROP TABLE and DROP VIEW: one name")
for drop, what in (drop_table, "DAY"), (drop_view, "FEE"):
    drop("the shortest", p("A"))
    drop("8 bytes", p("ABCDEFGH"))
    drop("9 bytes", HERE, p("ABCDEFGHI"))
    drop("no bytes", HERE, p(""))
    drop("small letters", HERE, p(what.lower()))
    drop("a star", HERE, p("*"))
    drop("only a length byte", n(3), HERE)
    drop("a byte too few", n(4), what.encode(), HERE)
    drop("a byte left over", p(what), HERE, n(0))
    drop("a bare name: its first letter is a length", what.encode(), HERE)
    drop("254 bytes of name", HERE, p("A" * 254))
    drop("broken and a byte left over: the first", HERE, p("1"), n(0))

head("GRANT and REVOKE: right, object, grantee")
for give in grant, revoke:
    says("GRANT" if give is grant else "REVOKE")
    for code in 0x41, 0x42, 0x44, 0x48, 0x4F:
        give("", p([code]), p("FEE"), p("OFFICE"))
    give("all users", p("B"), p("FEE"), p("*"))
    give("the shortest", p("O"), p("F"), p("*"))
    give("names of 8 bytes", p("O"), p("ABCDEFGH"), p("HGFEDCBA"))
    give("no right", HERE, p(""), p("FEE"), p("OFFICE"))
    give("right of two bytes", HERE, p("AB"), p("FEE"), p("OFFICE"))
    for code in 0x00, 0x40, 0x43, 0x45, 0x4E, 0x50, 0x62, 0xC2:
        give(f"right {code:02X}", HERE, p([code]), p("FEE"), p("OFFICE"))
    give("the right without its length byte: 42 promises too much", b"B", p("FEE"), p("OFFICE"), HERE)
    give("object of 9 bytes", p("B"), HERE, p("ABCDEFGHI"), p("OFFICE"))
    give("object of no bytes", p("B"), HERE, p(""), p("OFFICE"))
    give("object small", p("B"), HERE, p("fee"), p("OFFICE"))
    give("object a star", p("B"), HERE, p("*"), p("OFFICE"))
    give("grantee of 9 bytes", p("B"), p("FEE"), HERE, p("ABCDEFGHI"))
    give("grantee of no bytes", p("B"), p("FEE"), HERE, p(""))
    give("grantee small", p("B"), p("FEE"), HERE, p("office"))
    give("two stars", p("B"), p("FEE"), HERE, p("**"))
    give("a star behind a letter", p("B"), p("FEE"), HERE, p("A*"))
    give("a group: left out", p("B"), p("FEE"), HERE, p("STALL.*"))
    give("object missing", p("B"), HERE)
    give("grantee missing", p("B"), p("FEE"), HERE)
    give("the right has only its length byte", n(1), HERE)
    give("the object has a byte too few", p("B"), n(3), b"FE", HERE)
    give("the grantee has a byte too few", p("B"), p("FEE"), n(2), b"*", HERE)
    give("a byte left over", p("B"), p("FEE"), p("*"), HERE, n(0))
    give("all three broken: the first", HERE, p("C"), p("fee"), p("office"))
    give("object and grantee broken: the first", p("B"), HERE, p("fee"), p("office"))

head("DECLARE CURSOR: a selection")
declare("two columns", p("FEE"), n(2), p("NO"), p("AMT"))
declare("a condition", p("FEE"), n(0), n(1), p("NO"), p(">"), p("10"))
declare("the shortest", p("F"), n(0))
declare("conditions counted 0", p("FEE"), n(0), n(0))
declare("12 columns", p("FEE"), n(12), *TWELVE)
declare("13 columns", p("FEE"), HERE, n(13), *THIRTEEN)
declare("4 conditions", p("FEE"), n(1), p("NO"), n(4), *[p("NO"), p("G"), p("1")] * 4)
declare("5 conditions", p("FEE"), n(1), p("NO"), HERE, n(5), *[p("NO"), p("G"), p("1")] * 5)
declare("name of 8 bytes", p("ABCDEFGH"), n(0))
declare("name of 9 bytes", HERE, p("ABCDEFGHI"), n(0))
declare("name of no bytes", HERE, p(""), n(0))
declare("name small", HERE, p("fee"), n(0))
declare("a system table's name is no identifier", HERE, p("*U"), n(0))
declare("count missing", p("FEE"), HERE)
declare("repeated", p("FEE"), n(2), p("NO"), HERE, p("NO"))
declare("repeated in the conditions is allowed", p("FEE"), n(1), p("NO"), n(2),
        p("NO"), p("="), p("1"), p("NO"), p("="), p("1"))
declare("a mark is not due here", p("FEE"), n(1), HERE, p("NO.U"))
declare("column small", p("FEE"), n(2), p("NO"), HERE, p("amt"))
declare("column missing", p("FEE"), n(2), p("NO"), HERE)
declare("column broken and an operator too: the first", p("FEE"), n(1), HERE, p("no"), n(1), p("NO"), p("!"), p(""))
declare("condition's column broken", p("FEE"), n(0), n(1), HERE, p("N O"), p("="), p(""))
declare("operator unknown", p("FEE"), n(0), n(1), p("NO"), HERE, p("!"), p(""))
declare("operator of two bytes", p("FEE"), n(0), n(1), p("NO"), HERE, p("<>"), p(""))
declare("string missing", p("FEE"), n(0), n(1), p("NO"), p("="), HERE)
declare("a byte left over", p("FEE"), n(0), n(1), p("NO"), p("="), p(""), HERE, n(0x3D))
declare("255 data bytes: a condition on a string of 243", p("FEE"), n(0), n(1), p("NO"), p("="), p("9" * 243))
declare("255 data bytes, the string promises one more", p("FEE"), n(0), n(1), p("NO"), p("="), n(244), b"9" * 243, HERE)

head("INSERT: table, count, strings")
insert("no strings", p("DAY"), n(0))
insert("one string", p("DAY"), n(1), p("7"))
insert("two strings", p("DAY"), n(2), p("7"), p("250"))
insert("empty strings", p("DAY"), n(2), p(""), p(""))
insert("13 strings: the form does not bound them", p("DAY"), n(13), *[p(str(k)) for k in range(13)])
insert("252 empty strings: the most that fit, 255 data bytes", p("A"), n(252), *[n(0)] * 252)
insert("253 promised, 252 there", p("A"), n(253), *[n(0)] * 252, HERE)
insert("251 promised, 252 there", p("A"), n(251), *[n(0)] * 251, HERE, n(0))
insert("255 promised, 252 there", p("A"), n(255), *[n(0)] * 252, HERE)
insert("one string of 251 bytes: the longest", p("A"), n(1), p(bytes(range(0x00, 0xFB))))
insert("a long string of letters", p("A"), n(1), p("x" * 251))
insert("a long string promises one byte more", p("A"), n(1), n(252), b"x" * 251, HERE)
insert("name of 8 bytes, 245 empty strings", p("ABCDEFGH"), n(245), *[n(0)] * 245)
insert("name of 9 bytes", HERE, p("ABCDEFGHI"), n(0))
insert("name of no bytes", HERE, p(""), n(0))
insert("name small", HERE, p("day"), n(0))
insert("count missing", p("DAY"), HERE)
insert("string missing", p("DAY"), n(1), HERE)
insert("third string missing", p("DAY"), n(3), p("7"), p("250"), HERE)
insert("third string a byte too short", p("DAY"), n(3), p("7"), p("250"), n(2), b"9", HERE)
insert("a byte left over", p("DAY"), n(1), p("7"), HERE, n(0))
insert("no strings and a byte left over", p("DAY"), n(0), HERE, n(0))
insert("a whole string left over", p("DAY"), n(2), p("7"), p("250"), HERE, p("90"))
insert("name broken and a string missing: the first", HERE, p("day"), n(3))

head("How strings are written")
insert("the first and the last byte in quotes", p("DAY"), n(2), p(b"\x20"), p(b"\x7E"))
insert("just outside", p("DAY"), n(2), p(b"\x1F"), p(b"\x7F"))
insert("the double quote", p("DAY"), n(3), p(b'"'), p(b'A"B'), p(b"'"))
insert("comma, colon, number sign, backslash", p("DAY"), n(4), p(","), p(":"), p("# x"), p("\\n"))
insert("blanks at the end", p("DAY"), n(2), p("7 "), p("  "))
insert("zero bytes", p("DAY"), n(2), p(b"\x00"), p(b"7\x00"))
insert("bytes above 7F", p("DAY"), n(3), p(b"\x80"), p(b"\xFF"), p("\u00e9"))
insert("one byte of a long string outside", p("DAY"), n(1), p(b"ABCDEFGHIJKLMNOP\x0A"))

head("UPDATE: pairs of a column and a string")
update("the shortest", n(1), p("A"), p(""))
update("", n(1), p("AMT"), p("300"))
update("12 pairs", n(12), *[piece for name in TWELVE for piece in (name, p("1"))])
update("13 pairs", HERE, n(13), *[piece for name in THIRTEEN for piece in (name, p("1"))])
update("12 long pairs, 255 data bytes", n(12), *[piece for name in LONG[:11] for piece in (p(name), p("x" * 11))],
       p(LONG[11]), p(b"\x00" * 13))
update("count 0", HERE, n(0))
update("count 0, a pair there", HERE, n(0), p("AMT"), p("1"))
update("count 255", HERE, n(255), p("AMT"), p("1"))
update("column of 8 bytes", n(1), p("ABCDEFGH"), p("1"))
update("column of 9 bytes", n(1), HERE, p("ABCDEFGHI"), p("1"))
update("column of no bytes", n(1), HERE, p(""), p("1"))
update("column small", n(1), HERE, p("amt"), p("1"))
update("a mark is not due here", n(1), HERE, p("AMT.U"), p("1"))
update("USER may be named here", n(1), p("USER"), p("1"))
update("second column small", n(2), p("AMT"), p("1"), HERE, p("cost"), p("1"))
update("repeated", n(2), p("AMT"), p("1"), HERE, p("AMT"), p("1"))
update("repeated, not side by side", n(3), p("AMT"), p("1"), p("COST"), p("1"), HERE, p("AMT"), p("2"))
update("repeated, and its string missing", n(2), p("AMT"), p("1"), HERE, p("AMT"))
update("repeated, and its string a byte too short", n(2), p("AMT"), p("1"), HERE, p("AMT"), n(2), b"1")
update("repeated, and a byte left over", n(2), p("AMT"), p("1"), HERE, p("AMT"), p("1"), n(0))
update("a column missing", n(1), HERE)
update("a string missing", n(1), p("AMT"), HERE)
update("a second pair missing", n(2), p("AMT"), p("1"), HERE)
update("a column a byte too short", n(1), n(3), b"AM", HERE)
update("a string a byte too short", n(1), p("AMT"), n(2), b"1", HERE)
update("a byte left over", n(1), p("AMT"), p("1"), HERE, n(0))
update("a pair left over", n(1), p("AMT"), p("1"), HERE, p("COST"), p("1"))
update("a name in front is not due: its length is the count, and D a length that promises too much",
       p("DAY"), n(1), p("AMT"), p("1"), HERE)

head("A flight table: the well-known examples of the language")
present("group ids are left out", HERE, b"COMPANY.DIV.SMITH")
create_table("", p("FLY"), n(5), p("DEP"), p("ARR"), p("F_NO.U"), p("TIME"), p("PRICE"))
FLY = joined([p("FLY"), n(5), p("DEP"), p("ARR"), p("F_NO.U"), p("TIME"), p("PRICE")])[0]
present("the table's data under PRESENT USER's header", HERE, FLY)
raw("00 10 00 80 11" + FLY.hex(), 2, "the table's data with a data length of 17: there are 31 bytes")
create_table("the third column without its length byte: F promises too much", FLY.replace(p("F_NO.U"), b"F_NO.U"), HERE)
create_view("", p("FLY_A"), p("FLY"), n(4), p("DEP"), p("ARR"), p("F_NO"), p("TIME"))
grant("", p("B"), p("FLY_A"), p("*"))
insert("", p("FLY"), n(5), p("FRA"), p("CDG"), p("LH4711"), p("0115_10:20"), p("540DM"))
declare("", p("FLY"), n(0), n(1), p("ARR"), p("="), p("CDG"))

head("Small stories: worked examples, and near misses of each")
insert("the first row", p("DAY"), n(3), p("7"), p("250"), p("90"))
insert("the next", p("DAY"), n(3), p("8"), p("250"), p("90"))
declare("", p("FEE"), n(0), n(1), p("NO"), p("<"), p("10"))
raw("00 10 00 8A 06", 0, "one byte too few for a row: not seen here")
create_table("nine plain columns and one of 14: too long for a row, but the form is kept",
             p("WIDE"), n(10), *TWELVE[:9], p(b"J.V\x0E"))
create_view("a view that tests what it hides", p("FEE"), p("DAY"), n(2), p("NO"), p("AMT"), n(1),
            p("COST"), p("#"), p("90"))

# ---------------------------------------------------------------------------------------------------------------------

WHOLE = [
    ("PRESENT USER", "14 80", [b"ANNA"]),
    ("CREATE USER", "14 81", [p("OFFICE"), p("DBBU")]),
    ("CREATE TABLE", "10 80", [p("DAY"), n(3), p("NO.U"), p(b"AMT.V\x08"), p(b"COST.U.V\x09"), p(b"\x02")]),
    ("CREATE VIEW", "10 81", [p("FEE"), p("DAY"), n(2), p("NO"), p("AMT"), n(2), p("NO"), p(">"), p("10"),
                              p("AMT"), p("#"), p(b"\x00\xFF")]),
    ("DROP TABLE", "10 83", [p("DAY")]),
    ("DROP VIEW", "10 84", [p("FEE")]),
    ("GRANT", "10 85", [p("B"), p("FEE"), p("OFFICE")]),
    ("REVOKE", "10 86", [p("D"), p("DAY"), p("*")]),
    ("DECLARE CURSOR", "10 87", [p("FEE"), n(2), p("NO"), p("AMT"), n(1), p("NO"), p("L"), p("10")]),
    ("INSERT", "10 8C", [p("DAY"), n(3), p("7"), p("250"), p("90")]),
    ("UPDATE", "10 8D", [n(2), p("AMT"), p("300"), p("COST"), p("")]),
]


def whole(codes, data):
    ins, p2 = bytes.fromhex(codes)
    return bytes([0x00, ins, 0x00, p2, len(data)]) + data


head("Cut: each form with its data ended after every byte, and with a byte more (the data length says so)")
for name, codes, pieces in WHOLE:
    data = b"".join(pieces)
    says(name)
    for size in range(1, len(data) + 1):
        line(whole(codes, data[:size]))
    line(whole(codes, data + b"\x00"))
    line(whole(codes, data + b"\x41"))

head("Every length and count byte, one less and one more")
for name, codes, pieces in WHOLE[1:]:  # PRESENT USER has no length byte
    says(name)
    for index, piece in enumerate(pieces):
        for step in -1, 1:
            changed = bytes([(piece[0] + step) % 256]) + piece[1:]
            line(whole(codes, b"".join(pieces[:index] + [changed] + pieces[index + 1:])))


def mutated(dice):
    """A valid command with a byte changed, cut or doubled, once or twice; most often its data length is mended."""
    kind = dice.randrange(len(WHOLE) + 3)
    if kind < len(WHOLE):
        command = bytearray(whole(WHOLE[kind][1], b"".join(WHOLE[kind][2])))
    else:
        bare = ["00100088", "00100089", "0010008A07", "0010008B00", "0010008E"]
        command = bytearray(bytes.fromhex(dice.choice(bare)))
    for _ in range(dice.choice([1, 1, 1, 2, 2, 3])):
        first = 0 if dice.random() < 0.25 else 5
        if first >= len(command):
            first = 0
        at = dice.randrange(first, len(command))
        way = dice.randrange(5)
        if way == 0:
            command[at] = dice.randrange(256)
        elif way == 1:
            command[at] = (command[at] + dice.choice([-1, 1])) % 256
        elif way == 2:
            command[at] = dice.choice(b"\x00\x01\x02\x03\x0C\x0D\x41\x42\x4E\x2E\x55\x56\x3D\x23\x2A\xFF")
        elif way == 3 and len(command) > 1:
            del command[at]
        else:
            command.insert(at, command[at])
    if len(command) > 5 and dice.random() < 0.85:
        command[4] = len(command) - 5
    return bytes(command)


head("At random: 400 commands, valid ones with a byte or two changed, cut or doubled")
dice = random.Random(7816)
for number in range(400):
    if number == 200:
        area(254)
    if number == 206:
        area(255)
    line(mutated(dice))


def check(answers):
    """The marked faults against those told."""
    wrong = 0
    for number, ((cause, place), answer) in enumerate(zip(faults, answers), 1):
        words = answer.split()
        told = (int(words[2]), int(words[6].rstrip(":"))) if words[1:2] == ["cause"] else (0, 0)
        if told != (cause, place):
            print(f"answer {number}: cause {cause} at {place} was marked, but: {answer}")
            wrong += 1
    print(f"{len(faults)} marked, {wrong} wrong")
    return wrong


if sys.argv[1:] == ["check"]:
    sys.exit(check(sys.stdin.read().splitlines()) != 0)
print("\n".join(script))
