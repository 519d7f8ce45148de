"""The rows of explained_lines: lines, messages and digits that are refused, and what fastcat --explain says of them."""

SET = """
[[template]]
name = "Trade"
id = 30
fields = [
  { kind = "uInt32", name = "x" },
  { kind = "int32", name = "y", optional = true },
  { kind = "uInt64", name = "z", optional = true },
  { kind = "int64", name = "w", optional = true },
  { kind = "ascii", name = "symbol" },
  { kind = "decimal", name = "px", optional = true },
  { kind = "unicode", name = "note", optional = true },
  { kind = "bytes", name = "raw", optional = true },
  { kind = "group", name = "venue", optional = true, fields = [
    { kind = "uInt32", name = "desk" }, { kind = "uInt32", name = "seat", optional = true }] },
  { kind = "sequence", name = "legs", fields = [
    { kind = "uInt32", name = "n" }, { kind = "ascii", name = "side", op = "constant", value = "B" }] },
  { kind = "uInt32", name = "last", optional = true },
]
[[template]]
name = "NoId"
fields = [{ kind = "uInt32", name = "x" }]
[[template]]
name = "Parts"
id = 31
fields = [
  { kind = "decimal", name = "d", optional = true, exponent = { op = "constant", value = "-2" }, mantissa = { op = "copy" } },
  { kind = "sequence", name = "two", optional = true, length = { op = "constant", value = "2" }, fields = [{ kind = "uInt32", name = "k" }] },
  { kind = "bytes", name = "tag", optional = true, op = "constant", value = "01ff" },
  { kind = "ascii", name = "a", optional = true },
  { kind = "ascii", name = "b", optional = true },
]
[[template]]
name = "Many"
id = 32
fields = [{ kind = "uInt32", name = "m0", optional = true }, { kind = "uInt32", name = "m1", optional = true },
  { kind = "uInt32", name = "m2", optional = true }, { kind = "uInt32", name = "m3", optional = true },
  { kind = "uInt32", name = "m4", optional = true }, { kind = "uInt32", name = "m5", optional = true },
  { kind = "uInt32", name = "m6", optional = true }, { kind = "uInt32", name = "m7", optional = true },
  { kind = "uInt32", name = "m8", optional = true }, { kind = "uInt32", name = "same", optional = true },
  { kind = "uInt32", name = "same", optional = true }]
"""

GOOD = [
    "message Trade",
    "field 0 x u 5",
    "field 1 y i -3",
    'field 4 symbol a "AB"',
    "field 5 px d 125e-1",
    'field 6 note s "n"',
    "field 7 raw b 01ff",
    "group 8 venue",
    "field 9 desk u 1",
    "end group",
    "sequence 11 legs 2",
    "element",
    "field 12 n u 1",
    'field 13 side a "B"',
    "end element",
    "element",
    "field 12 n u 2",
    'field 13 side a "B"',
    "end element",
    "end sequence",
    "field 14 last u 9",
    "end message",
]
SENTENCES = {
    1: "it is not UTF-8, or not of the form of any line",
    2: "no template has its name",
    3: "nothing of its name can stand there",
    4: "its value is none that the field can have",
    5: "something mandatory is left out before it",
    6: "the sequence has not as many elements as its line says",
    7: "the text ends where the line had to stand",
    "E1": "no template has the number, or that template has no identifier",
    "E3": "the previous values leave no way to send a value",
    "E4": "a text or a number of elements is over its limit",
    "R9": "an ASCII string that would be sent begins with a zero character",
}

NAME = "expected a name of 1 to 64 letters, digits, _, - and points"
WORDS = "expected message, field, group, sequence, element or end"
DIGITS = "expected digits alone"
SIGNED = "expected digits alone, after a - if the number is negative"
DECIMAL = "expected a mantissa, e and an exponent, as 125e-1 for 12.5"
HEX = "expected lower case hexadecimal digits alone"
ESCAPE = 'expected \\", \\\\ or \\x and two digits'
QUOTE = 'expected the end of the line; a quote in a string is written \\"'
ZEROS = "expected a number without leading zeros"
LETTER = "expected a letter (u, i, d, a, s or b), a blank and the value"
CONTROL = "expected no control character; words are separated by blanks"
COMMENT = "a comment: expected none, since lines have no comments"
ONE_BLANK = "a second blank: expected one blank"
TO_END = "expected the end of the line"
LAST = "the last line of a stream at fault: expected none; remove it, and the lines of an incomplete message before it"
END = "the end of the line"
COUNT = "expected a blank and the number of elements"
ORDER = "comes earlier in the template, and once at most"
X = 'field 0 "x" (uInt32)'
TAIL = 'field 14 "last" (uInt32, optional), or end message'
FOR_SYMBOL = 'field 2 "z" (uInt64, optional), or field 3 "w" (int64, optional), or field 4 "symbol" (ascii)'
AFTER_X = f'field 1 "y" (int32, optional), or {FOR_SYMBOL}'
LONG = "a" * 65

# the kind, the line of GOOD that is replaced, the line instead of it, the column, what is said there
ROWS = [
    # lines that are none: the file and the line as a whole
    (1, 1, "\ufeffmessage Trade", 1, "a byte order mark: expected none; save the lines as UTF-8 without it"),
    (1, 1, b"\xff\xfem\x00", 1, "a byte order mark of UTF-16: expected UTF-8; save the lines in that encoding"),
    (1, 1, "m\0e\0", 2, "a NUL character: expected text in UTF-8"),
    (1, 4, b'field 4 symbol a "\xc3\xa9\xff"', 20, "a byte that is not UTF-8: expected UTF-8"),
    (1, 1, b"\xc0\x81\x39", 1, "a byte that is not UTF-8: expected UTF-8"),
    (1, 1, "message Trade\r", 14, "a carriage return: expected lines that end with LF, not CR LF (dos2unix)"),
    (1, 6, 'field 6 note s "\u00e9"\r', 19, "a carriage return: expected lines that end with LF, not CR LF (dos2unix)"),
    (1, 2, "", 1, "an empty line: expected none"),
    (1, 2, "# five", 1, COMMENT),
    (1, 2, "// five", 1, COMMENT),
    (1, 2, "  field 0 x u 5", 1, "a blank: expected a line without indentation"),
    (1, 2, "\tfield 0 x u 5", 1, "a tab: expected a line without indentation"),
    (1, 2, "truncated at 7", 1, LAST),
    (1, 2, "fault D9 at 2", 1, LAST),
    (1, 1, "packet 0 12:00 239.0.0.1:5 7", 1, "the line of a packet: expected none; remove such lines"),
    (1, 1, "e0 8f 85", 1, "hexadecimal digits: expected lines; digits of a stream are shown by fastcat show --hex"),
    # words, numbers and names
    (1, 2, "fild 0 x u 5", 1, f'"fild": {WORDS}'),
    (1, 2, "Field 0 x u 5", 1, f'"Field": {WORDS}'),
    (1, 2, "field\t0 x u 5", 6, f"a tab: {CONTROL}"),
    (1, 2, "field 0\tx u 5", 8, f"a tab: {CONTROL}"),
    (1, 2, "field  0 x u 5", 7, ONE_BLANK),
    (1, 2, "field 0  x u 5", 9, ONE_BLANK),
    (1, 2, "field 0 x  u 5", 11, ONE_BLANK),
    (1, 2, "field 0 x u  5", 13, ONE_BLANK),
    (1, 2, "field 0 x u 5 ", 14, f"a blank: {DIGITS}"),
    (1, 2, "field", 6, f"{END}: expected a blank and the number of a node"),
    (1, 2, "field 0", 8, f"{END}: expected a blank and the name of the node"),
    (1, 2, "field 0 x", 10, f"{END}: expected a blank, a letter (u, i, d, a, s or b), a blank and the value"),
    (1, 2, "field x u 5", 7, '"x": expected the number of a node'),
    (1, 2, "field 00 x u 5", 7, f'"00": {ZEROS}'),
    (1, 2, "field 4294967296 x u 5", 7, '"4294967296": expected a number from 0 to 4294967295'),
    (1, 2, "field 0 x! u 5", 10, f'"!": {NAME}'),
    (1, 2, "field 0 x\u00e9y! u 5", 10, f'"\u00e9": {NAME}'),
    (1, 1, "message", 8, f"{END}: expected a blank and the name of a template"),
    (1, 1, "message  Trade", 9, ONE_BLANK),
    (1, 1, "message Trade ", 14, f"a blank: {TO_END}"),
    (1, 1, "message Trade 30", 15, f'"30": {TO_END}'),
    (1, 1, 'message "Trade"', 9, f"'\"': {NAME}"),
    (1, 1, f"message {LONG}", 9, f'"{LONG[1:]}"..: {NAME}'),
    (1, 8, "group 8", 8, f"{END}: expected a blank and the name of the node"),
    (1, 8, "group 8 venue 1", 15, f'"1": {TO_END}'),
    (1, 11, "sequence 11 legs", 17, f"{END}: {COUNT}"),
    (1, 11, "sequence 11 legs 02", 18, f'"02": {ZEROS}'),
    (1, 11, "sequence 11 legs -1", 18, '"-1": expected the number of elements'),
    (1, 11, "sequence 11 legs 4294967296", 18, '"4294967296": expected a number from 0 to 4294967295'),
    (1, 11, "sequence 11 legs 2 x", 20, f'"x": {TO_END}'),
    (1, 12, "element 0", 9, f'"0": {TO_END}'),
    (1, 10, "end", 4, f"{END}: expected a blank and group, element, sequence or message"),
    (1, 10, "end Group", 5, '"Group": expected group, element, sequence or message'),
    (1, 10, "end  group", 5, ONE_BLANK),
    (1, 10, "end group x", 11, f'"x": {TO_END}'),
    # values
    (1, 2, "field 0 x 5", 11, f'"5": {LETTER}'),
    (1, 2, 'field 0 x "5"', 11, f"'\"5\"': {LETTER}"),
    (1, 2, "field 0 x q 5", 11, '"q": expected the letter of a type: u, i, d, a, s or b'),
    (1, 2, "field 0 x u", 12, f"{END}: expected a blank and the value"),
    (1, 2, "field 0 x u ", 13, f"{END}: {DIGITS}"),
    (1, 2, "field 0 x u 007", 13, f'"007": {ZEROS}'),
    (1, 2, "field 0 x u -5", 13, f'"-": {DIGITS}'),
    (1, 2, "field 0 x u +5", 13, f'"+": {DIGITS}'),
    (1, 2, "field 0 x u 5.0", 14, f'".": {DIGITS}'),
    (1, 2, "field 0 x u 1,000", 14, f'",": {DIGITS}'),
    (1, 2, "field 0 x u 0x10", 14, f'"x": {DIGITS}'),
    (1, 3, "field 1 y i --5", 14, f'"-": {DIGITS} after the -'),
    (1, 3, "field 1 y i -", 14, f"{END}: {DIGITS} after the -"),
    (1, 3, "field 1 y i -0", 13, '"-0": expected 0'),
    (1, 3, "field 1 y i -01", 14, f'"01": {ZEROS}'),
    (1, 3, "field 1 y i +5", 13, f'"+": {SIGNED}'),
    (1, 5, "field 5 px d 12.5", 14, f'"12.5": {DECIMAL}'),
    (1, 5, "field 5 px d 12", 14, f'"12": {DECIMAL}'),
    (1, 5, "field 5 px d 12E3", 14, f'"12E3": {DECIMAL}'),
    (1, 5, "field 5 px d 1.5e3", 15, f'".": {SIGNED}'),
    (1, 5, "field 5 px d e3", 14, f'"e": {SIGNED}'),
    (1, 5, "field 5 px d -e3", 15, f'"e": {DIGITS} after the -'),
    (1, 5, "field 5 px d 5e", 16, f"{END}: {SIGNED}"),
    (1, 5, "field 5 px d 5e+3", 16, f'"+": {SIGNED}'),
    (1, 4, "field 4 symbol a AB", 18, '"AB": expected a string in double quotes'),
    (1, 4, "field 4 symbol a 'AB'", 18, "\"'AB'\": expected a string in double quotes"),
    (1, 4, 'field 4 symbol a "AB', 21, f"{END}: expected a double quote"),
    (1, 4, 'field 4 symbol a "', 19, f"{END}: expected a double quote"),
    (1, 4, 'field 4 symbol a "A"B"', 21, f"\"B\": {QUOTE}"),
    (1, 4, 'field 4 symbol a "AB" ', 22, f"a blank: {QUOTE}"),
    (1, 6, 'field 6 note s "\u00e9\\n"', 18, f'"\\n": {ESCAPE}'),
    (1, 4, 'field 4 symbol a "A\\"', 21 + 1, f"{END}: expected a double quote"),
    (1, 4, 'field 4 symbol a "A\\x0A"', 20, '"\\x": expected two lower case hexadecimal digits after \\x'),
    (1, 4, 'field 4 symbol a "A\\x41"', 20, '"\\x": expected the character itself, since \\x is for control characters'),
    (1, 4, 'field 4 symbol a "A\tB"', 20, "a tab: expected \\x and two digits, as \\x09 for a tab"),
    (1, 4, 'field 4 symbol a "A\0B"', 20, "a NUL character: expected \\x and two digits, as \\x09 for a tab"),
    (1, 7, "field 7 raw b 01f", 18, f"{END}: expected a second digit, since a byte has two"),
    (1, 7, "field 7 raw b 01FF", 17, f'"F": {HEX}'),
    (1, 7, "field 7 raw b 01 ff", 17, f"a blank: {HEX}"),
    (1, 7, "field 7 raw b 0x01", 16, f'"x": {HEX}'),
    # names of templates
    (2, 1, "message trade", 9, '"trade": expected "Trade"'),
    (2, 1, "message Order", 9, '"Order": expected the name of a template: "Trade", "NoId", "Parts", "Many"'),
    (2, 2, "message Order", 1, f'"message Order": expected {X}'),
    # lines at the wrong place
    (3, 4, 'field 4 symbl a "AB"', 9, '"symbl": expected "symbol" (field 4 "symbol", ascii)'),
    (3, 2, "field 0 X u 5", 9, '"X": expected "x" (field 0 "x", uInt32)'),
    (3, 2, "field 1 x u 5", 7, '"1": expected 0 (field 0 "x", uInt32)'),
    (3, 2, "field 15 x u 5", 7, '"15": expected 0 (field 0 "x", uInt32)'),
    (3, 11, "sequence 10 legs 2", 10, '"10": expected 11 (sequence 11 "legs")'),
    (3, 2, "group 0 x", 1, f'"group": expected {X}'),
    (3, 8, "field 8 venue u 1", 1, '"field": expected group 8 "venue" (optional)'),
    (3, 8, "group 8 venu", 9, '"venu": expected "venue" (group 8 "venue")'),
    (3, 3, "field 99 other u 5", 1, f'"field 99 other": expected {AFTER_X}'),
    (3, 1, "field 0 x u 5", 1, '"field 0 x": expected message and the name of a template'),
    (3, 1, "end message", 1, '"end message": expected message and the name of a template'),
    (3, 2, "message Trade", 1, f'"message Trade": expected {X}'),
    (3, 10, "end message", 1, '"end message": expected field 10 "seat" (uInt32, optional), or end group'),
    (3, 12, "field 12 n u 1", 1, '"field 12 n": expected element'),
    (3, 15, "end message", 1, '"end message": expected end element'),
    (3, 20, "end message", 1, '"end message": expected end sequence'),
    (3, 21, "field 1 y i 5", 1, f'"field 1 y": expected {TAIL}\n  field 1 "y" (int32, optional) {ORDER}'),
    (3, 22, "field 14 last u 9", 1, f'"field 14 last": expected end message\n  field 14 "last" (uInt32, optional) {ORDER}'),
    # values out of range
    (4, 2, "field 0 x u 4294967296", 13, '"4294967296": expected a number from 0 to 4294967295 (field 0 "x", uInt32)'),
    (4, 3, "field 1 y i 2147483648", 13, '"2147483648": expected a number from -2147483648 to 2147483647 (field 1 "y", int32)'),
    (
        4,
        3,
        "field 2 z u 18446744073709551616",
        13,
        '"18446744073709551616": expected a number from 0 to 18446744073709551615 (field 2 "z", uInt64)',
    ),
    (
        4,
        3,
        "field 3 w i -9223372036854775809",
        13,
        '"-9223372036854775809": expected a number from -9223372036854775808 to 9223372036854775807 (field 3 "w", int64)',
    ),
    (
        4,
        5,
        "field 5 px d 9223372036854775808e0",
        14,
        '"9223372036854775808": expected a number from -9223372036854775808 to 9223372036854775807 (field 5 "px", decimal)',
    ),
    (4, 5, "field 5 px d 5e64", 16, '"64": expected an exponent from -63 to 63 (field 5 "px", decimal)'),
    (4, 5, "field 5 px d 5e-99999999999", 16, '"-99999999999": expected an exponent from -63 to 63 (field 5 "px", decimal)'),
    (4, 2, "field 0 x i 100", 11, '"i": expected the letter u (field 0 "x", uInt32)'),
    (4, 3, "field 1 y u 5", 11, '"u": expected the letter i (field 1 "y", int32)'),
    (4, 5, "field 5 px u 5", 12, '"u": expected the letter d (field 5 "px", decimal)'),
    (4, 4, 'field 4 symbol s "AB"', 16, '"s": expected the letter a (field 4 "symbol", ascii)'),
    (4, 6, 'field 6 note a "n"', 14, '"a": expected the letter s (field 6 "note", unicode)'),
    (4, 7, 'field 7 raw a "n"', 13, '"a": expected the letter b (field 7 "raw", bytes)'),
    (4, 4, 'field 4 symbol a "A\u00e9"', 20, '"\u00e9": expected a character below U+0080 (field 4 "symbol", ascii)'),
    # what is left out
    (5, 2, "field 1 y i -3", 1, f'"field 1 y": expected {X} before it, since that is mandatory'),
    (5, 2, "end message", 1, f'"end message": expected {X} before it, since that is mandatory'),
    (5, 4, "field 5 px d 5e0", 1, '"field 5 px": expected field 4 "symbol" (ascii) before it, since that is mandatory'),
    (5, 9, "end group", 1, '"end group": expected field 9 "desk" (uInt32) before it, since that is mandatory'),
    (5, 11, "end message", 1, '"end message": expected sequence 11 "legs" before it, since that is mandatory'),
    # numbers of elements
    (6, 12, "end sequence", 1, '"end sequence": expected element, since the count in line 11 is 2 and there are 0 (sequence 11 "legs")'),
    (6, 16, "end sequence", 1, '"end sequence": expected element, since the count in line 11 is 2 and there are 1 (sequence 11 "legs")'),
    (6, 20, "element", 1, '"element": expected end sequence, since the count in line 11 is 2 and this is element 3 (sequence 11 "legs")'),
]

# the line in which a message begins after this many lines of GOOD, and what is expected next
ENDS = [
    (1, X),
    (2, AFTER_X),
    (9, 'field 10 "seat" (uInt32, optional), or end group'),
    (11, "element"),
    (19, "end sequence"),
    (20, TAIL),
    (21, "end message"),
]

MANY = ", or ".join(f'field {22 + k} "m{k}" (uInt32, optional)' for k in range(8))
BEGUN = 'the message begins in line 1, template "Many"'
LISTED = f'{MANY}, or another one up to field 32 "same" (uInt32, optional), or end message'
TEXTS = ["--max-text", "16"]
LONG_TEXT = 'field 4 symbol a "ABCDEFGHIJKLMNOPQ"'
TOO_LONG = "'\"ABCDEFGHIJKLMNOPQ\"': expected at most 16 bytes (--max-text) (field 4 \"symbol\", ascii)"
COUNTS = 'elements in all sequences of the message (--max-total) (sequence 11 "legs")'
ZERO = "expected an ASCII string without \\x00"
TWO = "field 18 k u 1"
PARTS = "message Parts"


def parts(*lines):
    return [PARTS, *lines, "end message"]


# the code of the message, its lines, options, what is said of its template, the line in it, the column, what is said there
MESSAGES = [
    ("E1", ["message NoId", "field 15 x u 1", "end message"], [], '"NoId", which has no id', 0, 0, ""),
    ("E3", parts("field 16 d d 5e-1"), [], '"Parts"', 2, 14, '"5e-1": expected the exponent -2, a constant (field 16 "d", decimal)'),
    (
        "E3",
        parts("sequence 17 two 1", "element", TWO, "end element", "end sequence"),
        [],
        '"Parts"',
        2,
        17,
        '"1": expected 2, a constant (sequence 17 "two")',
    ),
    ("E3", parts("field 19 tag b 01fe"), [], '"Parts"', 2, 16, '"01fe": expected 01ff, a constant (field 19 "tag", bytes)'),
    (
        "E3",
        [*GOOD[:13], 'field 13 side a "S"', *GOOD[14:]],
        [],
        '"Trade"',
        14,
        17,
        "'\"S\"': expected \"B\", a constant (field 13 \"side\", ascii)",
    ),
    ("E4", [*GOOD[:3], LONG_TEXT, *GOOD[4:]], TEXTS, '"Trade"', 4, 18, TOO_LONG),
    (
        "E4",
        GOOD,
        ["--max-elements", "1"],
        '"Trade"',
        11,
        18,
        '"2": expected at most 1 elements (--max-elements) (sequence 11 "legs")',
    ),
    ("E4", GOOD, ["--max-total", "1"], '"Trade"', 11, 18, f'"2": expected at most 1 {COUNTS}'),
    ("R9", parts('field 20 a a "\\x00B"', 'field 21 b a "B"'), [], '"Parts"', 2, 14, f"'\"\\x00B\"': {ZERO} (field 20 \"a\", ascii)"),
    # Either of them may be the one.
    ("R9", parts('field 20 a a "\\x00B"', 'field 21 b a "\\x00"'), [], '"Parts"', 0, 0, ""),
]

ALONE = "expected digits alone"
BETWEEN = "expected digits, and at most blanks between them"
DUMP = "expected digits alone, as xxd -p prints them"
OTHER = "a byte that is no character of digits: expected digits; a binary stream is shown without --hex"
PAIRS = "expected an even number, two for each byte"
HALF = "the end of the input: expected the second digit of a pair"
C = "c0813945a3"

# an input in digits, the offset, the line and the column of the error, what is said there
INPUTS = [
    ("0x" + C, 1, 1, 2, f"a 0x prefix: {ALONE}"),
    ("c0 81 0X39", 7, 1, 8, f"a 0x prefix: {ALONE}"),
    ("\\xc0\\x81", 0, 1, 1, f"a \\x prefix: {ALONE}"),
    ("c0,81,39", 2, 1, 3, f'",": {BETWEEN}'),
    ("c0:81:39", 2, 1, 3, f'":": {BETWEEN}'),
    (f"{C};", 10, 1, 11, f'";": {BETWEEN}'),
    ("[c0]", 0, 1, 1, f'"[": {BETWEEN}'),
    (f'"{C}"', 0, 1, 1, f"a quote: {ALONE}"),
    (f"'{C}'", 0, 1, 1, f"a quote: {ALONE}"),
    (f"# {C}", 0, 1, 1, f"a comment: {ALONE}"),
    (f"{C}\n// {C}", 11, 2, 1, f"a comment: {ALONE}"),
    (f"{C} / {C}", 11, 1, 12, f'"/": {BETWEEN}'),
    (f"\ufeff{C}", 0, 1, 1, "a byte order mark: expected digits; save them without it"),
    (f"{C}\r\n\ufeff{C}", 12, 2, 1, OTHER),
    (bytes.fromhex(C), 0, 1, 1, OTHER),
    (f"{C}\0", 10, 1, 11, OTHER),
    ("00000000: c081 3945 a3  ..9E.\n", 8, 1, 9, f"the offset column of a dump: {DUMP}"),
    (f"{C}\n0000005: c081\n", 18, 2, 8, f"the offset column of a dump: {DUMP}"),
    ("message T1\n", 0, 1, 1, "a line of show: expected digits; lines are read by fastcat convert"),
    ("c0h", 2, 1, 3, '"h": expected a hexadecimal digit'),
    (f"{C}\n\n  g0", 14, 3, 3, '"g": expected a hexadecimal digit'),
    (f"{C}\n" * 900 + f"{C} z", 9911, 901, 12, '"z": expected a hexadecimal digit'),
    (C * 900 + "z", 9000, 1, 9001, '"z": expected a hexadecimal digit'),
    ("c0 81 39 45 a\n", 14, 1, 13, f"1 digit between blanks: {PAIRS}"),
    ("c0 813\n39 45 a3\n", 16, 1, 4, f"3 digits between blanks: {PAIRS}"),
    ("c0\n8 1 3\n39\n", 12, 2, 1, f"3 digits in this line: {PAIRS}"),
    ("c\n8 1 3\n3\n", 9 + 1, 4, 1, HALF),
]

# A dump whose offsets are digits, so that the stream is at fault before the first invalid character.
CANONICAL = "00000000  c0 81 39 45 a3   |..9E.|\n"
