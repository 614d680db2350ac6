"""A model of the JSON reader in Python, written from the definitions: of a text the answer's code and place, and the named sets that it
stands for as bytes. It reads from left to right and stops at the first fault, as definitions/specs/FormReader says; what stands at a place
behind the end counts as the byte 0, as there.

A filter is (name, mismatch, match, lines), a line (call, rule or None), and rules are those of tests/vectors/model.py."""
import importlib.util
import pathlib
import struct

# the model of rule sets has this file's name
SPEC = importlib.util.spec_from_file_location("set_model", pathlib.Path(__file__).resolve().parent.parent / "vectors" / "model.py")
set_model = importlib.util.module_from_spec(SPEC)
SPEC.loader.exec_module(set_model)

EQUAL_ACTIONS, EMPTY_ARGS, WRONG_INDEX, TOO_WIDE = 3, 4, 5, 8
NOT_JSON, NOT_OF_FORM, GIVEN_TWICE, UNKNOWN_CALL, TOO_LONG = 10, 11, 12, 13, 15
LONGEST_TEXT = 2 ** 20

ACTIONS = {
    name.lower().encode(): getattr(set_model, name) for name in ("ALLOW", "KILL_THREAD", "KILL_PROCESS", "LOG", "TRAP", "USER_NOTIF")}
NUMBERED = {b"errno": set_model.ERRNO, b"trace": set_model.TRACE}
WIDTHS = {b"dword": 4, b"qword": 8}
OPERATORS = {name.lower().encode(): getattr(set_model, name) for name in ("EQ", "GE", "GT", "LE", "LT", "NE")}
CONDITION_KEYS = {b"index": 0, b"type": 1, b"op": 2, b"val": 3, b"comment": 4}
LINE_KEYS = {b"syscall": 0, b"args": 1, b"comment": 2}
FILTER_KEYS = {b"mismatch_action": 0, b"default_action": 0, b"match_action": 1, b"filter_action": 1, b"filter": 2}
SHORT_ESCAPES = {0x22: 0x22, 0x5c: 0x5c, 0x2f: 0x2f, 0x62: 0x08, 0x66: 0x0c, 0x6e: 0x0a, 0x72: 0x0d, 0x74: 0x09}
HEX = {byte: int(chr(byte), 16) for byte in b"0123456789abcdefABCDEF"}
QUOTE, BACKSLASH, LETTER_U = b'"\\u'
DIGITS = frozenset(b"0123456789")
BLANKS = frozenset(b" \t\n\r")
# what a value begins with
BEGINNINGS = DIGITS | frozenset(b'"{[-ntf')


class Stop(Exception):
    """The first fault: its code, and the place where it shows."""

    def __init__(self, code, at):
        super().__init__(code, at)
        self.code, self.at = code, at


def is_tail(byte):
    return 0x80 <= byte <= 0xbf


def is_second(lead, byte):
    """Whether a byte can follow the first one of a character of several."""
    least, most = {0xe0: (0xa0, 0xbf), 0xed: (0x80, 0x9f), 0xf0: (0x90, 0xbf), 0xf4: (0x80, 0x8f)}.get(lead, (0x80, 0xbf))
    return least <= byte <= most


class Reader:
    """A text, and the calls that are known. Each method is handed the place where its part begins, and gives what the part stands for with
    the place behind it."""

    def __init__(self, text, known):
        self.text, self.known = text, known

    def byte(self, at):
        return self.text[at] if at < len(self.text) else 0

    def stop(self, code, at):
        raise Stop(code, min(at, len(self.text)))

    def blanks(self, at):
        while self.byte(at) in BLANKS:
            at += 1
        return at

    def wrong(self, at):
        """Where a value of another kind is asked for."""
        self.stop(NOT_OF_FORM if self.byte(at) in BEGINNINGS else NOT_JSON, at)

    def expected(self, byte, at):
        if self.byte(at) != byte:
            self.stop(NOT_JSON, at)
        return at + 1

    # ---- strings

    def plain(self, at):
        lead = self.byte(at)
        if 0x20 <= lead <= 0x7f and at < len(self.text):
            return self.text[at:at + 1], at + 1
        if not 0xc2 <= lead <= 0xf4:
            self.stop(NOT_JSON, at)
        if not is_second(lead, self.byte(at + 1)):
            self.stop(NOT_JSON, at + 1)
        size = 2 if lead <= 0xdf else 3 if lead <= 0xef else 4
        for place in range(at + 2, at + size):
            if not is_tail(self.byte(place)):
                self.stop(NOT_JSON, place)
        return self.text[at:at + size], at + size

    def digit(self, at):
        if self.byte(at) not in HEX:
            self.stop(NOT_JSON, at)
        return HEX[self.byte(at)]

    def unit(self, at, low):
        """Four hexadecimal digits: the low half of a pair, or anything else."""
        first = self.digit(at)
        if low and first != 13:
            self.stop(NOT_JSON, at)
        second = self.digit(at + 1)
        if low != (first == 13 and second >= 12):
            self.stop(NOT_JSON, at + 1)
        return (first * 16 + second) * 256 + self.digit(at + 2) * 16 + self.digit(at + 3)

    def escape(self, at):
        letter = self.byte(at + 1)
        if letter in SHORT_ESCAPES:
            return bytes([SHORT_ESCAPES[letter]]), at + 2
        if letter != LETTER_U:
            self.stop(NOT_JSON, at + 1)
        unit = self.unit(at + 2, low=False)
        if not 0xd800 <= unit <= 0xdbff:
            return chr(unit).encode(), at + 6
        self.expected(BACKSLASH, at + 6)
        self.expected(LETTER_U, at + 7)
        low = self.unit(at + 8, low=True)
        return chr(0x10000 + 0x400 * (unit - 0xd800) + (low - 0xdc00)).encode(), at + 12

    def behind_quote(self, at):
        meant = []
        while self.byte(at) != QUOTE:
            piece, at = (self.escape if self.byte(at) == BACKSLASH else self.plain)(at)
            meant.append(piece)
        return b"".join(meant), at + 1

    def string(self, at):
        if self.byte(at) != QUOTE:
            self.wrong(at)
        return self.behind_quote(at + 1)

    # ---- numbers

    def digits(self, at):
        while self.byte(at) in DIGITS:
            at += 1
        return at

    def some_digits(self, at):
        if self.byte(at) not in DIGITS:
            self.stop(NOT_JSON, at)
        return self.digits(at)

    def behind_number(self, at):
        at += self.byte(at) == ord("-")
        at = at + 1 if self.byte(at) == ord("0") else self.some_digits(at)
        if self.byte(at) == ord("."):
            at = self.some_digits(at + 1)
        if self.byte(at) in b"eE":
            at = self.some_digits(at + 1 + (self.byte(at + 1) in b"+-"))
        return at

    def natural(self, at, most):
        if self.byte(at) != ord("-") and self.byte(at) not in DIGITS:
            self.wrong(at)
        end = self.behind_number(at)
        digits = self.text[at:end]
        if not digits.isdigit() or int(digits) > most:
            self.stop(NOT_OF_FORM, at)
        return int(digits), end

    # ---- objects and arrays

    def members(self, at, judge, step):
        """From the brace on: each key is judged as soon as its string is read, and its value read by a step."""
        if self.byte(at) != ord("{"):
            self.wrong(at)
        at = self.blanks(at + 1)
        if self.byte(at) == ord("}"):
            return at + 1
        while True:
            quote = self.blanks(at)
            at = self.expected(QUOTE, quote)
            key, at = self.behind_quote(at)
            code = judge(key)
            if code:
                self.stop(code, quote)
            at = self.blanks(self.expected(ord(":"), self.blanks(at)))
            at = self.blanks(step(key, at))
            if self.byte(at) != ord(","):
                return self.expected(ord("}"), at)
            at += 1

    def list(self, at, read):
        if self.byte(at) != ord("["):
            self.wrong(at)
        at = self.blanks(at + 1)
        values = []
        if self.byte(at) == ord("]"):
            return values, at + 1
        while True:
            value, at = read(self.blanks(at))
            values.append(value)
            at = self.blanks(at)
            if self.byte(at) != ord(","):
                return values, self.expected(ord("]"), at)
            at += 1

    def literal(self, word, at):
        for place, byte in enumerate(word, at):
            self.expected(byte, place)
        return None, at + len(word)

    def null_or(self, at, read):
        return self.literal(b"null", at) if self.byte(at) == ord("n") else read(at)

    def word(self, at, words):
        word, end = self.string(at)
        if word not in words:
            self.stop(NOT_OF_FORM, at)
        return words[word], end

    def one(self, at, keys, read):
        """An object with one key of these, and what it gives."""
        held = []

        def judge(key):
            if held:
                return GIVEN_TWICE if key == held[0] else NOT_OF_FORM
            return 0 if key in keys else NOT_OF_FORM

        def step(key, place):
            value, end = read(keys[key], place)
            held.extend((key, value))
            return end

        end = self.members(at, judge, step)
        if not held:
            self.stop(NOT_OF_FORM, end - 1)
        return held[1], end

    def keyed(self, at, keys, read, needed):
        """An object by its keys: the values by the numbers of their fields, of which those that are needed must be there."""
        fields = {}

        def judge(key):
            return NOT_OF_FORM if key not in keys else GIVEN_TWICE if keys[key] in fields else 0

        def step(key, place):
            fields[keys[key]], end = read(keys[key], place)
            return end

        end = self.members(at, judge, step)
        if not all(field in fields for field in needed):
            self.stop(NOT_OF_FORM, end - 1)
        return fields, end

    # ---- the form

    def action(self, at):
        if self.byte(at) == QUOTE:
            return self.word(at, ACTIONS)

        def numbered(word, place):
            number, end = self.natural(place, 2 ** 32 - 1)
            return word + number % 2 ** 16, end

        return self.one(at, NUMBERED, numbered)

    def operator(self, at):
        if self.byte(at) == QUOTE:
            operator, end = self.word(at, OPERATORS)
            return (operator, 0), end
        mask, end = self.one(at, {b"masked_eq": 0}, lambda _, place: self.natural(place, 2 ** 64 - 1))
        return (set_model.MASKED_EQ, mask), end

    def index(self, at):
        index, end = self.natural(at, 255)
        if index > 5:
            self.stop(WRONG_INDEX, at)
        return index, end

    def condition(self, at):
        readers = (
            self.index, lambda place: self.word(place, WIDTHS), self.operator, lambda place: self.natural(place, 2 ** 64 - 1),
            lambda place: self.null_or(place, self.string))
        fields, end = self.keyed(at, CONDITION_KEYS, lambda field, place: readers[field](place), range(4))
        operator, mask = fields[2]
        if fields[1] == 4 and max(fields[3], mask) >= 2 ** 32:
            self.stop(TOO_WIDE, at)
        return (fields[0], fields[1], operator, fields[3], mask), end

    def rule(self, at):
        rule, end = self.list(at, self.condition)
        if not rule:
            self.stop(EMPTY_ARGS, at)
        return rule, end

    def call(self, at):
        name, end = self.string(at)
        if name not in self.known:
            self.stop(UNKNOWN_CALL, at)
        return name, end

    def line(self, at):
        readers = (self.call, lambda place: self.null_or(place, self.rule), lambda place: self.null_or(place, self.string))
        fields, end = self.keyed(at, LINE_KEYS, lambda field, place: readers[field](place), range(1))
        return (fields[0], fields.get(1)), end

    def filter(self, name, at):
        readers = (self.action, self.action, lambda place: self.list(place, self.line))
        fields, end = self.keyed(at, FILTER_KEYS, lambda field, place: readers[field](place), range(3))
        if fields[0] == fields[1]:
            self.stop(EQUAL_ACTIONS, at)
        return (name, fields[0], fields[1], fields[2]), end

    def filters(self):
        filters = {}

        def step(name, place):
            filters[name], end = self.filter(name, place)
            return end

        self.whole(lambda at: self.members(at, lambda name: GIVEN_TWICE if name in filters else 0, step))
        return list(filters.values())

    def whole(self, read):
        end = self.blanks(read(self.blanks(0)))
        if end < len(self.text):
            self.stop(NOT_JSON, end)

    # ---- any value, for what RFC 8259 says of a text

    def any_value(self, at):
        """(kind, what it holds), and the place behind it."""
        byte = self.byte(at)
        if byte == QUOTE:
            value, at = self.behind_quote(at + 1)
            return ("string", value), at
        if byte == ord("{"):
            members = []

            def step(key, place):
                value, end = self.any_value(place)
                members.append((key, value))
                return end

            return ("object", members), self.members(at, lambda key: 0, step)
        if byte == ord("["):
            values, at = self.list(at, self.any_value)
            return ("array", values), at
        for word in (b"null", b"true", b"false"):
            if byte == word[0]:
                return (word.decode(), None), self.literal(word, at)[1]
        end = self.behind_number(at)
        return ("number", self.text[at:end]), end


def value_of(text):
    """The value of a JSON text, or None."""
    reader, found = Reader(text, {}), []

    def read(at):
        value, end = reader.any_value(at)
        found.append(value)
        return end

    try:
        reader.whole(read)
    except Stop:
        return None
    return found[0]


def collected(lines, known):
    """One entry for each number, ascending: the rules of its lines, in their order."""
    entries = {}
    for call, rule in lines:
        entries.setdefault(known[call], []).extend([] if rule is None else [rule])
    return sorted(entries.items())


def sets_of(filters, known, architecture):
    return [(name, (architecture, mismatch, match, collected(lines, known))) for name, mismatch, match, lines in filters]


def encode_named(name, rule_set):
    data = set_model.encode(rule_set)
    return struct.pack("<II", len(name), len(data)) + name + data


def read(text, known, architecture):
    """(code, place, named sets), the sets in the order of the text and none where the code is not 0."""
    if len(text) > LONGEST_TEXT:
        return TOO_LONG, 0, []
    try:
        return 0, 0, sets_of(Reader(text, known).filters(), known, architecture)
    except Stop as fault:
        return fault.code, fault.at, []
