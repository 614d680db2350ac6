"""Random filters as JSON texts, and the same texts broken in one place. A value is a list: its kind, and what it holds (a string, the text
of a number, values, or [key, value] pairs), so that it can be broken where it stands."""
import copy
import random

from names import NUMBERS

STRINGS = (
    "abcdefghijklmnopqrstuvwxyz_ 0123456789\"\\/\b\f\n\r\t\0\x1f\x7f"
    "\u00e9\u20ac\u2028\ud7ff\ue000\uffff\U00010000\U0001f600\U0010ffff")
SHORT = {"\"": "\\\"", "\\": "\\\\", "/": "\\/", "\b": "\\b", "\f": "\\f", "\n": "\\n", "\r": "\\r", "\t": "\\t"}
WORDS = ("allow", "kill_thread", "kill_process", "log", "trap")
NUMBERED = ("errno", "trace")
OPERATORS = ("eq", "ge", "gt", "le", "lt", "ne")
OLD_WORDS = {"mismatch_action": "default_action", "match_action": "filter_action"}
FILTER_ORDER = ("mismatch_action", "match_action", "filter")
LINE_ORDER = ("syscall", "args", "comment")
CONDITION_ORDER = ("index", "type", "op", "val", "comment")
KEYS = (
    *FILTER_ORDER, *OLD_WORDS.values(), *LINE_ORDER, *CONDITION_ORDER, *NUMBERED, "masked_eq", "eq", "trap", "Syscall", "", "args ", "arg")
BORDERS = tuple(str(number) for power in (8, 16, 32, 64) for number in (2 ** power - 1, 2 ** power, 2 ** power + 1))
NUMBER_TEXTS = (*BORDERS, "5", "6", "-1", "-0", "1.0", "1e0", "1E+2", "01", "00", "1.", "1e", "1e400", "0x1", "+1", ".5", str(10 ** 30))
OTHER_WORDS = (
    "Allow", "TRAP", "user_notif", "errno", "masked_eq", "dword", "qword", "eq", "allow ", "", "nope", "read\0",
    "sched_rr_get_interval_time6")


def string(text):
    return ["string", text]


def number(value):
    return ["number", str(value)]


def null():
    return ["null", None]


class Draw:
    def __init__(self, seed):
        self.random = random.Random(seed)

    def rarely(self, one_in):
        return self.random.randrange(one_in) == 0

    def any_string(self):
        return "".join(self.random.choices(STRINGS, k=self.random.randrange(8)))

    # ---- values of the form

    def shuffled(self, members):
        self.random.shuffle(members)
        return ["object", members]

    def comment(self, members):
        if self.rarely(4):
            members.append(["comment", null() if self.rarely(3) else string(self.any_string())])

    def action(self):
        if self.rarely(60):
            return string("user_notif")
        if self.rarely(3):
            value = self.random.choice((0, 1, 38, 65535, self.random.randrange(2 ** 16), self.random.randrange(2 ** 32), 2 ** 32 - 1))
            return ["object", [[self.random.choice(NUMBERED), number(value)]]]
        return string(self.random.choice(WORDS))

    def actions(self):
        first, second = self.action(), self.action()
        while first == second and not self.rarely(20):
            second = self.action()
        if first[0] == "object" and self.rarely(8):
            key, value = first[1][0]
            second = ["object", [[key, number((int(value[1]) + 2 ** 16) % 2 ** 32)]]]
        return first, second

    def value(self, wide):
        bits = 64 if wide or self.rarely(100) else 32
        return self.random.choice((0, 1, 2, 255, 2 ** 31, 2 ** bits - 1, 2 ** bits // 2, self.random.randrange(2 ** bits)))

    def condition(self):
        wide = self.rarely(2)
        operator = string(self.random.choice(OPERATORS))
        if self.rarely(4):
            operator = ["object", [["masked_eq", number(self.value(wide))]]]
        index = self.random.randrange(6) if not self.rarely(200) else self.random.choice((6, 7, 255))
        width = string("qword" if wide else "dword")
        members = [["index", number(index)], ["type", width], ["op", operator], ["val", number(self.value(wide))]]
        self.comment(members)
        return self.shuffled(members)

    def line(self):
        members = [["syscall", string(self.random.choice(list(NUMBERS)))]]
        if self.rarely(2):
            conditions = [self.condition() for _ in range(self.random.choice((1, 1, 2, 3)))]
            members.append(["args", null() if self.rarely(5) else ["array", conditions]])
        self.comment(members)
        return self.shuffled(members)

    def filter(self):
        mismatch, match = self.actions()
        lines = [self.line() for _ in range(self.random.choice((0, 1, 2, 3, 5)))]
        if lines and self.rarely(3):
            # another line for a call that has one, or the same line again
            again = copy.deepcopy(self.random.choice(lines))
            lines.insert(self.random.randrange(len(lines) + 1), again)
            if self.rarely(2):
                again[1][:] = [["syscall", member[1]] for member in again[1] if member[0] == "syscall"]
        members = [["mismatch_action", mismatch], ["match_action", match], ["filter", ["array", lines]]]
        for member in members:
            if member[0] in OLD_WORDS and self.rarely(4):
                member[0] = OLD_WORDS[member[0]]
        return self.shuffled(members)

    def filters(self):
        names = dict.fromkeys(self.any_string() for _ in range(self.random.choice((0, 1, 1, 1, 2, 3))))
        return ["object", [[name, self.filter()] for name in names]]

    # ---- printed

    def blanks(self):
        return "" if not self.rarely(6) else "".join(self.random.choices(" \t\n\r", k=self.random.randrange(1, 4)))

    def escaped(self, character):
        units = character.encode("utf-16-be")
        form = self.random.choice(("\\u%04x", "\\u%04X"))
        return "".join(form % int.from_bytes(units[at:at + 2], "big") for at in range(0, len(units), 2))

    def printed_character(self, character, often):
        if character in SHORT and not self.rarely(3):
            return SHORT[character]
        if character < " " or character in "\"\\" or self.rarely(often):
            return self.escaped(character)
        return character

    def printed_string(self, text, often=4):
        return "\"" + "".join(self.printed_character(character, often) for character in text) + "\""

    def printed(self, node):
        kind, held = node
        if kind == "string":
            return self.printed_string(held, 20)
        if kind == "array":
            return "[" + self.blanks() + ",".join(self.blanks() + self.printed(value) + self.blanks() for value in held) + "]"
        if kind == "object":
            members = (
                self.blanks() + self.printed_string(key, 40) + self.blanks() + ":" + self.blanks() + self.printed(value) + self.blanks()
                for key, value in held)
            return "{" + self.blanks() + ",".join(members) + "}"
        return held if kind == "number" else kind

    def text(self, node):
        return (self.blanks() + self.printed(node) + self.blanks()).encode()

    # ---- broken in one place

    def chosen(self, node, wanted):
        """The list and the index of a value that is wanted, anywhere in a value; None where there is none."""
        found, left = [], [node]
        while left:
            kind, held = left.pop()
            if kind not in ("array", "object"):
                continue
            for at, child in enumerate(held):
                place = (child, 1) if kind == "object" else (held, at)
                value = place[0][place[1]]
                if wanted(value):
                    found.append(place)
                left.append(value)
        return self.random.choice(found) if found else None

    def at_chosen(self, node, wanted, change):
        place = self.chosen(node, wanted)
        if place is not None:
            place[0][place[1]] = change(place[0][place[1]])

    def with_members(self, node, change):
        self.at_chosen(node, lambda value: value[0] == "object" and value[1], lambda value: ["object", change(value[1])])

    def doubled(self, members):
        members.insert(self.random.randrange(len(members) + 1), copy.deepcopy(self.random.choice(members)))
        return members

    def dropped(self, members):
        del members[self.random.randrange(len(members))]
        return members

    def renamed(self, members):
        self.random.choice(members)[0] = self.random.choice(KEYS)
        return members

    def replaced(self, value):
        words = [["null", None], ["true", None], ["false", None], number(0), string("read")]
        return self.random.choice((*words, ["array", []], ["object", []], ["array", [value]], ["object", [["eq", value]]]))

    def as_array(self, value):
        """An object by the order of its fields, as seccompiler takes it too."""
        held = {{new: old for old, new in OLD_WORDS.items()}.get(key, key): child for key, child in value[1]}
        order = next((order for order in (FILTER_ORDER, LINE_ORDER, CONDITION_ORDER) if held.keys() <= set(order)), ())
        return ["array", [held.get(key, null()) for key in order]]

    def broken(self, node):
        """The text of a value with one thing wrong in the value, or one byte in the text."""
        node = copy.deepcopy(node)
        way = self.random.randrange(14)
        if way == 0:
            self.with_members(node, self.doubled)
        elif way == 1:
            self.with_members(node, self.dropped)
        elif way == 2:
            self.with_members(node, self.renamed)
        elif way <= 4:
            self.at_chosen(node, lambda value: value[0] == "number", lambda value: ["number", self.random.choice(NUMBER_TEXTS)])
        elif way <= 6:
            self.at_chosen(node, lambda value: True, self.replaced)
        elif way == 7:
            self.at_chosen(node, lambda value: value[0] == "object", self.as_array)
        elif way == 8:
            self.at_chosen(node, lambda value: value[0] == "string", lambda value: ["object", [[value[1], null()]]])
        elif way == 9:
            self.at_chosen(node, lambda value: value[0] == "string", lambda value: string(self.random.choice(OTHER_WORDS)))
        elif node[1] and way == 10:
            self.random.choice((self.doubled, self.renamed))(node[1])
        text = self.text(node)
        at = self.random.randrange(len(text))
        byte = bytes([self.random.choice((self.random.randrange(256), *b"\"\\{}[],:0nu \n\f\v\x80"))])
        if way == 11:
            return text[:at] + byte + text[at + 1:]
        if way == 12:
            return text[:at]
        if way == 13:
            return self.random.choice((text[:at] + text[at + 1:], text[:at] + byte + text[at:], text + byte))
        return text
