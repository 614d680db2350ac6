"""What is known to differ between this reader and seccompiler's front end, each as a predicate on the text, and the comparison of the two
answers to a text. A difference that no predicate foretells is a failure, and so is one that never occurs."""
import json

from model import ACTIONS, NUMBERED, OPERATORS, WIDTHS, LONGEST_TEXT, value_of

ARRAY = "an array in the place of an object"
WORD_ACTION, WORD_OPERATOR, WORD_WIDTH = 'an action as {"trap": null}', 'an operator as {"eq": null}', 'a width as {"dword": null}'
USER_NOTIF = "user_notif"
WIDE = "a dword condition with a number of more than 32 bits"
SAME_WORD = "two actions that differ only above 16 bits"
LONG_TEXT = "a text of more than 1 MiB"
FULL = "a filter of 4,096 instructions"
TOLD = "which error is told"
ALL = (ARRAY, WORD_ACTION, WORD_OPERATOR, WORD_WIDTH, USER_NOTIF, WIDE, SAME_WORD, LONG_TEXT, FULL, TOLD)

FILTER = {b"mismatch_action": 0, b"default_action": 0, b"match_action": 1, b"filter_action": 1, b"filter": 2}
LINE = {b"args": 1}
CONDITION = {b"type": 1, b"op": 2, b"val": 3}
NOTHING = ("null", None)


class Found:
    """The differences that a value foretells."""

    def __init__(self, value):
        self.kinds = set()
        if value is not None and value[0] == "object":
            for _, given in value[1]:
                self.filter(given)

    def fields(self, value, keys, count):
        kind, held = value
        fields = [NOTHING] * count
        if kind == "array":
            self.kinds.add(ARRAY)
            fields[:len(held)] = held
        elif kind == "object":
            for key, child in held:
                if key in keys:
                    fields[keys[key]] = child
        return fields

    def values(self, value):
        return value[1] if value[0] == "array" else []

    def filter(self, value):
        fields = self.fields(value, FILTER, 3)
        words = [self.action(field) for field in fields[:2]]
        if None not in words and words[0] != words[1] and words[0][0] == words[1][0] and (words[0][1] - words[1][1]) % 2 ** 16 == 0:
            self.kinds.add(SAME_WORD)
        for line in self.values(fields[2]):
            for condition in self.values(self.fields(line, LINE, 3)[1]):
                self.condition(condition)

    def word(self, value, words, kind):
        """Whether a value is a word as an object with null."""
        if value[0] == "object" and len(value[1]) == 1 and value[1][0][0] in words and value[1][0][1] == NOTHING:
            self.kinds.add(kind)

    def action(self, value):
        self.word(value, ACTIONS, WORD_ACTION)
        if value == ("string", b"user_notif"):
            self.kinds.add(USER_NOTIF)
        if value[0] == "object" and len(value[1]) == 1 and value[1][0][0] in NUMBERED and value[1][0][1][0] == "number":
            digits = value[1][0][1][1]
            return (value[1][0][0], int(digits)) if digits.isdigit() else None
        return None

    def condition(self, value):
        _, width, operator, number, _ = self.fields(value, CONDITION, 5)[:5]
        self.word(width, WIDTHS, WORD_WIDTH)
        self.word(operator, OPERATORS, WORD_OPERATOR)
        numbers = [number] + [mask for key, mask in (operator[1] if operator[0] == "object" else []) if key == b"masked_eq"]
        narrow = width == ("string", b"dword") or width[0] == "object"
        if narrow and any(kind == "number" and digits.isdigit() and int(digits) >= 2 ** 32 for kind, digits in numbers):
            self.kinds.add(WIDE)


# ---- a text that only the real front end takes, as this one takes it

FILTER_ORDER = (b"mismatch_action", b"match_action", b"filter")
LINE_ORDER = (b"syscall", b"args", b"comment")
CONDITION_ORDER = (b"index", b"type", b"op", b"val", b"comment")


def rewritten(value, order, change):
    """An array as an object with these keys, and each member changed."""
    kind, held = value
    members = zip(order, held) if kind == "array" else held
    return "object", [(key, change(key, child)) for key, child in members]


def rewritten_list(value, change):
    return (value[0], [change(child) for child in value[1]]) if value[0] == "array" else value


def rewritten_word(value):
    return ("string", value[1][0][0]) if value[0] == "object" and value[1][0][1] == NOTHING else value


def narrowed(value):
    """A number, or the mask of an operator, by its low 32 bits."""
    kind, held = value
    if kind == "number":
        return kind, b"%d" % (int(held) % 2 ** 32)
    return (kind, [(key, narrowed(child)) for key, child in held]) if kind == "object" else value


def rewritten_condition(value):
    def change(key, child):
        return rewritten_word(child) if key in (b"type", b"op") else child

    kind, members = rewritten(value, CONDITION_ORDER, change)
    if (b"type", ("string", b"dword")) in members:
        members = [(key, narrowed(child) if key in (b"op", b"val") else child) for key, child in members]
    return kind, members


def rewritten_line(value):
    return rewritten(value, LINE_ORDER, lambda key, child: rewritten_list(child, rewritten_condition) if key == b"args" else child)


def rewritten_filter(value):
    return rewritten(
        value, FILTER_ORDER, lambda key, child: rewritten_list(child, rewritten_line) if key == b"filter" else rewritten_word(child))


def printed(value):
    kind, held = value
    if kind == "string":
        return json.dumps(held.decode()).encode()
    if kind == "array":
        return b"[" + b",".join(map(printed, held)) + b"]"
    if kind == "object":
        return b"{" + b",".join(printed(("string", key)) + b":" + printed(child) for key, child in held) + b"}"
    return held if kind == "number" else kind.encode()


def in_our_form(text):
    _, filters = value_of(text)
    return printed(("object", [(name, rewritten_filter(given)) for name, given in filters]))


# ---- the comparison

# the codes with which a text is refused that the real front end takes, and the differences that explain each
REFUSED_HERE = {3: {SAME_WORD}, 8: {WIDE}, 11: {ARRAY, WORD_ACTION, WORD_OPERATOR, WORD_WIDTH}, 15: {LONG_TEXT}}


def foretold(text):
    return Found(value_of(text)).kinds | ({LONG_TEXT} if len(text) > LONGEST_TEXT else set())


def compare(text, ours, real, again):
    """The differences between (code, programs) and (code, count, programs), as a set, and what is wrong with them, if anything is. Programs
    are by name; one that is too long is its number of instructions. `again` gives our answer to another text."""
    code, programs = ours
    kind, count, others = real
    if code == 0 and kind == 0:
        return set(), "" if programs == others else "the programs differ"
    if kind == 0:
        foreseen = foretold(text)
        explained = foreseen & REFUSED_HERE.get(code, set())
        if not explained:
            return set(), f"refused with {code}, and taken by the real front end"
        found, programs = again(in_our_form(text))
        alike = (found == 0 and programs == others) or (found == 3 and SAME_WORD in foreseen)
        return explained, "" if alike else "the programs differ where the text is in our form"
    if code == 0 and kind == 6:
        lengths = [program if isinstance(program, int) else len(program) // 8 for program in programs.values()]
        return {FULL} if count == 4096 else set(), "" if count in lengths else f"the real one counts {count} instructions"
    if code == 0:
        explained = foretold(text) & {USER_NOTIF}
        return explained, "" if explained else f"taken, and refused by the real front end with {kind}"
    # a key that is given twice is to the real front end one of the faults of the form
    return {TOLD} if {12: 11}.get(code, code) != kind else set(), ""
