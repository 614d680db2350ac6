"""Random rule sets for the stored vectors and for the comparison with seccompiler: drawn so that rules can match, since a rule of many
unrelated conditions never does. The generator is our own, so that a seed gives the same sets under every version of Python."""
import struct

from model import (
    ACTIONS, ARCHITECTURES, CANCELLED, EQ, ERRNO, GE, GT, LE, LT, MASKED_EQ, SECOND_TABLE, TRACE, X86_64, length, native_only, rule_length)

EDGES = sorted({
    value for around in (0, 2 ** 31, 2 ** 32, 2 ** 63, 2 ** 64 - 1) for value in (around - 1, around, around + 1)
    if 0 <= value < 2 ** 64})
# call numbers around each place where the second table of x86_64 begins or ends
BORDERS = sorted({
    number + step for number in (SECOND_TABLE, 2 * SECOND_TABLE, 3 * SECOND_TABLE, CANCELLED) for step in (-1, 0, 1)
    if number + step < 2 ** 32})


class Draw:
    """splitmix64"""

    def __init__(self, seed):
        self.state = seed

    def bits(self):
        self.state = self.state + 0x9e3779b97f4a7c15 & 0xffffffffffffffff
        mixed = self.state
        mixed = (mixed ^ mixed >> 30) * 0xbf58476d1ce4e5b9 & 0xffffffffffffffff
        mixed = (mixed ^ mixed >> 27) * 0x94d049bb133111eb & 0xffffffffffffffff
        return mixed ^ mixed >> 31

    def below(self, bound):
        return self.bits() % bound

    def between(self, low, high):
        return low + self.below(high - low + 1)

    def of(self, choices):
        return choices[self.below(len(choices))]

    def chance(self, one_in):
        return self.below(one_in) == 0

    # ---- parts of rule sets

    def value(self):
        """Mostly next to an edge, else of any size."""
        if self.chance(4):
            return self.bits() >> self.below(64)
        return self.of(EDGES) + self.between(-2, 2) & 0xffffffffffffffff

    def condition(self, wanted, operator=None, width=None):
        """One that holds of the wanted arguments, mostly."""
        index = self.below(6)
        width = width or self.of((4, 8))
        operator = self.below(7) if operator is None else operator
        limit = 2 ** (8 * width)
        argument = wanted[index] % limit
        mask = 0
        if operator == MASKED_EQ:
            mask = self.of((self.value(), self.bits() & self.bits(), 2 ** self.below(64), 2 ** 64 - 1, 0))
            value = argument
        elif operator == EQ:
            value = argument
        elif operator in (GE, GT):
            value = max(0, argument - self.of((0, 1, 2, 2 ** 32, self.below(argument + 1))))
            if operator == GT and value == argument:
                value = max(0, argument - 1)
        elif operator in (LE, LT):
            value = min(limit - 1, argument + self.of((0, 1, 2, 2 ** 32, self.below(limit - argument))))
            if operator == LT and value == argument:
                value = min(limit - 1, argument + 1)
        else:
            value = self.of((argument + 1, argument - 1, argument + 2 ** 32, self.value())) % limit
        if self.chance(40):
            value = self.value()
        return index, width, operator, value % limit, mask % limit

    def rule(self, count, operator=None, width=None):
        wanted = [self.value() for _ in range(6)]
        return [self.condition(wanted, operator, width) for _ in range(count)]

    def numbers(self, count):
        """Ascending call numbers: the first ones, or spread over all 32 bits."""
        spread = self.of((1, 3, 2 ** 32 // (count + 1)))
        at = self.below(3)
        found = []
        for _ in range(count):
            found.append(min(at, 2 ** 32 - 1))
            at += self.between(1, spread)
        if found and self.chance(8):
            found[-1] = 2 ** 32 - 1
        return sorted(set(found))

    def action(self):
        word = self.of(ACTIONS)
        return word + self.of((0, 1, 38, 0xffff, self.below(0x10000))) if word in (ERRNO, TRACE) else word

    def head(self, equal_one_in=200):
        mismatch, match = self.action(), self.action()
        while mismatch == match and not self.chance(equal_one_in):
            match = self.action()
        return self.of(ARCHITECTURES), mismatch, match

    # ---- whole rule sets

    def small(self):
        entries = [(number, [self.rule(self.between(1, 4)) for _ in range(self.below(4))]) for number in self.numbers(self.below(5))]
        return (*self.head(), entries)

    def long_rules(self):
        """A few rules of up to 300 conditions, of one kind or mixed, with others around them."""
        entries = []
        for number in self.numbers(self.between(1, 3)):
            rules = []
            for _ in range(self.between(1, 3)):
                count = self.between(1, 300) if self.chance(2) else self.between(1, 6)
                operator, width = (self.below(7), self.of((4, 8))) if self.chance(2) else (None, None)
                rules.append(self.rule(count, operator, width))
            entries.append((number, rules))
        return (*self.head(), entries)

    def many_numbers(self):
        entries = []
        for number in self.numbers(self.below(901)):
            rules = [self.rule(self.between(1, 3)) for _ in range(self.between(1, 2))] if self.chance(12) else []
            entries.append((number, rules))
        return (*self.head(), entries)

    def exact(self, wanted):
        """A rule set of exactly the wanted number of instructions, above 100."""
        head = self.head(equal_one_in=10 ** 9)
        shape = self.below(3)
        entries, left, number = [], wanted - 5, self.below(3)

        def put(rules):
            nonlocal left, number
            entries.append((number, rules))
            left -= 2 + (sum(map(rule_length, rules)) if rules else 3)
            number += 1

        while left > 40:
            if shape == 0 or self.chance(2) and shape == 1:
                put([])
            elif shape == 1:
                put([self.rule(self.between(1, 4))])
            else:
                rules, room = [], left - 30
                while room > 40:
                    rule = self.rule(self.between(1, min(300, room // 8)))
                    rules.append(rule)
                    room -= rule_length(rule)
                put(rules)
        # what is left is filled with whole entries of 5, and of 7 and 8 (a rule of 2 or of 3 instructions)
        fitting = {5: None, 7: EQ, 8: MASKED_EQ}
        while left:
            size = self.of([size for size in fitting if left >= size and left - size not in (1, 2, 3, 4, 6, 9, 11)])
            put([] if size == 5 else [self.rule(1, fitting[size], 4)])
        made = (*head, entries)
        assert length(made) == wanted
        return made

    def native(self, rule_set):
        """A copy with the flag for native numbers only, mostly of x86_64, with up to three numbers moved into the second table or next to
        it. Its filter is as long as it was, but for the guard."""
        architecture, mismatch, match, entries = rule_set
        moved = dict(entries)
        for _ in range(self.below(4) if moved else 0):
            old = self.of(sorted(moved))
            new = self.of((old ^ SECOND_TABLE, self.of(BORDERS)))
            if new not in moved:
                moved[new] = moved.pop(old)
        return native_only(architecture if self.chance(3) else X86_64), mismatch, match, sorted(moved.items())

    def refused(self, rule_set):
        """A copy that is still of the format, with one to four reasons to refuse it, anywhere in it."""
        architecture, mismatch, match, entries = rule_set
        entries = [(number, [list(rule) for rule in rules]) for number, rules in entries] or [(7, [])]
        # each way is now and then the one of the smallest code
        least = self.below(5)
        for _ in range(self.between(1, 4)):
            way = self.between(least, 4)
            place = self.below(len(entries))
            number, rules = entries[place]
            if way == 0:
                entries.insert(self.below(len(entries) + 1), (number, self.of((rules, []))))
            elif way == 1:
                match = mismatch
            elif way == 2:
                rules.insert(self.below(len(rules) + 1), [])
            else:
                rule = self.rule(self.between(1, 3))
                at = self.below(len(rule))
                index, width, operator, value, mask = rule[at]
                if way == 3:
                    index = self.of((6, 7, 8, 127, 128, 255))
                else:
                    # more than a dword condition looks at
                    high = 1 << self.between(32, 63)
                    width, value, mask = self.of(((4, value | high, mask), (4, value, mask | high if operator == MASKED_EQ else mask)))
                    value, mask = (value if value >> 32 else value % 2 ** 32), (mask if mask >> 32 else mask % 2 ** 32)
                rule[at] = index, width, operator, value, mask
                rules.insert(self.below(len(rules) + 1), rule)
        return architecture, mismatch, match, entries

    def damaged(self, data):
        """A copy with one thing wrong, or at least different."""
        data = bytearray(data)
        way = self.below(8)
        place = self.below(len(data))
        if way == 0:
            del data[place:]
        elif way == 1:
            data += bytes(self.between(1, 24))
        elif way == 2:
            data[place] ^= 1 << self.below(8)
        elif way == 3:
            data[place] = self.below(256)
        elif way == 4:
            place = min(place & ~3, len(data) - 4)
            struct.pack_into("<I", data, place, self.of((0, 1, 2 ** 29 + 1, 2 ** 30, 2 ** 31, 2 ** 32 - 1)))
        elif way == 5:
            del data[place]
        elif way == 6:
            data.insert(place, 0)
        else:
            place &= ~7
            del data[place:place + 8]
        return bytes(data)
