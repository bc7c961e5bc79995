"""The rows that tools/witness runs: a list of groups, each a list of pairs of a row of main.rattle and its name. A group needs nothing of another.
They come from host/agree/rows and from what `samples` prints; some patterns and rooms are drawn."""

import random
import re

WAYS_AT, ROOM, BYTES, WORDS, WORD, ENTRY = 8578, 8834, 32768, 256, 254, 2066
EXACT = ROOM, BYTES, WORDS, 0
# The way of a state from which nothing leads to acceptance.
NONE = 65535
# The room of `(a|b)*`, as it is compiled, and its ways.
EITHER = bytes([2, 2, *[int(b in b"ab") for b in range(256)], 1, *[0] * 127, 1, 0, 1, 1]), [0, NONE]
# Rooms that are not as compiled, and their ways.
WRITTEN = {
    "the room of `a` with the states 1 and 2 exchanged": (bytes([3, 2, *[int(b == 97) for b in range(256)], 0, 1, 0, *[0] * 125, 2, 1, 2, 2, 2, 2]), [1, 0, NONE]),
    "a room of one state and two classes": (bytes([1, 2, *[int(b == 97) for b in range(256)], *[0] * 128]), [NONE]),
    "a room of two states where no byte has the class 0": (bytes([2, 2, *[1] * 256, 0, 1, *[0] * 126, 1, 0, 1, 1]), [NONE, 0]),
    "a room where 0 leads to 2, 2 to 1 and 1 to 3": (bytes([4, 1, *[0] * 256, 0, 0, 0, 1, *[0] * 124, 2, 3, 1, 3]), [3, 1, 2, 0]),
    "a room where a class that no byte has leads to acceptance sooner": (bytes([3, 2, *[0] * 256, 0, 0, 1, *[0] * 125, 1, 2, 2, 2, 2, 2]), [2, 1, 0]),
    "a room with a way through a class that no byte has": (bytes([3, 2, *[0] * 256, 0, 0, 1, *[0] * 125, 1, 2, 2, 2, 2, 2]), [1, 1, 0]),
    "a room where nothing reaches the states 1 and 2": (bytes([3, 1, *[0] * 256, 1, 0, 0, *[0] * 125, 0, 2, 0]), [0, 2, 1]),
    "a room with a wrong way of a state that nothing reaches": (bytes([3, 1, *[0] * 256, 1, 0, 0, *[0] * 125, 0, 2, 0]), [0, 1, 1]),
    "a chain of 128 states": (bytes([128, 1, *[0] * 256, *[0] * 127, 1, *range(1, 128), 127]), [*range(127, -1, -1)]),
}


def spelt(field):
    """The bytes that a field of the rows spells: %HH is a byte, %{TEXT^N} is TEXT so many times, % alone is the empty text."""
    if field == "%":
        return b""
    field = re.sub(r"%\{(.*?)\^(\d+)\}", lambda m: m[1] * int(m[2]), field)
    return re.sub(rb"%([0-9a-f]{2})", lambda m: bytes([int(m[1], 16)]), field.encode())


def folded(text):
    """The field that spells a text of the samples, which has no %, shorter: what is repeated in it is counted."""
    return re.sub(r"(.{1,5}?)\1{3,}", lambda m: m[0] if len(m[0]) < 12 else f"%{{{m[1]}^{len(m[0]) // len(m[1])}}}", text) or "%"


def named(field):
    return {"%": "the empty text", "unsound": "an unsound room"}.get(field, f"`{field}`")


def row(letter, *numbers, text=None):
    return " ".join([letter, *map(str, numbers)]) + ("" if text is None else " =" + text.hex())


def ways(output):
    """The lengths of buffers, with a word on them: exact and clean, longer and dirty, and each too short."""
    yield (output, BYTES, WORDS, 0), ""
    yield (output + 5, BYTES + 5, WORDS + 5, 165), ", longer dirty buffers"
    yield (output - 1, BYTES, WORDS, 165), ", an output too short"
    yield (output, BYTES - 1, WORDS, 165), ", too few bytes of scratch"
    yield (output, BYTES, WORDS - 1, 165), ", too few words of scratch"


class Rows:
    def __init__(self, root):
        self.root = root
        self.groups = []
        self.lengths = {}
        random.seed(2026)
        self.compiling()
        self.matching()
        self.comparing()
        self.forms()
        self.machines()
        self.openings()
        self.desks()
        self.entries()
        self.reports()
        self.drawn()

    def read(self, name):
        """The fields of each row of a file of host/agree/rows, and what is behind its arrow."""
        for line in open(f"{self.root}/host/agree/rows/{name}.txt"):
            if not line.startswith("#") and " -> " in line:
                before, after = line.rstrip("\n").split(" -> ")
                yield before.split(" "), after

    def samples(self, operation):
        """The two fields of each question of an operation, but those of rooms with a name, and its answer."""
        for line in open(f"{self.root}/crates/samples/stdout"):
            before, after = line.rstrip("\n").split(" -> ")
            word, given, other, *_ = [*before.split(" "), "", ""]
            if word == operation and "{" not in given[:1] + other[:1]:
                yield (folded(given), folded(other)), after

    def group(self, rooms=2):
        self.groups.append([(row("z", (rooms + 1) * ROOM), "")])
        return self.groups[-1]

    def rooms(self, group, patterns):
        """Compiles patterns into the rooms side by side."""
        for i, pattern in enumerate(patterns):
            group.append((row("c", *EXACT, text=spelt(pattern)), f"compiling {named(pattern)}"))
            group.append((row("v", i * ROOM), ""))

    def room(self, group, at, front, ways):
        """Writes a room: its bytes up to the last cell that is not 0, and the way of each of its states."""
        group.append((row("b", at, text=front), ""))
        group.append((row("w", at + WAYS_AT, text=spelt_ways(ways)), ""))

    def change(self, group, letter, changes):
        """Changes bytes, AT=VALUE, and ways, wSTATE=WAY or wFIRST-LAST=WAY."""
        for change in changes.split(","):
            if change == "-":
                continue
            at, value = change.split("=")
            if at[0] == "w":
                first, last = (at[1:].split("-") * 2)[:2]
                ways = [int(value)] * (int(last) - int(first) + 1)
                group.append((row("w", WAYS_AT + 2 * int(first), text=spelt_ways(ways)), ""))
            else:
                group.append((row(letter, at, text=bytes([int(value)])), ""))

    def compiling(self):
        texts = []
        for fields, after in [*self.samples("compile"), *self.read("patterns")]:
            texts.append(fields[0])
            if not after.startswith("refused"):
                n, k, *_ = map(int, re.findall(r"\d+", after))
                self.lengths[fields[0]] = (1553 + n + 7 * n * k + 7) // 8
        texts += ["[\\x12-\\x20]", "[\\x40-\\x5A]"]
        drawn = [drawn_pattern(3) for _ in range(60)]
        texts += drawn
        self.texts = [*self.lengths, *drawn]
        for text in texts:
            for lengths, word in list(ways(ROOM))[: None if text in ("a*", "[b-a]", "%{a^64}", "%") else 1]:
                self.group().append((row("c", *lengths, text=spelt(text)), f"compiling {named(text)}{word}"))

    def on_room(self, group, name, text=b"", length=7379, whole=False):
        """Each operation on the first room; comparing is with the second. The whole of it has buffers of all lengths."""
        kinds = lambda exact: list(ways(exact))[: None if whole else 1]
        for (output, *scratch), word in kinds(ROOM):
            group.append((row("m", 0, ROOM, output, *scratch), f"minimising {name}{word}"))
        for left, right in (0, ROOM), (ROOM, 0):
            for (output, *scratch), word in kinds(WORD):
                group.append((row("e", left, ROOM, right, ROOM, output, *scratch), f"comparing {'`(a|b)*` and ' if left else ''}{name}{' and `(a|b)*`' if right else ''}{word}"))
        for (output, *scratch), word in kinds(length):
            group.append((row("k", 0, ROOM, output, *scratch), f"packing {name}{word}"))
        for cut, word in (0, ""), (-1, ", a room too short"), (3, ", a longer room"):
            group.append((row("t", 0, ROOM + cut, text=text), f"matching {named(text.decode() or '%')} on {name}{word}"))
            if whole:
                group.append((row("m", 0, ROOM + cut, ROOM, BYTES, WORDS, 165), f"minimising {name}{word}"))
                group.append((row("k", 0, ROOM + cut, 9000, BYTES, WORDS, 165), f"packing {name}{word}"))
                group.append((row("e", 0, ROOM + cut, 0, ROOM, WORD, BYTES, WORDS, 165), f"comparing {name}{word} and itself"))

    def machines(self):
        for text in self.texts:
            group = self.group()
            self.rooms(group, [text])
            self.room(group, ROOM, *EITHER)
            self.on_room(group, f"the room of {named(text)}", b"ab", self.lengths.get(text, 7379), text in ("a*", "(ab*|a)b"))
        for (pattern, changes), _ in self.read("rooms"):
            group = self.group()
            self.rooms(group, [pattern])
            self.room(group, ROOM, *EITHER)
            self.change(group, "w", changes)
            self.on_room(group, f"the room of {named(pattern)} with {changes}", whole=changes in ("0=3,w2=1", "2=2"))
        for name, room in WRITTEN.items():
            group = self.group()
            self.room(group, 0, *room)
            self.room(group, ROOM, *EITHER)
            self.on_room(group, name)

    def matching(self):
        last = None
        for (pattern, text), _ in [*self.samples("match"), *self.read("matches")]:
            if pattern != last:
                group = self.group()
                self.rooms(group, [pattern])
            last = pattern
            group.append((row("t", 0, ROOM, text=spelt(text)), f"matching {named(text)} on {named(pattern)}"))

    def comparing(self):
        pairs = [fields for fields, _ in self.samples("compare")]
        pairs += [fields[-2:] for name in ("comparisons", "laws") for fields, _ in self.read(name)]
        pairs += [["\\x00|ab", "a"], ["aa*", "aa*b*"]]
        for left, right in pairs + [[drawn_pattern(3), drawn_pattern(3)] for _ in range(30)]:
            group = self.group()
            self.rooms(group, [left, right])
            group.append((row("e", 0, ROOM, ROOM, ROOM, WORD, BYTES, WORDS, 165), f"comparing {named(left)} and {named(right)}"))

    def forms(self):
        changes = {pattern: ["whole"] for pattern in self.lengths}
        for (pattern, change), _ in self.read("forms"):
            changes[pattern].append(change)
        for pattern in "a*", "(ab*|a)b", "\\0", "%{a^63}", "a*b*":
            bits = self.lengths[pattern] * 8
            changes[pattern] += [f"flip:{i}" for i in [*range(18), *range(1550, 1560), *range(bits - 20, bits)] if i < bits]
        for pattern in changes:
            group = self.group()
            self.rooms(group, [pattern])
            group.append((row("k", 0, ROOM, self.lengths[pattern], BYTES, WORDS, 0), f"packing the room of {named(pattern)}"))
            for change in changes[pattern]:
                self.form(group, pattern, change)

    def form(self, group, pattern, change):
        """Unpacks the form that was packed, with a change that is undone afterwards."""
        kind, _, value = change.partition(":")
        length = self.lengths[pattern]
        at = {"flip": (int(value or 0) // 8, 1 << int(value or 0) % 8), "more": (length, value)}.get(kind)
        length += {"cut": -int(value or 0), "more": 1}.get(kind, 0)
        name = f"the form of {named(pattern)}" + ("" if kind == "whole" else f" with {change}")
        if at:
            group.append((row("x", *at), ""))
        for lengths, word in list(ways(ROOM))[: None if pattern == "a*" and kind != "flip" else 2 if kind == "whole" else 1]:
            group.append((row("u", length, *lengths), f"unpacking {name}{word}"))
        if at:
            group.append((row("x", *at), ""))

    def openings(self):
        for (count, form, length, *patterns), _ in self.read("openings"):
            group = self.group(17 if int(count) > 2 else 2)
            self.rooms(group, ["a" if pattern == "unsound" else pattern for pattern in patterns])
            for i, pattern in enumerate(patterns):
                if pattern == "unsound":
                    group.append((row("w", i * ROOM + ROOM - 1, text=b"\1"), ""))
            group.append((row("o", count, length, form, 165), f"opening {count} fields, a form of {form} bytes and rooms of {length}, {' '.join(map(named, patterns))}"))

    def desk(self, keys, patterns):
        group = self.group(len(patterns))
        self.rooms(group, patterns)
        group.append((row("o", len(patterns), len(patterns) * ROOM, ENTRY, 165), f"opening {len(patterns)} fields"))
        group.append((row("y", len(patterns) * ROOM, ENTRY, text=spelt(keys)), f"keys {named(keys)} on {' '.join(map(named, patterns))}"))
        return group

    def desks(self):
        for (keys, *patterns), _ in self.read("desks"):
            self.desk(keys, patterns)

    def entries(self):
        for (changes, keys, *patterns), _ in self.read("entries"):
            for key in "%08", "%0d", "a":
                group = self.desk(keys, patterns)
                self.change(group, "s", changes)
                name = f"the key {named(key)} on the form of {named(keys)} with {changes}, {' '.join(map(named, patterns))}"
                group.append((row("y", len(patterns) * ROOM, ENTRY, text=spelt(key)), name))
        for form, rooms in (ENTRY - 1, ROOM), (ENTRY + 3, ROOM), (ENTRY, ROOM - 1), (ENTRY, ROOM + 3):
            group = self.desk("a", ["a*"])
            group.append((row("y", rooms, form, text=b"a"), f"the key `a` on a form of {form} bytes and rooms of {rooms}"))
        for field in range(3):
            group = self.desk("a%0d", ["a*"] * 3)
            group.append((row("w", (field + 1) * ROOM - 1, text=b"\1"), ""))
            group.append((row("y", 3 * ROOM, ENTRY, text=b"a"), f"the key `a` on the second of three fields, where the machine of field {field + 1} is not sound"))

    def reports(self):
        for text in "a*b*%0a(a|b)*%0a", "aaa%0aaaaa", "%{a^1024}%0a%{a^1025}%0a", "%{a*^512}*%0a%00%0a", "a%00b%0ab%0ac", "%", "a", "[b-a]%0aab|cJ%0a", "a|\\xJ%0a", "%{a^1030}%0a%0a", "aJ%0aa\\x4b":
            self.group().append((row("r", text=spelt(text)), f"the report of {named(text)}"))

    def drawn(self):
        for i in range(90):
            group = self.group()
            self.room(group, ROOM, *EITHER)
            self.room(group, 0, *drawn_room(random.Random(i), i))
            self.on_room(group, f"the drawn room {i}", b"ab", whole=i < 2)
            if i:
                self.room(group, ROOM, *drawn_room(random.Random(i - 1), i - 1))
                group.append((row("e", 0, ROOM, ROOM, ROOM, WORD, BYTES, WORDS, 165), f"comparing the drawn rooms {i} and {i - 1}"))


def drawn_pattern(deep):
    """A small pattern."""
    kind = random.randrange(8) if deep else random.randrange(3)
    if kind < 3:
        return random.choice(["a", "b", "c", "[a-c]", "[bd]", ".", "\\x61", "\\e", "a", "b"])
    if kind < 5:
        return drawn_pattern(deep - 1) + drawn_pattern(deep - 1)
    if kind == 5:
        return f"({drawn_pattern(deep - 1)}|{drawn_pattern(deep - 1)})"
    return f"({drawn_pattern(deep - 1)})*"


def spelt_ways(ways):
    return b"".join(way.to_bytes(2, "big") for way in ways)


def ways_home(classes, marks, rows):
    """The fewest bytes from each state to acceptance: those of no byte first, then those of one, and so on."""
    ways = [0 if mark else NONE for mark in marks]
    for way in range(len(rows)):
        near = [q for q, row in enumerate(rows) if ways[q] == NONE and any(ways[row[c]] == way for c in set(classes))]
        for q in near:
            ways[q] = way + 1
    return ways


def drawn_room(draw, i):
    """A sound room, of few states or of many, and its ways."""
    n = draw.randrange(1, 8) if i < 60 else draw.randrange(40, 129)
    k = draw.randrange(1, 5)
    near = i % 3 == 0
    classes = [draw.randrange(k) if 96 < b < 104 else 0 for b in range(256)]
    marks = [int(draw.randrange(n) < (1 if i >= 60 else n / 2)) for _ in range(n)]
    cells = [min(n - 1, q + draw.randrange(2)) if near else draw.randrange(n) for q in range(n) for _ in range(k)]
    ways = ways_home(classes, marks, [cells[q * k : q * k + k] for q in range(n)])
    return bytes([n, k, *classes, *marks, *[0] * (128 - n), *cells]), ways
