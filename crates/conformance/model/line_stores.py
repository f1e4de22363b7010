#!/usr/bin/env python3
"""What the line stores answer by docs/LINE_STORES.md: a second implementation, by the authors of the first.

  line_stores.py answers < TABLE     prints what the program must print for a table of cases
  line_stores.py cases SEED N        prints a table of N cases, made at random

The table's form is in docs/CONFORMANCE.md. Run by hand; the crate's stdin and stdout are what it printed."""
import random
import sys

LF = 10


class Refused(Exception):
    def __init__(self, number, place=0, serial=0, layer=0):
        super().__init__(number)
        self.four = (number, place, serial, layer)


def is_line(bs):
    return len(bs) <= 240 and LF not in bs


class Text:
    """Kind 1."""

    def __init__(self, bs):
        rows, at = [], 0
        self.fault = None
        while at < len(bs):
            end = bs.find(b"\n", at)
            open_end = end < 0
            if open_end:
                end = len(bs)
            if end - at > 240 or len(rows) == 4000 or open_end:
                self.fault = Refused(37, place=len(rows) + 1)
                rows = []
                break
            rows.append(bs[at:end])
            at = end + 1
        self.rows = rows

    def list(self):
        return self.rows

    def health(self):
        return 0


class Block:
    """Kinds 2 and 3."""

    def __init__(self, kind, lines, bytes_, size):
        self.kind = kind
        sheet = lines + bytes_ if kind == 2 else 4 * lines + bytes_
        self.fault = None
        self.lim = (lines, bytes_)
        if lines > 4000 or bytes_ > 24000 or 2 * sheet > size:
            self.fault = Refused(38)
            self.lim = (0, 0)
        self.sheet = sheet
        self.rows, self.drafted = [], None
        self.memory = bytearray(b"#" * size)
        self.second = False

    def list(self):
        return self.rows

    def health(self):
        return 0

    def limits(self):
        return self.lim

    def bottom(self):
        return self.kind

    def draft(self):
        return self.drafted

    def begin(self):
        if self.lim[0] == 0:
            raise Refused(34)
        self.drafted = []

    def add(self, line):
        if self.drafted is None:
            raise Refused(36)
        if not is_line(line):
            raise Refused(33)
        if len(self.drafted) + 1 > self.lim[0] or sum(map(len, self.drafted)) + len(line) > self.lim[1]:
            raise Refused(34)
        self.drafted = self.drafted + [line]
        self.lay()

    def patch(self, n, line):
        if self.drafted is None:
            raise Refused(36)
        if not is_line(line):
            raise Refused(33)
        if not 1 <= n <= len(self.drafted):
            raise Refused(31)
        if len(line) != len(self.drafted[n - 1]):
            raise Refused(35)
        self.drafted = self.drafted[: n - 1] + [line] + self.drafted[n:]
        self.lay()

    def keep(self):
        if self.drafted is None:
            raise Refused(36)
        self.rows, self.drafted = self.drafted, None
        self.second = not self.second

    def lay(self):
        """The draft as it lies on its sheet."""
        base = 0 if self.second else self.sheet
        if self.kind == 2:
            laid = b"".join(line + b"\n" for line in self.drafted)
            self.memory[base : base + len(laid)] = laid
            return
        start = 0
        for i, line in enumerate(self.drafted):
            entry = bytes([start % 256, start // 256, len(line) % 256, len(line) // 256])
            self.memory[base + 4 * i : base + 4 * i + 4] = entry
            at = base + 4 * self.lim[0] + start
            self.memory[at : at + len(line)] = line
            start += len(line)

    def parts(self):
        """Where the current list lies in the block: pairs of a start and a length."""
        base = self.sheet if self.second else 0
        used = sum(map(len, self.rows))
        if self.kind == 2:
            return [(base, used + len(self.rows))]
        return [(base, 4 * len(self.rows)), (base + 4 * self.lim[0], used)]

    def block(self):
        return self


class Layer:
    """Kind 4."""

    def __init__(self, below):
        self.below = below
        self.fault = below.fault

    def list(self):
        return self.below.list()[1:]

    def health(self):
        if self.below.health() != 0:
            return self.below.health()
        rows = self.below.list()
        return 0 if rows and rows[0] == sum_line(rows[1:]) else 4

    def limits(self):
        lines, bytes_ = self.below.limits()
        return (lines - 1, bytes_ - 7) if lines >= 1 and bytes_ >= 7 else (0, 0)

    def bottom(self):
        return self.below.bottom()

    def draft(self):
        below = self.below.draft()
        return below[1:] if below and len(below[0]) == 7 else None

    def begin(self):
        if self.limits()[0] == 0:
            raise Refused(34)
        self.below.begin()
        self.below.add(b"\x01h00000")

    def add(self, line):
        if self.draft() is None:
            raise Refused(36)
        if not is_line(line):
            raise Refused(33)
        lines, bytes_ = self.limits()
        if len(self.draft()) + 1 > lines or sum(map(len, self.draft())) + len(line) > bytes_:
            raise Refused(34)
        self.below.add(line)

    def patch(self, n, line):
        if self.draft() is None:
            raise Refused(36)
        if not is_line(line):
            raise Refused(33)
        if not 1 <= n <= len(self.draft()):
            raise Refused(31)
        if len(line) != len(self.draft()[n - 1]):
            raise Refused(35)
        self.below.patch(n + 1, line)

    def keep(self):
        if self.draft() is None:
            raise Refused(36)
        self.below.patch(1, sum_line(self.draft()))
        self.below.keep()

    def block(self):
        return self.below.block()


def sum_of(rows):
    return sum(sum(row) + 10 for row in rows) % 65536


def sum_line(rows):
    return b"\x01h%05d" % sum_of(rows)


def read(rows, n, space):
    """What is printed of a read: its answer, and the whole buffer."""
    buf = bytearray(b"." * space)
    number = 0
    if rows is None:
        number = 36
    elif not 1 <= n <= len(rows):
        number = 31
    elif len(rows[n - 1]) > space:
        number = 32
    if number:
        return "? %d 0 0 0\n  %s" % (number, shown(buf))
    line = rows[n - 1]
    buf[: len(line)] = line
    return "ok %d %s" % (len(line), shown(buf))


def bytes_of(words):
    """\\n is LF, \\1 the byte 1, \\s a blank, \\\\ a backslash; a word WORD*N stands for N times WORD."""
    out = b""
    for word in words:
        times = 1
        if "*" in word:
            word, number = word.split("*")
            times = int(number)
        piece = b""
        i = 0
        while i < len(word):
            if word[i] == "\\":
                piece += {"n": b"\n", "1": b"\x01", "s": b" ", "\\": b"\\"}[word[i + 1]]
                i += 2
            else:
                piece += word[i].encode()
                i += 1
        out += piece * times
    return out


def shown(bs):
    """Bytes as the program prints them: 33 to 126 but the backslash as they are, the others in hexadecimal."""
    return "".join(chr(b) if 33 <= b <= 126 and b != 92 else "\\%02x" % b for b in bs)


def make(words):
    kind, rest = words[0], words[1:]
    layers = 0
    if kind == "text":
        layers = int(rest[0])
        pile = Text(bytes_of(rest[1:]))
    else:
        layers, lines, bytes_, size = map(int, rest[:4])
        pile = Block(2 if kind == "image" else 3, lines, bytes_, size)
    for _ in range(layers):
        pile = Layer(pile)
    return pile


def copied(source, store):
    if source.health() != 0:
        raise Refused(10, layer=source.health())
    lines, bytes_ = store.limits()
    rows = source.list()
    if lines == 0 or len(rows) > lines or sum(map(len, rows)) > bytes_:
        raise Refused(34, layer=store.bottom())
    store.begin()
    for row in rows:
        store.add(row)
    store.keep()


def call(pile, words):
    name, rest = words[0], words[1:]
    if name == "count":
        return str(len(pile.list()))
    if name == "health":
        return str(pile.health())
    if name == "bytes":
        return str(sum(map(len, pile.list())))
    if name == "sum":
        return shown(sum_line(pile.list()))
    if name == "limits":
        return "%d %d" % pile.limits()
    if name == "bottom":
        return str(pile.bottom())
    if name == "begin":
        pile.begin()
    elif name == "add":
        pile.add(bytes_of(rest))
    elif name == "adds":
        for _ in range(int(rest[0])):
            pile.add(bytes_of(rest[1:]))
    elif name == "patch":
        pile.patch(int(rest[0]), bytes_of(rest[1:]))
    elif name == "keep":
        pile.keep()
    elif name == "copy":
        source = Text(bytes_of(rest[1:]))
        for _ in range(int(rest[0])):
            source = Layer(source)
        copied(source, pile)
    return None


def answers(table):
    pile = None
    for line in table:
        words = line.split()
        if not words or words[0] == "#":
            continue
        try:
            if words[0] in ("text", "image", "indexed"):
                pile = make(words)
                if pile.fault is not None:
                    raise pile.fault
                print("ok " + words[0])
            elif words[0] == "read":
                print(read(pile.list(), int(words[1]), int(words[2])))
            elif words[0] == "look":
                print(read(pile.draft(), int(words[1]), int(words[2])))
            elif words[0] == "layer":
                pile = Layer(pile)
                print("ok layer")
            elif words[0] == "block":
                start, length = int(words[1]), int(words[2])
                print("ok " + shown(pile.block().memory[start : start + length]))
            else:
                answer = call(pile, words)
                print("ok" if answer is None else "ok " + answer)
        except Refused as refused:
            print("? %d %d %d %d" % refused.four)


WORDS = ["", "a", "bb", "\\1h00000", "\\1h00107", "-", "seven77", "x*239", "y*240", "z*241", "a\\nb", "\\1I", "\\s", "~"]
SPACES = [0, 1, 2, 7, 239, 240, 241]
LIMITS = [(0, 0), (1, 6), (1, 7), (1, 100), (2, 7), (3, 20), (4, 500), (4, 500), (5, 24000), (5, 24000), (4001, 9), (9, 24001)]
CALLS = ["add"] * 6 + ["begin", "look", "look", "patch", "patch", "keep", "keep", "read", "read", "count", "health", "limits", "bottom", "sum", "bytes", "copy"]


def text_words(pick, most):
    parts = []
    for _ in range(pick.randrange(most)):
        parts += [pick.choice(WORDS), "\\n"]
    return parts


def text_case(pick):
    parts = text_words(pick, 5) + (["open"] if pick.randrange(6) == 0 else [])
    yield " ".join(["text", str(pick.randrange(4))] + parts)
    yield from ("count", "health", "bytes", "sum")
    for n in range(pick.randrange(4)):
        yield "read %d %d" % (n, pick.choice(SPACES))


def store_call(pick):
    name = pick.choice(CALLS)
    if name == "add":
        return "add " + pick.choice(WORDS)
    if name == "patch":
        return "patch %d %s" % (pick.randrange(4), pick.choice(WORDS))
    if name in ("look", "read"):
        return "%s %d %d" % (name, pick.randrange(5), pick.choice(SPACES))
    if name == "copy":
        return " ".join(["copy", str(pick.choice([0, 0, 0, 0, 1, 2]))] + text_words(pick, 4))
    return name


def store_case(pick):
    kind = pick.choice(["image", "indexed"])
    lines, bytes_ = pick.choice(LIMITS)
    sheet = lines + bytes_ if kind == "image" else 4 * lines + bytes_
    size = max(2 * sheet + pick.choice([0, 0, 0, 0, 3, -1]), 0)
    made = "%s %d %d %d %d" % (kind, pick.choice([0, 0, 1, 1, 2, 3]), lines, bytes_, size)
    yield made
    pile = make(made.split())
    if pick.randrange(4) > 0:
        yield "begin"
        try_call(pile, "begin")
    for _ in range(pick.randrange(4, 16)):
        line = store_call(pick)
        yield line
        try_call(pile, line)
    if pick.randrange(4) == 0:
        yield "layer"
        pile = Layer(pile)
        for _ in range(pick.randrange(1, 8)):
            line = store_call(pick)
            yield line
            try_call(pile, line)
    if pile.fault is None:
        for start, length in pile.block().parts():
            yield "block %d %d" % (start, length)


def try_call(pile, line):
    if line.split()[0] in ("read", "look"):
        return
    try:
        call(pile, line.split())
    except Refused:
        pass


def cases(seed, number):
    pick = random.Random(seed)
    for _ in range(number):
        for line in text_case(pick) if pick.randrange(4) == 0 else store_case(pick):
            print(line.strip())


if __name__ == "__main__":
    if sys.argv[1] == "answers":
        answers(sys.stdin)
    else:
        cases(int(sys.argv[2]), int(sys.argv[3]))
