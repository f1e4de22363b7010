#!/usr/bin/env python3
"""What val and get answer over an s-file: a second implementation, made from the rules and not from the code.

  s_files.py answers < TABLE          prints what the program must print for a table of cases
  s_files.py cases SEED N [MOST]      prints a table of N cases made at random, of at most MOST deltas each
  s_files.py selftest                 holds the model to what the two tables state, by hand and by CSSC, and to simulated histories

The table's form is in docs/CONFORMANCE.md. Run by hand; the crate's stdin and stdout are what it printed.

Nothing here runs along the body with a state. Which marks are open at a record is asked of the records before it, each
time anew; whether a serial is in a set is asked of the greater serials, from that serial alone."""
import datetime
import os
import random
import re
import sys

MOST_DELTAS = 63


class Refused(Exception):
    def __init__(self, number, place=0, serial=0, layer=0):
        super().__init__(number)
        self.four = (number, place, serial, layer)


# ---------------------------------------------------------------------------------------------------------------------
# Sources: a list of lines and a health


def text(bs):
    """Kind 1: the lines, and the refusal of the check or None. Refused bytes have no lines."""
    rows = bs.split(b"\n")
    tail = rows.pop()
    faulty = [k for k, row in enumerate(rows, 1) if len(row) > 240 or k > 4000]
    if tail:
        faulty.append(len(rows) + 1)
    if faulty:
        return [], Refused(37, place=faulty[0])
    return rows, None


def sum_of(rows):
    return sum(sum(row) + 10 for row in rows) % 65536


def sum_line(rows):
    return b"\x01h%05d" % sum_of(rows)


class Source:
    def __init__(self, rows, summed):
        """The lines of a text, or those of a layer over it: kind 4, all but the first."""
        self.lines, self.health = rows, 0
        if summed:
            self.lines = rows[1:]
            self.health = 0 if rows[:1] == [sum_line(rows[1:])] else 4


# ---------------------------------------------------------------------------------------------------------------------
# The head

NUMERAL = rb"(?:0|[1-9][0-9]{0,4})"
PART = rb"[1-9][0-9]{0,3}"
LIST = rb"((?: " + NUMERAL + rb")+)"

# the form of each record, by its letter
FORM = {
    "s": rb"\x01s [0-9]{5}/[0-9]{5}/[0-9]{5}",
    "d": rb"\x01d D (?P<sid>" + PART + rb"\." + PART + rb"(?:\." + PART + rb"\." + PART + rb")?)"
    rb" (?P<yy>[0-9]{2})/(?P<mm>[0-9]{2})/(?P<dd>[0-9]{2}) (?P<h>[0-9]{2}):(?P<m>[0-9]{2}):(?P<s>[0-9]{2})"
    rb" [a-z0-9]{1,8} (?P<serial>" + NUMERAL + rb") (?P<before>" + NUMERAL + rb")",
    "i": rb"\x01i" + LIST,
    "x": rb"\x01x" + LIST,
    "c": rb"\x01c [\x20-\x7e]{0,100}",
    "e": rb"\x01e",
    "u": rb"\x01u",
    "U": rb"\x01U",
    "t": rb"\x01t",
    "T": rb"\x01T",
}

# which records may follow which; after an entry's end it hangs on the serial
NEXT = {"": "s", "s": "d", "d": "ixc", "i": "xc", "x": "c", "c": "e", "u": "U", "U": "t", "t": "T"}


class Entry:
    def __init__(self, serial, sid, before):
        self.serial, self.sid, self.before = serial, sid, before
        self.includes, self.excludes = [], []


def four_parts(words):
    return tuple(([int(w) for w in words] + [0, 0, 0])[:4])


def is_day(yy, mm, dd):
    try:
        datetime.date(1900 + yy if yy >= 69 else 2000 + yy, mm, dd)
        return True
    except ValueError:
        return False


def entry_of(match, entries):
    """The entry of a ^d of good form, or None where its content is wrong."""
    num = {key: int(match[key]) for key in ("yy", "mm", "dd", "h", "m", "s", "serial", "before")}
    sid = four_parts(match["sid"].split(b"."))
    serial, before = num["serial"], num["before"]
    good = [
        is_day(num["yy"], num["mm"], num["dd"]),
        num["h"] < 24 and num["m"] < 60 and num["s"] < 60,
        serial == entries[-1].serial - 1 if entries else 1 <= serial <= MOST_DELTAS,
        before < serial,
        (before == 0) == (serial == 1),
        sid not in [entry.sid for entry in entries],
    ]
    return Entry(serial, sid, before) if all(good) else None


def listed(match, entry):
    """The serials of a list of good form, or None where its content is wrong."""
    serials = [int(w) for w in match[1].split()]
    good = [
        serials == sorted(set(serials)),
        all(1 <= n < entry.serial for n in serials),
        not set(serials) & set(entry.includes),
    ]
    return serials if all(good) else None


def head_of(rows):
    """The entries, newest first, and the number of records of the head."""
    entries, last = [], ""
    for place, row in enumerate(rows, 1):
        if last == "e":
            may_come = "u" if entries[-1].serial == 1 else "s"
        else:
            may_come = NEXT[last]
        forms = [(letter, re.fullmatch(FORM[letter], row)) for letter in may_come]
        forms = [(letter, match) for letter, match in forms if match]
        if not forms:
            raise Refused(11, place=place)
        last, match = forms[0]
        if last == "d":
            entry = entry_of(match, entries)
            if entry is None:
                raise Refused(12, place=place)
            entries.append(entry)
        if last in "ix":
            serials = listed(match, entries[-1])
            if serials is None:
                raise Refused(12, place=place)
            if last == "i":
                entries[-1].includes = serials
            else:
                entries[-1].excludes = serials
        if last == "T":
            return entries, place
    raise Refused(11, place=len(rows) + 1)


# ---------------------------------------------------------------------------------------------------------------------
# The body


class Body:
    def __init__(self, rows, deltas):
        """Each record as its kind and serial; text has kind "text", and what is no record has None."""
        self.rows = rows
        self.records = [record_of(row, deltas) for row in rows]
        self.controls = [(i, kind, n) for i, (kind, n) in enumerate(self.records) if kind not in (None, "text")]

    def open_at(self, i):
        """Serial and kind of each mark open just before record i: the last that names the serial is no end."""
        last = {n: kind for k, kind, n in self.controls if k < i}
        return {n: kind for n, kind in last.items() if kind != "E"}

    def keeps_rules(self, i):
        kind, n = self.records[i]
        marks = self.open_at(i)
        inserts = [m for m in marks if marks[m] == "I"]
        if kind == "text":
            return inserts != []
        if kind in ("I", "D"):
            return n not in marks and all(n > m for m in inserts)
        if kind == "E":
            return n in marks and (marks[n] == "D" or n == max(inserts))
        return False

    def breach(self):
        """The index of the first record that breaks a rule, their number where a mark is left open, or None."""
        for i in range(len(self.records)):
            if not self.keeps_rules(i):
                return i
        return len(self.records) if self.open_at(len(self.records)) else None

    def inserter(self, i):
        marks = self.open_at(i)
        return max(m for m in marks if marks[m] == "I")

    def deleters(self, i):
        marks = self.open_at(i)
        return {m for m in marks if marks[m] == "D" and m > self.inserter(i)}

    def places_shown(self, serials):
        """The indices of the text records that a set of serials shows."""
        texts = [i for i, (kind, _) in enumerate(self.records) if kind == "text"]
        return [i for i in texts if self.inserter(i) in serials and not self.deleters(i) & serials]

    def shown(self, serials):
        return [self.rows[i] for i in self.places_shown(serials)]


def record_of(row, deltas):
    if row[:1] != b"\x01":
        return ("text", 0)
    match = re.fullmatch(rb"\x01([IDE]) (" + NUMERAL + rb")", row)
    if match and 1 <= int(match[2]) <= deltas:
        return (match[1].decode(), int(match[2]))
    return (None, 0)


# ---------------------------------------------------------------------------------------------------------------------
# The set of a version


def set_of(entries, version, includes, excludes):
    """The serials that are in for a version's serial and a call's lists."""
    by_serial = {entry.serial: entry for entry in entries}
    reached, n = set(), version
    while n:
        reached.add(n)
        n = by_serial[n].before
    known = {}

    def is_in(n):
        if n not in known:
            known[n] = decide(n)
        return known[n]

    def decide(n):
        if n in includes or n in excludes:
            return n in includes
        # the greatest serial that is in and lists n has the word
        for m in range(len(entries), n, -1):
            entry = by_serial[m]
            if (n in entry.includes or n in entry.excludes) and is_in(m):
                return n in entry.includes
        return n in reached

    return {n for n in by_serial if is_in(n)}


# ---------------------------------------------------------------------------------------------------------------------
# The calls


def read_s_file(source):
    if source.health:
        raise Refused(10, layer=source.health)
    entries, size = head_of(source.lines)
    body = Body(source.lines[size:], len(entries))
    breach = body.breach()
    if breach is not None:
        raise Refused(13, place=size + breach + 1)
    return entries, body


def val(source):
    return len(read_s_file(source)[0])


def get(source, sid, includes, excludes, room):
    """The lines of a version with a call's lists."""
    entries, body = read_s_file(source)
    versions = [entry.serial for entry in entries if entry.sid == sid]
    if not versions:
        raise Refused(14)
    wrong = [n for n in includes | excludes if n == 0 or n > len(entries)] + list(includes & excludes)
    if wrong:
        raise Refused(15, serial=min(wrong))
    rows = body.shown(set_of(entries, versions[0], includes, excludes))
    if len(joined(rows)) > room:
        raise Refused(20)
    return rows


def joined(rows):
    return b"".join(row + b"\n" for row in rows)


# ---------------------------------------------------------------------------------------------------------------------
# Tables of cases


def unescape(line):
    """A line of an s-file as it stands in a table."""
    out, at = bytearray(), 0
    while at < len(line):
        if line[at : at + 1] != b"\\":
            out.append(line[at])
            at += 1
        elif line[at + 1 : at + 2] == b"1":
            out.append(1)
            at += 2
        elif line[at + 1 : at + 2] == b"\\":
            out.append(92)
            at += 2
        elif line[at + 1 : at + 2] == b"x":
            out.append(int(line[at + 2 : at + 4], 16))
            at += 4
        else:
            raise ValueError("no such escape: %r" % line)
    return bytes(out)


def escape(row):
    out = ""
    for at, b in enumerate(row):
        if b == 1:
            out += "\\1"
        elif b == 92:
            out += "\\\\"
        elif b < 32 or b > 126 or (b == 32 and at == len(row) - 1):
            out += "\\x%02x" % b
        else:
            out += chr(b)
    return out


def shown(bs):
    return "".join(chr(b) if 33 <= b <= 126 and b != 92 else "\\%02x" % b for b in bs)


def refusal(fault):
    return "? %d %d %d %d" % fault.four


def request(words):
    """SID, room, includes and excludes of a get."""
    sid = four_parts(words[1].split("."))
    lists = {"+": set(), "-": set()}
    for word in words[3:]:
        lists[word[0]].add(int(word[1:]))
    return sid, int(words[2]), lists["+"], lists["-"]


def answer_get(source, words):
    sid, room, includes, excludes = request(words)
    buf = b"." * room
    try:
        rows = get(source, sid, includes, excludes, room)
        bs = joined(rows)
        first = "ok %d %d" % (len(rows), len(bs))
        buf = bs + buf[len(bs) :]
    except Refused as fault:
        first = refusal(fault)
    return [first, "  " + shown(buf)]


def answer_val(source):
    try:
        return ["ok %d" % val(source)]
    except Refused as fault:
        return [refusal(fault)]


def blocks(table):
    """The lines of a table in turn: a pair of the line's words and the lines of an s-file that it brings along."""
    at = 0
    while at < len(table):
        line = table[at]
        words = line.decode().split()
        at += 1
        brought = []
        if words and words[0] in ("plain", "summed"):
            count = int(words[1])
            brought = table[at : at + count]
            assert len(brought) == count, "the table ends inside an s-file"
            at += count
        yield words, brought


def answers(table):
    """For each line of the table that has an answer: its words and the lines of the answer."""
    source = None
    for words, brought in blocks(table):
        if not words or words[0] == "#":
            if words[:2] in (["#", "must:"], ["#", "shows:"], ["#", "holds:"]):
                yield words, []
            continue
        if words[0] in ("plain", "summed"):
            rows, fault = text(joined([unescape(line) for line in brought]))
            source = Source(rows, words[0] == "summed")
            yield words, [refusal(fault) if fault else "ok text"]
        elif words[0] == "val":
            yield words, answer_val(source)
        elif words[0] == "get":
            yield words, answer_get(source, words)
        else:
            raise ValueError("no such call: %r" % words)


def split_table(bs):
    rows = bs.split(b"\n")
    return rows[:-1] if rows[-1] == b"" else rows


# ---------------------------------------------------------------------------------------------------------------------
# Archives made at random, by new and delta as they write


class Archive:
    """The entries, each as its records beside what the model reads, and the body's rows."""

    def __init__(self, rnd, first):
        self.rnd = rnd
        self.entries, self.records = [], []
        self.texts = {}
        self.body = []
        self.put_entry(Entry(1, (1, 1, 0, 0), 0), (len(first), 0, 0))
        self.body = [b"\x01I 1"] + first + [b"\x01E 1"]
        self.texts[(1, 1, 0, 0)] = first

    def rows(self):
        head = [row for records in self.records for row in records]
        return head + [b"\x01u", b"\x01U", b"\x01t", b"\x01T"] + self.body

    def put_entry(self, entry, counts):
        rnd = self.rnd
        day = datetime.date(1969, 1, 1) + datetime.timedelta(days=rnd.randrange(36525))
        user = "".join(rnd.choice("abcdefghijklmnopqrstuvwxyz0123456789") for _ in range(rnd.randint(1, 8)))
        records = [b"\x01s %05d/%05d/%05d" % counts]
        records.append(
            b"\x01d D %s %02d/%02d/%02d %02d:%02d:%02d %s %d %d"
            % (sid_text(entry.sid), day.year % 100, day.month, day.day, rnd.randrange(24), rnd.randrange(60),
               rnd.randrange(60), user.encode(), entry.serial, entry.before)
        )
        for mark, serials in ((b"\x01i", entry.includes), (b"\x01x", entry.excludes)):
            if serials:
                records.append(mark + b"".join(b" %d" % n for n in serials))
        size = rnd.choice([0, 3, 5, 8, 20]) if rnd.random() < 0.95 else 100
        records.append(b"\x01c " + bytes(rnd.randint(32, 126) for _ in range(size)))
        records.append(b"\x01e")
        self.entries.insert(0, entry)
        self.records.insert(0, records)

    def next_sid(self, base):
        taken = [entry.sid for entry in self.entries]
        r, l, b, s = base
        along = (r, l, b, s + 1) if b else (r, l + 1, 0, 0)
        if along not in taken:
            return along
        return (r, l, 1 + max([sid[2] for sid in taken if sid[:2] == (r, l)]), 1)

    def handed_out(self, base, includes, excludes):
        return Body(self.body, len(self.entries)).shown(set_of(self.entries, base, includes, excludes))

    def delta(self, base, includes, excludes, deleted, added):
        """deleted: line numbers; added: the lines to put after a line number, 0 for the front."""
        n = len(self.entries) + 1
        serials = set_of(self.entries, base.serial, includes, excludes)
        handed = self.handed_out(base.serial, includes, excludes)
        self.body = woven(Body(self.body, len(self.entries)), serials, n, deleted, added)
        entry = Entry(n, self.next_sid(base.sid), base.serial)
        entry.includes, entry.excludes = sorted(includes), sorted(excludes)
        inserted = sum(len(rows) for rows in added.values())
        self.put_entry(entry, (inserted, len(deleted), len(handed) - len(deleted)))
        self.texts[entry.sid] = changed(handed, deleted, added)


def sid_text(sid):
    return b".".join(b"%d" % part for part in sid if part)


def changed(rows, deleted, added):
    out = list(added.get(0, []))
    for i, row in enumerate(rows, 1):
        if i not in deleted:
            out.append(row)
        out += added.get(i, [])
    return out


def woven(body, serials, n, deleted, added):
    """The body that delta n writes."""
    number = {place: k for k, place in enumerate(body.places_shown(serials), 1)}
    pieces = []
    if added.get(0):
        pieces += [("mark", b"\x01I %d" % n)] + [("new", row) for row in added[0]] + [("mark", b"\x01E %d" % n)]
    for place, row in enumerate(body.rows):
        k = number.get(place)
        pieces.append(("gone" if k in deleted else "kept", row))
        if k and added.get(k):
            pieces += [("mark", b"\x01I %d" % n)] + [("new", row) for row in added[k]] + [("mark", b"\x01E %d" % n)]
    # each longest run of lines that go stands between D n and E n
    out = []
    for i, (what, row) in enumerate(pieces):
        gone = what == "gone"
        if gone and (i == 0 or pieces[i - 1][0] != "gone"):
            out.append(b"\x01D %d" % n)
        out.append(row)
        if gone and (i + 1 == len(pieces) or pieces[i + 1][0] != "gone"):
            out.append(b"\x01E %d" % n)
    return out


WORDS = ["up", "down", "31.050", "blind", "a", "b", "c", "valve", "30.350", "", "^I 1", "#", "dead", "plain 3", "val"]


def random_line(rnd):
    p = rnd.random()
    if p < 0.05:
        return b""
    if p < 0.1:
        return bytes(rnd.choice([0, 2, 9, 13, 32, 92, 127, 128, 255, 200, 49]) for _ in range(rnd.randint(1, 6)))
    if p < 0.11:
        return b"z" * 240
    return " ".join(rnd.choice(WORDS) for _ in range(rnd.randint(1, 2))).encode()


def random_lines(rnd, most):
    return [random_line(rnd) for _ in range(rnd.randint(0, most))]


def random_lists(rnd, top, p):
    """Includes and excludes from 1 to top, none in both."""
    includes = {n for n in range(1, top + 1) if rnd.random() < p}
    excludes = {n for n in range(1, top + 1) if rnd.random() < p} - includes
    return includes, excludes


def random_archive(rnd, most):
    """An archive as new and some deltas leave it."""
    archive = Archive(rnd, random_lines(rnd, 4) + random_lines(rnd, 3))
    for _ in range(rnd.randint(0, most - 1)):
        base = archive.entries[0] if rnd.random() < 0.6 else rnd.choice(archive.entries)
        includes, excludes = set(), set()
        if rnd.random() < 0.4:
            includes, excludes = random_lists(rnd, len(archive.entries), 0.3)
        handed = archive.handed_out(base.serial, includes, excludes)
        deleted = {k for k in range(1, len(handed) + 1) if rnd.random() < 0.25}
        added = {k: random_lines(rnd, 2) for k in range(len(handed) + 1) if rnd.random() < 0.25}
        archive.delta(base, includes, excludes, deleted, added)
    return archive


def random_body(rnd, deltas, steps):
    """A body that keeps the rules and that no delta need have written."""
    rows = []
    while True:
        body = Body(rows, deltas)
        marks = body.open_at(len(rows))
        may = [b"\x01%s %d" % (kind, n) for kind in (b"I", b"D", b"E") for n in range(1, deltas + 1)]
        if len(rows) >= steps:
            if not marks:
                return rows
            may = [row for row in may if row[1:2] == b"E"]
        elif rnd.random() < 0.5 and marks:
            may = [random_line(rnd)]
        may = [row for row in may if Body(rows + [row], deltas).keeps_rules(len(rows))]
        if may:
            rows.append(rnd.choice(may))


def with_other_body(rnd, archive):
    """The archive's entries under other lists and predecessors, over a body that keeps the rules."""
    entries = list(reversed(archive.entries))
    archive.entries, archive.records = [], []
    for entry in entries:
        other = Entry(entry.serial, entry.sid, rnd.randint(1, entry.serial - 1) if entry.serial > 1 else 0)
        includes, excludes = random_lists(rnd, entry.serial - 1, rnd.choice([0, 0.2, 0.5]))
        other.includes, other.excludes = sorted(includes), sorted(excludes)
        archive.put_entry(other, tuple(rnd.randrange(100000) for _ in range(3)))
    archive.body = random_body(rnd, len(entries), rnd.randint(0, 12))
    return archive.rows()


def with_other_content(rnd, rows):
    """One record of serials, a SID or a date changed and its form kept."""
    k = rnd.choice([i for i, row in enumerate(rows) if row[:2] in (b"\x01d", b"\x01i", b"\x01x", b"\x01I", b"\x01D", b"\x01E")] or [0])
    words = rows[k].split(b" ")
    small = b"%d" % rnd.choice([0, 1, 2, 3, 4, 5, 62, 63, 64, 99999])
    if rows[k][:2] == b"\x01d" and len(words) == 8:
        at = rnd.choice([2, 3, 4, 6, 7])
        if at == 2:
            others = [row.split(b" ")[2] for row in rows if row[:4] == b"\x01d D" and row.count(b" ") == 7]
            words[2] = rnd.choice(others or [b"1.1"])
        elif at == 3:
            words[3] = b"%02d/%02d/%02d" % (rnd.randrange(100), rnd.choice([0, 2, 2, 4, 12, 13]), rnd.choice([0, 28, 29, 30, 31, 32]))
        elif at == 4:
            words[4] = b"%02d:%02d:%02d" % (rnd.choice([0, 23, 24]), rnd.choice([0, 59, 60]), rnd.choice([0, 59, 60]))
        else:
            words[at] = small
    elif len(words) > 1:
        words[rnd.randrange(1, len(words))] = small
    rows = list(rows)
    rows[k] = b" ".join(words)
    return rows


def mutated(rnd, rows):
    """The rows with one thing wrong, or just another."""
    rows = list(rows)
    k = rnd.randrange(len(rows))
    marked = [i for i, row in enumerate(rows) if row[:1] == b"\x01"]
    way = rnd.choice(["content"] * 5 + ["numeral"] * 3 + ["swap"] * 2 + ["byte", "drop", "double", "cut", "into", "letter", "longer"])
    if way == "content":
        rows = with_other_content(rnd, rows)
    elif way == "byte" and rows[k]:
        at = rnd.randrange(len(rows[k]))
        other = rnd.choice([b for b in range(256) if b != 10] if rnd.random() < 0.3 else b"\x01 0123456789/.:IDEsdixceuUtT~")
        rows[k] = rows[k][:at] + bytes([other]) + rows[k][at + 1 :]
    elif way == "drop":
        del rows[k]
    elif way == "double":
        rows.insert(k, rows[k])
    elif way == "swap":
        j = min(k + rnd.randint(1, 3), len(rows) - 1)
        rows[k], rows[j] = rows[j], rows[k]
    elif way == "numeral":
        k = rnd.choice(marked)
        runs = list(re.finditer(rb"[0-9]+", rows[k]))
        if runs:
            run = rnd.choice(runs)
            value = int(run[0])
            other = rnd.choice([b"0", b"1", b"%d" % (value + 1), b"%d" % max(0, value - 1), b"63", b"64", b"100000",
                                b"99999", b"0" + run[0], b"%02d" % rnd.randrange(70), b"", run[0] + b" "])
            rows[k] = rows[k][: run.start()] + other + rows[k][run.end() :]
    elif way == "cut":
        rows = rows[: rnd.choice([k, len(rows) - 1])]
    elif way == "into":
        rows.insert(k, rnd.choice(rows + [b"", b"\x01", b"text", b"\x01i 1", b"\x01x 1", b"\x01c ", b"\x01E 1", b"\x01I 2"]))
    elif way == "letter":
        k = rnd.choice(marked)
        rows[k] = b"\x01" + bytes([rnd.choice(b"IDEsdixceuUtTfmgI")]) + rows[k][2:]
    else:
        rows[k] = rows[k] + rnd.choice([b" ", b"0", b" 1", b"y" * 240, b"\r"])
    return rows


def random_request(rnd, archive, source):
    """A get of the archive, mostly of a version that is there, with a room that is about right."""
    sid = rnd.choice(archive.entries).sid
    if rnd.random() < 0.08:
        sid = tuple(rnd.choice([0, 1, 2, 65535]) for _ in range(4))
    parts = [str(part) for part in sid]
    while len(parts) > 1 and parts[-1] == "0" and rnd.random() < 0.9:
        parts.pop()
    top = len(archive.entries)
    includes, excludes = set(), set()
    if rnd.random() < 0.6:
        includes, excludes = random_lists(rnd, top, rnd.choice([0.1, 0.3, 0.6]))
    if rnd.random() < 0.08:
        includes = includes | {rnd.choice([0, top, top + 1, 63])}
    if rnd.random() < 0.08:
        excludes = excludes | {rnd.choice([0, 1, top + 1, 63])}
    words = ["+%d" % n for n in sorted(includes)] + ["-%d" % n for n in sorted(excludes)]
    rnd.shuffle(words)
    try:
        need = len(joined(get(source, sid, includes, excludes, 1000000)))
    except Refused:
        need = 5
    room = max(0, need + rnd.choice([0, 0, 0, 1, 3, -1]))
    return " ".join(["get", ".".join(parts), str(room)] + words)


def random_case(rnd, most):
    archive = random_archive(rnd, rnd.randint(1, most))
    rows = archive.rows()
    what = rnd.random()
    if what < 0.35:
        rows = with_other_body(rnd, archive)
    harmed = rnd.random() < 0.4
    if harmed:
        for _ in range(rnd.choice([1, 1, 1, 2])):
            rows = mutated(rnd, rows) if rows else rows
    out = []
    summed = rnd.random() < 0.4
    if summed:
        line = sum_line(rows)
        if rnd.random() < 0.1:
            line = mutated(rnd, [line])[0:1] or [b""]
            line = line[0]
        rows = [line] + rows
    out.append("%s %d" % ("summed" if summed else "plain", len(rows)))
    out += [escape(row) for row in rows]
    out.append("val")
    checked, _ = text(joined(rows))
    source = Source(checked, summed)
    for _ in range(1 if harmed else rnd.randint(1, 4)):
        out.append(random_request(rnd, archive, source))
    return out


# ---------------------------------------------------------------------------------------------------------------------
# The self-test


def check_stated(path):
    """Each '# must:' states the answer of the call above it, each '# shows:' the lines that a get put into the buffer, each
    '# holds:' the whole buffer."""
    with open(path, "rb") as file:
        table = split_table(file.read())
    stated, last = 0, None
    for words, answer in answers(table):
        if words[0] != "#":
            last = words, answer
            continue
        stated += 1
        call, said = last
        if words[1] == "must:":
            assert said[0] == " ".join(words[2:]), "%s: %s, stated %s" % (call, said, words)
        elif words[1] == "holds:":
            assert said[1] == "  " + "".join(words[2:]), "%s: %s, stated %s" % (call, said, words)
        else:
            bs = joined([word.encode() for word in words[2:]])
            room = int(call[2])
            assert said[0] == "ok %d %d" % (len(words) - 2, len(bs)), "%s: %s, stated %s" % (call, said, words)
            assert said[1] == "  " + shown(bs + b"." * (room - len(bs))), "%s: %s, stated %s" % (call, said, words)
    return stated


def check_histories(times):
    """What is written reads back: each version as it was recorded, each earlier get as it was answered."""
    versions = 0
    for seed in range(times):
        rnd = random.Random(seed)
        archive = random_archive(rnd, rnd.choice([2, 4, 6, 12]))
        source = Source([sum_line(archive.rows())] + archive.rows(), True)
        assert val(source) == len(archive.entries)
        for sid, rows in archive.texts.items():
            assert get(source, sid, set(), set(), 1000000) == rows, (seed, sid)
            versions += 1
        requests = []
        for entry in archive.entries:
            includes, excludes = random_lists(rnd, len(archive.entries), 0.3)
            requests.append((entry, includes, excludes, archive.handed_out(entry.serial, includes, excludes)))
        base = rnd.choice(archive.entries)
        handed = archive.handed_out(base.serial, set(), set())
        archive.delta(base, set(), set(), set(range(1, len(handed) + 1)), {0: [b"x"], len(handed): [b"y"]})
        for entry, includes, excludes, rows in requests:
            assert archive.handed_out(entry.serial, includes, excludes) == rows, (seed, entry.sid)
    return versions


def selftest():
    here = os.path.dirname(os.path.abspath(__file__))
    print("stated by hand and met:", check_stated(os.path.join(here, "s_files.table")))
    print("printed by CSSC and met:", check_stated(os.path.join(here, "from_cssc.table")))
    print("versions of simulated histories read back:", check_histories(300))


def main():
    words = sys.argv[1:]
    if words == ["answers"]:
        for _, lines in answers(split_table(sys.stdin.buffer.read())):
            for line in lines:
                print(line)
    elif words[:1] == ["cases"]:
        rnd = random.Random(int(words[1]))
        most = int(words[3]) if len(words) > 3 else 8
        for k in range(int(words[2])):
            print("# random %s.%d" % (words[1], k + 1))
            print("\n".join(random_case(rnd, most)))
    elif words == ["selftest"]:
        selftest()
    else:
        sys.exit(__doc__)


if __name__ == "__main__":
    main()
