#!/usr/bin/env python3
"""Cases out of s-files that GNU CSSC wrote, with the tables that its own get printed.

  from_cssc.py table SEED       prints the cases, for model/from_cssc.table
  from_cssc.py compare SEED N   makes N archives at random and counts where CSSC and the model agree

Needs CSSC (Debian: cssc); its programs are looked for in $CSSC, else in /usr/lib/x86_64-linux-gnu/cssc.

What is changed in an s-file of CSSC, so that it has our form: records of MR numbers (^m), ignored deltas (^g), flags (^f),
the names between ^u and ^U and the text between ^t and ^T are dropped; an entry without comment gets an empty one, one
with several gets them joined by a blank; of a user's name the letters a to z and digits are kept, 8 at most; serials are
written without leading zeros; the line of the sum is made anew. The body stays as CSSC wrote it.

In the table a line '# must:' has the lines and bytes, and '# holds:' the buffer, that CSSC's get -p makes of the call above;
nothing of them comes from the model. Requests that CSSC reads otherwise than we do are left out: see alike."""
import os
import random
import subprocess
import sys
import tempfile

sys.dont_write_bytecode = True
import s_files

PROGRAMS = os.environ.get("CSSC", "/usr/lib/x86_64-linux-gnu/cssc")


def run(folder, *words):
    done = subprocess.run([os.path.join(PROGRAMS, words[0])] + list(words[1:]), cwd=folder, capture_output=True, check=False)
    if done.returncode:
        raise RuntimeError("%s: %s" % (" ".join(words), done.stderr.decode()))
    return done.stdout


def lists(includes, excludes):
    return ["-i" + ",".join(includes)] * bool(includes) + ["-x" + ",".join(excludes)] * bool(excludes)


class Archive:
    def __init__(self, folder, name, rows, *options):
        self.folder, self.name = folder, name
        self.write(rows)
        run(folder, "admin", "-n", "-i" + name, *(list(options) or ["-yfirst"]), "s." + name)
        os.remove(os.path.join(folder, name))
        self.sids = ["1.1"]

    def write(self, rows):
        path = os.path.join(self.folder, self.name)
        if os.path.exists(path):
            os.chmod(path, 0o644)
        with open(path, "wb") as file:
            file.write(s_files.joined(rows))

    def handed_out(self, sid, includes=(), excludes=()):
        """What get -p prints: the bytes, with keywords left alone."""
        return run(self.folder, "get", "-p", "-s", "-k", "-r" + sid, *lists(includes, excludes), "s." + self.name)

    def edit(self, sid, change, includes=(), excludes=(), options=("-ychange",), branch=False):
        """Edits a version, with the lines that `change` makes of those handed out."""
        words = ["-e", "-s", "-r" + sid] + ["-b"] * branch + lists(includes, excludes)
        run(self.folder, "get", *words, "s." + self.name)
        with open(os.path.join(self.folder, self.name), "rb") as file:
            rows = file.read().split(b"\n")[:-1]
        self.write(change(rows))
        run(self.folder, "delta", "-s", *options, "s." + self.name)
        self.sids = [entry.sid for entry in self.entries()]
        self.sids = [s_files.sid_text(sid).decode() for sid in self.sids]

    def rows(self):
        with open(os.path.join(self.folder, "s." + self.name), "rb") as file:
            return normal(file.read())

    def entries(self):
        return s_files.head_of(self.rows()[1:])[0]

    def serial(self, sid):
        return [entry.serial for entry in self.entries() if s_files.sid_text(entry.sid).decode() == sid][0]

    def source(self):
        return s_files.Source(self.rows(), True)


def normal(bs):
    """An s-file of CSSC in our form, with its sum line."""
    rows = bs.split(b"\n")[:-1]
    end = rows.index(b"\x01T")
    out, comments = [], []
    for row in rows[1 : end + 1]:
        mark, words = row[:2], row.split(b" ")
        if mark == b"\x01c":
            comments.append(row[3:])
        elif mark == b"\x01e":
            out += [b"\x01c " + b" ".join(comments), row]
            comments = []
        elif mark == b"\x01d":
            out.append(b" ".join(words[:5] + [normal_user(words[5])] + [b"%d" % int(w) for w in words[6:8]]))
        elif mark in (b"\x01i", b"\x01x"):
            out.append(b" ".join(words[:1] + [b"%d" % n for n in sorted(int(w) for w in words[1:])]))
        elif mark in (b"\x01s", b"\x01u", b"\x01U", b"\x01t", b"\x01T"):
            out.append(row)
    out += rows[end + 1 :]
    return [s_files.sum_line(out)] + out


def normal_user(name):
    kept = bytes(b for b in name if b in b"abcdefghijklmnopqrstuvwxyz0123456789")
    return kept[:8] or b"user"


def random_archive(rnd, folder, name, deltas):
    words = [b"a", b"b", b"c", b"up 31.050", b"down", b"", b"x y", b"q"]
    archive = Archive(folder, name, [rnd.choice(words) for _ in range(rnd.randint(2, 8))])

    def change(rows):
        rows = [row for row in rows if rnd.random() < 0.8]
        for _ in range(rnd.randint(0, 3)):
            rows.insert(rnd.randint(0, len(rows)), rnd.choice(words))
        return rows

    for _ in range(deltas - 1):
        sid = archive.sids[0] if rnd.random() < 0.5 else rnd.choice(archive.sids)
        includes, excludes = random_lists(rnd, archive) if rnd.random() < 0.3 else ((), ())
        archive.edit(sid, change, includes, excludes)
    return archive


def random_lists(rnd, archive):
    includes = [sid for sid in archive.sids if rnd.random() < 0.2]
    excludes = [sid for sid in archive.sids if rnd.random() < 0.2 and sid not in includes]
    return includes, excludes


def model_get(archive, sid, includes, excludes):
    source = archive.source()
    serials = [{archive.serial(one) for one in some} for some in (includes, excludes)]
    return s_files.joined(s_files.get(source, s_files.four_parts(sid.split(".")), *serials, 1000000))


def alike(archive, includes, excludes):
    """Do both read these lists alike? Not where a list, of a call or of a delta, names a delta that has lists of its own:
    CSSC obeys the lists of a delta that is excluded, and not those of one that a call includes. Nor where one delta
    includes what another excludes: there CSSC excludes."""
    entries = archive.entries()
    own = {e.serial for e in entries if e.includes or e.excludes}
    included = {n for e in entries for n in e.includes}
    excluded = {n for e in entries for n in e.excludes}
    named = {archive.serial(sid) for sid in list(includes) + list(excludes)}
    return not (named | included | excluded) & own and not included & excluded


def compare(seed, times):
    rnd = random.Random(seed)
    tally = {}
    with tempfile.TemporaryDirectory() as folder:
        for k in range(times):
            archive = random_archive(rnd, folder, "t%d" % k, rnd.randint(1, 8))
            for sid in archive.sids:
                for includes, excludes in [((), ()), random_lists(rnd, archive), random_lists(rnd, archive)]:
                    same = archive.handed_out(sid, includes, excludes) == model_get(archive, sid, includes, excludes)
                    kind = (alike(archive, includes, excludes), same)
                    tally[kind] = tally.get(kind, 0) + 1
                    if kind == (True, False):
                        print("differ:", k, sid, "-i", ",".join(includes), "-x", ",".join(excludes))
                        for e in archive.entries():
                            print("   ", e.serial, s_files.sid_text(e.sid).decode(), e.before, e.includes, e.excludes)
    for (is_alike, same), n in sorted(tally.items()):
        print("lists that both read alike" if is_alike else "lists that CSSC may read otherwise", "same" if same else "different", n)


def case(note, archive, requests):
    """A case in the form of the tables, with what CSSC's get prints."""
    rows = archive.rows()
    out = ["# CSSC: " + note, "summed %d" % len(rows)] + [s_files.escape(row) for row in rows]
    out += ["val", "# must: ok %d" % len(archive.sids)]
    for sid, includes, excludes in requests:
        if not alike(archive, includes, excludes):
            continue
        bs = archive.handed_out(sid, includes, excludes)
        words = ["+%d" % archive.serial(one) for one in includes] + ["-%d" % archive.serial(one) for one in excludes]
        out.append(" ".join(["get", sid, str(len(bs))] + words))
        out += ["# must: ok %d %d" % (bs.count(b"\n"), len(bs)), ("# holds: " + s_files.shown(bs)).rstrip()]
    return out


def plain_gets(archive):
    return [(sid, (), ()) for sid in archive.sids]


def known(folder):
    archive = Archive(folder, "known", [b"a", b"b", b"c"])
    archive.edit("1.1", lambda rows: [b"a", b"B", b"c"])
    archive.edit("1.1", lambda rows: rows + [b"d"])
    archive.edit("1.2", lambda rows: rows[1:], excludes=["1.2"])
    more = [("1.2", ["1.1.1.1"], ()), ("1.1", ["1.2"], ()), ("1.3", ["1.1.1.1"], ()), ("1.2", (), ["1.1"])]
    return case("a b c, its change, a branch, and 1.2 taken out of 1.3", archive, plain_gets(archive) + more)


def motors(folder):
    rows = [b"blind-%02d up 3%d.050 down 30.350" % (n, n) for n in range(1, 7)]
    archive = Archive(folder, "motors", rows, "-ymotor times", "-fb")
    archive.edit("1.1", lambda rows: rows[:2] + [b"blind-03 up 29.000 down 28.150"] + rows[3:])
    archive.edit("1.2", lambda rows: rows[1:4] + [b"", b"valve-01 open 12.000"] + rows[4:])
    archive.edit("1.2", lambda rows: rows[:1] + [b"gate up 9.000 down 9.500"] + rows[1:], branch=True)
    archive.edit("1.2.1.1", lambda rows: rows[:-1])
    archive.edit("1.2.1.1", lambda rows: [b"blind-00 up 1.000 down 1.050"] + rows)
    archive.edit("1.3", lambda rows: rows + [b"end"], includes=["1.2.1.1"], excludes=["1.2"])
    more = [("1.3", ["1.2.1.2"], ()), ("1.3", ["1.2.2.1"], ["1.2"]), ("1.1", ["1.3"], ()), ("1.2.1.2", (), ["1.2.1.1"]),
            ("1.4", (), ["1.3"]), ("1.4", ["1.2"], ()), ("1.4", ["1.2.1.2", "1.2.2.1"], ["1.2.1.1"])]
    return case("motor times with two branches, one of them included", archive, plain_gets(archive) + more)


def with_records(folder):
    with open(os.path.join(folder, "about"), "wb") as file:
        file.write(b"times of all motors\nof one house\n")
    archive = Archive(folder, "house", [b"a", b"", b"b"], "-m1 2", "-yfirst\nof all", "-fv", "-fb", "-tabout", "-aroot", "-a!guest")
    archive.edit("1.1", lambda rows: [b""] + rows, options=("-m17", "-yone\ntwo\nthree"))
    archive.edit("1.2", lambda rows: [], options=("-m18 19", "-y"))
    archive.edit("1.3", lambda rows: [b"again"], options=("-m20", "-y"))
    return case("MR numbers, flags, users, a text and comments of several lines, all taken out", archive, plain_gets(archive))


def print_table(seed):
    rnd = random.Random(seed)
    with tempfile.TemporaryDirectory() as folder:
        cases = [known(folder), motors(folder), with_records(folder)]
        made = 0
        while len(cases) < 13:
            made += 1
            archive = random_archive(rnd, folder, "t%d" % made, rnd.randint(3, 6))
            requests = plain_gets(archive) + [(rnd.choice(archive.sids),) + random_lists(rnd, archive) for _ in range(4)]
            if alike(archive, (), ()):
                cases.append(case("edits at random", archive, requests))
    print("\n".join(line for one in cases for line in one))


if __name__ == "__main__":
    if sys.argv[1:2] == ["compare"]:
        compare(int(sys.argv[2]), int(sys.argv[3]))
    elif sys.argv[1:2] == ["table"]:
        print_table(int(sys.argv[2]))
    else:
        sys.exit(__doc__)
