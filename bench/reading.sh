#!/bin/bash
# Times whole processes that read one version out of an s-file: ours against GNU CSSC's get, on the same archive.
#
#   bench/reading.sh [RUNS]        from the repository's root, after `rt run` in crates/tablearc; 300 runs of each where none are named
#
# Needs python3, CSSC (Debian: cssc) and valgrind. It makes an archive of 60 deltas with CSSC, about 970 records of body and
# 20,000 bytes; CSSC reads it as it wrote it, and ours reads it in our form (see crates/conformance_sfiles/model/from_cssc.py).
# Both must print the same tables, or nothing is timed. Runs of the four commands take turns. Instructions are callgrind's
# total for one run. TABLEARC and CSSC name other programs than crates/tablearc/out/tablearc and those of Debian's package.
set -eu
cd "$(dirname "$0")/.."
export TABLEARC="${TABLEARC:-crates/tablearc/out/tablearc}"
export CSSC="${CSSC:-/usr/lib/x86_64-linux-gnu/cssc}"
export RUNS="${1:-300}"
export PYTHONPATH="crates/conformance_sfiles/model" PYTHONDONTWRITEBYTECODE=1
for needed in "$TABLEARC" "$CSSC/get" "$(command -v valgrind || echo valgrind)"; do
    [ -x "$needed" ] || { echo "bench/reading.sh: $needed is not there" >&2; exit 1; }
done
folder=$(mktemp -d)
trap 'rm -rf "$folder"' EXIT
export FOLDER="$folder"
python3 - <<'PYTHON'
import os
import random
import re
import statistics
import subprocess
import time

import from_cssc
import s_files

FOLDER, RUNS = os.environ["FOLDER"], int(os.environ["RUNS"])
DELTAS, FIRST_LINES = 60, 200
rnd = random.Random(60)


def motor():
    return b"blind-%02d up %d.%02d0 down %d.%02d0" % (rnd.randrange(100), rnd.randint(10, 60), rnd.randrange(0, 100, 5),
                                                     rnd.randint(10, 60), rnd.randrange(0, 100, 5))


def change(rows):
    """Two lines replaced and one put in."""
    for k in rnd.sample(range(len(rows)), 2):
        rows[k] = motor()
    rows.insert(rnd.randint(0, len(rows)), motor())
    return rows


def make():
    archive = from_cssc.Archive(FOLDER, "motors", [motor() for _ in range(FIRST_LINES)], "-yhand-over day")
    for k in range(2, DELTAS + 1):
        archive.edit("1.%d" % (k - 1), change, options=("-ychange %d" % k,))
    return archive


def output(command):
    return subprocess.run(command, check=True, stdout=subprocess.PIPE, stderr=subprocess.DEVNULL).stdout


def once(command, null):
    """Seconds of one process, from its start to its end."""
    start = time.perf_counter()
    pid = os.posix_spawn(command[0], command, os.environ,
                         file_actions=[(os.POSIX_SPAWN_DUP2, null, 1), (os.POSIX_SPAWN_DUP2, null, 2)])
    _, status = os.waitpid(pid, 0)
    end = time.perf_counter()
    assert status == 0, command
    return end - start


def instructions(command):
    path = os.path.join(FOLDER, "callgrind")
    subprocess.run(["valgrind", "--tool=callgrind", "--callgrind-out-file=" + path] + command, check=True,
                   stdout=subprocess.DEVNULL, stderr=subprocess.DEVNULL)
    with open(path) as file:
        return int(re.search(r"^(?:summary|totals): (\d+)", file.read(), re.M)[1])


archive = make()
rows = archive.rows()
ours_file, theirs_file = os.path.join(FOLDER, "ours"), os.path.join(FOLDER, "s.motors")
with open(ours_file, "wb") as file:
    file.write(s_files.joined(rows))
body = rows[rows.index(b"\x01T") + 1 :]
sids = ["1.1", archive.sids[0]]
ours = {sid: [os.path.abspath(os.environ["TABLEARC"]), "get", ours_file, sid] for sid in sids}
theirs = {sid: [os.path.join(os.environ["CSSC"], "get"), "-p", "-s", "-r" + sid, theirs_file] for sid in sids}
for sid in sids:
    assert output(ours[sid]) == output(theirs[sid]), "the tables of %s differ" % sid

commands = {(who, sid): some[sid] for who, some in (("ours", ours), ("CSSC", theirs)) for sid in sids}
times = {key: [] for key in commands}
null = os.open(os.devnull, os.O_WRONLY)
for turn in range(RUNS + 5):
    for key, command in commands.items():
        seconds = once(command, null)
        if turn >= 5:
            times[key].append(seconds * 1000)
counted = {key: instructions(command) for key, command in commands.items()}

print("%d deltas, %d records of body, %d bytes in our form, %d in CSSC's; %d runs each" % (
    len(archive.sids), len(body), os.path.getsize(ours_file), os.path.getsize(theirs_file), RUNS))
print()
print("| whole process | CSSC | ours | ours / CSSC |")
print("|---|---|---|---|")
for sid in sids:
    for name, pick in (("median", statistics.median), ("least", min)):
        a, b = pick(times["CSSC", sid]), pick(times["ours", sid])
        print("| get %s, %s, ms | %.3f | %.3f | %.2f |" % (sid, name, a, b, b / a))
    a, b = counted["CSSC", sid], counted["ours", sid]
    print("| get %s, instructions | %s | %s | %.2f |" % (sid, format(a, ","), format(b, ","), b / a))
PYTHON
