#!/usr/bin/env bash
# Measures `erm run` on scripts of 10^4, 10^5 and 10^6 lines, and prints a table of seconds and peak memory.
#   bench/run.sh [PROGRAM]      PROGRAM is the launcher at the top, unless another is given
# A script without flushes has room in its log for some thousands of commits alone. So each begins with a load, in which a session puts
# five hundred keys, some of its transactions commit, and all others are aborted. The last column counts the lines that were refused: by
# the phase of their session, or since the log was full.
# The kinds, the first three of one session beside the load:
#   puts        short transactions of two puts, a del and a get on random keys
#   few-keys    the same on sixteen keys, each of which so gets many versions
#   gets        one transaction of gets of fifty keys
#   4-sessions  lines of four sessions by turns, each in short transactions of a put, two gets and, in one of eight, a scan
#   48-sessions the same of forty-eight sessions
#   old-reader  puts on one key, of which two thousand commit, beside a session that began before them and stays: each put looks for
#               the version that this session may read
set -eu
top=$(cd "$(dirname "$(readlink -f "${BASH_SOURCE[0]}")")/.." && pwd)
program=$(readlink -f "${1:-$top/erm}")
folder=$(mktemp -d)
trap 'rm -rf "$folder"' EXIT

# Writes a script of a kind with so many lines. The same arguments give the same bytes.
make_script() {
    python3 - "$1" "$2" <<'PYTHON'
import random
import sys

LIMIT = 16_777_216
KEYS = 500
kind, count = sys.argv[1], int(sys.argv[2])
pick = random.Random(f"{kind} {count}")


def load():
    for first in range(0, KEYS, 50):
        yield "load begin"
        for key in range(first, first + 50):
            yield f"load put 0 {key} {key % 256:02x}"
        yield "load commit"


def ends(commits):
    """How transactions end: so many by a commit, and all others by an abort."""
    yield from ["commit"] * commits
    while True:
        yield "abort"


def short_transactions(keys):
    yield from load()
    for end in ends(500):
        yield "a begin"
        for _ in range(2):
            value = pick.choice(["-", f"{pick.randrange(256):02x}"])
            yield f"a put 0 {pick.randrange(keys)} {value}"
        yield f"a del 0 {pick.randrange(keys)}"
        yield f"a get 0 {pick.randrange(keys)}"
        yield f"a {end}"


def many_gets():
    yield from load()
    yield "a begin"
    while True:
        yield f"a get 0 {pick.randrange(50)}"


def old_reader():
    yield from load()
    yield "old begin"
    for end in ends(2_000):
        yield "a begin"
        yield f"a put 0 1 {pick.randrange(256):02x}"
        yield f"a {end}"


def by_turns(sessions):
    def transactions(name):
        for number, end in enumerate(ends(800 // sessions)):
            yield f"{name} begin"
            for _ in range(2):
                yield f"{name} get 0 {pick.randrange(KEYS)}"
            if number % 8 == 7:
                low = pick.randrange(KEYS)
                yield f"{name} scan 0 {low} {low + 20}"
            yield f"{name} put 0 {pick.randrange(KEYS)} {pick.randrange(256):02x}"
            yield f"{name} {end}"

    yield from load()
    running = [transactions(f"s{place}") for place in range(1, sessions)] + [transactions("load")]
    while True:
        for lines in running:
            yield next(lines)


lines = {
    "puts": lambda: short_transactions(KEYS),
    "few-keys": lambda: short_transactions(16),
    "gets": many_gets,
    "4-sessions": lambda: by_turns(4),
    "48-sessions": lambda: by_turns(48),
    "old-reader": old_reader,
}[kind]()
size = 0
for _, line in zip(range(count), lines):
    size += len(line) + 1
    print(line)
if size > LIMIT:
    sys.exit(f"{kind} with {count} lines has {size} bytes, and a script at most {LIMIT}")
PYTHON
}

# Runs the program on a script, in a new folder, and prints a row. The least peak that it can show is what the process had before it became
# the program, some 14 MiB.
measure() {
    python3 - "$program" "$1" "$2" "$3" <<'PYTHON'
import os
import subprocess
import sys
import tempfile
import time

program, kind, count, script = sys.argv[1:]
REFUSALS = (b" no transaction", b" is sealed", b" not idle", b" not sealed", b" wait ring")
report = script + ".report"
disk = tempfile.mkdtemp(dir=os.path.dirname(script))
with open(script, "rb") as lines, open(report, "wb") as put:
    start = time.monotonic()
    run = subprocess.Popen([program, "run"], stdin=lines, stdout=put, cwd=disk)
    _, ended, usage = os.wait4(run.pid, 0)
    seconds = time.monotonic() - start
status = os.waitstatus_to_exitcode(ended)
size = os.path.getsize(script)
with open(report, "rb") as put:
    refused = sum(any(refusal in line for refusal in REFUSALS) for line in put)
print(f"{kind:11} {int(count):9} {size:9} {seconds:9.2f} {usage.ru_maxrss / 1024:9.1f} {status:7} {refused:9}", flush=True)
PYTHON
}

# The program is built before anything is measured: without words it does nothing else.
"$program" </dev/null >/dev/null || [ $? = 2 ] || { echo "$program can't be run: nothing is measured" >&2; exit 1; }
printf '%-11s %9s %9s %9s %9s %7s %9s\n' kind lines bytes seconds MiB status refused
for kind in puts few-keys gets 4-sessions 48-sessions old-reader; do
    for count in 10000 100000 1000000; do
        make_script "$kind" "$count" >"$folder/script"
        measure "$kind" "$count" "$folder/script"
    done
done
