#!/usr/bin/env bash
# Runs `erm threads` on scripts of 48 sessions, unless another number is given, that work on the same 64 keys, and checks each report by definition,
# both ends of each window included: tools/check_report.py; and the log, block by block from the run's opening to its end: tools/check_log.py.
#   bench/stress.sh [PROGRAM [COUNT]]     PROGRAM is the launcher at the top, and COUNT, of scripts, is 100, unless others are given
#   TRANSACTIONS=N bench/stress.sh ..     a script has N transactions in place of 100,000
#   SESSIONS=N bench/stress.sh ..         a script has N sessions, from 1 to 48, in place of 48
#   FIRST=N bench/stress.sh ..            the first script's number is N in place of 1, so that several calls side by side try scripts of their own
# The keys are sixteen of each of four tables. A transaction gets, scans, sets and deletes a few, tidies now and then; one in twenty goes back to a
# savepoint; and it ends by a commit, by a seal and a settle, or by an abort; behind some commits its session waits until they last. One in fifty is a
# snapshot that only reads, which gets and scans some keys. A run before each script, line by line, sets all keys, so that the rows written are those of keys, and no put of a new key that is refused leaves
# an object used up.
# It prints a row for each script: how its transactions ended, seconds and peak memory of the call, and what the checks say. The folder of one whose
# report or log isn't good, or whose disk then recovers to another map, is kept and named; then the status is 1. It needs python3.
set -eu
top=$(cd "$(dirname "$(readlink -f "${BASH_SOURCE[0]}")")/.." && pwd)
program=$(readlink -f "${1:-$top/erm}")
count=${2:-100}
command -v python3 >/dev/null || { echo "there is no python3: nothing is tried" >&2; exit 1; }

# The program is built before anything is tried: without words it does nothing else.
"$program" </dev/null >/dev/null || [ $? = 2 ] || { echo "$program can't be run: nothing is tried" >&2; exit 1; }
exec python3 - "$program" "$top/tools" "$count" "${TRANSACTIONS:-100000}" "${SESSIONS:-48}" "${FIRST:-1}" <<'PYTHON'
import collections
import os
import random
import shutil
import subprocess
import sys
import tempfile
import time

PROGRAM, TOOLS = sys.argv[1:3]
COUNT, TRANSACTIONS, SESSIONS, FIRST = map(int, sys.argv[3:])
LIMIT = 16_777_216
KEYS = [(table, key) for table in range(4) for key in range(16)]
ENDS = "committed", "excluded", "owned", "newer", "aborted", "ended", "unsafe"


def digits(pick):
    return f"{pick.randrange(2**32):08x}"


def operation(pick):
    """An operation on one of the keys, or on some neighbouring ones."""
    table, key = pick.choice(KEYS)
    kind = pick.choices(("get", "put", "del", "next", "scan", "tidy"), (50, 30, 3, 5, 8, 4))[0]
    if kind == "put":
        return f"put {table} {key} {digits(pick)}"
    return f"scan {table} {key} {key + 4}" if kind == "scan" else f"{kind} {table} {key}"


def look(pick):
    """A line that reads one of the keys, or the keys of a table."""
    table, key = pick.choice(KEYS)
    return pick.choice((f"get {table} {key}", f"next {table} {key}", f"scan {table} 0 15"))


def transaction(pick):
    """The lines of a transaction, of which some go back to a savepoint, and of the wait behind some; or of a snapshot that only reads."""
    if pick.random() < 0.02:
        yield from ("safe", *(look(pick) for _ in range(pick.randint(1, 6))), "commit")
        return
    yield "begin"
    for _ in range(pick.randint(1, 4)):
        yield operation(pick)
    if pick.random() < 0.05:
        yield from ("save", operation(pick), operation(pick), "back 1", operation(pick))
    yield from pick.choices((["commit"], ["seal", "settle"], ["abort"]), (80, 17, 3))[0]
    if pick.random() < 0.01:
        yield "durable"


def script_of(seed):
    """The lines of all sessions, one of each by turns: it tells nothing of when they run."""
    pick = random.Random(seed)
    parts = [[line for _ in range(TRANSACTIONS // SESSIONS + (session < TRANSACTIONS % SESSIONS)) for line in transaction(pick)] for session in range(SESSIONS)]
    longest = max(map(len, parts))
    return "".join(f"s{session} {lines[at]}\n" for at in range(longest) for session, lines in enumerate(parts) if at < len(lines))


def load():
    return "a begin\n" + "".join(f"a put {table} {key} {key:02x}\n" for table, key in KEYS) + "a commit\n"


def call(word, given, told):
    """The status of a call over a file, which puts into another, with its seconds and its peak memory in KiB."""
    with open(given, "rb") as lines, open(told, "wb") as put:
        start = time.monotonic()
        run = subprocess.Popen([PROGRAM, word], stdin=lines, stdout=put)
        _, ended, usage = os.wait4(run.pid, 0)
    return os.waitstatus_to_exitcode(ended), time.monotonic() - start, usage.ru_maxrss


def pairs(name):
    with open(name) as it:
        return [line for line in it if line.startswith("pair ")]


def ends_of(name):
    with open(name) as it:
        words = (line.split(" ", 2)[1].rstrip() for line in it if line[:1].isdigit())
        return collections.Counter(word for word in words if word in ENDS)


def said_by(tool, *words):
    """What a tool says of the script and its report, with the sessions at once."""
    ran = subprocess.run([sys.executable, os.path.join(TOOLS, tool), "--at-once", *words], stdout=subprocess.PIPE, text=True)
    return ran.stdout.strip() or f"bad: {tool} says nothing"


def tried(seed):
    """Runs a script in the working folder, prints its row, and answers whether all is good."""
    with open("load", "w") as it:
        it.write(load())
    script = script_of(seed)
    if len(script) > LIMIT:
        sys.exit(f"{TRANSACTIONS} transactions have {len(script)} bytes, and a script at most {LIMIT}")
    with open("script", "w") as it:
        it.write(script)
    call("run", "load", "loaded")
    status, seconds, kilobytes = call("threads", "script", "report")
    checked, log = said_by("check_report.py", "--exact", "script", "report", "loaded"), said_by("check_log.py", "script", "report")
    if not log.startswith("good"):
        checked = log
    call("recover", os.devnull, "recovered")
    if pairs("recovered") != pairs("report"):
        checked = "bad: the disk recovers to another map"
    ends = ends_of("report")
    print(f"{seed:6}", *(f"{ends[end]:9}" for end in ENDS), f"{seconds:9.2f} {kilobytes / 1024:9.1f} {status:7}  {checked}", flush=True)
    return status == 0 and checked.startswith("good")


print(f"{'script':>6}", *(f"{end:>9}" for end in ENDS), f"{'seconds':>9} {'MiB':>9} {'status':>7}  check")
bad = 0
for seed in range(FIRST, FIRST + COUNT):
    folder = tempfile.mkdtemp()
    os.chdir(folder)
    good = tried(seed)
    os.chdir("/")
    if good:
        shutil.rmtree(folder)
    else:
        print(f"{folder} has script and report", flush=True)
    bad += not good
print(f"{COUNT - bad} good, {bad} bad")
sys.exit(bad > 0)
PYTHON
