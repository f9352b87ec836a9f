#!/usr/bin/env bash
# Measures `erm threads` with 1, 2, 4 and 16 sessions, and prints a table in Markdown: transactions committed a second, and how many of all failed.
#   bench/threads.sh [PROGRAM [COUNT]]     PROGRAM is the launcher at the top, and COUNT, of transactions, is 100,000, unless others are given
# A transaction reads two keys and sets the first. The keys are of 64 that all sessions share (`shared`), or of 64 of each session's own (`disjoint`):
# in `erm` of a table of its own. Where commits are made durable, each client waits for the disk behind each 100th of its transactions, else only at the
# end. A transaction that fails isn't begun again. The keys are set before. The seconds of `erm` are those of the whole call, from the script to the
# report and the last flush.
# Where strace is installed, `erm, its sessions` has the seconds from the start of the first session's thread to the end of the last one, without the script
# and the report, which one thread reads and makes; one session stands beside another one there that has one line, so that it has a thread too.
# Beside it, where they are installed, the same reads and writes of the same keys are done by
#   postgres    SERIALIZABLE, a server of its own that ends with the table: pgbench with as many clients, and a process for each. A commit waits for
#               the disk only in each 100th transaction, drawn at random
#   sqlite      a file with a write-ahead log: as many processes of python3, which write one at a time, since there is one writer. A commit waits for
#               the disk only in each 100th transaction
set -eu
top=$(cd "$(dirname "$(readlink -f "${BASH_SOURCE[0]}")")/.." && pwd)
program=$(readlink -f "${1:-$top/erm}")
count=${2:-100000}
folder=$(mktemp -d)
server=$folder/server

cleanup() {
    if [ -f "$server/postmaster.pid" ]; then
        as_postgres pg_ctl -D "$server" -m immediate stop >/dev/null || true
    fi
    rm -rf "$folder"
}
trap cleanup EXIT

# Runs a command as a user that PostgreSQL starts for: it refuses root.
as_postgres() {
    if [ "$(id -u)" = 0 ]; then
        (cd "$folder" && runuser -u postgres -- "$@")
    else
        "$@"
    fi
}

# Starts a server of its own, on a socket in the folder alone.
start_postgres() {
    for word in initdb pg_ctl psql pgbench; do
        command -v "$word" >/dev/null || return 1
    done
    if [ "$(id -u)" = 0 ]; then
        id postgres >/dev/null 2>&1 || return 1
        chown postgres "$folder"
    fi
    as_postgres initdb -D "$server" -A trust -U postgres >/dev/null 2>&1 || return 1
    as_postgres pg_ctl -D "$server" -w -l "$folder/server.log" \
        -o "-c listen_addresses='' -c unix_socket_directories='$folder' -c synchronous_commit=off -c default_transaction_isolation=serializable" start >/dev/null || return 1
}

# Runs one kind with so many sessions, on keys of a kind, with a wait for the disk behind each so many transactions (0: never), and prints a row.
measure() {
    python3 - "$1" "$2" "$3" "$4" "$count" "$program" "$folder" <<'PYTHON'
import multiprocessing
import os
import random
import re
import subprocess
import sys
import tempfile
import time

kind, sessions, keys, each, count, program, folder = sys.argv[1:]
sessions, each, count = int(sessions), int(each), int(count)
KEYS = 64
SHARE = count // sessions
room = tempfile.mkdtemp(dir=folder)


def first_key(session):
    """The first of the keys of a session, where all stand in one table."""
    return KEYS * session if keys == "disjoint" else 0


def accesses(session):
    """The keys that each transaction of a session reads, of which it sets the first."""
    pick = random.Random(session)
    return [(pick.randrange(KEYS), pick.randrange(KEYS)) for _ in range(SHARE)]


def row(seconds, committed, failed):
    print(f"| {'erm, its sessions' if kind == 'alone' else kind} | {sessions} | {keys} | {'each 100th' if each else 'at the end'} | {committed / seconds:,.0f} | {failed:,} of {SHARE * sessions:,} |", flush=True)


def lines_of(session):
    """The lines of a session of `erm`."""
    table = session if keys == "disjoint" else 0
    for number, (first, second) in enumerate(accesses(session), 1):
        yield from ("begin", f"get {table} {first}", f"get {table} {second}", f"put {table} {first} {number:016x}", "commit")
        if each and number % each == 0:
            yield "durable"


def erm_load():
    for table in range(sessions if keys == "disjoint" else 1):
        for low in range(0, KEYS, 32):
            yield from ("a begin", *(f"a put {table} {key} -" for key in range(low, low + 32)), "a commit")


TRACE = ["strace", "-f", "-qq", "--seccomp-bpf", "-ttt", "-e", "trace=clone,clone3,exit", "-o"]


def erm_call(word, lines, before=()):
    """The seconds of a call, behind these words, and what it tells."""
    with open(os.path.join(room, "script"), "w") as it:
        it.writelines(line + "\n" for line in lines)
    with open(os.path.join(room, "script"), "rb") as given, open(os.path.join(room, "report"), "wb") as put:
        start = time.monotonic()
        status = subprocess.run([*before, program, word], stdin=given, stdout=put, cwd=room).returncode
        seconds = time.monotonic() - start
    if status != 0:
        sys.exit(f"erm {word}: status {status}")
    return seconds, os.path.join(room, "report")


def seconds_between(trace):
    """The seconds from the start of the first thread to the end of the last."""
    with open(trace) as it:
        steps = [line.split(None, 2) for line in it]
    starts = [float(time) for _, time, step in steps if step.startswith("clone")]
    ends = [float(time) for _, time, step in steps if step.startswith("exit(")]
    return max(ends) - min(starts)


def erm_sessions(traced):
    """Loads the keys and runs the sessions; the seconds are those of the sessions alone where they are traced, else those of the call."""
    erm_call("run", erm_load())
    parts = [list(lines_of(session)) for session in range(sessions)]
    turns = [f"s{session} {line}" for lines in zip(*parts) for session, line in enumerate(lines)]
    trace = os.path.join(room, "trace")
    beside = ["beside abort"] if traced and sessions == 1 else []
    seconds, report = erm_call("threads", turns + beside, [*TRACE, trace] if traced else [])
    with open(report) as it:
        ends = [line.split(" ", 2)[1] for line in it if line[:1].isdigit()]
    committed = sum(end == "committed" for end in ends)
    row(seconds_between(trace) if traced else seconds, committed, SHARE * sessions - committed)


def erm():
    erm_sessions(False)


def alone():
    erm_sessions(True)


def connection():
    import sqlite3

    base = sqlite3.connect(os.path.join(room, "base"), timeout=600, isolation_level=None)
    base.execute("pragma journal_mode = wal")
    base.execute("pragma synchronous = normal")
    return base


def sqlite_client(session, gate):
    base, low = connection(), first_key(session)
    gate.wait()
    for number, (first, second) in enumerate(accesses(session), 1):
        waits = each and number % each == 0
        if waits:
            base.execute("pragma synchronous = full")
        base.execute("begin immediate")
        for key in (first, second):
            base.execute("select value from pairs where key = ?", (low + key,)).fetchone()
        base.execute("update pairs set value = ? where key = ?", (number.to_bytes(8, "big"), low + first))
        base.execute("commit")
        if waits:
            base.execute("pragma synchronous = normal")


def sqlite():
    base = connection()
    base.execute("create table pairs (key integer primary key, value blob not null)")
    base.execute("begin")
    base.executemany("insert into pairs values (?, x'')", [(key,) for key in range(KEYS * sessions)])
    base.execute("commit")
    base.close()
    gate = multiprocessing.Barrier(sessions + 1)
    clients = [multiprocessing.Process(target=sqlite_client, args=(session, gate)) for session in range(sessions)]
    for client in clients:
        client.start()
    gate.wait()
    start = time.monotonic()
    for client in clients:
        client.join()
    seconds = time.monotonic() - start
    if any(client.exitcode for client in clients):
        sys.exit("sqlite: a client failed")
    row(seconds, SHARE * sessions, 0)


def sql(text):
    words = ["psql", "-X", "-q", "-h", folder, "-U", "postgres", "-c", text]
    subprocess.run(words, check=True, stdout=subprocess.DEVNULL, stderr=subprocess.DEVNULL)


def sql_file(name, waits):
    """A script of pgbench, with the number of times that it is drawn among a hundred."""
    low = f":client_id * {KEYS}" if keys == "disjoint" else "0"
    lines = [
        f"\\set first {low} + random(0, {KEYS - 1})",
        f"\\set second {low} + random(0, {KEYS - 1})",
        "begin;",
        *(["set local synchronous_commit = on;"] if waits else []),
        "select value from pairs where key = :first;",
        "select value from pairs where key = :second;",
        "update pairs set value = decode(lpad(to_hex(:second), 16, '0'), 'hex') where key = :first;",
        "commit;",
    ]
    path = os.path.join(room, name)
    with open(path, "w") as it:
        it.writelines(line + "\n" for line in lines)
    return path


def postgres():
    sql("drop table if exists pairs")
    sql("create table pairs (key bigint primary key, value bytea not null)")
    sql(f"insert into pairs select key, '' from generate_series(0, {KEYS * sessions - 1}) as key")
    drawn = [f"{sql_file('plain', False)}@{100 - (1 if each else 0)}"] + ([f"{sql_file('waits', True)}@1"] if each else [])
    words = ["pgbench", "-n", "-h", folder, "-U", "postgres", "-c", str(sessions), "-j", str(sessions), "-t", str(SHARE)]
    words += [word for file in drawn for word in ("-f", file)]
    start = time.monotonic()
    said = subprocess.run([*words, "postgres"], check=True, stdout=subprocess.PIPE, stderr=subprocess.DEVNULL, text=True).stdout
    seconds = time.monotonic() - start
    failed = re.search(r"failed transactions: (\d+)", said)
    failed = int(failed[1]) if failed else 0
    row(seconds, SHARE * sessions - failed, failed)


{"erm": erm, "alone": alone, "sqlite": sqlite, "postgres": postgres}[kind]()
PYTHON
}

# The program is built before anything is measured: without words it does nothing else.
"$program" </dev/null >/dev/null || [ $? = 2 ] || { echo "$program can't be run: nothing is measured" >&2; exit 1; }
kinds="erm"
if command -v strace >/dev/null; then kinds="$kinds alone"; else echo "the sessions alone are skipped: strace isn't installed"; fi
if start_postgres; then kinds="$kinds postgres"; else echo "postgres is skipped: not installed, or it didn't start"; fi
if python3 -c 'import sqlite3' 2>/dev/null; then kinds="$kinds sqlite"; else echo "sqlite is skipped: not installed"; fi
echo "| System | Sessions | Keys | On the disk | Committed a second | Failed |"
echo "|---|---|---|---|---|---|"
for keys in disjoint shared; do
    for each in 0 100; do
        for sessions in 1 2 4 16; do
            for kind in $kinds; do
                measure "$kind" "$sessions" "$keys" "$each"
            done
        done
    done
done
