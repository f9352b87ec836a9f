#!/usr/bin/env bash
# Measures `erm make` with 16 sessions on 10^3, 10^4 and 10^5 transactions, and prints a table of seconds, peak memory, and how many of
# the transactions, the sixteen that load among them, committed and didn't.
#   bench/make.sh [PROGRAM]     PROGRAM is the launcher at the top, unless another is given
# Beside it, where they are installed, these do the same reads and writes of the same keys:
#   sqlite      in memory: one connection, each transaction whole before the next, since a connection has one at a time
#   postgres    SERIALIZABLE, a server of its own that ends with the table: one connection for each session, all at once; a commit doesn't
#               wait for the disk, as `erm` flushes after each 64th batch. Memory isn't measured, since it has several processes
# Neither runs the lines in the order in which `erm` does, so their numbers of failed transactions can't be compared with its own.
set -eu
top=$(cd "$(dirname "$(readlink -f "${BASH_SOURCE[0]}")")/.." && pwd)
program=$(readlink -f "${1:-$top/erm}")
folder=$(mktemp -d)
server=$folder/server

cleanup() {
    if [ -f "$server/postmaster.pid" ]; then
        as_postgres pg_ctl -D "$server" -m immediate stop >/dev/null || true
    fi
    rm -rf "$folder"
}
trap cleanup EXIT

# Runs a command as a user that PostgreSQL starts for: it refuses root.
as_postgres() {
    if [ "$(id -u)" = 0 ]; then
        (cd "$folder" && runuser -u postgres -- "$@")
    else
        "$@"
    fi
}

# Starts a server of its own, on a socket in the folder alone.
start_postgres() {
    for word in initdb pg_ctl psql; do
        command -v "$word" >/dev/null || return 1
    done
    if [ "$(id -u)" = 0 ]; then
        id postgres >/dev/null 2>&1 || return 1
        chown postgres "$folder"
    fi
    as_postgres initdb -D "$server" -A trust -U postgres >/dev/null 2>&1 || return 1
    as_postgres pg_ctl -D "$server" -w -l "$folder/server.log" \
        -o "-c listen_addresses='' -c unix_socket_directories='$folder' -c synchronous_commit=off" start >/dev/null || return 1
}

# Runs one kind with so many transactions, and prints a row.
measure() {
    python3 - "$1" "$2" "$program" "$folder" <<'PYTHON'
import os
import subprocess
import sys
import time

SESSIONS = 16
LOADS = 16
kind, count, program, folder = sys.argv[1], int(sys.argv[2]), sys.argv[3], sys.argv[4]


def draws():
    x = 1
    while True:
        x = (x * 1103515245 + 12345) % 2**31
        yield x // 65536 % 64


def accesses():
    """The keys that each transaction reads, of which it writes the first."""
    keys = draws()
    return [(next(keys), next(keys)) for _ in range(count)]


def row(seconds, kilobytes, committed, failed):
    peak = f"{kilobytes / 1024:9.1f}" if kilobytes else f"{'-':>9}"
    print(f"{kind:9} {count:9} {seconds:9.2f} {peak} {committed:9} {failed:9}", flush=True)


def erm():
    disk = os.path.join(folder, f"disk{count}")
    os.mkdir(disk)
    start = time.monotonic()
    words = [program, "make", "--count", str(count), "--sessions", str(SESSIONS)]
    run = subprocess.Popen(words, stdout=subprocess.PIPE, text=True, cwd=disk)
    said = run.stdout.read().splitlines()
    _, ended, usage = os.wait4(run.pid, 0)
    seconds = time.monotonic() - start
    if os.waitstatus_to_exitcode(ended) != 0:
        sys.exit(f"erm make --count {count}: status {os.waitstatus_to_exitcode(ended)}, {' '.join(said[:1])}")
    told = dict(line.split()[:2] for line in said if " " in line)
    row(seconds, usage.ru_maxrss, int(told["committed"]), int(told["excluded"]) + int(told["owned"]))


def sqlite():
    import resource
    import sqlite3

    work = accesses()
    start = time.monotonic()
    base = sqlite3.connect(":memory:", isolation_level=None)
    base.execute("create table pairs (key integer primary key, value blob not null)")
    for load in range(LOADS):
        base.execute("begin")
        base.executemany("insert into pairs values (?, x'')", [(4 * load + place,) for place in range(4)])
        base.execute("commit")
    for number, (first, second) in enumerate(work):
        base.execute("begin")
        for key in (first, second):
            base.execute("select value from pairs where key = ?", (key,)).fetchone()
        base.execute("update pairs set value = ? where key = ?", (number.to_bytes(8, "big"), first))
        base.execute("commit")
    seconds = time.monotonic() - start
    row(seconds, resource.getrusage(resource.RUSAGE_SELF).ru_maxrss, LOADS + count, 0)


def psql(lines):
    """A client that is given these lines in a file, with what it says in another."""
    number = len(os.listdir(folder))
    with open(os.path.join(folder, f"{number}.sql"), "w+") as given, open(os.path.join(folder, f"{number}.said"), "w+") as said:
        given.writelines(line + ";\n" for line in lines)
        given.seek(0)
        words = ["psql", "-X", "-q", "-t", "-h", folder, "-U", "postgres"]
        return subprocess.Popen(words, stdin=given, stdout=subprocess.DEVNULL, stderr=said), said.name


def failures(clients):
    failed = 0
    for client, said in clients:
        client.wait()
        with open(said) as text:
            failed += sum("could not serialize" in line or "deadlock detected" in line for line in text)
    return failed


def postgres():
    lines = [["set default_transaction_isolation to serializable"] for _ in range(SESSIONS)]
    for number, (first, second) in enumerate(accesses()):
        lines[number % SESSIONS] += [
            "begin",
            *(f"select value from pairs where key = {key}" for key in (first, second)),
            f"update pairs set value = '\\x{number:016x}' where key = {first}",
            "commit",
        ]
    failures([psql(["drop table if exists pairs", "create table pairs (key bigint primary key, value bytea not null)"])])
    start = time.monotonic()
    load = ["set default_transaction_isolation to serializable"]
    for first in range(0, 4 * LOADS, 4):
        load += ["begin", *(f"insert into pairs values ({first + place}, '')" for place in range(4)), "commit"]
    failed = failures([psql(load)])
    failed += failures([psql(its) for its in lines])
    row(time.monotonic() - start, 0, LOADS + count - failed, failed)


{"erm": erm, "sqlite": sqlite, "postgres": postgres}[kind]()
PYTHON
}

# The program is built before anything is measured: without words it does nothing else.
"$program" </dev/null >/dev/null || [ $? = 2 ] || { echo "$program can't be run: nothing is measured" >&2; exit 1; }
kinds="erm"
if python3 -c 'import sqlite3' 2>/dev/null; then kinds="$kinds sqlite"; else echo "sqlite is skipped: not installed"; fi
if start_postgres; then kinds="$kinds postgres"; else echo "postgres is skipped: not installed, or it didn't start"; fi
printf '%-9s %9s %9s %9s %9s %9s\n' kind count seconds MiB committed failed
for count in 1000 10000 100000; do
    for kind in $kinds; do
        measure "$kind" "$count"
    done
done
