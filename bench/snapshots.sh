#!/usr/bin/env bash
# Measures short writes beside snapshots that read all keys, and prints a table in Markdown: writes committed a second, until the last writer ends, and how
# many of all failed; how many snapshots read all keys, each as one state of the map, of how many that began, and the seconds until the last one ended.
#   bench/snapshots.sh [PROGRAM [COUNT]]     PROGRAM is the launcher at the top, and COUNT, of writes, is 30,000, unless others are given
# Three clients put one of 10,000 keys in each transaction, and a fourth one takes ten snapshots, one after another, or none: the rows without are what the
# writes cost alone. What fails isn't begun again. No commit waits for the disk.
#   erm         `erm threads`: the snapshot is begun by `safe`, which waits until it is safe, and reads by `get`, a line for each key. The seconds are those
#               of the sessions' threads, by strace: one session with one line stands beside them, which the thread that starts all others runs
#   postgres    SERIALIZABLE, and READ ONLY DEFERRABLE for a snapshot, which waits likewise and reads all keys by one query; a server of its own that ends
#               with the table
#   sqlite      a file with a write-ahead log, as many processes of python3, one of which writes at a time; a snapshot reads all keys by one query
set -eu
top=$(cd "$(dirname "$(readlink -f "${BASH_SOURCE[0]}")")/.." && pwd)
program=$(readlink -f "${1:-$top/erm}")
count=${2:-30000}
folder=$(mktemp -d)
server=$folder/server

cleanup() {
    if [ -f "$server/postmaster.pid" ]; then
        as_postgres pg_ctl -D "$server" -m immediate stop >/dev/null || true
    fi
    rm -rf "$folder"
}
trap cleanup EXIT

# Runs a command as a user that PostgreSQL starts for: it refuses root.
as_postgres() {
    if [ "$(id -u)" = 0 ]; then
        (cd "$folder" && runuser -u postgres -- "$@")
    else
        "$@"
    fi
}

# Starts a server of its own, on a socket in the folder alone.
start_postgres() {
    for word in initdb pg_ctl psql pgbench; do
        command -v "$word" >/dev/null || return 1
    done
    if [ "$(id -u)" = 0 ]; then
        id postgres >/dev/null 2>&1 || return 1
        chown postgres "$folder"
    fi
    as_postgres initdb -D "$server" -A trust -U postgres >/dev/null 2>&1 || return 1
    as_postgres pg_ctl -D "$server" -w -l "$folder/server.log" \
        -o "-c listen_addresses='' -c unix_socket_directories='$folder' -c synchronous_commit=off -c default_transaction_isolation=serializable" start >/dev/null || return 1
}

# Runs one kind with so many snapshots, and prints a row.
measure() {
    python3 - "$1" "$2" "$count" "$program" "$folder" <<'PYTHON'
import multiprocessing
import os
import random
import re
import subprocess
import sys
import tempfile
import time

kind, snapshots, count, program, folder = sys.argv[1:]
snapshots, count = int(snapshots), int(count)
KEYS, WRITERS = 10_000, 3
SHARE = count // WRITERS
room = tempfile.mkdtemp(dir=folder)


def keys_of(writer):
    """The keys that a writer's transactions put."""
    pick = random.Random(writer)
    return [pick.randrange(KEYS) for _ in range(SHARE)]


def row(writing, committed, reading, whole):
    shown = f"{whole} of {snapshots} | {reading:.2f}" if snapshots else "none | -"
    print(f"| {kind} | {committed / writing:,.0f} | {SHARE * WRITERS - committed:,} of {SHARE * WRITERS:,} | {shown} |", flush=True)


def writer_lines(writer):
    for number, key in enumerate(keys_of(writer), 1):
        yield from (f"w{writer} begin", f"w{writer} put 0 {key} {number:016x}", f"w{writer} commit")


def reader_lines():
    for _ in range(snapshots):
        yield "r safe"
        yield from (f"r get 0 {key}" for key in range(KEYS))
        yield "r commit"


def erm_load():
    for low in range(0, KEYS, 32):
        yield from ("a begin", *(f"a put 0 {key} -" for key in range(low, min(low + 32, KEYS))), "a commit", "flush")


TRACE = ["strace", "-f", "-qq", "--seccomp-bpf", "-ttt", "-e", "trace=clone,clone3,exit", "-o"]


def erm_call(word, lines, before=()):
    with open(os.path.join(room, "script"), "w") as it:
        it.writelines(line + "\n" for line in lines)
    with open(os.path.join(room, "script"), "rb") as given, open(os.path.join(room, "report"), "wb") as put:
        status = subprocess.run([*before, program, word], stdin=given, stdout=put, cwd=room).returncode
    if status != 0:
        sys.exit(f"erm {word}: status {status}")


def seconds_of(trace):
    """The seconds until the last writer's thread ends, and until the reader's does: threads begin in the order of their sessions."""
    with open(trace) as it:
        steps = [line.split(None, 2) for line in it]
    clones = [(float(time), step.rsplit(" ", 1)[1].strip()) for _, time, step in steps if step.startswith("clone")]
    ends = {thread: float(time) for thread, time, step in steps if step.startswith("exit(")}
    lives = [ends[thread] - clones[0][0] for _, thread in clones]
    return max(lives[:WRITERS]), lives[-1]


def erm():
    erm_call("run", erm_load())
    lines = [line for writer in range(WRITERS) for line in writer_lines(writer)] + list(reader_lines()) + ["beside abort"]
    trace = os.path.join(room, "trace")
    erm_call("threads", lines, [*TRACE, trace])
    with open(os.path.join(room, "report")) as it:
        ends = [line.split()[1] for line in it if line[:1].isdigit()]
    writing, reading = seconds_of(trace)
    row(writing, ends.count("committed"), reading, ends.count("safe"))


def connection():
    import sqlite3

    base = sqlite3.connect(os.path.join(room, "base"), timeout=600, isolation_level=None)
    base.execute("pragma journal_mode = wal")
    base.execute("pragma synchronous = normal")
    return base


def sqlite_writer(writer, gate, times):
    base = connection()
    gate.wait()
    start = time.monotonic()
    for number, key in enumerate(keys_of(writer), 1):
        base.execute("begin immediate")
        base.execute("update pairs set value = ? where key = ?", (number.to_bytes(8, "big"), key))
        base.execute("commit")
    times.put(("writing", time.monotonic() - start))


def sqlite_reader(gate, times):
    base = connection()
    gate.wait()
    start = time.monotonic()
    for _ in range(snapshots):
        base.execute("begin")
        base.execute("select key, value from pairs order by key").fetchall()
        base.execute("commit")
    times.put(("reading", time.monotonic() - start))


def clients(works):
    """Runs these functions in processes of their own, which begin together; the most seconds that each kind of them took."""
    gate, times = multiprocessing.Barrier(len(works)), multiprocessing.Queue()
    works = [multiprocessing.Process(target=work, args=(*given, gate, times)) for work, given in works]
    for work in works:
        work.start()
    told = [times.get() for _ in works]
    for work in works:
        work.join()
    return {kind: max(seconds for told_kind, seconds in told if told_kind == kind) for kind, _ in told}


def sqlite():
    base = connection()
    base.execute("create table pairs (key integer primary key, value blob not null)")
    base.execute("begin")
    base.executemany("insert into pairs values (?, x'')", [(key,) for key in range(KEYS)])
    base.execute("commit")
    base.close()
    reader = [(sqlite_reader, ())] if snapshots else []
    told = clients([(sqlite_writer, (writer,)) for writer in range(WRITERS)] + reader)
    row(told["writing"], SHARE * WRITERS, told.get("reading"), snapshots)


def psql(*words):
    return subprocess.run(["psql", "-X", "-q", "-h", folder, "-U", "postgres", *words], check=True, stdout=subprocess.DEVNULL, stderr=subprocess.DEVNULL)


def sql_file(name, lines):
    path = os.path.join(room, name)
    with open(path, "w") as it:
        it.writelines(line + "\n" for line in lines)
    return path


def postgres():
    psql("-c", "drop table if exists pairs")
    psql("-c", "create table pairs (key bigint primary key, value bytea not null)")
    psql("-c", f"insert into pairs select key, '' from generate_series(0, {KEYS - 1}) as key")
    lines = [f"\\set key random(0, {KEYS - 1})", "begin;", "update pairs set value = decode(lpad(to_hex(:key), 16, '0'), 'hex') where key = :key;", "commit;"]
    writers = ["pgbench", "-n", "-h", folder, "-U", "postgres", "-c", str(WRITERS), "-j", str(WRITERS), "-t", str(SHARE), "-f", sql_file("write", lines), "postgres"]
    look = ["begin isolation level serializable read only deferrable;", "select key, value from pairs order by key;", "commit;"]
    looks = ["psql", "-X", "-q", "-h", folder, "-U", "postgres", "-f", sql_file("look", look * snapshots)]
    start = time.monotonic()
    reader = subprocess.Popen(looks, stdout=subprocess.DEVNULL, stderr=subprocess.DEVNULL) if snapshots else None
    said = subprocess.run(writers, check=True, stdout=subprocess.PIPE, stderr=subprocess.DEVNULL, text=True).stdout
    writing = time.monotonic() - start
    if reader and reader.wait():
        sys.exit("postgres: the reader failed")
    failed = re.search(r"failed transactions: (\d+)", said)
    row(writing, SHARE * WRITERS - (int(failed[1]) if failed else 0), time.monotonic() - start, snapshots)


{"erm": erm, "sqlite": sqlite, "postgres": postgres}[kind]()
PYTHON
}

# The program is built before anything is measured: without words it does nothing else.
"$program" </dev/null >/dev/null || [ $? = 2 ] || { echo "$program can't be run: nothing is measured" >&2; exit 1; }
kinds=""
if command -v strace >/dev/null; then kinds="erm"; else echo "erm is skipped: strace isn't installed"; fi
if start_postgres; then kinds="$kinds postgres"; else echo "postgres is skipped: not installed, or it didn't start"; fi
if python3 -c 'import sqlite3' 2>/dev/null; then kinds="$kinds sqlite"; else echo "sqlite is skipped: not installed"; fi
echo "| System | Writes a second | Failed | Snapshots | Their seconds |"
echo "|---|---|---|---|---|"
for snapshots in 0 10; do
    for kind in $kinds; do
        measure "$kind" "$snapshots"
    done
done
