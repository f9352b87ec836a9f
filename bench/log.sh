#!/usr/bin/env bash
# Measures `erm` over a disk: runs that flush, and what follows on the log that they leave. It prints a table of seconds, peak memory,
# and how many bytes of log and of checkpoints the folder has then.
#   bench/log.sh [PROGRAM]      PROGRAM is the launcher at the top, unless another is given
# A run is of one session, whose transactions put one of 5,000 keys each, and flushes after each transaction (`run-1`), each 64th
# (`run-64`) or each 1,024th (`run-1024`; the log has room for 32,768 words that aren't flushed). On the folder that a run left come,
# one after the other:
#   recover      the state behind the whole log
#   audit        the commits of the whole log
#   run-none     a run of an empty script, which recovers, and opens the log
#   checkpoint   the same, and a checkpoint behind it
#   recovered    the state from the checkpoint
# The kind `run-saves` flushes after each 64th transaction too and takes a checkpoint after each 1,024th. The last, `fill`, puts new keys
# until no object is left; then come a checkpoint of all 16,384 rows, recovery from it, a run of 100,000 transactions over those keys
# (`run-full`), and recovery of both the checkpoint and that log.
set -eu
top=$(cd "$(dirname "$(readlink -f "${BASH_SOURCE[0]}")")/.." && pwd)
program=$(readlink -f "${1:-$top/erm}")
folder=$(mktemp -d)
trap 'rm -rf "$folder"' EXIT

# Writes a script of so many transactions over so many keys, with a flush and a checkpoint after each so many; 0 is never. With no key
# each transaction puts sixteen new ones. The same arguments give the same bytes.
make_script() {
    python3 - "$@" <<'PYTHON'
import random
import sys

LIMIT = 16_777_216
count, keys, flushes, checkpoints = map(int, sys.argv[1:])
pick = random.Random(count)


def puts(number):
    if keys:
        return [pick.randrange(keys)]
    return range(16 * number, 16 * number + 16)


def transactions():
    for number in range(1, count + 1):
        yield "a begin"
        for key in puts(number):
            yield f"a put 0 {key} {number:08x}"
        yield "a commit"
        if flushes and number % flushes == 0:
            yield "flush"
        if checkpoints and number % checkpoints == 0:
            yield "checkpoint"


size = 0
for line in transactions():
    size += len(line) + 1
    print(line)
if size > LIMIT:
    sys.exit(f"{count} transactions have {size} bytes, and a script at most {LIMIT}")
PYTHON
}

# Calls the program with a word over a script in a disk's folder, and prints a row under a name.
measure() {
    python3 - "$program" "$@" <<'PYTHON'
import os
import subprocess
import sys
import time

program, name, count, word, script, disk = sys.argv[1:]
with open(script, "rb") as lines, open(os.devnull, "wb") as put:
    start = time.monotonic()
    run = subprocess.Popen([program, word], stdin=lines, stdout=put, cwd=disk)
    _, ended, usage = os.wait4(run.pid, 0)
    seconds = time.monotonic() - start
status = os.waitstatus_to_exitcode(ended)
sizes = {"log": 0, "slo": 0}
files = os.path.join(disk, "erm-data")
for file in os.listdir(files) if os.path.isdir(files) else []:
    sizes[file[:3]] += os.path.getsize(os.path.join(files, file))
kilobytes = usage.ru_maxrss / 1024
print(f"{name:11} {int(count):12} {seconds:9.2f} {kilobytes:9.1f} {status:7} {sizes['log']:10} {sizes['slo']:11}", flush=True)
PYTHON
}

# Runs a script of so many transactions over so many keys that flushes and saves after each so many, in a new folder.
run_script() {
    name=$1
    count=$2
    disk=$folder/$name$count
    mkdir "$disk"
    make_script "$count" "$3" "$4" "$5" >"$folder/script"
    measure "$name" "$count" run "$folder/script" "$disk"
}

# What follows on the folder of the run before.
follow() {
    for name; do
        case $name in run-none) word=run ;; recovered) word=recover ;; *) word=$name ;; esac
        measure "$name" "$count" "$word" /dev/null "$disk"
    done
}

# The program is built before anything is measured: without words it does nothing else.
"$program" </dev/null >/dev/null || [ $? = 2 ] || { echo "$program can't be run: nothing is measured" >&2; exit 1; }
printf '%-11s %12s %9s %9s %7s %10s %11s\n' kind transactions seconds MiB status log checkpoints
for count in 1000 10000; do
    run_script run-1 "$count" 5000 1 0
done
for count in 1000 10000 100000; do
    run_script run-64 "$count" 5000 64 0
    follow recover audit run-none checkpoint recovered
done
for count in 10000 100000; do
    run_script run-1024 "$count" 5000 1024 0
done
for count in 1000 10000 100000; do
    run_script run-saves "$count" 5000 64 1024
done
run_script fill 6000 0 64 0
follow recover checkpoint recovered
count=100000
make_script "$count" 12000 64 0 >"$folder/script"
measure run-full "$count" run "$folder/script" "$disk"
follow recover
