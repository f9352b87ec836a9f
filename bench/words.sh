#!/usr/bin/env bash
# Measures a session on the words that threads share, without a tree, a script or a disk, on 10^4, 10^5 and 10^6 transactions, and prints a table of
# seconds, transactions a second and peak memory.
#   bench/words.sh [PROGRAM]     PROGRAM is that of crates/erm_session_bench, built and proved at first use, unless another is given
# Each transaction begins, reads two objects, writes one of them, seals and settles; with a flush turn, without a disk, for each hundred.
set -eu
top=$(cd "$(dirname "$(readlink -f "${BASH_SOURCE[0]}")")/.." && pwd)
program=${1:-}
if [ -z "$program" ]; then
    folder=$top/crates/erm_session_bench
    program=$folder/out/erm_session_bench
    (cd "$folder" && rt run -- 0 >/dev/null 2>&1) || { echo "$program wasn't built: 'rt run -- 0' in $folder says why" >&2; exit 1; }
fi
[ -x "$program" ] || { echo "$program can't be run: nothing is measured" >&2; exit 1; }
python3 - "$(readlink -f "$program")" <<'PYTHON'
import os
import subprocess
import sys
import time

print(f"{'transactions':>12} {'commits':>9} {'seconds':>9} {'a second':>9} {'MiB':>9}")
for count in (10_000, 100_000, 1_000_000):
    start = time.monotonic()
    run = subprocess.Popen([sys.argv[1], str(count)], stdout=subprocess.PIPE, text=True)
    said = run.stdout.read().split()
    _, ended, usage = os.wait4(run.pid, 0)
    seconds = time.monotonic() - start
    if os.waitstatus_to_exitcode(ended) != 0:
        sys.exit(f"{count} transactions: the program failed")
    rate = round(count / seconds)
    print(f"{said[0]:>12} {said[2]:>9} {seconds:9.2f} {rate:>9} {usage.ru_maxrss / 1024:9.1f}", flush=True)
PYTHON
