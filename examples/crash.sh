#!/usr/bin/env bash
# A crash in the middle of the log, and the recovery. It runs in a folder of its own, which it removes at the end.
#   examples/crash.sh [PROGRAM]     PROGRAM is the launcher at the top, unless another is given
set -u
examples=$(cd "$(dirname "$(readlink -f "${BASH_SOURCE[0]}")")" && pwd)
program=$(readlink -f "${1:-$examples/../erm}")
folder=$(mktemp -d) && cd "$folder" || exit 1
trap 'rm -rf "$folder"' EXIT

# Shows the words of a command, and runs it.
erm() { echo "\$ erm $*"; "$program" "$@" </dev/null; }

# Shows and runs a script of the examples.
run() { echo "\$ erm run < $1"; "$program" run <"$examples/$1"; }

# A teller pays in, which is flushed, and pays out; the program ends, and so the whole log is on the disk.
run durable.erm
erm recover
# A crash cuts off the end of the last block: the payout is gone whole, and what was durable is there.
echo '$ truncate -s -8 erm-data/log0000000000000000'
truncate -s -8 erm-data/log0000000000000000
erm recover
erm audit
# The next run goes on from there, as run 2.
run first.erm
erm recover
