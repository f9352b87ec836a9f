#!/usr/bin/env bash
# A checkpoint, and audits of the log before and behind it. It runs in a folder of its own, which it removes at the end.
#   examples/checkpoint.sh [PROGRAM]     PROGRAM is the launcher at the top, unless another is given
set -u
examples=$(cd "$(dirname "$(readlink -f "${BASH_SOURCE[0]}")")" && pwd)
program=$(readlink -f "${1:-$examples/../erm}")
folder=$(mktemp -d) && cd "$folder" || exit 1
trap 'rm -rf "$folder"' EXIT

# Shows the words of a command, and runs it.
erm() { echo "\$ erm $*"; "$program" "$@" </dev/null; }

# Shows and runs a script of the examples.
run() { echo "\$ erm run < $1"; "$program" run <"$examples/$1"; }

# The commits of a run stand in the log, and an audit lists them in the serial order.
run order.erm
erm audit
# A checkpoint writes the map, and recovery begins there: the commits before it are no longer told, their effect is.
erm checkpoint
erm audit
# What follows stands in the log behind the checkpoint.
run first.erm
erm audit
erm recover
