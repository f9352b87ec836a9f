#!/usr/bin/env bash
# Two runs, whose log is shipped and followed. It runs in a folder of its own, which it removes at the end.
#   examples/stream.sh [PROGRAM]     PROGRAM is the launcher at the top, unless another is given
set -u
examples=$(cd "$(dirname "$(readlink -f "${BASH_SOURCE[0]}")")" && pwd)
program=$(readlink -f "${1:-$examples/../erm}")
folder=$(mktemp -d) && cd "$folder" || exit 1
trap 'rm -rf "$folder"' EXIT

# Runs the program without a script; what it prints may go through a pipe.
erm() { "$program" "$@"; }

# Shows a command, and runs it.
show() { echo "\$ $1"; eval "$1" </dev/null; }

# Shows and runs a script of the examples.
run() { echo "\$ erm run < $1"; "$program" run <"$examples/$1"; }

# Twice the same script: the commits of the first run are below the safe stamp at which the second run opened.
run late_readers.erm
run late_readers.erm
show 'erm ship | wc -c'
show 'erm ship | erm follow'
# A stream that ends in the middle of its last block: this block isn't there yet.
show 'erm ship | head -c -8 | erm follow'
# Where another run has opened, all commits before it are due, in the order in which an audit tells them.
run empty.erm
show 'erm ship | erm follow'
show 'erm audit | grep commit'
# A checkpoint is what a stream begins with, and of the commits before it nothing is told.
show 'erm checkpoint'
show 'erm ship | wc -c'
show 'erm ship | erm follow'
# What is no stream.
show 'erm recover | erm follow'
