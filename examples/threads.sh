#!/usr/bin/env bash
# Sessions at once, each on a thread of its own. It runs in a folder of its own, which it removes at the end.
#   examples/threads.sh [PROGRAM]     PROGRAM is the launcher at the top, unless another is given
set -u
examples=$(cd "$(dirname "$(readlink -f "${BASH_SOURCE[0]}")")" && pwd)
program=$(readlink -f "${1:-$examples/../erm}")
folder=$(mktemp -d) && cd "$folder" || exit 1
trap 'rm -rf "$folder"' EXIT

# Runs the program without a script; what it prints may go through a pipe.
erm() { "$program" "$@"; }

# Shows a command, and runs it.
show() { echo "\$ $1"; eval "$1"; }

# Two tills, each of which writes in a table of its own: whichever is first, both commit, and both commits last.
cat >tills.erm <<'SCRIPT'
ann begin
bob begin
ann put 0 1 01
bob put 1 1 02
ann commit
bob commit
ann durable
bob durable
SCRIPT
show 'cat tills.erm'
# The stamps depend on which till is first, so here are the answers without them.
show 'erm threads < tills.erm >report; grep -oE "^[0-9]+ [a-z]+" report'
show 'erm recover </dev/null'
# A line of no session is nobody's.
show 'echo flush | erm threads'
