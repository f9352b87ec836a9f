#!/usr/bin/env bash
# Audits of ten thousand accounts, beside sessions that move money: each audit is a snapshot that only reads, and none is refused. It runs in a folder of
# its own, which it removes at the end.
#   examples/audits.sh [PROGRAM]     PROGRAM is the launcher at the top, unless another is given
#   KEPT=FOLDER examples/audits.sh ..   leaves the script in turn and its report there, as turns.erm and turns.out: docs/runs/audits.svg is their picture
set -u
examples=$(cd "$(dirname "$(readlink -f "${BASH_SOURCE[0]}")")" && pwd)
program=$(readlink -f "${1:-$examples/../erm}")
folder=$(mktemp -d) && cd "$folder" || exit 1
trap 'rm -rf "$folder"' EXIT

# Runs the program without a script; what it prints may go through a pipe.
erm() { "$program" "$@"; }

# Shows a command, and runs it.
show() { echo "\$ $1"; eval "$1"; }

# Prints what opens ten thousand accounts, each with 100 (64 in base sixteen), fifty in each transaction.
accounts() {
    awk 'BEGIN { for (key = 0; key < 10000; key++) {
        if (key % 50 == 0) print "bank begin"
        print "bank put 0 " key " 64"
        if (key % 50 == 49) print "bank commit"
        if (key % 1000 == 999) print "flush"
    } }'
}

# Prints a session's transfers: each moves 1 from an account to the next one, and asks for both balances first.
transfers() {
    awk -v name="$1" -v first="$2" 'BEGIN { for (key = first; key < first + 2000; key += 2) {
        print name " begin"
        print name " get 0 " key
        print name " get 0 " key + 1
        print name " put 0 " key " 63"
        print name " put 0 " key + 1 " 65"
        print name " commit"
    } }'
}

# Prints three audits, one after another.
audits() {
    for audit in 1 2 3; do printf 'audit safe\naudit scan 0 0 9999\naudit commit\n'; done
}

# Prints how many pairs each scan of a report has, and the sum of their values.
totals() {
    awk '$2 == "pairs" { sum = 0; for (at = 5; at <= NF; at += 2) sum += ($at == "63") ? 99 : ($at == "65") ? 101 : 100; print $3, "accounts,", sum, "in all" }' "$1"
}

show 'accounts | erm run | tail -n 1'
# In turn: an audit reads all accounts before a transfer that commits beside it, and once more behind it, and finds the same.
cat >turns.erm <<'SCRIPT'
audit safe
audit scan 0 0 9999
ann begin
ann put 0 0 63
ann put 0 1 65
ann commit
audit scan 0 0 9999
audit commit
audit safe
audit scan 0 0 1
SCRIPT
show 'cat turns.erm'
show 'erm run < turns.erm > report; totals report; cut -d " " -f 1-7 report | head -n 12'
show 'diff <(grep "^2 " report | cut -d " " -f 2-) <(grep "^7 " report | cut -d " " -f 2-) && echo the same'
[[ -z ${KEPT:-} ]] || { cp turns.erm "$KEPT/turns.erm" && cp report "$KEPT/turns.out"; }
# At once: two sessions make a thousand transfers each, beside three audits. Which of them an audit sees depends on when it begins; what all accounts
# have in all doesn't.
show '(transfers ann 2; transfers bob 5000; audits) > day.erm; wc -l < day.erm'
show 'erm threads < day.erm > report; totals report'
show 'grep -c "^[0-9]* committed" report; grep -cE "^[0-9]+ (excluded|owned|newer|unsafe|not safe)" report'
