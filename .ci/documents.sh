#!/usr/bin/env bash
# Compares tables, names, links and pictures of the documents with the sources.
set -u
cd "$(dirname "${BASH_SOURCE[0]}")/.." || exit 1
if ! command -v python3 >/dev/null; then
    echo "documents: skipped, since there is no python3"
    exit 0
fi
status=0
python3 -B tools/docs.py --check || status=1
python3 -B docs/pictures.py --check || status=1
[[ $status == 0 ]] || echo "documents: tools/docs.py and docs/pictures.py make the tables and pictures anew; the rest is to be mended by hand"
exit "$status"
