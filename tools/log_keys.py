#!/usr/bin/env python3
"""Adds to the lines of `erm log` which key each record belongs to.

    erm log | tools/log_keys.py [FOLDER]     FOLDER is erm-data, unless another is given

The program tells rows by object, as the blocks have them. Behind the line of a record the table and the key stand here, as in
`object 16 value 000003e8 key 0/1`, and behind that of a node its table. They follow from the nodes told up to that block, and, where
the log begins behind a checkpoint, from those in its file. To a record of which no node tells nothing is added.
"""

import itertools
import os
import signal
import struct
import sys

sys.dont_write_bytecode = True
sys.path.insert(0, os.path.dirname(os.path.abspath(__file__)))
from log_end import ENTRY_WORDS, SLOT_HEAD, WORD, slot_in  # noqa: E402

TABLES = 16
LEVELS = 13
LEAF, INNER = 3, 4


class Trees:
    """What stands above each object: the node that has it, and the key there, where that node is a leaf."""

    def __init__(self):
        self.above = {}

    def add(self, node, is_leaf, pairs):
        for key, it in pairs:
            self.above[it] = (node, key if is_leaf else None)

    def table_of(self, node):
        for _ in range(LEVELS):
            if node < TABLES:
                return node
            if node not in self.above:
                return None
            node = self.above[node][0]
        return None

    def place_of(self, record):
        """The table and the key of a record, as far as they are known."""
        node, key = self.above.get(record, (None, None))
        table = None if key is None else self.table_of(node)
        return "" if table is None else f" key {table}/{key}"


def rows_of_slot(path):
    """The objects and rows of a checkpoint's file."""
    with open(path, "rb") as it:
        data = it.read()
    form, _, _, _, count = SLOT_HEAD.unpack_from(data)
    offset = SLOT_HEAD.size
    for _ in range(count):
        head = int.from_bytes(data[offset : offset + WORD], "little")
        length = ENTRY_WORDS - 1 if form == 1 else head >> 32 & 0xFF
        row = struct.unpack_from(f"<{length}Q", data, offset + WORD)
        yield head & 0xFFFFFFFF, (*row, *[0] * (ENTRY_WORDS - 1 - length))
        offset += WORD * (1 + length)


def take_checkpoint(trees, folder, start):
    """Takes the nodes of the checkpoint of this stamp, if there is one."""
    for name in ("slot0", "slot1"):
        path = os.path.join(folder, name)
        slot, _ = slot_in(path)
        if slot and slot[0] == start:
            for node, row in rows_of_slot(path):
                if row[0] in (LEAF, INNER):
                    trees.add(node, row[0] == LEAF, list(zip(row[2:9], row[9:16]))[: row[1]])
            return


def take_row(trees, line):
    """Takes a row that is told, if it is that of a node."""
    words = line.split()
    if words[2] in ("leaf", "inner"):
        trees.add(int(words[1]), words[2] == "leaf", [tuple(map(int, it.split(":"))) for it in words[3:]])


def told(trees, line):
    """A line of a row, with its table or key."""
    words = line.split()
    if words[2] in ("leaf", "inner"):
        table = trees.table_of(int(words[1]))
        return line if table is None else f"{line} table {table}"
    return line + trees.place_of(int(words[1]))


def main(words):
    folder, trees, rows = (words or ["erm-data"])[0], Trees(), []
    for line in itertools.chain(map(str.rstrip, sys.stdin), [""]):
        if line.startswith("  object "):
            take_row(trees, line)
            rows.append(line)
            continue
        for row in rows:
            print(told(trees, row))
        rows = []
        if line.startswith("from "):
            take_checkpoint(trees, folder, int(line.split()[1]))
        if line:
            print(line)


if __name__ == "__main__":
    signal.signal(signal.SIGPIPE, signal.SIG_DFL)
    main(sys.argv[1:])
