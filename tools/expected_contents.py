#!/usr/bin/env python3
"""Reckons from a good house file what `filecheck` has to print of it, by docs/house-file.md and by none of the code of crates/.

usage: python3 tools/expected_contents.py FILE
"""

import struct
import sys

KINDS = ["Bytes", "Str", "Int", "Uint", "F64", "Counter", "Timestamp", "Boolean", "Unknown", "Null"]
ACTIONS = ["MakeMap", "MakeList", "MakeText", "Set", "Delete", "Increment", "MakeTable", "Mark"]


class Bytes:
    def __init__(self, data):
        self.data, self.at = data, 0

    def take(self, n):
        taken = self.data[self.at:self.at + n]
        assert len(taken) == n, "the file is cut"
        self.at += n
        return taken

    def count(self):
        return struct.unpack("<I", self.take(4))[0]


def main(path):
    with open(path, "rb") as f:
        file = Bytes(f.read())
    names = [file.take(file.take(1)[0]).decode() for _ in range(file.count())]
    print(f"{len(names)} names")
    for i, name in enumerate(names):
        print(f'  {i} "{name}"')
    kinds = []
    for _ in range(file.count()):
        kind, _code, length = file.take(3)
        file.take(length)
        kinds.append(kind)
    print(f"{len(kinds)} values")
    for number, kind in enumerate(KINDS):
        if number in kinds:
            print(f"  {kinds.count(number)} {kind}")
    records = [file.take(24) for _ in range(file.count())]
    print(f"{len(records)} records")
    for number, action in enumerate(ACTIONS):
        tags = [record[0] for record in records if record[1] == number]
        if tags:
            print(f"  {action}: {tags.count(0)} Same, {tags.count(1)} Add, {tags.count(2)} Del")
    text = file.take(file.count())
    assert file.at == len(file.data), "bytes stand behind the text"
    print(f"{len(text)} bytes of text, {len(text.decode())} code points")


if __name__ == "__main__":
    main(sys.argv[1])
