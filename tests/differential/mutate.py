#!/usr/bin/env python3
# Compares a program with another reading of document 01 on changed frame files: mutate.py CHECKER PROGRAM [COUNT [SEED]]
# CHECKER is as in compare.py. PROGRAM reads a frame file from standard input and writes `good SYMBOLS STATEMENTS` or
# `refused NUMBER PLACE` (the program framecheck does, crates/framecheck/out/framecheck after `rt run` in that folder). The files are those of the replayed list that have at most 4,096
# bytes, each changed a few times: bytes, numbers, records left out, doubled, swapped, taken from another file, cut short.
import collections
import pathlib
import random
import subprocess
import sys
import tempfile

HERE = pathlib.Path(__file__).resolve().parent
sys.path[:0] = [str(HERE), str(HERE.parent)]

from compare import answers
from make_cases import all_cases


# The records of a file, as far as it has any; what is left is the last one.
def split(data):
    records, at = [], 0
    while at + 4 <= len(data):
        end = at + 4 + int.from_bytes(data[at : at + 4], "little")
        if end > len(data):
            break
        records.append(data[at:end])
        at = end
    return records + ([data[at:]] if at < len(data) else [])


# One change.
def changed(dice, data, other):
    records, more = split(data), split(other)
    kind = dice.randrange(8)
    if kind == 0 and data:
        at = dice.randrange(len(data))
        return data[:at] + bytes([dice.choice([0, 1, 2, 4, 5, 6, 7, 0x24, 0x61, 0xFF, dice.randrange(256)])]) + data[at + 1 :]
    if kind == 1 and len(data) > 1:
        at = dice.randrange(len(data) - 1)
        number = (int.from_bytes(data[at : at + 2], "little") + dice.choice([-1, 1, 256])) % 65536
        return data[:at] + number.to_bytes(2, "little") + data[at + 2 :]
    if kind == 2 and records:
        records.pop(dice.randrange(len(records)))
    if kind == 3 and records:
        records.insert(dice.randrange(len(records) + 1), dice.choice(records))
    if kind == 4 and len(records) > 1:
        i, j = dice.randrange(len(records)), dice.randrange(len(records))
        records[i], records[j] = records[j], records[i]
    if kind == 5 and more:
        records.insert(dice.randrange(len(records) + 1), dice.choice(more))
    if kind == 6 and data:
        return data[: dice.randrange(len(data))]
    if kind == 7 and records:
        # a body byte of one record goes or comes, and its length with it
        k = dice.randrange(len(records))
        body = bytearray(records[k][4:])
        if body and dice.random() < 0.5:
            body.pop(dice.randrange(len(body)))
        else:
            body.insert(dice.randrange(len(body) + 1), dice.choice(b"\0\1\2aZ09$"))
        records[k] = len(body).to_bytes(4, "little") + bytes(body)
    return b"".join(records)


def main():
    if len(sys.argv) < 3:
        sys.exit("usage: mutate.py CHECKER PROGRAM [COUNT [SEED]]")
    checker, program = (str(pathlib.Path(name).resolve()) for name in sys.argv[1:3])
    count = int(sys.argv[3]) if len(sys.argv) > 3 else 2000
    dice = random.Random(int(sys.argv[4]) if len(sys.argv) > 4 else 1)
    pool = [data for name, data, verdict in all_cases() if len(data) <= 4096]
    with tempfile.TemporaryDirectory() as folder:
        files = ["%06d.frames" % k for k in range(count)]
        for name in files:
            data = dice.choice(pool)
            for _ in range(dice.choice([1, 1, 2, 3])):
                data = changed(dice, data, dice.choice(pool))
            (pathlib.Path(folder) / name).write_bytes(data)
        said = answers(checker, folder, files)
        differ, tally = 0, collections.Counter()
        for name in files:
            data = (pathlib.Path(folder) / name).read_bytes()
            ours = subprocess.run([program], input=data, capture_output=True).stdout.decode().rstrip("\n")
            tally[" ".join(said[name].split()[: 1 if said[name].startswith("good") else 2])] += 1
            if ours != said[name]:
                differ += 1
                print("checker %s, program %s: %s" % (said[name], ours, data.hex()))
    print(", ".join("%s: %d" % item for item in sorted(tally.items())))
    print("%d changed files, %d differ" % (count, differ))
    return 1 if differ else 0


if __name__ == "__main__":
    sys.exit(main())
