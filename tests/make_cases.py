#!/usr/bin/env python3
# Writes the replayed list of frame files: crates/frames_replay/stdin (the files, packed) and
# crates/frames_replay/stdout (their verdicts: by hand from document 01 in cases/, stored for corpus and vectors).
#   make_cases.py                    write both
#   make_cases.py --check            say whether both are what this script would write
#   make_cases.py --write-files DIR  write each file as DIR/NAME.frames, and DIR/expected.txt
#
# The packed form. A file is told by what it keeps of the file before it and what then follows:
#   length of the name (1 byte; 0 ends the list), the name,
#   how many bytes of the file before are kept (u32), then runs, each
#     1, count (u32), that many bytes      those bytes
#     2, count (u32), one byte             that byte so many times
#     0                                    the file ends here
import pathlib
import sys

from cases import framing, layout, limits, names, order, proofs, references, stored

ROOT = pathlib.Path(__file__).resolve().parent.parent


def all_cases():
    made = [m.cases.all for m in (layout, limits, names, references, framing, proofs, order)]
    listed = sum(made, []) + stored.cases_of("corpus") + stored.cases_of("vectors")
    seen = set()
    for name, data, verdict in listed:
        assert name not in seen and len(name) < 256, name
        assert verdict[0] in ("good", "refused"), name
        seen.add(name)
    return listed


def line(verdict):
    return "%s %d %d" % verdict


def u32(n):
    return n.to_bytes(4, "little")


# How many bytes the two begin with alike.
def shared(one, two):
    low, high = 0, min(len(one), len(two))
    while low < high:
        middle = (low + high + 1) // 2
        if one[:middle] == two[:middle]:
            low = middle
        else:
            high = middle - 1
    return low


# The runs of a text: a byte that comes at least 12 times in a row is told by its count.
def runs(data):
    packed, plain, at = b"", bytearray(), 0

    def flush():
        nonlocal packed
        if plain:
            packed += b"\1" + u32(len(plain)) + bytes(plain)
            plain.clear()

    while at < len(data):
        end = at + 1
        while end < len(data) and data[end] == data[at]:
            end += 1
        if end - at >= 12:
            flush()
            packed += b"\2" + u32(end - at) + data[at : at + 1]
        else:
            plain += data[at:end]
        at = end
    flush()
    return packed + b"\0"


def packed(listed):
    out, last = [], b""
    for name, data, verdict in listed:
        kept = shared(last, data)
        out.append(bytes([len(name)]) + name.encode() + u32(kept) + runs(data[kept:]))
        last = data
    return b"".join(out) + b"\0"


def verdicts(listed):
    lines = ["%s %s\n" % (name, line(verdict)) for name, data, verdict in listed]
    return ("".join(lines) + "%d files\n" % len(listed)).encode()


def main():
    listed = all_cases()
    if sys.argv[1:2] == ["--write-files"]:
        folder = pathlib.Path(sys.argv[2])
        for name, data, verdict in listed:
            path = folder / (name + ".frames")
            path.parent.mkdir(parents=True, exist_ok=True)
            path.write_bytes(data)
        expected = ["%s.frames: %s\n" % (name, line(verdict)) for name, data, verdict in listed]
        (folder / "expected.txt").write_text("".join(expected))
        return 0
    crate = ROOT / "crates" / "frames_replay"
    wanted = {crate / "stdin": packed(listed), crate / "stdout": verdicts(listed)}
    if sys.argv[1:] == ["--check"]:
        stale = [str(path) for path, data in wanted.items() if path.read_bytes() != data]
        print("stale: " + " ".join(stale) if stale else "%d files, as stored" % len(listed))
        return 1 if stale else 0
    crate.mkdir(parents=True, exist_ok=True)
    for path, data in wanted.items():
        path.write_bytes(data)
    print("%d files in %d bytes" % (len(listed), len(wanted[crate / "stdin"])))
    return 0


if __name__ == "__main__":
    sys.exit(main())
