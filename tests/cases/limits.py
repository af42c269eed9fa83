# 2 TooMany: both sides of every limit, alone and with faults of lower and higher numbers in the same record.
from .records import *

cases = Cases("limits")
add = cases.add

# The whole file: 1,048,576 bytes. Fifteen claims with proofs of 65,536 bytes, and one whose proof fills the file.
MOST = 1048576


def filled(size):
    records = [c]
    for k in range(15):
        records += [p("p%d" % k, [0]), proof(b"A" * 65536)]
    records.append(p("last", [0]))
    left = size - sum(len(r) for r in records) - 6
    assert 0 <= left <= 65536
    return records + [proof(b"B" * left)]


add("file-1048575", filled(MOST - 1), good(1, 16))
add("file-1048576", filled(MOST), good(1, 16))
add("file-1048577", filled(MOST + 1), bad_at(2, 0))
add("file-1048576-of-zeros", bytes(MOST), bad_at(1, 0))
add("file-1048577-of-zeros", bytes(MOST + 1), bad_at(2, 0))
add("file-1048576-with-its-last-byte-over", filled(MOST - 1) + [b"\0"], bad_at(1, MOST - 1))
add("file-1048577-with-its-last-byte-over", filled(MOST) + [b"\0"], bad_at(2, 0))
add("file-1048577-used-name-at-8", [c, c] + filled(MOST - 7)[1:], bad_at(2, 0))
add("file-1048577-one-proof", proof(b"A" * (MOST - 5)), bad_at(2, 0))
add("file-1048576-one-proof", proof(b"A" * (MOST - 6)), bad_at(2, 0))

# Proof text: 65,536 bytes, also where the proof may not stand.
for n in (65535, 65536):
    add("proof-%d" % n, [c, p("p", [0]), proof(b"A" * n)], good(1, 1))
    add("stray-proof-%d" % n, proof(b"A" * n), bad(7, 0))
    add("proof-%d-after-a-proof" % n, [c, p("p", [0]), proof("A"), proof(b"A" * n)], bad(7, 3))
for n in (65537, 65538, 131072):
    add("proof-%d" % n, [c, p("p", [0]), proof(b"A" * n)], bad(2, 2))
    add("stray-proof-%d" % n, proof(b"A" * n), bad(2, 0))
    add("proof-%d-after-a-proof" % n, [c, p("p", [0]), proof("A"), proof(b"A" * n)], bad(2, 3))
add("proof-65537-cut-short", [c, p("p", [0]), proof(b"A" * 65537)[:-1]], bad(1, 2))

# 4,096 symbols: names s0 to s4095.
symbols = [const("s%d" % k) for k in range(4096)]
add("symbols-4095", symbols[:4095], good(4095, 0))
add("symbols-4096", symbols, good(4096, 0))
add("symbols-4096-and-a-statement", symbols + [e("e", [0, 4095])], good(4096, 1))
add("symbols-4096-and-symbol-4096", symbols + [e("e", [0, 4096])], bad(5, 4096))
add("symbols-4096-typecode-the-last", symbols + [e("e", [4095])], good(4096, 1))
add("symbols-4095-and-symbol-4095", symbols[:4095] + [e("e", [0, 4095])], bad(5, 4095))
add("symbols-4096-and-a-stray-proof", symbols + [proof()], bad(7, 4096))
add("symbols-4097", symbols + [const("one-more")], bad(2, 4096))
add("symbols-4097-variable", symbols + [var("one-more")], bad(2, 4096))
add("symbols-4097-used-name", symbols + [const("s0")], bad(2, 4096))
add("symbols-4097-bad-byte", symbols + [const("$")], bad(2, 4096))
add("symbols-4097-bad-class", symbols + [symbol(2, "one-more")], bad(1, 4096))
add("symbols-4097-no-name", symbols + [const("")], bad(1, 4096))
add("symbols-4097-name-of-65", symbols + [const("n" * 65)], bad(1, 4096))
add("symbols-4097-after-p", symbols + [p("p", [0]), const("one-more")], bad(2, 4097))
add("symbols-4096-used-name", symbols[:4095] + [const("s4094")], bad(3, 4095))
add("symbols-4096-after-p", symbols[:4095] + [p("p", [0]), symbols[4095]], bad(7, 4096))

high = symbols[:4095] + [var("v")]
add("symbols-4096-last-a-variable", high + [f("f", 4094, 4095), a("a", [4094, 4095], [0])], good(4096, 2))
add("symbols-4096-f-of-the-one-before", high + [f("f", 4094, 4094)], bad(5, 4096))
add("symbols-4096-typecode-the-variable", high + [f("f", 4095, 4095)], bad(5, 4096))
add("symbols-4096-last-without-f", high + [a("a", [0, 4095])], bad(6, 4096))
add("symbols-4096-pair-of-the-last", high + [a("a", [0], [], [(4095, 4095)])], bad(6, 4096))
add("symbols-4096-pair-with-the-one-before", high + [a("a", [0], [], [(4095, 4094)])], bad(5, 4096))

# 4,096 statements: T is symbol 0, x symbol 1; labels 0 to 4095, the first a $f.
head = [c, x, f("0", 0, 1)]
statements = head + [a("%d" % k, [0]) for k in range(1, 4096)]
before = statements[: 2 + 4095]
add("statements-4095", before, good(2, 4095))
add("statements-4096", statements, good(2, 4096))
add("statements-4096-last-a-p", before + [p("p", [0]), proof()], good(2, 4096))
add("statements-4096-last-a-p-alone", before + [p("p", [0])], bad(7, 4098))
add("statements-4096-and-a-symbol", statements + [y], good(3, 4096))
add("statements-4096-and-a-stray-proof", statements + [proof()], bad(7, 4098))
add("statements-4097-f", statements + [f("f", 0, 1)], bad(2, 4098))
add("statements-4097-e", statements + [e("e", [0])], bad(2, 4098))
add("statements-4097-a", statements + [a("a", [0])], bad(2, 4098))
add("statements-4097-p", statements + [p("p", [0]), proof()], bad(2, 4098))
add("statements-4097-used-label", statements + [a("0", [0])], bad(2, 4098))
add("statements-4097-bad-label", statements + [a("*", [0])], bad(2, 4098))
add("statements-4097-bad-reference", statements + [a("a", [1])], bad(2, 4098))
add("statements-4097-bad-frame", statements + [a("a", [0, 1])], bad(2, 4098))
add("statements-4097-n-0", statements + [a("a", [])], bad(1, 4098))
add("statements-4097-label-of-65", statements + [f("f" * 65, 0, 1)], bad(1, 4098))
add("statements-4097-after-p", before + [p("p", [0]), a("a", [0])], bad(2, 4098))
add("statements-4096-after-p", before[:-1] + [p("p", [0]), a("a", [0])], bad(7, 4097))
add("statements-4096-lists-4094", before[:-1] + [e("e", [0]), a("a", [0], [0, 4094])], good(2, 4096))
add("statements-4096-lists-4095", before[:-1] + [e("e", [0]), a("a", [0], [0, 4095])], bad(5, 4097))

# h: 64 listed hypotheses. Statements 0 to 64 are $e.
listed = [c] + [e("e%d" % k, [0]) for k in range(66)]
for kind, name, after in ((4, "a", []), (5, "p", [proof()])):
    def with_h(n, label=name, **counts):
        return listed + [claim(kind, label, [0], range(n), **counts)] + after

    add(name + "-h-63", with_h(63), good(1, 67))
    add(name + "-h-64", with_h(64), good(1, 67))
    add(name + "-h-65", with_h(65), bad(2, 67))
    add(name + "-h-66", with_h(66), bad(2, 67))
    add(name + "-h-65-bad-label", with_h(65, "*"), bad(2, 67))
    add(name + "-h-65-label-of-65", with_h(65, "l" * 65), bad(1, 67))
    add(name + "-h-65-of-64", listed + [claim(kind, name, [0], range(64), h=65)] + after, bad(1, 67))
    add(name + "-h-65-falling", listed + [claim(kind, name, [0], list(range(65))[::-1])] + after, bad(2, 67))
    add(name + "-h-65-n-0", listed + [claim(kind, name, [], range(65))] + after, bad(1, 67))
    add(name + "-h-65535", [c, claim(kind, name, [0], [0] * 65535)] + after, bad(2, 1))

    # d: 512 pairs; the same pair may come again.
    pair = [c, x, y]
    add(name + "-d-511", pair + [claim(kind, name, [0], [], [(1, 2)] * 511)] + after, good(3, 1))
    add(name + "-d-512", pair + [claim(kind, name, [0], [], [(1, 2)] * 512)] + after, good(3, 1))
    add(name + "-d-513", pair + [claim(kind, name, [0], [], [(1, 2)] * 513)] + after, bad(2, 3))
    add(name + "-d-512-last-a-constant", pair + [claim(kind, name, [0], [], [(1, 2)] * 511 + [(1, 0)])] + after, bad(5, 3))
    add(name + "-d-512-last-equal", pair + [claim(kind, name, [0], [], [(1, 2)] * 511 + [(2, 2)])] + after, bad(6, 3))
    add(name + "-d-513-equal-members", pair + [claim(kind, name, [0], [], [(1, 1)] * 513)] + after, bad(2, 3))
    add(name + "-d-513-undefined", pair + [claim(kind, name, [0], [], [(9, 9)] * 513)] + after, bad(2, 3))
    add(name + "-d-513-used-label", pair + [e(name, [0]), claim(kind, name, [0], [], [(1, 2)] * 513)] + after, bad(2, 4))
    add(name + "-d-65535-of-constants", pair + [claim(kind, name, [0], [], [(0, 0)] * 65535)] + after, bad(2, 3))

    # n: 1,024 symbols.
    add(name + "-n-1023", pair + [claim(kind, name, [0] * 1023)] + after, good(3, 1))
    add(name + "-n-1024", pair + [claim(kind, name, [0] * 1024)] + after, good(3, 1))
    add(name + "-n-1025", pair + [claim(kind, name, [0] * 1025)] + after, bad(2, 3))
    add(name + "-n-1024-last-undefined", pair + [claim(kind, name, [0] * 1023 + [3])] + after, bad(5, 3))
    add(name + "-n-1024-last-a-variable", pair + [claim(kind, name, [0] * 1023 + [2])] + after, bad(6, 3))
    add(name + "-n-1025-undefined", pair + [claim(kind, name, [9] * 1025)] + after, bad(2, 3))
    add(name + "-n-1025-variables", pair + [claim(kind, name, [0] + [1] * 1024)] + after, bad(2, 3))
    add(name + "-n-65535", pair + [claim(kind, name, [0] * 65535)] + after, bad(2, 3))

add("e-n-1023", [c, e("e", [0] * 1023)], good(1, 1))
add("e-n-1024", [c, e("e", [0] * 1024)], good(1, 1))
add("e-n-1025", [c, e("e", [0] * 1025)], bad(2, 1))
add("e-n-65535", [c, e("e", [0] * 65535)], bad(2, 1))
add("e-n-1024-last-undefined", [c, e("e", [0] * 1023 + [1])], bad(5, 1))
add("e-n-1025-undefined", [c, e("e", [7] * 1025)], bad(2, 1))
add("e-n-1025-bad-label", [c, e("*", [0] * 1025)], bad(2, 1))
add("e-n-1025-label-of-65", [c, e("l" * 65, [0] * 1025)], bad(1, 1))
add("e-n-1025-no-label", [c, e("", [0] * 1025)], bad(1, 1))
add("e-n-1025-after-p", [c, p("p", [0]), e("e", [0] * 1025)], bad(2, 2))

# The three limits of one record at once, met and passed.
full = [c] + [var("v%d" % k) for k in range(64)] + [f("f%d" % k, 0, k + 1) for k in range(64)]
pairs = [(1 + k // 63, 2 + k % 63) for k in range(512) if 1 + k // 63 != 2 + k % 63]
pairs = (pairs * 2)[:512]
claimed = [0] + [1 + k % 64 for k in range(1023)]
add("a-full", full + [a("l" * 64, claimed, range(64), pairs)], good(65, 65))
add("p-full", full + [p("l" * 64, claimed, range(64), pairs), proof(b"A" * 65536)], good(65, 65))
add("a-full-one-variable-unlisted", full + [a("a", claimed, range(63), pairs)], bad(6, 129))
