# 1 BadRecord: cut short, length below 2, unknown kind, class above 1, body not of its layout.
from .records import *

cases = Cases("layout")
add = cases.add

add("empty-file", b"", good(0, 0))
add("the-constant-of-the-paper", bytes.fromhex("050000000100007C2D"), good(1, 0))

# A small file with a record of each kind: every prefix of it.
small = [c, x, f("f", 0, 1), e("e", [0, 1]), a("a", [0, 1], [0, 1]), p("p", [0, 1], [0, 1]), proof("f e a")]
counts = [(0, 0), (1, 0), (2, 0), (2, 1), (2, 2), (2, 3), None, (2, 4)]
starts = [sum(len(r) for r in small[:k]) for k in range(len(small) + 1)]
assert starts == [0, 8, 16, 31, 48, 73, 98, 109]
for cut in range(110):
    whole = max(k for k in range(8) if starts[k] <= cut)
    if cut != starts[whole]:
        verdict = bad_at(1, starts[whole])
    elif whole == 6:
        verdict = bad_at(7, 98)
    else:
        verdict = good(*counts[whole])
    add("cut-%d" % cut, b"".join(small)[:cut], verdict)

# Lengths.
for n in (0, 1):
    add("length-%d" % n, u32(n), bad_at(1, 0))
    add("length-%d-then-more" % n, u32(n) + u16(1) + b"\0T", bad_at(1, 0))
    add("length-%d-after-a-record" % n, [c, u32(n) + u16(6)], bad(1, 1))
add("length-1-one-byte", u32(1) + b"\1", bad_at(1, 0))
for kind in range(0, 6):
    add("length-2-kind-%d" % kind, [c, record(kind, b"")], bad(1, 1))
add("length-2-kind-6", [c, p("p", [0]), record(6, b"")], good(1, 1))
for n in (0x7FFFFFFF, 0x80000000, 0xFFFFFFFA, 0xFFFFFFFB, 0xFFFFFFFC, 0xFFFFFFFD, 0xFFFFFFFE, 0xFFFFFFFF):
    add("length-%08X" % n, u32(n) + u16(1) + b"\0T", bad_at(1, 0))
    add("length-%08X-at-8" % n, [c, u32(n) + u16(1) + b"\0U"], bad(1, 1))
    add("length-%08X-alone" % n, u32(n), bad_at(1, 0))
add("length-one-more-than-left", u32(5) + u16(1) + b"\0T", bad_at(1, 0))
add("length-one-less-than-left", u32(3) + u16(1) + b"\0T", bad_at(1, 0))
add("length-in-the-third-byte", u32(0x10004) + u16(1) + b"\0T", bad_at(1, 0))
add("length-big-endian", b"\0\0\0\4" + u16(1) + b"\0T", bad_at(1, 0))

# Kinds.
for kind in (0, 7, 8, 255, 256, 257, 258, 262, 0x0600, 65535):
    add("kind-%d" % kind, [c, record(kind, b"\0U")], bad(1, 1))
    add("kind-%d-empty" % kind, [c, record(kind, b"")], bad(1, 1))
add("kind-1", [c, const("U")], good(2, 0))
add("kind-2", [c, x, f("f", 0, 1)], good(2, 1))
add("kind-3", [c, e("e", [0])], good(1, 1))
add("kind-4", [c, a("a", [0])], good(1, 1))
add("kind-5-and-6", [c, p("p", [0]), proof("p")], good(1, 1))

# Classes.
add("class-0", symbol(0, "T"), good(1, 0))
add("class-1", symbol(1, "T"), good(1, 0))
for n in (2, 3, 128, 255):
    add("class-%d" % n, symbol(n, "T"), bad_at(1, 0))

# Names and labels of 0, 1, 64, 65 and more bytes.
for n, fits in ((0, False), (1, True), (2, True), (63, True), (64, True), (65, False), (66, False), (128, False), (256, False), (320, False)):
    name = "n" * n
    add("name-of-%d" % n, const(name), good(1, 0) if fits else bad_at(1, 0))
    add("variable-name-of-%d" % n, [c, var(name)], good(2, 0) if fits else bad(1, 1))
    add("f-label-of-%d" % n, [c, x, f(name, 0, 1)], good(2, 1) if fits else bad(1, 2))
    add("e-label-of-%d" % n, [c, x, e(name, [0, 1])], good(2, 1) if fits else bad(1, 2))
    add("a-label-of-%d" % n, [c, x, a(name, [0])], good(2, 1) if fits else bad(1, 2))
    add("p-label-of-%d" % n, [c, x, p(name, [0]), proof()], good(2, 1) if fits else bad(1, 2))
add("symbol-with-no-class", record(1, b""), bad_at(1, 0))

# Bodies shorter than the fixed part: 8 bytes of a $f, 6 of the others.
for n in range(0, 9):
    add("f-body-of-%d" % n, [c, x, record(2, (u32(FOREVER) + u16(0) + u16(1))[:n])], bad(1, 2))
add("f-body-of-9", [c, x, record(2, u32(FOREVER) + u16(0) + u16(1) + b"f")], good(2, 1))
for n in range(0, 9):
    add("e-body-of-%d" % n, [c, x, record(3, (u32(FOREVER) + u16(1) + u16(0))[:n])], bad(1, 2))
add("e-body-of-9", [c, x, record(3, u32(FOREVER) + u16(1) + u16(0) + b"e")], good(2, 1))
for n in range(0, 9):
    add("a-body-of-%d" % n, [c, x, record(4, (u16(0) + u16(0) + u16(1) + u16(0))[:n])], bad(1, 2))
    add("p-body-of-%d" % n, [c, x, record(5, (u16(0) + u16(0) + u16(1) + u16(0))[:n]), proof()], bad(1, 2))
add("a-body-of-9", [c, x, record(4, u16(0) + u16(0) + u16(1) + u16(0) + b"a")], good(2, 1))


# Counts: n at least 1, and counts that do not fit the record's length, whatever their size.
def counted_e(n):
    return record(3, u32(FOREVER) + u16(n) + u16(0) + b"e")


for n in (0, 2, 3, 64, 1024, 1025, 32768, 65535):
    add("e-n-%d-of-1" % n, [c, counted_e(n)], bad(1, 1))
add("e-n-0-with-a-label", [c, record(3, u32(FOREVER) + u16(0) + b"e")], bad(1, 1))
add("a-n-0-with-a-label", [c, a("a", [])], bad(1, 1))
add("p-n-0-with-a-label", [c, p("p", []), proof()], bad(1, 1))
for n in (2, 1024, 1025, 65535):
    add("a-n-%d-of-1" % n, [c, a("a", [0], n=n)], bad(1, 1))
    add("p-n-%d-of-1" % n, [c, p("p", [0], n=n), proof()], bad(1, 1))
for n in (1, 2, 64, 65, 16384, 65535):
    add("a-h-%d-of-0" % n, [c, a("a", [0], h=n)], bad(1, 1))
    add("a-d-%d-of-0" % n, [c, a("a", [0], d=n)], bad(1, 1))
add("a-h-65-of-0-by-hand", [c, record(4, bytes.fromhex("410000000100000061"))], bad_at(1, 8))
add("a-all-counts-65535", [c, a("a", [0], h=65535, d=65535, n=65535)], bad(1, 1))
add("a-h-16384-n-32768", [c, a("a", [0], h=16384, n=32768)], bad(1, 1))
add("a-one-hypothesis-too-many", [c, x, f("f", 0, 1), a("a", [0, 1], [0], h=2)], bad(1, 3))
add("a-label-eaten-by-a-hypothesis", [c, a("abcd", [0], h=1)], bad(1, 1))
add("a-label-eaten-by-a-pair", [c, a("abcd", [0], d=1)], bad(1, 1))
add("a-label-eaten-by-a-symbol", [c, a("ab", [0], n=2)], bad(1, 1))
add("e-label-eaten-by-a-symbol", [c, record(3, u32(FOREVER) + u16(2) + u16(0) + b"ab")], bad(1, 1))

# A wrong count may still give a good layout, since the label takes the rest.
add("a-wrong-n-good-layout", [c, a("abc", [0], n=2)], bad(5, 1))
add("a-wrong-h-good-layout", [c, a("abcde", [0], h=1)], bad(5, 1))
add("a-wrong-d-good-layout", [c, a("abcde", [0], d=1)], bad(5, 1))
add("a-symbol-in-the-label", [c, a("a", [0, 0], n=1)], bad(4, 1))
add("a-pair-read-as-symbols", [c, x, y, a("a", [0], [], [(0, 0)], d=0, n=3)], good(3, 1))
add("e-symbol-in-the-label", [c, record(3, u32(FOREVER) + u16(1) + u16(0) + u16(0) + b"e")], bad(4, 1))
add("e-31-symbols-in-the-label", [c, record(3, u32(FOREVER) + u16(1) + u16(0) * 32 + b"ee")], bad(4, 1))
add("e-32-symbols-in-the-label", [c, record(3, u32(FOREVER) + u16(1) + u16(0) * 33 + b"e")], bad(1, 1))
