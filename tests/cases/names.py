# 3 BadSymbol and 4 BadLabel: an illegal byte, or a name or label used before.
from .records import *

cases = Cases("names")
add = cases.add

# Name bytes are 21 to 7E hex without 24. Each at the first, a middle and the last place of a name.
NAME_BYTES = {0x00: 0, 0x09: 0, 0x0A: 0, 0x1F: 0, 0x20: 0, 0x21: 1, 0x22: 1, 0x23: 1, 0x24: 0, 0x25: 1, 0x7D: 1,
              0x7E: 1, 0x7F: 0, 0x80: 0, 0xA1: 0, 0xA4: 0, 0xFE: 0, 0xFF: 0}
for byte, is_legal in NAME_BYTES.items():
    b = bytes([byte])
    for place, name in (("alone", b), ("first", b + b"ab"), ("middle", b"a" + b + b"b"), ("last", b"ab" + b)):
        add("name-byte-%02X-%s" % (byte, place), const(name), good(1, 0) if is_legal else bad_at(3, 0))
    add("name-byte-%02X-in-64" % byte, [c, var(b"a" * 63 + b)], good(2, 0) if is_legal else bad(3, 1))
legal = bytes(b for b in range(0x21, 0x7F) if b != 0x24)
assert len(legal) == 93
add("name-bytes-all-legal", [const(legal[:47]), var(legal[47:])], good(2, 0))

# Label bytes are letters, digits, `-`, `_`, `.`: both sides of every border.
LABEL_BYTES = {0x00: 0, 0x0A: 0, 0x20: 0, 0x21: 0, 0x24: 0, 0x2B: 0, 0x2C: 0, 0x2D: 1, 0x2E: 1, 0x2F: 0, 0x30: 1,
               0x31: 1, 0x38: 1, 0x39: 1, 0x3A: 0, 0x3B: 0, 0x3D: 0, 0x3F: 0, 0x40: 0, 0x41: 1, 0x42: 1, 0x59: 1,
               0x5A: 1, 0x5B: 0, 0x5C: 0, 0x5E: 0, 0x5F: 1, 0x60: 0, 0x61: 1, 0x62: 1, 0x79: 1, 0x7A: 1, 0x7B: 0,
               0x7C: 0, 0x7E: 0, 0x7F: 0, 0x80: 0, 0xAD: 0, 0xB0: 0, 0xC1: 0, 0xE1: 0, 0xFF: 0}
for byte, is_legal in LABEL_BYTES.items():
    b = bytes([byte])
    for place, label in (("alone", b), ("first", b + b"ab"), ("middle", b"a" + b + b"b"), ("last", b"ab" + b)):
        add("label-byte-%02X-%s" % (byte, place), [c, a(label, [0])], good(1, 1) if is_legal else bad(4, 1))
letters = b"abcdefghijklmnopqrstuvwxyz"
label = letters + letters.upper() + b"0123456789-_"
assert len(label) == 64
add("label-bytes-all-legal", [c, a(label, [0]), a(b".", [0])], good(1, 2))
for byte in (0x2F, 0x3A, 0x40, 0x5B, 0x60, 0x7B):
    b = b"l" * 63 + bytes([byte])
    add("f-label-byte-%02X" % byte, [c, x, f(b, 0, 1)], bad(4, 2))
    add("e-label-byte-%02X" % byte, [c, x, e(b, [0])], bad(4, 2))
    add("p-label-byte-%02X" % byte, [c, x, p(b, [0]), proof()], bad(4, 2))

# Names used before: whatever the class, and however long ago.
add("name-twice-constants", [c, c], bad(3, 1))
add("name-twice-variables", [x, x], bad(3, 1))
add("name-constant-then-variable", [c, var("T")], bad(3, 1))
add("name-variable-then-constant", [var("T"), c], bad(3, 1))
add("name-first-of-three", [c, x, y, const("T")], bad(3, 3))
add("name-middle-of-three", [c, x, y, const("x")], bad(3, 3))
add("name-last-of-three", [c, x, y, const("y")], bad(3, 3))
add("name-other-case", [const("t"), const("T")], good(2, 0))
add("name-then-longer", [const("a"), const("ab"), const("abc")], good(3, 0))
add("name-then-shorter", [const("abc"), const("ab"), const("a")], good(3, 0))
add("name-then-its-end", [const("abc"), const("bc"), const("c")], good(3, 0))
add("name-turned", [const("ab"), const("ba")], good(2, 0))
add("name-of-64-same", [const("n" * 64), var("n" * 64)], bad(3, 1))
add("name-of-64-last-byte-differs", [const("n" * 64), var("n" * 63 + "m")], good(2, 0))
add("name-of-64-first-byte-differs", [const("n" * 64), var("m" + "n" * 63)], good(2, 0))
add("name-of-64-and-63", [const("n" * 64), var("n" * 63)], good(2, 0))
add("name-after-statements", [c, x, f("f", 0, 1), e("e", [0, 1]), const("T")], bad(3, 4))
add("name-twice-then-again", [c, x, c, c], bad(3, 2))

# Labels used before: a statement of each kind after one of each kind.
kinds = {"f": lambda l: [f(l, 0, 1)], "e": lambda l: [e(l, [0])], "a": lambda l: [a(l, [0])], "p": lambda l: [p(l, [0]), proof()]}
for k1, first in kinds.items():
    for k2, second in kinds.items():
        add("label-%s-then-%s" % (k1, k2), [c, x] + first("same") + second("same"), bad(4, 2 + len(first("l"))))
        add("label-%s-then-other-%s" % (k1, k2), [c, x] + first("same") + second("othr"), good(2, 2))
add("label-first-of-three", [c, a("l", [0]), a("m", [0]), a("n", [0]), a("l", [0])], bad(4, 4))
add("label-middle-of-three", [c, a("l", [0]), a("m", [0]), a("n", [0]), a("m", [0])], bad(4, 4))
add("label-other-case", [c, a("l", [0]), a("L", [0])], good(1, 2))
add("label-then-longer", [c, a("l", [0]), a("ll", [0]), a("lll", [0])], good(1, 3))
add("label-then-shorter", [c, a("lll", [0]), a("ll", [0]), a("l", [0])], good(1, 3))
add("label-of-64-same", [c, a("l" * 64, [0]), e("l" * 64, [0])], bad(4, 2))
add("label-of-64-last-byte-differs", [c, a("l" * 64, [0]), e("l" * 63 + "m", [0])], good(1, 2))
add("label-after-the-scope-end", [c, x, f("f", 0, 1, 1), a("a", [0]), f("f", 0, 1)], bad(4, 4))
add("label-never-active", [c, x, f("f", 0, 1, 0), f("f", 0, 1)], bad(4, 3))

# Names and labels are two name spaces.
add("label-is-a-name", [c, a("T", [0])], good(1, 1))
add("name-is-a-label", [c, a("U", [0]), const("U")], good(2, 1))
add("label-is-a-variable", [c, x, f("x", 0, 1)], good(2, 1))
