# The first faulty record decides; in it, the lowest number.
from .records import *

cases = Cases("order")
add = cases.add
z = [c, x, f("f", 0, 1)]  # T 0, x 1; the $f is statement 0

# Two faulty records: one of each number before one of each number.
faults = {
    1: record(7, b""),
    2: e("e", [0] * 1025),
    3: const("T"),
    4: a("f", [0]),
    5: a("b", [9]),
    6: a("d", [0, 1]),
    7: proof(),
}
for i, first in faults.items():
    for j, second in faults.items():
        add("record-%d-then-%d" % (i, j), z + [first, second], bad(i, 3))
    add("record-%d-alone" % i, z + [first], bad(i, 3))
    add("record-%d-then-good" % i, z + [first, y, a("good", [0])], bad(i, 3))
    add("good-then-record-%d" % i, z + [y, e("e1", [0]), first], bad(i, 5))

# Two faults in one record: every two numbers that one record can have.
pr = p("p", [0])
add("1-and-2-label-of-65-n-1025", z + [e("l" * 65, [0] * 1025)], bad(1, 3))
add("1-and-3-class-2-bad-byte", z + [symbol(2, "$")], bad(1, 3))
add("1-and-3-class-2-used-name", z + [symbol(2, "T")], bad(1, 3))
add("1-and-3-name-of-65-bad-byte", z + [const("$" * 65)], bad(1, 3))
add("1-and-4-n-0-bad-label", z + [e("*", [])], bad(1, 3))
add("1-and-4-label-of-65-bad-bytes", z + [a("*" * 65, [0])], bad(1, 3))
add("1-and-5-label-of-65-undefined", z + [a("l" * 65, [9])], bad(1, 3))
add("1-and-5-f-without-label", z + [f("", 9, 9)], bad(1, 3))
add("1-and-6-label-of-65-no-f", z + [a("l" * 65, [0, 1])], bad(1, 3))
add("1-and-6-no-label-pair-equal", z + [a("", [0], [], [(1, 1)])], bad(1, 3))
add("1-and-7-after-p", z + [pr, record(7, b"")], bad(1, 4))
add("1-and-7-name-of-65-after-p", z + [pr, const("n" * 65)], bad(1, 4))
add("2-and-4-n-1025-bad-label", z + [e("*", [0] * 1025)], bad(2, 3))
add("2-and-4-n-1025-used-label", z + [a("f", [0] * 1025)], bad(2, 3))
add("2-and-5-n-1025-undefined", z + [e("e", [9] * 1025)], bad(2, 3))
add("2-and-5-h-65-equal", z + [a("a", [0], [0] * 65)], bad(2, 3))
add("2-and-6-n-1025-no-f", z + [a("a", [0] + [1] * 1024)], bad(2, 3))
add("2-and-6-d-513-equal-members", z + [a("a", [0], [], [(1, 1)] * 513)], bad(2, 3))
add("2-and-7-stray-65537", z + [proof(b"A" * 65537)], bad(2, 3))
add("2-and-7-n-1025-after-p", z + [pr, e("e", [0] * 1025)], bad(2, 4))
add("3-and-3-bad-byte-twice", z + [const("$$")], bad(3, 3))
add("3-and-7-used-name-after-p", z + [pr, const("T")], bad(3, 4))
add("3-and-7-bad-name-after-p", z + [pr, const(" ")], bad(3, 4))
add("4-and-5-bad-label-undefined", z + [a("*", [9])], bad(4, 3))
add("4-and-5-used-label-undefined", z + [f("f", 9, 9)], bad(4, 3))
add("4-and-5-bad-label-falling", z + [e("e", [0]), a("*", [0, 1], [1, 0])], bad(4, 4))
add("4-and-6-bad-label-no-f", z + [a("*", [0, 1])], bad(4, 3))
add("4-and-6-used-label-pair-equal", z + [a("f", [0], [], [(1, 1)])], bad(4, 3))
add("4-and-7-bad-label-after-p", z + [pr, a("*", [0])], bad(4, 4))
add("5-and-6-undefined-no-f", z + [a("a", [0, 1, 9])], bad(5, 3))
add("5-and-6-falling-no-f", z + [e("e", [0]), a("a", [0, 1], [1, 0])], bad(5, 4))
add("5-and-6-not-active-two-f", [c, x, f("f", 0, 1, 2), f("g", 0, 1), a("a", [0, 1], [0, 1])], bad(5, 4))
add("5-and-6-pair-equal-typecode-variable", z + [a("a", [1], [], [(1, 1)])], bad(5, 3))
add("5-and-6-pair-equal-pair-constant", z + [a("a", [0], [], [(1, 1), (1, 0)])], bad(5, 3))
add("5-and-7-undefined-after-p", z + [pr, a("a", [9])], bad(5, 4))
add("6-and-6-no-f-pair-equal", z + [a("a", [0, 1], [], [(1, 1)])], bad(6, 3))
add("6-and-7-no-f-after-p", z + [pr, a("a", [0, 1])], bad(6, 4))
add("1-to-6-all-in-one", z + [a("*" * 65, [9] * 1025, [5] * 65, [(1, 1)] * 513)], bad(1, 3))
add("2-to-6-all-in-one", z + [a("*", [9] * 1025, [5] * 65, [(1, 1)] * 513)], bad(2, 3))
add("4-to-6-all-in-one", z + [a("*", [0, 1, 9], [5], [(1, 1)])], bad(4, 3))
