# 5 BadReference: numbers not defined earlier, typecodes, variables, and the list of hypotheses.
from .records import *

cases = Cases("references")
add = cases.add
z = [c, x, y]  # symbols 0 to 2: the count is 3

# A $f: its typecode is a constant and its variable a variable, both defined earlier.
add("f-good", z + [f("f", 0, 2)], good(3, 1))
add("f-typecode-undefined", z + [f("f", 3, 1)], bad(5, 3))
add("f-typecode-65535", z + [f("f", 65535, 1)], bad(5, 3))
add("f-typecode-256", z + [f("f", 256, 1)], bad(5, 3))
add("f-typecode-a-variable", z + [f("f", 1, 2)], bad(5, 3))
add("f-typecode-the-last-symbol", [x, c, f("f", 1, 0)], good(2, 1))
add("f-variable-undefined", z + [f("f", 0, 3)], bad(5, 3))
add("f-variable-65535", z + [f("f", 0, 65535)], bad(5, 3))
add("f-variable-257", z + [f("f", 0, 257)], bad(5, 3))
add("f-variable-a-constant", z + [f("f", 0, 0)], bad(5, 3))
add("f-both-the-variable", z + [f("f", 1, 1)], bad(5, 3))
add("f-turned", z + [f("f", 1, 0)], bad(5, 3))
add("f-variable-defined-later", [c, f("f", 0, 1), x], bad(5, 1))
add("f-typecode-defined-later", [x, f("f", 1, 0), c], bad(5, 1))
add("f-no-symbols", [f("f", 0, 0)], bad_at(5, 0))
add("f-same-twice", z + [f("f", 0, 1), f("g", 0, 1)], good(3, 2))

# A $e: the first symbol is the typecode; its variables need no $f while nothing lists it.
add("e-typecode-alone", z + [e("e", [0])], good(3, 1))
add("e-variables-without-f", z + [e("e", [0, 1, 2, 1])], good(3, 1))
add("e-typecode-a-variable", z + [e("e", [1, 0])], bad(5, 3))
add("e-typecode-undefined", z + [e("e", [3])], bad(5, 3))
add("e-typecode-65535", z + [e("e", [65535])], bad(5, 3))
add("e-no-symbols", [e("e", [0])], bad_at(5, 0))
for k in (1, 2, 3):
    for number in (3, 256, 65535):
        symbols = [0, 0, 1, 2]
        symbols[k] = number
        add("e-symbol-%d-is-%d" % (k, number), z + [e("e", symbols)], bad(5, 3))
add("e-last-symbol-defined-later", [c, x, e("e", [0, 1, 2]), y], bad(5, 2))
add("e-last-symbol-is-the-last", z + [e("e", [0, 1, 2])], good(3, 1))

# Of a $a and of a $p the same; w is what stands after the record.
for kind, name, w in ((4, "a", []), (5, "p", [proof()])):

    def one(label, records, symbols, listed, pairs, verdict):
        record = claim(kind, name, symbols, listed, pairs)
        if verdict is None:
            # good: the symbols and statements are those of z, of records and this one
            verdict = good(3, len(records) + 1)
        else:
            verdict = bad(verdict, len(z) + len(records))
        add("%s-%s" % (name, label), z + records + [record] + w, verdict)

    one("typecode-alone", [], [0], [], [], None)
    one("typecode-a-variable", [], [1], [], [], 5)
    one("typecode-undefined", [], [3], [], [], 5)
    one("typecode-65535", [], [65535, 0], [], [], 5)
    one("last-symbol-undefined", [], [0, 0, 0, 3], [], [], 5)
    one("middle-symbol-65535", [], [0, 0, 65535, 0], [], [], 5)

    # The list: $f is statement 0, $e 1, $a 2; the record is statement 3.
    some = [f("sf", 0, 1), e("se", [0, 1]), a("sa", [0])]
    one("lists-nothing", some, [0], [], [], None)
    one("lists-f", some, [0, 1], [0], [], None)
    one("lists-f-e", some, [0, 1], [0, 1], [], None)
    one("lists-a", some, [0], [2], [], 5)
    one("lists-f-e-a", some, [0], [0, 1, 2], [], 5)
    one("lists-itself", some, [0], [3], [], 5)
    one("lists-the-next", some, [0], [4], [], 5)
    one("lists-65536", some, [0], [65536], [], 5)
    one("lists-4294967295", some, [0], [4294967295], [], 5)
    one("lists-2147483648", some, [0], [2147483648], [], 5)
    one("lists-f-then-itself", some, [0], [0, 3], [], 5)
    one("lists-equal", some, [0], [0, 0], [], 5)
    one("lists-equal-last", some, [0], [0, 1, 1], [], 5)
    one("lists-falling", some, [0], [1, 0], [], 5)
    one("lists-falling-last", [e("s%d" % k, [0]) for k in range(4)], [0], [0, 1, 3, 2], [], 5)
    one("lists-falling-first", [e("s%d" % k, [0]) for k in range(4)], [0], [1, 0, 2, 3], [], 5)
    one("lists-rising-with-gaps", [e("s%d" % k, [0]) for k in range(6)], [0], [1, 3, 4], [], None)

    # Active at 3, for a $f and for a $e of number 1: its end is 4294967295 or above 3.
    for end, active in ((0, False), (1, False), (2, False), (3, False), (4, True), (5, True), (256, True), (65536, True),
                        (0x7FFFFFFF, True), (0x80000000, True), (4294967294, True), (4294967295, True)):
        around = [a("s0", [0]), f("s1", 0, 1, end), a("s2", [0])]
        one("f-ends-%d-listed-at-3" % end, around, [0, 1], [1], [], None if active else 5)
        one("f-ends-%d-unlisted-at-3" % end, around, [0], [], [], None)
        around = [a("s0", [0]), e("s1", [0], end), a("s2", [0])]
        one("e-ends-%d-listed-at-3" % end, around, [0], [1], [], None if active else 5)
    one("first-of-two-not-active", [f("s0", 0, 1, 2), f("s1", 0, 2)], [0], [0, 1], [], 5)
    one("last-of-two-not-active", [f("s0", 0, 1), f("s1", 0, 2, 2)], [0], [0, 1], [], 5)
    one("own-end-just-past", [f("s0", 0, 1, 2)], [0, 1], [0], [], None)
    one("own-end-just-here", [f("s0", 0, 1, 1)], [0, 1], [0], [], 5)
    one("own-end-itself", [f("s0", 0, 1, 0)], [0, 1], [0], [], 5)

    # Pairs: each member is a variable; it needs no $f, and the pair need not be mandatory.
    one("pair", [], [0], [], [(1, 2)], None)
    one("pair-turned", [], [0], [], [(2, 1)], None)
    one("pair-both-ways", [], [0], [], [(1, 2), (2, 1)], None)
    one("pair-twice", [], [0], [], [(1, 2), (1, 2)], None)
    one("pair-first-a-constant", [], [0], [], [(0, 1)], 5)
    one("pair-second-a-constant", [], [0], [], [(1, 0)], 5)
    one("pair-constant-twice", [], [0], [], [(0, 0)], 5)
    one("pair-first-undefined", [], [0], [], [(3, 1)], 5)
    one("pair-second-undefined", [], [0], [], [(1, 3)], 5)
    one("pair-undefined-twice", [], [0], [], [(3, 3)], 5)
    one("pair-65535", [], [0], [], [(1, 65535)], 5)
    one("second-pair-a-constant", [], [0], [], [(1, 2), (2, 0)], 5)

    # The same number later in the file: defined only when it is met.
    add(name + "-symbol-defined-later", [c, x, claim(kind, name, [0, 2])] + w + [const("U")], bad(5, 2))
    add(name + "-statement-defined-later", z + [claim(kind, name, [0], [1])] + w + [e("e", [0])], bad(5, 3))
    add(name + "-lists-a-p", z + [p("sp", [0]), proof(), claim(kind, name, [0], [0])] + w, bad(5, 5))
    add(name + "-listed-twice-by-two", z + [f("f", 0, 1), a("b", [0, 1], [0]), claim(kind, name, [0, 1], [0])] + w, good(3, 3))
    add(name + "-ended-for-the-second", z + [f("f", 0, 1, 2), a("b", [0, 1], [0]), claim(kind, name, [0, 1], [0])] + w, bad(5, 5))
    add(name + "-no-symbols", [claim(kind, name, [0])] + w, bad_at(5, 0))

# A scope end of any value is no fault while nothing lists the statement.
for end in (0, 1, 2, 4294967294):
    add("f-end-%d-alone" % end, [c, x, f("f", 0, 1, end)], good(2, 1))
    add("e-end-%d-alone" % end, [c, x, e("e", [0, 1], end)], good(2, 1))
add("last-of-65-symbols", [const("s%d" % k) for k in range(65)] + [e("e", [0, 64])], good(65, 1))
add("past-the-last-of-65-symbols", [const("s%d" % k) for k in range(65)] + [e("e", [0, 65])], bad(5, 65))

# Symbol numbers and statement numbers are two countings: more symbols than statements, and more statements than symbols.
ten = [const("s%d" % k) for k in range(9)] + [x]
add("statement-number-below-the-symbols", ten + [f("f", 0, 9), a("a", [0], [5])], bad(5, 11))
add("statement-number-as-the-last-symbol", ten + [f("f", 0, 9), a("a", [0], [9])], bad(5, 11))
add("statement-number-with-ten-symbols", ten + [f("f", 0, 9), a("a", [0, 9], [0])], good(10, 2))
many = [c, x] + [e("e%d" % k, [0]) for k in range(10)]
add("symbol-number-below-the-statements", many + [e("last", [0, 5])], bad(5, 12))
add("variable-number-below-the-statements", many + [f("last", 0, 5)], bad(5, 12))
add("pair-number-below-the-statements", many + [a("last", [0], [], [(1, 5)])], bad(5, 12))
add("statement-number-above-the-symbols", many + [a("last", [0], [2, 9])], good(2, 11))

# Symbols and statements in turn.
turns = [c, e("e0", [0]), x, f("f1", 0, 1), y, f("f2", 0, 2), const("U"), e("e3", [3, 1, 2])]
add("in-turn", turns + [a("a4", [3, 2, 1], [0, 1, 2, 3], [(1, 2)])], good(4, 5))
add("in-turn-a-constant-in-the-pair", turns + [a("a4", [3, 2, 1], [0, 1, 2, 3], [(3, 2)])], bad(5, 8))
add("in-turn-a-variable-as-typecode", turns + [a("a4", [2, 2, 1], [0, 1, 2, 3])], bad(5, 8))
add("in-turn-without-f2", turns + [a("a4", [3, 1], [0, 1, 3])], bad(6, 8))
add("in-turn-itself-listed", turns + [a("a4", [3, 2, 1], [0, 1, 2, 4])], bad(5, 8))
