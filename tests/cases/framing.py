# 6 BadFrame: variables without a listed $f, or with it after the $e; two listed $f; pairs of equal members.
from .records import *

cases = Cases("framing")
add = cases.add
z = [c, x, y, const("U")]  # T 0, x 1, y 2, U 3

for kind, name, w in ((4, "a", []), (5, "p", [proof()])):

    def one(label, records, symbols, listed, pairs, is_good):
        record = claim(kind, name, symbols, listed, pairs)
        verdict = good(4, len(records) + 1) if is_good else bad(6, len(z) + len(records))
        add("%s-%s" % (name, label), z + records + [record] + w, verdict)

    fx, fy = f("fx", 0, 1), f("fy", 0, 2)

    # The claim's variables.
    one("claim-variable-without-f", [], [0, 1], [], [], False)
    one("claim-variable-f-unlisted", [fx], [0, 1], [], [], False)
    one("claim-variable-f-listed", [fx], [0, 1], [0], [], True)
    one("claim-second-variable-without-f", [fx], [0, 1, 2], [0], [], False)
    one("claim-second-variable-f-unlisted", [fx, fy], [0, 1, 2], [0], [], False)
    one("claim-first-variable-f-unlisted", [fx, fy], [0, 1, 2], [1], [], False)
    one("claim-both-listed", [fx, fy], [0, 2, 1], [0, 1], [], True)
    one("claim-variable-last-of-many", [fx], [0] * 20 + [2], [0], [], False)
    one("claim-variable-twice", [fx], [0, 1, 1], [0], [], True)
    one("claim-other-typecode", [f("fx", 3, 1)], [0, 1], [0], [], True)
    one("claim-typecode-alone", [fx], [0], [], [], True)
    one("listed-f-of-no-use", [fx, fy], [0, 1], [0, 1], [], True)
    one("only-a-listed-e-has-it", [e("e", [0, 3])], [0, 1], [0], [], False)

    # The variables of a listed $e, and where their $f stands.
    one("e-variable-without-f", [e("e", [0, 1])], [0], [0], [], False)
    one("e-variable-f-unlisted", [fx, e("e", [0, 1])], [0], [1], [], False)
    one("e-variable-f-listed", [fx, e("e", [0, 1])], [0], [0, 1], [], True)
    one("e-variable-f-after", [e("e", [0, 1]), fx], [0], [0, 1], [], False)
    one("e-variable-f-after-also-in-claim", [e("e", [0, 1]), fx], [0, 1], [0, 1], [], False)
    one("e-second-variable-without-f", [fx, e("e", [0, 1, 2])], [0], [0, 1], [], False)
    one("e-second-variable-f-after", [fx, e("e", [0, 1, 2]), fy], [0], [0, 1, 2], [], False)
    one("e-last-of-many-without-f", [fx, e("e", [0] + [1] * 20 + [2])], [0], [0, 1], [], False)
    one("e-constants-only", [e("e", [0, 3, 0])], [0], [0], [], True)
    one("e-typecode-alone-f-after", [e("e", [0]), fx], [0, 1], [0, 1], [], True)
    one("e-unlisted-with-a-variable", [e("e", [0, 1])], [0], [], [], True)
    one("f-between-e-serves-the-later", [e("e1", [0]), fx, e("e2", [0, 1])], [0, 1], [0, 1, 2], [], True)
    one("f-between-e-not-the-earlier", [e("e1", [0, 1]), fx, e("e2", [0, 1])], [0, 1], [0, 1, 2], [], False)
    one("f-between-e-earlier-unlisted", [e("e1", [0, 1]), fx, e("e2", [0, 1])], [0, 1], [1, 2], [], True)
    one("second-e-without-f", [fx, e("e1", [0, 1]), e("e2", [0, 2])], [0, 1], [0, 1, 2], [], False)
    one("second-e-f-between", [fx, e("e1", [0, 1]), fy, e("e2", [0, 2])], [0, 1], [0, 1, 2, 3], [], True)
    one("two-f-for-x-first-before-e-unlisted", [fx, e("e", [0, 1]), f("gx", 0, 1)], [0, 1], [1, 2], [], False)

    # Two listed $f for one variable.
    two = [fx, f("gx", 0, 1)]
    one("two-f-active-first-listed", two, [0, 1], [0], [], True)
    one("two-f-active-last-listed", two, [0, 1], [1], [], True)
    one("two-f-active-none-listed", two, [0], [], [], True)
    one("two-f-listed", two, [0, 1], [0, 1], [], False)
    one("two-f-listed-of-no-use", two, [0], [0, 1], [], False)
    one("two-f-listed-other-typecode", [fx, f("gx", 3, 1)], [0, 1], [0, 1], [], False)
    one("two-f-listed-not-neighbours", [fx, fy, e("e", [0]), f("gx", 0, 1)], [0, 1], [0, 1, 2, 3], [], False)
    one("two-f-listed-last-of-three", [fx, fy, f("gy", 3, 2)], [0, 1], [0, 1, 2], [], False)

    # Pairs of equal members.
    one("pair-equal", [], [0], [], [(1, 1)], False)
    one("pair-equal-with-f", [fx], [0, 1], [0], [(1, 1)], False)
    one("pair-equal-last", [], [0], [], [(1, 2), (2, 1), (2, 2)], False)
    one("pair-equal-first", [], [0], [], [(2, 2), (1, 2)], False)
    one("pair-members-without-f", [], [0], [], [(1, 2)], True)
    one("pair-of-listed", [fx, fy], [0, 1, 2], [0, 1], [(1, 2)], True)
    one("pair-half-listed", [fx], [0, 1], [0], [(1, 2)], True)
