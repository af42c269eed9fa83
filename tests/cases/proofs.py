# 7 NoProof: the record right after a $p is kind 6, and kind 6 stands nowhere else.
from .records import *

cases = Cases("proofs")
add = cases.add
pr = p("p", [0])  # 15 bytes
assert len(c) == 8 and len(pr) == 15

add("p-and-proof", [c, pr, proof("( ) A")], good(1, 1))
add("p-and-proof-of-0-bytes", [c, pr, proof("")], good(1, 1))
add("p-and-proof-of-1-byte", [c, pr, proof("?")], good(1, 1))
add("proof-text-of-any-bytes", [c, pr, proof(bytes(range(256)))], good(1, 1))
add("two-p-with-proofs", [c, pr, proof(), p("q", [0]), proof()], good(1, 2))
add("p-proof-then-each-kind", [c, pr, proof(), x, f("f", 0, 1), e("e", [0]), a("a", [0]), p("q", [0]), proof()], good(2, 5))

# What stands right after the $p.
add("p-then-constant", [c, pr, const("U")], bad_at(7, 23))
add("p-then-variable", [c, pr, x], bad_at(7, 23))
add("p-then-f", [c, x, pr, f("f", 0, 1)], bad_at(7, 31))
add("p-then-e", [c, pr, e("e", [0])], bad_at(7, 23))
add("p-then-a", [c, pr, a("a", [0])], bad_at(7, 23))
add("p-then-p", [c, pr, p("q", [0])], bad_at(7, 23))
add("p-then-p-with-proof", [c, pr, p("q", [0]), proof()], bad_at(7, 23))
add("p-then-symbol-then-proof", [c, pr, const("U"), proof()], bad_at(7, 23))
add("p-then-a-then-proof", [c, pr, a("a", [0]), proof()], bad_at(7, 23))
add("p-last", [c, pr], bad_at(7, 23))
add("p-last-after-a-good-one", [c, pr, proof(), p("q", [0])], bad(7, 4))
add("second-p-then-constant", [c, pr, proof(), p("q", [0]), const("U")], bad(7, 4))

# Kind 6 elsewhere.
add("proof-first", proof(), bad_at(7, 0))
add("proof-of-0-bytes-first", proof(""), bad_at(7, 0))
add("proof-after-constant", [c, proof()], bad_at(7, 8))
add("proof-after-variable", [c, x, proof()], bad_at(7, 16))
add("proof-after-f", [c, x, f("f", 0, 1), proof()], bad(7, 3))
add("proof-after-e", [c, e("e", [0]), proof()], bad(7, 2))
add("proof-after-a", [c, a("a", [0]), proof()], bad(7, 2))
add("proof-after-proof", [c, pr, proof(), proof()], bad(7, 3))
add("proof-after-empty-proof", [c, pr, proof(""), proof("")], bad(7, 3))
add("proof-before-its-p", [c, proof(), pr], bad(7, 1))
add("p-last-after-stray", [proof(), c, pr], bad(7, 0))

# The record after a $p has a fault of its own, which has the lower number.
add("p-then-0-byte", [c, pr, b"\0"], bad_at(1, 23))
add("p-then-length-0", [c, pr, u32(0)], bad_at(1, 23))
add("p-then-kind-7", [c, pr, record(7, b"")], bad_at(1, 23))
add("p-then-class-2", [c, pr, symbol(2, "U")], bad_at(1, 23))
add("p-then-proof-cut-short", [c, pr, proof("AB")[:-1]], bad_at(1, 23))
add("p-then-proof-65537", [c, pr, proof(b"A" * 65537)], bad_at(2, 23))
add("p-then-n-1025", [c, pr, e("e", [0] * 1025)], bad_at(2, 23))
add("p-then-used-name", [c, pr, const("T")], bad_at(3, 23))
add("p-then-bad-name", [c, pr, const("$")], bad_at(3, 23))
add("p-then-used-label", [c, pr, a("p", [0])], bad_at(4, 23))
add("p-then-bad-label", [c, pr, e("*", [0])], bad_at(4, 23))
add("p-then-undefined-symbol", [c, pr, e("e", [1])], bad_at(5, 23))
add("p-then-lists-the-p", [c, pr, a("a", [0], [0])], bad_at(5, 23))
add("p-then-claim-variable", [c, x, pr, a("a", [0, 1])], bad_at(6, 31))
add("p-then-pair-equal", [c, x, pr, p("q", [0], [], [(1, 1)]), proof()], bad_at(6, 31))

# The $p itself is turned away, so its proof is not looked for.
add("bad-p-last", [c, p("p", [1])], bad(5, 1))
add("bad-label-p-last", [c, p("*", [0])], bad(4, 1))
add("bad-p-then-symbol", [c, x, p("p", [0, 1]), const("U")], bad(6, 2))
