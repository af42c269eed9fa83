#!/usr/bin/env python3
"""Runs with the answers of document 01, worked out by hand by someone who had not seen the definition of a run.

(1) a tiny builder for frame files in document 01's layout;
(2) CASES: (name, file_bytes, statement, pool, stack, places, (number, place, steps), reason).

Nothing here runs a proof.  Every answer was written down by hand from document 01 ("01:" in the
reasons) and from its readings in docs/DECISIONS.md ("R:").  `reading.py OUT` writes one line a case:
name, the file in hexadecimal, statement, pool, stack, places, number, place, steps, reason.
"""
import struct
import sys

# ---------------------------------------------------------------- builder
EVER = 4294967295


def rec(kind, body):
    return struct.pack('<IH', 2 + len(body), kind) + body


def u16s(numbers):
    return b''.join(struct.pack('<H', n) for n in numbers)


def symbol(cls, name):
    return rec(1, bytes([cls]) + name.encode('ascii'))


def f(end, typecode, variable, label):
    return rec(2, struct.pack('<IHH', end, typecode, variable) + label.encode('ascii'))


def e(end, symbols, label):
    return rec(3, struct.pack('<IH', end, len(symbols)) + u16s(symbols) + label.encode('ascii'))


def assertion(kind, hyps, pairs, symbols, label):
    body = struct.pack('<HHH', len(hyps), len(pairs), len(symbols))
    body += b''.join(struct.pack('<I', h) for h in hyps)
    body += b''.join(struct.pack('<HH', x, y) for x, y in pairs)
    return rec(kind, body + u16s(symbols) + label.encode('ascii'))


def a(hyps, pairs, symbols, label):
    return assertion(4, hyps, pairs, symbols, label)


def p(hyps, pairs, symbols, label):
    return assertion(5, hyps, pairs, symbols, label)


def proof(text):
    if isinstance(text, str):
        text = text.encode('latin-1')
    return rec(6, text)


# ---------------------------------------------------------------- databases
# T: the bench table's file.  Symbols 0 wff, 1 |-, 2 (, 3 ), 4 ->, 5 p, 6 q.
WFF, TURN, LP, RP, ARROW, P, Q = range(7)
IMP = [LP, P, ARROW, Q, RP]


def bench(text1, text2):
    return b''.join([
        symbol(0, 'wff'), symbol(0, '|-'), symbol(0, '('), symbol(0, ')'), symbol(0, '->'),
        symbol(1, 'p'), symbol(1, 'q'),
        f(EVER, WFF, P, 'wp'),                                              # 0
        f(EVER, WFF, Q, 'wq'),                                              # 1
        a([0, 1], [], [WFF] + IMP, 'wi'),                                   # 2
        e(6, [TURN, P], 'min'),                                             # 3
        e(6, [TURN] + IMP, 'maj'),                                          # 4
        a([0, 1, 3, 4], [], [TURN, Q], 'mp'),                               # 5
        p([0, 1], [], [WFF, LP] + IMP + [ARROW] + IMP + [RP], 'th1'),       # 6
        proof(text1),
        e(10, [TURN, P], 'h1'),                                             # 7
        e(10, [TURN] + IMP, 'h2'),                                          # 8
        p([0, 1, 7, 8], [], [TURN, Q], 'th2'),                              # 9
        proof(text2),
    ])


def T1(text):
    return bench(text, 'wp wq h1 h2 mp')


def T2(text):
    return bench('( wi ) ABCZDC', text)


# K: assertions without hypotheses.  Symbols 0 T, 1 c (both constants).
#    0 k $a T c ; 1 t $a T (n = 1) ; 2 p $p T c ; 3 q $p T.
def K(textp, textq='t'):
    return b''.join([
        symbol(0, 'T'), symbol(0, 'c'),
        a([], [], [0, 1], 'k'), a([], [], [0], 't'),
        p([], [], [0, 1], 'p'), proof(textp),
        p([], [], [0], 'q'), proof(textq),
    ])


# D: disjointness.  Symbols 0 w, 1 o (constants), 2 x, 3 y, 4 z (variables).
#    0 fx, 1 fy, 2 fz $f w, for ever ; 3 d $a w o x y, list 0 1, pair x y ;
#    4 j $a w x y, list 0 1, no pair ; 5 m $a w o x, list 0 1, pair x y ;
#    6 n $a w o x, list 0, pairs x y and y z (not mandatory) ; 7 v $a w (n = 1, no list) ;
#    8 p $p w <claim> with the list and pairs given.
O, X, Y, Z = 1, 2, 3, 4


def D(claim, hyps, pairs, text):
    return b''.join([
        symbol(0, 'w'), symbol(0, 'o'), symbol(1, 'x'), symbol(1, 'y'), symbol(1, 'z'),
        f(EVER, 0, X, 'fx'), f(EVER, 0, Y, 'fy'), f(EVER, 0, Z, 'fz'),
        a([0, 1], [(X, Y)], [0, O, X, Y], 'd'),
        a([0, 1], [], [0, X, Y], 'j'),
        a([0, 1], [(X, Y)], [0, O, X], 'm'),
        a([0], [(X, Y), (Y, Z)], [0, O, X], 'n'),
        a([], [], [0], 'v'),
        p(hyps, pairs, [0] + claim, 'p'), proof(text),
    ])


# E: a $e between two $f.  Symbols 0 w, 1 |- (constants), 2 x, 3 y (variables).
#    0 fx $f w x ; 1 ex $e |- x (end 4) ; 2 fy $f w y ; 3 ax $a |- y, list 0 1 2, pair x y ;
#    4 e1 $e |- x (end 6) ; 5 p $p |- y, list 0 2 4, pairs as given.
def E(pairs, text):
    return b''.join([
        symbol(0, 'w'), symbol(0, '|-'), symbol(1, 'x'), symbol(1, 'y'),
        f(EVER, 0, 2, 'fx'), e(4, [1, 2], 'ex'), f(EVER, 0, 3, 'fy'),
        a([0, 1, 2], [(2, 3)], [1, 3], 'ax'),
        e(6, [1, 2], 'e1'),
        p([0, 2, 4], pairs, [1, 3], 'p'), proof(text),
    ])


# R: three-way turns.  Symbols 0 w, 1 x, 2 y, 3 z.
#    0 fx, 1 fy, 2 fz $f w ; 3 t $a w x y z, list 0 1 2 ; 4 p $p w <claim>, list 0 1 2.
def R(claim, text):
    return b''.join([
        symbol(0, 'w'), symbol(1, 'x'), symbol(1, 'y'), symbol(1, 'z'),
        f(EVER, 0, 1, 'fx'), f(EVER, 0, 2, 'fy'), f(EVER, 0, 3, 'fz'),
        a([0, 1, 2], [], [0, 1, 2, 3], 't'),
        p([0, 1, 2], [], [0] + claim, 'p'), proof(text),
    ])


# S: scope.  Symbols 0 w, 1 x, 2 y, 3 z.
#    0 fx $f w x for ever ; 1 fy $f w y with the end given ; 2 a $a w x y, list 0 1 ;
#    3 p $p w x, list 0 ; 4 fz $f w z with end 0.
def S(endy, text):
    return b''.join([
        symbol(0, 'w'), symbol(1, 'x'), symbol(1, 'y'), symbol(1, 'z'),
        f(EVER, 0, 1, 'fx'), f(endy, 0, 2, 'fy'),
        a([0, 1], [], [0, 1, 2], 'a'),
        p([0], [], [0, 1], 'p'), proof(text),
        f(0, 0, 3, 'fz'),
    ])


# V: 257 variables.  Symbol 0 is the constant w; symbol 1 + i is the variable named "v" followed
#    by i in decimal, i = 0 to 256.
#    0 f $f w v256 ; 1 g $f w v0 ; 2 ga $f w v254 ; 3 gb $f w v255 ; 4 gc $f w v253 ; all for ever ;
#    5 fo $f w v256 with end 0 (never active) ; 6 m $a w, list 2 3, pair v254 v255 ;
#    7 p $p w (n = 1) with the list and pairs given ; 8 fl $f w v256 for ever, after the claim.
def var(i):
    return 1 + i


PAIRS256 = [(var(2 * i), var(2 * i + 1)) for i in range(128)]          # v0 v1, v2 v3, ..., v254 v255
PAIRS257 = PAIRS256 + [(var(0), var(256))]                             # and v0 v256
PAIRS255 = PAIRS256[:127] + [(var(253), var(254))]                     # v0 to v254


def V(hyps, pairs, text):
    return b''.join([symbol(0, 'w')] + [symbol(1, 'v%d' % i) for i in range(257)] + [
        f(EVER, 0, var(256), 'f'), f(EVER, 0, var(0), 'g'),
        f(EVER, 0, var(254), 'ga'), f(EVER, 0, var(255), 'gb'), f(EVER, 0, var(253), 'gc'),
        f(0, 0, var(256), 'fo'),
        a([2, 3], [(var(254), var(255))], [0], 'm'),
        p(hyps, pairs, [0], 'p'), proof(text),
        f(EVER, 0, var(256), 'fl'),
    ])


# Q: a $e of the typecode alone.  Symbol 0 T.  0 e0 $e T for ever ; 1 p $p T with the list given.
def QE(hyps, text):
    return b''.join([symbol(0, 'T'), e(EVER, [0], 'e0'), p(hyps, [], [0], 'p'), proof(text)])


# ---------------------------------------------------------------- cases
BIG = (65536, 1024, 4096)
CASES = []


def case(name, file, statement, lent, answer, reason):
    CASES.append((name, file, statement, lent[0], lent[1], lent[2], answer, reason))


def t1(name, text, answer, reason, lent=BIG):
    case('T1-' + name, T1(text), 6, lent, answer, reason)


def t2(name, text, answer, reason, lent=BIG):
    case('T2-' + name, T2(text), 9, lent, answer, reason)


def kp(name, text, answer, reason, lent=BIG):
    case('K-' + name, K(text), 2, lent, answer, reason)


def dd(name, claim, hyps, pairs, text, answer, reason, lent=BIG):
    case('D-' + name, D(claim, hyps, pairs, text), 8, lent, answer, reason)


def ee(name, pairs, text, answer, reason, lent=BIG):
    case('E-' + name, E(pairs, text), 5, lent, answer, reason)


def rr(name, claim, text, answer, reason, lent=BIG):
    case('R-' + name, R(claim, text), 4, lent, answer, reason)


def ss(name, endy, text, answer, reason, lent=BIG):
    case('S-' + name, S(endy, text), 3, lent, answer, reason)


def vv(name, hyps, pairs, text, answer, reason, lent=BIG):
    case('V-' + name, V(hyps, pairs, text), 7, lent, answer, reason)


# ---- compressed, th1 `( wi ) ABCZDC`: limits off by one on both sides
C1 = '( wi ) ABCZDC'
t1('c-exact', C1, (0, 13, 5), 'pool 1+1+6+16=24, stack 2, places 2+1+1=4 just suffice; 01: "limited by what is lent"; bench row', (24, 2, 4))
t1('c-pool23', C1, (43, 12, 4), 'the last C needs bytes 9 to 24; 01: running ... 43; bench row', (23, 2, 4))
t1('c-pool8', C1, (43, 12, 4), 'preload 2 and first result 6 fit exactly; the second result does not', (8, 2, 4))
t1('c-pool7', C1, (43, 9, 2), 'preload 2, first result 6 needs 8; 01: each assertion\'s result uses pool bytes', (7, 2, 4))
t1('c-pool2', C1, (43, 9, 2), 'preload just fits, recalls cost nothing (R: recalls and saves cost nothing), first result does not fit', (2, 2, 4))
t1('c-pool1', C1, (43, 0, 0), 'wq does not fit: "Preloading is judged at the `(`"', (1, 2, 4))
t1('c-stack1', C1, (45, 8, 1), 'B is a recall and needs a free entry (R: 45)', (24, 1, 4))
t1('c-stack0', C1, (45, 7, 0), 'preloading takes no stack; A is the first to need an entry', (24, 0, 4))
t1('c-places3', C1, (46, 10, 3), 'Z wants the fourth place: "At Z: 23, then 46"; three steps done', (24, 2, 3))
t1('c-places2', C1, (46, 2, 0), 'wi in the roster wants the third place: preparing ... 46, at its token', (24, 2, 2))
t1('c-places1', C1, (46, 0, 0), 'wq wants the second place, judged at the `(`', (24, 2, 1))
t1('c-pool1-places0', C1, (46, 0, 0), 'hypothesis by hypothesis: wp has its byte, then lacks its place, before wq lacks its byte (R: preloading)', (1, 2, 0))
t1('c-pool1-places1', C1, (43, 0, 0), 'wp has byte and place; wq lacks its byte first: preparing 43 before 46', (1, 2, 1))
t1('c-pool0-places0', C1, (43, 0, 0), 'preparing: 43 before 46', (0, 0, 0))
t1('c-open-exact', '(', (21, 1, 0), 'preloading just fits, then no `)`: 21 at the text length', (2, 0, 2))
t1('c-open-pool1', '(', (43, 0, 0), 'preloading comes before the roster is read (R), so 43 before 21', (1, 0, 2))

# ---- compressed, dividers and places
CW = '\t( \n wi\r\n)  A\x0cB CZ DC \n'
t1('c-dividers', CW, (0, 23, 5), '01: tokens divided by space, tab, CR, LF, FF; accepted: text length, trailing dividers counted')
t1('c-dividers-pool23', CW, (43, 20, 4), 'byte offset of the last letter read: the last C stands at 20', (23, 1024, 4096))
t1('c-dividers-pool1', CW, (43, 1, 0), 'the `(` stands at 1 after a tab; judged there', (1, 1024, 4096))
t1('c-dividers-places2', CW, (46, 5, 0), 'wi stands at 5', (65536, 1024, 2))
t1('c-dividers-places3', CW, (46, 17, 3), 'the Z stands at 17', (65536, 1024, 3))

# ---- compressed, roster: a label that is a listed hypothesis
CR = '( wi wp ) DBCZEC'
t1('c-roster-hyp', CR, (0, 16, 5), 'R: roster label that is a listed hypothesis is prepared anew: pool 2+1+6+16=25, places 2+2+1=5', (25, 2, 5))
t1('c-roster-hyp-pool24', CR, (43, 15, 4), 'one byte short at the last C', (24, 2, 5))
t1('c-roster-hyp-pool2', CR, (43, 5, 0), 'wp in the roster pays its own byte: preparing 43 at its token', (2, 2, 5))
t1('c-roster-hyp-places3', CR, (46, 5, 0), 'wp,wq,wi fill three places; wp in the roster wants a fourth', (25, 2, 3))
t1('c-roster-hyp-pool2-places3', CR, (43, 5, 0), 'preparing: 43 before 46', (2, 2, 3))
t2('c-roster-e', '( mp h1 ) ABFDE', (0, 15, 5), 'own $e in the roster: pool 9+1+1=11, places 4+2=6, stack 4', (11, 4, 6))
t2('c-roster-e-pool9', '( mp h1 ) ABFDE', (43, 5, 0), 'preload uses 1+1+1+6=9; h1 in the roster wants a tenth byte', (9, 4, 6))
t1('c-19-labels-UA', '( ' + 'wi ' * 19 + ') ABUAZUBUA', (0, 70, 5), '01: `UA` is place 20 = the 19th wi; Z saves place 21 = UB', (24, 2, 22))
t1('c-18-labels-UA-31', '( ' + 'wi ' * 18 + ') ABUA', (31, 61, 2), 'places 0 to 19 only; UA is 20; place of the last letter read')
t1('c-18-labels-T-and-Z20', '( ' + 'wi ' * 18 + ') ABTZUAT', (0, 65, 5), 'T is place 19 = the 18th wi, Z saves place 20 = UA')

# ---- compressed, Z
t1('c-z-after-recall', '( wi ) AZBZCZFC', (0, 15, 5), 'R: Z after a letter that recalls is allowed; places 2+1+3=6 just suffice', (24, 2, 6))
t1('c-z-after-recall-places5', '( wi ) AZBZCZFC', (46, 12, 3), 'third Z wants the sixth place', (24, 2, 5))
t1('c-z-after-recall-places4', '( wi ) AZBZCZFC', (46, 10, 2), 'second Z wants the fifth place', (24, 2, 4))
t1('c-z-ignored-bytes', '( wi ) AB-C..Z_DaC;', (0, 19, 5), '01: a step letter before Z "with only ignored bytes between"; every other byte is ignored')
t1('c-z-parens-ignored', '( wi ) ABC ) ( Z DC', (0, 19, 5), 'R: ignored bytes: `(` and `)` among them, from token to token')
t1('c-z-first', '( wi ) ZA', (23, 7, 0), 'Z needs a step letter before it')
t1('c-z-z-ignored', '( wi ) ABCxZ.Z', (23, 13, 3), 'between C and the second Z stands a Z, which is no ignored byte')
t1('c-u-z', '( wi ) AUZ', (23, 9, 1), 'a U between the step letter and Z: "Z after Z or U allowed" is the error feared')
t1('c-23-before-46', '( wi ) AZZ', (23, 9, 1), 'first Z fills the fourth place; second: "At Z: 23, then 46"', (65536, 1024, 4))
t1('c-46-at-first-z', '( wi ) AZZ', (46, 8, 1), 'three places are full at the first Z, which has its step letter', (65536, 1024, 3))

# ---- compressed, k and 22
t1('c-22-end-before-39', '( wi ) ABU ', (22, 11, 2), '"Unfinished k is 22 at the end, then 39 to 42": two entries left, yet 22, at the text length with its trailing space')
t1('c-22-end-before-40', '( wi ) V', (22, 8, 0), 'no steps, yet unfinished k first')
t2('c-22-end-before-41', '( ) BV', (22, 6, 1), 'wff q would be 41')
t1('c-22-end-before-42', '( ) AY', (22, 6, 1), 'p would be 42')
t1('c-k-bound-reached', '( wi ) A XUXXWWXVUXVW', (22, 20, 1), 'XUXXWWXVUXV is 42949672, W brings k to 214748363, which is not below 214748363: 22 at that letter')
t1('c-k-bound-below', '( wi ) A XUXXWWXVUXVVA', (31, 21, 1), 'V brings k to 214748362, allowed; A runs place 4294967240: 31')
t1('c-k-bound-below-T', '( wi ) XUXXWWXVUXVVT', (31, 19, 0), 'place 20*214748362+19 = 4294967259: 31')
t1('c-k-12Y', '( wi ) YYYYYYYYYYYY', (22, 18, 0), '11 Y make 61035155, the twelfth 305175780: 22 at the twelfth letter, not at the end')
t1('c-k-12U-end', '( wi ) UUUUUUUUUUUU', (22, 19, 0), '12 U make 61035156, below the bound: unfinished k at the end')
t1('c-k-over-ignored', '( wi ) U b.A', (31, 11, 0), 'R: k passes over dividers and ignored bytes; UA is place 20')
t1('c-22-question', '( wi ) A U x ?', (22, 13, 1), '"A `?` with k above 0 is 22", k passes over x and dividers')
t1('c-24', '( wi ) A ?', (24, 9, 1), '`?` refuses, k = 0')
t1('c-24-ignored', '( wi ) a?A', (24, 8, 0), 'a is ignored, then `?`')
t1('c-24-after-z', '( wi ) AZ?', (24, 9, 1), 'Z takes the last place, `?` refuses with k = 0', (65536, 1024, 4))

# ---- 20
t1('c-20-vt', '( wi )\x0bABCZDC', (20, 0, 0), 'VT is neither name byte nor divider (R: VT is no divider)')
t1('c-20-before-25', '( nosuch ) A$', (20, 0, 0), '`$` is no name byte; 20 is tested first, over the whole text; place 0')
t1('c-20-before-43', '( wi ) ABCZDC\x80', (20, 0, 0), '20 is tested before preloading', (0, 0, 0))
t1('n-20', 'wp nosuch\x7f', (20, 0, 0), '7F is no name byte; tested first')
t1('n-20-nul', 'wp\x00wq', (20, 0, 0), '00 is neither name byte nor divider')

# ---- 21 and the roster
t1('c-21-dividers', '( wi \t\n', (21, 7, 0), 'R: 21 at the text length, trailing dividers counted')
t1('c-25-before-21', '( nosuch', (25, 2, 0), 'the roster label is prepared before the missing `)` is found')
t1('c-46-before-21', ' ( wi wi', (46, 6, 0), 'second wi wants a fourth place, before the missing `)` is found', (65536, 1024, 3))
t1('c-25-split', '( wi x:wi ) A', (25, 5, 0), '"each roster label (never split)"')
t1('c-25-mark', '( wp=wi ) A', (25, 2, 0), '"each roster label (never split)"')
t1('c-25-paren', '( ( ) A', (25, 2, 0), 'a second `(` is a roster label found nowhere')
t1('c-25-close-glued', '( wi )AB', (25, 5, 0), 'R: `(` and `)` are tokens exactly; `)AB` is a label')
t1('c-25-others-e', '( wi h1 ) A', (25, 5, 0), 'h1 is no $e of th1: "the $e of this $p"')
t2('c-25-others-e', '( mp min ) A', (25, 5, 0), 'min is no listed $e of th2, nor active')
t1('c-29-own', '( wi th1 ) A', (29, 5, 0), 'R: 29 for the claim\'s own label')
t1('c-29-later', '( th2 ) A', (29, 2, 0), 'th2 stands later')
t1('c-29-before-46', '( th1 ) A', (29, 2, 0), 'preparing: 29 before 46', (65536, 1024, 2))
t1('c-25-before-46', '( nosuch ) A', (25, 2, 0), 'preparing: 25 before 46', (65536, 1024, 2))

# ---- 31, 32 compressed
t1('c-31-before-45', '( wi ) D', (31, 7, 0), 'places 0 to 2; running: 31 ... 45', (65536, 0, 4096))
t1('c-31-after-z', '( wi ) AZE', (31, 9, 1), 'Z made place 3 = D; E is 4')
t1('c-39-after-z', '( wi ) AZD', (39, 10, 2), 'D is the saved place 3; two entries at the end')
t1('c-32', '( wi ) C', (32, 7, 0), 'wi wants two entries')
t1('c-32-one-short', '( wi ) ABCC', (32, 10, 3), 'one entry left for a step of two hypotheses')
t2('c-32-before-43', '( mp ) ABCE', (32, 10, 3), 'three entries for four hypotheses; running: 32 before 43', (9, 4, 5))

# ---- ends
t1('c-39', '( wi ) ABC A', (39, 12, 4), 'two entries at the end; text length')
t2('c-39-before-41', '( ) AB', (39, 6, 2), 'excess before wrong type')
t1('c-40', '( wi ) x-1', (40, 10, 0), 'only ignored bytes: no steps; R: 40 at the text length also for `( wi )`')
kp('c-40-nothing-lent', '( )', (40, 3, 0), 'no hypotheses, no roster, no steps: nothing is needed', (0, 0, 0))
t2('c-41', '( ) B', (41, 5, 1), 'wff q against |- q')
t2('c-42', '( ) C', (42, 5, 1), '|- p against |- q')
t1('n-39', 'wp  wq ', (39, 7, 2), 'two entries; text length with trailing space')
t2('n-39-before-41', 'wp wq', (39, 5, 2), '39 before 41')
t1('n-40', '\n\t ', (40, 3, 0), 'no tokens: R: 40 at the text length')
t2('n-41', 'wp wq th1', (41, 9, 3), 'th1 is an earlier $p, used as an assertion; wff against |-')
t1('n-42', ' wq\n', (42, 4, 1), 'wff q is of the right type; text length with dividers')

# ---- th2 compressed: limits and 35 to 37
t2('c-exact', '( mp ) ABCDE', (0, 12, 5), 'pool 1+1+1+6 preloaded and 1 for the result, stack 4, places 5', (10, 4, 5))
t2('c-pool9', '( mp ) ABCDE', (43, 11, 4), 'result q wants the tenth byte', (9, 4, 5))
t2('c-pool8', '( mp ) ABCDE', (43, 0, 0), 'h2 wants bytes 4 to 9 at the `(`', (8, 4, 5))
t2('c-stack3', '( mp ) ABCDE', (45, 10, 3), 'D is the fourth push', (10, 3, 5))
t2('c-places4', '( mp ) ABCDE', (46, 2, 0), 'mp wants the fifth place', (10, 4, 4))
t2('c-places3', '( mp ) ABCDE', (46, 0, 0), 'h2 wants the fourth place, judged at the `(`', (10, 4, 3))
t2('c-35', '( mp ) CBCDE', (35, 11, 4), 'wp is given |- p')
t2('c-36', '( mp ) ABABE', (36, 11, 4), 'min is given wff p: 36 though the symbols agree')
t2('c-37', '( mp ) ABDAE', (37, 11, 4), 'min is given |- ( p -> q ): 37; maj given wff would be 36, but hypotheses go in frame order')

# ---- th2 normal: limits and 35 to 37
N2 = 'wp wq h1 h2 mp'
t2('n-exact', N2, (0, 14, 5), 'pool 1+1+1+6+1=10, stack 4, no place needed', (10, 4, 0))
t2('n-pool9', N2, (43, 12, 4), 'result q wants the tenth byte', (9, 4, 0))
t2('n-pool8', N2, (43, 9, 3), 'h2 wants bytes 4 to 9, paid each time a normal step names it', (8, 4, 0))
t2('n-stack3', N2, (45, 9, 3), 'h2 is the fourth push', (10, 3, 0))
t2('n-pool8-stack3', N2, (43, 9, 3), 'R: a normal $f or $e step pays pool bytes before the stack', (8, 3, 0))
t2('n-35-first', 'h1 wq h1 h2 mp', (35, 12, 4), 'wp is given |- p')
t2('n-35-before-36', 'wp h1 wp h2 mp', (35, 12, 4), 'wq given |- (35) stands before min given wff (36): frame order')
t2('n-36-before-37', 'wp wq wp h1 mp', (36, 12, 4), 'min given wff (36), maj given |- p (37): frame order')
t2('n-37-before-36', 'wp wq h2 wp mp', (37, 12, 4), 'min given ( p -> q ) (37), maj given wff (36): frame order')
t2('n-37-short', 'wp wq h1 h1 mp', (37, 12, 4), 'maj given |- p, shorter than ( p -> q )')
t2('n-36-maj', 'wp wq h1 wq mp', (36, 12, 4), 'maj given wff q: 36 before 37')
case('T2-other-proof-bad', bench('?', N2), 9, BIG, (0, 14, 5), 'one statement is asked for; th1\'s incomplete proof is not looked at')

# ---- a $e between $f (E)
ee('n-accept', [(3, 2)], 'fx e1 fy ax', (0, 11, 4), 'pair y x serves x y: "its disjoint pairs, in either order"; pool 3+1=4', (4, 3, 0))
ee('n-43', [(3, 2)], 'fx e1 fy ax', (43, 9, 3), 'result y wants the fourth byte', (3, 3, 0))
ee('n-38-before-43', [], 'fx e1 fy ax', (38, 9, 3), 'running: 38 before 43', (3, 3, 0))
ee('n-36-before-35', [], 'fx fy e1 ax', (36, 9, 3), 'ex given w y, then fy given |-: frame order puts ex first; 36 before 37 in one hypothesis')
ee('n-35-last', [], 'fx e1 e1 ax', (35, 9, 3), 'ex agrees, fy is given |- x')
ee('n-37-before-35', [], 'fy e1 e1 ax', (37, 9, 3), 'x is y, ex must be |- y but is |- x: 37, before fy given |-')
ee('n-37-before-38', [], 'fy e1 fx ax', (37, 9, 3), 'running: 35 to 37, then 38')
ee('c-accept', [(2, 3)], '( ax ) ACBD', (0, 11, 4), 'places fx, fy, e1, ax; preload 3, result 1', (4, 3, 4))
ee('c-43', [(2, 3)], '( ax ) ACBD', (43, 10, 3), 'one byte short at the result', (3, 3, 4))
ee('c-38-before-43', [], '( ax ) ACBD', (38, 10, 3), 'running: 38 before 43', (3, 3, 4))
ee('c-36-before-35', [], '( ax ) ABCD', (36, 10, 3), 'ex given w y before fy given |-')
ee('c-35-last', [], '( ax ) ACCD', (35, 10, 3), 'fy given |- x')
ee('c-37-before-35', [], '( ax ) BCCD', (37, 10, 3), 'ex must be |- y, is |- x, before fy given |-')

# ---- disjointness (D)
dd('n-pair-turned', [O, X, Y], [0, 1], [(Y, X)], 'fx fy d', (0, 7, 3), 'pairs count in either order; pool 1+1+3=5', (5, 2, 0))
dd('n-pool4', [O, X, Y], [0, 1], [(Y, X)], 'fx fy d', (43, 6, 2), 'result o x y wants bytes 3 to 5', (4, 2, 0))
dd('n-no-pair', [O, X, Y], [0, 1], [], 'fx fy d', (38, 6, 2), 'mandatory pair x y of d, no pair of p')
dd('n-self-38-before-43', [O, X, X], [0], [(X, Y)], 'fx fx d', (38, 6, 2), 'a variable is never disjoint from itself; 38 before 43', (2, 2, 0))
dd('n-dummy-pair', [O, X], [0], [(Z, X)], 'fx fz m', (0, 7, 3), 'all pairs of the $p count, also with a dummy')
dd('n-dummy-no-pair', [O, X], [0], [(X, Y)], 'fx fz m', (38, 6, 2), 'z is numbered only when fz is named; beyond the pairs is not disjoint')
dd('n-two-dummies', [O, X], [0], [], 'fy fz m', (38, 6, 2), 'y and z are no pair of p (38 before the wrong end)')
dd('n-assertion-pair-not-mandatory', [O, X], [0], [], 'fx n', (0, 4, 2), 'mandatory pairs are those with both members mandatory; y and z are not listed by n')
dd('n-empty-image', [O, X], [0], [], 'fx v m', (0, 6, 3), 'the image of y is empty, no variable to test; v (n = 1) costs 0 bytes: pool 1+0+2=3', (3, 2, 0))
dd('n-every-variable-38', [O, X, Y, Z], [0, 1, 2], [(X, Z)], 'fx fy j fz d', (38, 11, 4), 'every variable of one image with every one of the other: y z is missing')
dd('n-every-variable', [O, X, Y, Z], [0, 1, 2], [(X, Z), (Z, Y)], 'fx fy j fz d', (0, 12, 5), 'x z and y z are given, x y is not needed; pool 1+1+2+1+4=9', (9, 2, 0))
dd('n-shared-variable', [O, X, Y, Y], [0, 1], [(X, Y)], 'fx fy j fy d', (38, 11, 4), 'y stands in both images: never disjoint from itself')
dd('n-all-at-once', [Y, X], [0, 1], [], 'fy fx j', (0, 7, 3), 'BOOK: the substitution is applied to all at once: x is y, y is x')
dd('c-pair', [O, X, Y], [0, 1], [(Y, X)], '( d ) ABC', (0, 9, 3), 'pair in the other order; pool 2+3', (5, 2, 3))
dd('c-pool4', [O, X, Y], [0, 1], [(Y, X)], '( d ) ABC', (43, 8, 2), 'one byte short at the result', (4, 2, 3))
dd('c-no-pair', [O, X, Y], [0, 1], [], '( d ) ABC', (38, 8, 2), 'mandatory pair not given')
dd('c-self-38-before-43', [O, X, Y], [0, 1], [(X, Y)], '( d ) AAC', (38, 8, 2), 'x with itself; 38 before 43', (2, 2, 3))
dd('c-dummy-pair', [O, X], [0], [(Z, X)], '( fz m ) ABC', (0, 12, 3), 'dummy from the roster, pair given; pool 1+1+2, places 3', (4, 2, 3))
dd('c-dummy-no-pair', [O, X], [0], [], '( fz m ) ABC', (38, 11, 2), 'no pair given')
dd('c-dummy-places2', [O, X], [0], [(Z, X)], '( fz m ) ABC', (46, 5, 0), 'fx and fz take two places, m wants a third', (4, 2, 2))
dd('c-dummy-pool1-places1', [O, X], [0], [(Z, X)], '( fz m ) ABC', (43, 2, 0), 'fz wants a second byte and a second place: 43 before 46', (1, 2, 1))

# ---- assertions without hypotheses (K)
kp('n-exact', 'k', (0, 1, 1), 'one byte, one entry, no place', (1, 1, 0))
kp('n-43-before-45', 'k', (43, 0, 0), 'running: 43 before 45', (0, 0, 0))
kp('n-45', 'k', (45, 0, 0), 'R: an assertion needs a free entry if h = 0', (1, 0, 0))
kp('n-kk-43', 'k k', (43, 2, 1), 'second result lacks its byte before its entry', (1, 1, 0))
kp('n-kk-45', 'k k', (45, 2, 1), 'second result has its byte, lacks its entry', (2, 1, 0))
case('K-n-typecode-alone', K('k', 't'), 3, (0, 1, 0), (0, 1, 1), 'R: an expression may be the typecode alone, 0 pool bytes')
case('K-n-typecode-alone-45', K('k', 't'), 3, (0, 0, 0), (45, 0, 0), '0 bytes fit an empty pool; no entry')
case('K-n-typecode-alone-42', K('k', 'k'), 3, BIG, (42, 1, 1), 'T c against T')
case('K-n-earlier-p', K('?', 'p'), 3, BIG, (42, 1, 1), 'p is an earlier $p: T c against T; its own proof is not looked at')
kp('n-empty-for-c-42', 't', (42, 1, 1), 'T against T c')
kp('n-29-own', 'k p', (29, 2, 1), 'the claim\'s own label')
kp('c-exact', '( k ) A', (0, 7, 1), 'one byte, one entry, one place', (1, 1, 1))
kp('c-places0', '( k ) A', (46, 2, 0), 'k wants the first place', (1, 1, 0))
kp('c-43', '( k ) A', (43, 6, 0), 'a roster assertion costs nothing until it runs', (0, 1, 1))
kp('c-43-before-45', '( k ) A', (43, 6, 0), 'running: 43 before 45', (0, 0, 1))
kp('c-45', '( k ) A', (45, 6, 0), 'has its byte, lacks its entry', (1, 0, 1))
kp('c-recall-45', '( k ) AZB', (45, 8, 1), 'a recall of a saved place needs a free entry', (1, 1, 2))
kp('c-recall-39', '( k ) AZB', (39, 9, 2), 'recall costs no byte; two entries at the end', (1, 2, 2))
kp('c-z-46', '( k ) AZB', (46, 7, 1), 'Z wants a second place', (1, 2, 1))
kp('n-recall-45', 'a:k a', (45, 4, 1), 'a recall of a local label needs a free entry', (1, 1, 1))
kp('n-recall-39', 'a:k a', (39, 5, 2), 'recall costs no byte', (1, 2, 1))
kp('n-dup-43', 'a:k a:k', (43, 4, 1), 'running 43, 45 come before 27', (1, 1, 1))
kp('n-dup-45', 'a:k a:k', (45, 4, 1), 'running 45 comes before 27', (2, 1, 1))
kp('n-dup-27', 'a:k a:k', (27, 4, 2), '27 before 46; the step counts', (2, 2, 1))
kp('n-dup-46', 'a:k a:k', (46, 0, 1), '46 for a new local place; the step counts', (2, 2, 0))

# ---- normal: labels
t1('n-24', 'wp ? nosuch', (24, 3, 1), '`?` alone is 24')
t1('n-24-local-question', '?:wp ?', (24, 5, 1), '`?:wp` gives the local label `?`; the token `?` alone is 24 all the same')
t1('n-local-question-recalled', '?:wp x=?', (39, 8, 2), 'R: only the token `?` is 24; the label `?` is found among local labels')
t1('n-25-marked', ' wp  wq=nosuch', (25, 5, 1), 'label found nowhere; place of the token\'s first byte')
t1('n-25-open-glued', '(wi ) A', (25, 0, 0), 'the first token is not `(` exactly, so a normal proof; `(wi` is no label')
t1('n-25-open-later', 'wp ( wi', (25, 3, 1), '`(` is no label; only a first token `(` makes it compressed')
t1('n-25-before-defined', 'a a:wp', (25, 0, 0), 'the local label is not yet there')
t1('n-25-eq-eq', 'x=a=wp', (25, 0, 0), 'split at the first `=`: label `a=wp`, no local label: 25')
t1('n-25-others-e', 'wp min', (25, 3, 1), 'R: only a listed $e of this $p')
t2('n-25-others-e', 'wp min', (25, 3, 1), 'min is a $e of mp, not of th2')
t1('n-26', 'wp:wq', (26, 0, 0), 'local label is that of a $f')
t1('n-26-before-28', 'wp mp:nosuch', (26, 3, 1), 'preparing: 26 before 28')
t1('n-26-before-29', 'th1:th1', (26, 0, 0), 'preparing: 26 before 29; the claim included (R)')
t1('n-26-later', ' th2:wp', (26, 1, 0), 'R: later ones included')
t1('n-26-eq-colon', 'x=wi:wp', (26, 0, 0), '`=` before `:`: the part between is the local label, wi: 26')
t1('n-26-before-43', 'wq:wp', (26, 0, 0), 'preparing: 26 before 43', (0, 0, 0))
t1('n-28-eq-colon', 'wp x=a:wp', (28, 3, 1), '`=` before `:`: local label a, label `a:wp`: 28')
t1('n-28-eq-empty-colon', 'x=:wp', (28, 0, 0), 'local label empty, label `:wp`: 28')
t1('n-28-chain', 'a:wp b:a', (28, 5, 1), 'label not among $f, $a, $p and own $e, yet a local label is given')
t1('n-28-same', 'a:wp  a:a', (28, 6, 1), '28 in preparing, before 27 could come')
t1('n-28-others-e', 'x:h1', (28, 0, 0), 'h1 is no $e of th1')
t2('n-28-others-e', 'x:min', (28, 0, 0), 'min is no $e of th2')
t1('n-28-two-colons', 'a:b:wp', (28, 0, 0), 'split at the first `:` only: label `b:wp`')
t1('n-28-colon-alone', 'wp :', (28, 3, 1), 'empty local label, empty label, not found: 28')
t1('n-28-question', 'a:?', (28, 0, 0), 'R: `a:?` is 28')
t1('n-27', 'a:wp a:wq', (27, 5, 2), 'the step counts')
t1('n-27-places1', 'a:wp a:wq', (27, 5, 2), '27 before 46', (65536, 1024, 1))
t1('n-27-empty', ':wp  :wq', (27, 5, 2), 'the empty local label twice')
t1('n-46-first', 'a:wp a:wq', (46, 0, 1), 'no place for the first local label; the step counts', (65536, 1024, 0))
t1('n-46-second', 'a:wp b:wq', (46, 5, 2), 'second local label wants a second place', (65536, 1024, 1))
t1('n-45-before-27', 'a:wp a:wq', (45, 5, 1), 'running 45 before 27', (65536, 1, 4096))
t1('n-43-before-27', 'a:wp a:wq', (43, 5, 1), 'preparing 43 before 27; paid each time', (1, 1024, 4096))
t1('n-32-before-27', 'a:wp a:wi', (32, 5, 1), 'running 32 before 27')
t1('n-29-own', 'th1', (29, 0, 0), 'the claim\'s own label')
t1('n-29-later', 'wp x=th2', (29, 3, 1), 'th2 stands later; the mark is not looked up')
t1('n-29-local', 'a:th1', (29, 0, 0), 'R: `x:th1` is 29, the label is known')
t1('n-pool0-stack0', 'wp', (43, 0, 0), 'R: pool bytes before the stack', (0, 0, 0))
t1('n-stack0', 'wp', (45, 0, 0), 'a push needs a free entry', (1, 0, 0))
t1('n-places0', 'wp', (42, 2, 1), 'R: a normal step takes a place only for its local label', (1, 1, 0))
t1('n-pays-each-time', 'wp wp', (43, 3, 1), '"also each time a normal step names one"', (1, 2, 0))
t1('c-pays-once', '( ) AA', (39, 6, 2), 'recalls cost nothing: 2 preloaded bytes suffice', (2, 2, 2))

# ---- normal: local labels, accepted; limits
N1 = 'wp wq a:wi a wi'
t1('n-exact', N1, (0, 15, 5), 'pool 1+1+6+0+16=24, stack 2, one place', (24, 2, 1))
t1('n-pool23', N1, (43, 13, 4), 'last result one byte short', (23, 2, 1))
t1('n-pool7', N1, (43, 6, 2), 'first result wants byte 8', (7, 2, 1))
t1('n-places0-local', N1, (46, 6, 3), 'no place for a; the step wi counts', (24, 2, 0))
t1('n-stack1', N1, (45, 3, 1), 'wq is the second push', (24, 1, 1))
NW = '\nwp\twq  a:wi\r\n a\x0cwi  '
t1('n-dividers', NW, (0, 21, 5), 'leading, double and trailing dividers; text length')
t1('n-dividers-pool23', NW, (43, 17, 4), 'the last wi stands at 17', (23, 2, 1))
t1('n-dividers-places0', NW, (46, 8, 3), 'the token a:wi stands at 8', (24, 2, 0))
t1('n-local-others-e', 'wp wq h1:wi h1 wi', (0, 17, 5), 'h1 is no $e of th1: the label h1 is found among local labels', (24, 2, 1))
t2('n-local-own-e', 'h1:wp wq h1 h2 mp', (0, 17, 5), 'allowed, takes a place, never found: own $e come first (R)', (10, 4, 1))
t2('n-local-own-e-places0', 'h1:wp wq h1 h2 mp', (46, 0, 1), 'it takes a place', (10, 4, 0))
t2('n-local-own-e-twice', 'h1:wp h1:wq', (27, 6, 2), 'though never found, the local label is there: 27')
t2('n-local-on-e', 'wp wq x:min=h1 h2 mp', (0, 20, 5), 'loc:hyp=label with an own $e')
t1('n-empty-local', 'wp wq :wi wq= wi', (0, 16, 5), 'R: empty parts are parts: `wq=` recalls the empty local label with mark wq')
t1('n-empty-mark-recall', 'wp wq :wi = wi', (33, 12, 4), '`=` recalls the empty local label with an empty mark, which names no hypothesis of wi')

# ---- normal: 32, marks
t1('n-32', 'wp wi', (32, 3, 1), 'one entry for two hypotheses')
t1('n-32-again', 'wp wq wi wi', (32, 9, 3), 'one entry left')
t1('n-32-before-33', 'x=wp wi', (32, 5, 1), 'running: 32 before 33')
t1('n-32-before-34', 'wp=wp wp=wq mp', (32, 12, 2), 'running: 32 before 34')
t1('n-33', 'x=wp wq wi', (33, 8, 2), 'x names no hypothesis of wi')
t1('n-33-empty-mark', 'wp =wq wi', (33, 7, 2), 'R: the empty mark is a mark')
t1('n-33-other-assertion', 'min=wp wq wi', (33, 10, 2), 'min is a hypothesis, but none of wi')
t2('n-33-callers-own', 'wp wq h1=h1 h2 mp', (33, 15, 4), 'h1 is the caller\'s hypothesis, none of mp')
t2('n-33-before-35', 'x=h1 wq wi', (33, 8, 2), 'running: 33 before 35')
t1('n-33-mark-with-colon', 'a:b:c=wp wq wi', (33, 12, 2), 'R: `a:b:c=wp` has the local label a and the mark b:c')
t1('n-34', 'wq=wp wq=wq wi', (34, 12, 2), 'wq is already marked by the entry below')
t2('n-34-before-33', 'wp=wp wp=wq x=h1 h2 mp', (34, 20, 4), 'entries bottom up: the second is 34, the third would be 33')
t2('n-33-before-34', 'wp=wp x=wq wp=h1 h2 mp', (33, 20, 4), 'entries bottom up: the second is 33, the third would be 34')
t2('n-34-before-35', 'wp=h1 wp=wq wi', (34, 12, 2), 'running: 34 before 35')
t1('n-mark-below-not-looked-at', 'x=wp wp wq wi', (39, 13, 4), 'only the top h entries are paired; an unused mark is never looked up')
t1('n-unused-mark', 'wp wq a:wi a foo=wi', (0, 19, 5), 'the mark of the last entry is never looked up')
t1('n-unused-empty-mark', 'wp wq a:wi a =wi', (0, 16, 5), 'an unused empty mark is never looked up')
t1('n-recall-without-mark', 'wp wq a:wp=wi a wi', (0, 18, 5), 'R: a mark belongs to the entry; the recall bears its own only (none), so no 34')
t1('n-recall-mark-34', 'wp wq a:wp=wi wp=a wi', (34, 19, 4), 'the recall bears wp, already marked below')
t1('n-recall-mark', 'wp wq a:wq=wi wp=a wi', (0, 21, 5), 'both marked, turned, same expression')
t1('n-recall-mark-33', 'wp wq a:wi x=a wi', (33, 15, 4), 'the recall\'s mark names no hypothesis of wi')
t2('n-four-way-turn', 'maj=h2 wp=wp wq=wq min=h1 mp', (0, 28, 5), 'a mark assigns its entry to that hypothesis')
t2('n-one-mark', 'maj=h2 wp wq h1 mp', (0, 18, 5), 'unmarked entries fill the rest in order')
t2('n-one-mark-37', 'maj=h1 wp wq h2 mp', (37, 16, 4), 'min is given h2: 37 at min')
t2('n-marks-35', 'wq=h1 wp=wq wp h2 mp', (35, 18, 4), 'wp is wff q, wq is given |- p: 35; min would be given wff p')
rr('three-way', [1, 2, 3], 'fy=fy fz=fz fx=fx t', (0, 19, 4), 'three-way turn: x, y, z each to its own hypothesis')
rr('three-way-images', [3, 1, 2], 'fy=fx fz=fy fx=fz t', (0, 19, 4), 'x is z, y is x, z is y: w z x y')
rr('three-way-wrong-round', [2, 3, 1], 'fy=fx fz=fy fx=fz t', (42, 19, 4), 'w z x y against w y z x, which marks used the wrong way round would give')
rr('mark-last', [2, 3, 1], 'fz=fx fy fz t', (0, 13, 4), 'z is x; unmarked y, z fill fx, fy in order: w y z x')
rr('mark-middle', [2, 1, 3], 'fx fx=fy fz t', (0, 13, 4), 'x is y; unmarked x, z fill fy, fz: w y x z')
rr('no-marks-42', [1, 2, 3], 'fy fx fz t', (42, 10, 4), 'without marks the entries pair in frame order: w y x z')

# ---- scope (S)
ss('n-30', 3, 'fy', (30, 0, 0), 'end 3 is not above 3: not active')
ss('n-30-active', 4, 'fy', (42, 2, 1), 'end 4 is above 3: active, a dummy; w y against w x')
ss('n-30-before-43', 3, 'fx fy', (30, 3, 1), 'preparing: 30 before 43', (1, 1, 0))
ss('n-30-local', 3, 'fx b:fy', (30, 3, 1), 'a local label does not change it')
ss('n-29-before-30', 3, 'fz', (29, 0, 0), 'fz stands later and is never active: 29 before 30')
ss('c-30', 3, '( fy ) A', (30, 2, 0), 'roster label prepared: 30')
ss('c-30-before-43-46', 3, '( a fy ) A', (30, 4, 0), 'preparing: 30 before 43 and 46', (1, 1, 2))
ss('c-29-before-30', 3, '( fz ) A', (29, 2, 0), '29 before 30')
ss('c-dummy-active', 4, '( fy ) B', (42, 8, 1), 'active: place 1 = w y against w x; pool 2, places 2', (2, 1, 2))
ss('c-42', 3, '( a ) AAB', (42, 9, 3), 'w x x against w x')

# ---- 257 variables (V)
vv('n-44', [], PAIRS256, 'f', (44, 0, 0), '256 pair members are numbered at the start; v256 is the 257th, at the token')
vv('n-44-later', [], PAIRS256, ' g f', (44, 3, 1), 'v0 is already numbered; f at 3, one step done')
vv('n-44-before-43', [], PAIRS256, 'f', (44, 0, 0), 'preparing: 44 before 43', (0, 0, 0))
vv('n-43-known', [], PAIRS256, 'g', (43, 0, 0), 'v0 is already numbered; v0 wants 2 bytes', (1, 1, 0))
vv('n-known', [], PAIRS256, 'g', (42, 1, 1), 'v0 is already numbered; w v0 against w', (2, 1, 0))
vv('n-30-before-44', [], PAIRS256, 'g fo', (30, 2, 1), 'fo is never active: 30 before 44')
vv('n-29-before-44', [], PAIRS256, 'g fl', (29, 2, 1), 'fl stands later: 29 before 44')
vv('n-26-before-44', [], PAIRS256, 'g:f', (26, 0, 0), 'preparing: 26 before 44')
vv('c-44', [], PAIRS256, '( g f ) A', (44, 4, 0), 'roster label names a 257th variable')
vv('c-44-before-43', [], PAIRS256, '( f )', (44, 2, 0), 'preparing: 44 before 43 and 46', (0, 0, 0))
vv('c-43-known', [], PAIRS256, '( g )', (43, 2, 0), 'no new variable; 43', (0, 0, 0))
vv('c-known', [], PAIRS256, '( g ) A', (42, 7, 1), 'no new variable; w v0 against w')
vv('start-44-empty', [], PAIRS257, '', (44, 0, 0), '257 pair members: 44 at the start, before 40')
vv('start-20-before-44', [], PAIRS257, 'g $', (20, 0, 0), '20 is tested first')
vv('start-44-before-25', [], PAIRS257, ' ( nosuch', (44, 0, 0), '44 at the start has place 0, before any token')
vv('start-44-mandatory', [0], PAIRS256, ' ( f', (44, 0, 0), 'v256 is mandatory (listed $f), 256 pair members besides')
vv('start-mandatory-also-pair', [1], PAIRS256, 'g', (42, 1, 1), 'v0 is mandatory and a pair member, counted once: 256 in all')
vv('n-256th', [], PAIRS255, 'f f', (39, 3, 2), '255 pair members, v256 is the 256th, allowed; the second f brings none')
vv('n-257th-after-dummy', [], PAIRS255, 'f gb', (44, 2, 1), 'v256 is the 256th, v255 the 257th')
vv('c-257th-after-dummy', [], PAIRS255, '( f gb ) A', (44, 4, 0), 'v256 is the 256th, v255 the 257th')
vv('n-high-pair', [], PAIRS256, 'ga gb m', (0, 7, 3), 'v254 v255 is a pair; pool 4+4+0=8', (8, 2, 0))
vv('n-high-pair-pool7', [], PAIRS256, 'ga gb m', (43, 3, 1), 'v255 wants bytes 5 to 8', (7, 2, 0))
vv('n-high-no-pair', [], PAIRS256, 'ga gc m', (38, 6, 2), 'v254 v253 is no pair')
vv('c-high-pair-turned', [], PAIRS256, '( ga gb m ) BAC', (0, 15, 3), 'v255 v254: either order', (8, 2, 3))
vv('c-high-no-pair', [], PAIRS256, '( gc gb m ) ABC', (38, 14, 2), 'v253 v255 is no pair')

# ---- pool of 65,536 at most
GROW = 'AACZHCZICZJCZKCZLCZMCZNCZOCZPCZQCZRC'
t1('c-pool-65536-exact', '( wi wp wp wp wp ) ' + GROW + 'RRCPOCLLC', (39, 64, 34),
   'preload 2, roster 4, results 6+16+36+76+156+316+636+1276+2556+5116+10236+20476=40902, then 20476, 3836, 316: 65536 in all')
GROW1 = 'AACZICZJCZKCZLCZMCZNCZOCZPCZQCZRCZSC'
t1('c-pool-65537', '( wi wp wp wp wp wp ) ' + GROW1 + 'SSCQPCMMC', (43, 66, 33),
   'one more roster wp: the last result lacks one byte')
t1('c-pool-lent-more', '( wi wp wp wp wp wp ) ' + GROW1 + 'SSCQPCMMC', (43, 66, 33),
   'R: lent more than the greatest size is the greatest size', (100000, 2000, 5000))

# ---- $e of the typecode alone; active $e not listed
case('Q-n-e-alone', QE([0], 'e0'), 1, (0, 1, 0), (0, 2, 1), 'n = 1: 0 pool bytes')
case('Q-c-e-alone', QE([0], '( ) A'), 1, (0, 1, 1), (0, 5, 1), 'n = 1: 0 pool bytes, one place')
case('Q-c-e-alone-places0', QE([0], '( ) A'), 1, (0, 1, 0), (46, 0, 0), 'preloading wants a place though no bytes')
case('Q-n-e-not-listed', QE([], 'e0'), 1, BIG, (25, 0, 0), 'R: an active $e that is not listed is unknown')
case('Q-c-e-not-listed', QE([], '( e0 ) A'), 1, BIG, (25, 2, 0), 'R: an active $e that is not listed is unknown')

# ---- names are not run together; two active $f of one variable
case('N-end-ab', b''.join([
    symbol(0, 'w'), symbol(0, 'a'), symbol(0, 'b'), symbol(0, 'ab'),
    a([], [], [0, 1, 2], 'k'), p([], [], [0, 3], 'p'), proof('k')]),
    1, (2, 1, 0), (42, 1, 1), 'high bit on each name\'s last byte: `a b` is not `ab`')
case('N-ess-ab', b''.join([
    symbol(0, 'w'), symbol(0, 'a'), symbol(0, 'b'), symbol(0, 'ab'),
    a([], [], [0, 3], 'kab'), e(3, [0, 1, 2], 'e1'), a([1], [], [0], 'ax'),
    p([], [], [0], 'p'), proof('kab ax')]),
    3, BIG, (37, 4, 1), 'e1 of ax is `a b`, the entry `ab`: 37')
case('Y-two-f', b''.join([
    symbol(0, 'w'), symbol(0, 'u'), symbol(1, 'x'),
    f(EVER, 0, 2, 'fx'), f(EVER, 1, 2, 'gx'),
    p([1], [], [0, 2], 'p'), proof('fx')]),
    2, BIG, (0, 2, 1), 'R: two active $f for one variable are no fault; fx is active, though gx is the listed one')

# ---- a few more orders and limits (added in the second going-over)
kp('n-unused-mark-h0', 'x=k', (0, 3, 1), 'k uses no entries, its own mark is never used', (1, 1, 0))
ss('n-26-later-f', 3, 'fz:fx', (26, 0, 0), 'R: 26 looks at all $f of the file, later ones included')
ss('n-26-ended-f', 3, 'fx fy:nosuch', (26, 3, 1), 'fy is out of scope, yet the label of a $f; 26 before 28')
t1('n-43-before-46', 'a:wp', (43, 0, 0), 'preparing 43 before the local place', (0, 1, 0))
t1('n-45-before-46', 'a:wp', (45, 0, 0), 'running 45 before the local place', (1, 0, 0))
t2('c-37-before-43', '( mp ) ABDAE', (37, 11, 4), 'running: 37 before 43', (9, 4, 5))
t1('n-34-before-43', 'wq=wp wq=wq wi', (34, 12, 2), 'running: 34 before 43', (2, 2, 0))
NT = 'wp wq wq=wi wp wq wp=wi wi'
t1('n-marked-results', NT, (0, 26, 7), 'results bear their token\'s mark; pool 1+1+6+1+1+6+16=32, stack 3', (32, 3, 0))
t1('n-marked-results-stack2', NT, (45, 15, 4), 'one result, wp, then wq wants a third entry', (32, 2, 0))
t1('n-marked-results-pool31', NT, (43, 24, 6), 'last result one byte short', (31, 3, 0))

# ---- 8
case('8-not-p', T1(C1), 5, BIG, (8, 0, 0), 'statement 5 is $a')
case('8-f', T1(C1), 0, BIG, (8, 0, 0), 'statement 0 is $f')
case('8-no-statement', T1(C1), 10, BIG, (8, 0, 0), 'R: also for a number with no statement')
case('8-empty-file', b'', 0, BIG, (8, 0, 0), 'an empty file is good, but has no $p')
case('8-after-7', b''.join([symbol(0, 'T'), a([], [], [0], 't'), p([], [], [0], 'p')]),
     0, BIG, (7, 38, 0), '8 comes after 1 to 7; $p last in the file: place is the file length, 8+15+15')


def main():
    with open(sys.argv[1], 'w') as out:
        for name, file, statement, pool, stack, places, answer, reason in CASES:
            assert '\t' not in reason and '\n' not in reason
            out.write('\t'.join([name, file.hex(), str(statement), str(pool), str(stack), str(places),
                                 str(answer[0]), str(answer[1]), str(answer[2]), reason]) + '\n')


if __name__ == '__main__':
    main()
