# The records of a frame file as bytes, and the form in which a case and its verdict are stated.
# Nothing here checks a file: verdicts are stated by hand in the modules beside this one.

FOREVER = 0xFFFFFFFF


def u16(n):
    return n.to_bytes(2, "little")


def u32(n):
    return n.to_bytes(4, "little")


def text(name):
    return name if isinstance(name, bytes) else name.encode("ascii")


# A record of any kind and body, with the length that fits.
def record(kind, body):
    return u32(2 + len(body)) + u16(kind) + body


def symbol(kind_of, name):
    return record(1, bytes([kind_of]) + text(name))


def const(name):
    return symbol(0, name)


def var(name):
    return symbol(1, name)


def f(label, typecode, variable, end=FOREVER):
    return record(2, u32(end) + u16(typecode) + u16(variable) + text(label))


def e(label, symbols, end=FOREVER):
    return record(3, u32(end) + u16(len(symbols)) + numbers(symbols) + text(label))


def numbers(symbols):
    return b"".join(u16(s) for s in symbols)


# A $a or $p: the claim, the listed hypotheses and the pairs; the counts can be given otherwise.
def claim(kind, label, symbols, listed=(), pairs=(), h=None, d=None, n=None):
    h = len(listed) if h is None else h
    d = len(pairs) if d is None else d
    n = len(symbols) if n is None else n
    body = u16(h) + u16(d) + u16(n)
    body += b"".join(u32(s) for s in listed)
    body += b"".join(u16(x) + u16(y) for x, y in pairs)
    return record(kind, body + numbers(symbols) + text(label))


def a(label, symbols, listed=(), pairs=(), **counts):
    return claim(4, label, symbols, listed, pairs, **counts)


def p(label, symbols, listed=(), pairs=(), **counts):
    return claim(5, label, symbols, listed, pairs, **counts)


def proof(steps=b"A"):
    return record(6, text(steps))


# The records that most cases begin with: the constant T is symbol 0, the variable x symbol 1, y symbol 2.
c = const("T")
x = var("x")
y = var("y")


# A good file: how many symbols and statements it has.
def good(symbols, statements):
    return ("good", symbols, statements)


# A file that is turned away at one of its listed records, counted from 0: the place is that record's offset.
def bad(number, record):
    return ("record", number, record)


# A file that is turned away at a place that is stated as it is.
def bad_at(number, place):
    return ("refused", number, place)


# A list of cases under construction.
class Cases:
    def __init__(self, group):
        self.group = group
        self.all = []

    # One case: its name, its records in order, its verdict.
    def add(self, name, records, verdict):
        if isinstance(records, bytes):
            records = [records]
        if verdict[0] == "record":
            verdict = bad_at(verdict[1], sum(len(r) for r in records[: verdict[2]]))
        self.all.append((self.group + "/" + name, b"".join(records), verdict))
