"""The tokens of MS-TDS 2.2.7, written by hand, and answers of them in the orders in which a server sends them."""
from by_hand import COLLATION, TYPES, U8, U16, U32, U64, Answer, Column, Maker

DESCRIPTOR = 8


def done(m, byte=0xFD, more=False):
    """2.2.7.6 to 2.2.7.8: count, error, in a transaction, more to come."""
    status = m.r.choice([0, 0x10, 0x10, 0x02, 0x04, 0x14]) | (1 if more else 0)
    count = m.r.choice([0, 1, 255, 2**32, 2**64 - 1])
    return U8(byte) + U16(status) + U16(m.r.choice([0, 0xC1, 0xC3, 0xE0])) + U64(count)


def message(m, byte):
    """ERROR and INFO, 2.2.7.10 and 2.2.7.13."""
    body = m.some(4) + U8(1) + U8(m.r.randint(0, 20)) + m.us_varchar() + m.b_varchar() + m.b_varchar() + m.some(4)
    return U8(byte) + U16(len(body)) + body


def environment(m, kind):
    """ENVCHANGE, 2.2.7.9, by the table of its types."""
    none, some = U8(0), m.b_varbyte(DESCRIPTOR)
    if kind in (1, 2, 3, 4):
        values = m.b_varchar() + m.b_varchar()
    elif kind in (5, 6, 13, 19):
        values = m.b_varchar() + none
    elif kind == 7:
        values = m.b_varbyte(5) + m.r.choice([none, m.b_varbyte(5)])
    elif kind in (8, 12):
        values = some + none
    elif kind in (9, 10, 11, 17):
        values = none + some
    elif kind == 15:
        n = m.r.choice([0, 1, 60, 255, 256, 500])
        values = U32(n) + m.some(n) + none
    elif kind == 16:
        values = m.b_varbyte(m.r.randint(0, 60)) + none
    elif kind == 18:
        values = none + none
    else:  # 20: protocol, port, and the other server's name
        target = U8(0) + U16(m.r.randint(1, 65535)) + m.us_varchar()
        values = U16(len(target)) + target + U16(0)
    return U8(0xE3) + U16(len(values) + 1) + U8(kind) + values


ENVIRONMENTS = [1, 2, 3, 4, 5, 6, 7, 8, 9, 10, 11, 12, 13, 15, 16, 17, 18, 19, 20]


def login_ack(m):
    """2.2.7.14"""
    body = U8(1) + bytes.fromhex("74000004") + m.b_varchar(22) + bytes.fromhex("10000fa0")
    return U8(0xAD) + U16(len(body)) + body


def features(m):
    """2.2.7.11"""
    body = b""
    for _ in range(m.r.randint(0, 4)):
        n = m.r.choice([0, 1, 2, 40, 255, 256])
        body += U8(m.r.randint(1, 14)) + U32(n) + m.some(n)
    return U8(0xAE) + body + U8(0xFF)


def session_state(m):
    """2.2.7.21; a state of 255 bytes or more has its length in 4 bytes behind FF."""
    states, is_long = b"", False
    for _ in range(m.r.randint(0, 4)):
        n = m.r.choice([0, 1, 254, 255, 300, 2000]) if m.r.random() < 0.03 else m.r.randint(0, 30)
        is_long |= n >= 255
        states += U8(m.r.randint(0, 254)) + (U8(n) if n < 255 else U8(255) + U32(n)) + m.some(n)
    body = m.some(4) + U8(m.r.randint(0, 1)) + states
    return U8(0xE4) + U32(len(body)) + body, is_long


def federated(m):
    """2.2.7.12"""
    first, second = m.text(m.r.randint(1, 40)), m.text(m.r.randint(1, 40))
    at = 4 + 2 * 9
    body = U32(2) + U8(1) + U32(len(first)) + U32(at) + U8(2) + U32(len(second)) + U32(at + len(first)) + first + second
    return U8(0xEE) + U32(len(body)) + body


def sspi(m):
    """2.2.7.22: US_VARBYTE."""
    n = m.r.choice([0, 1, 40, 300])
    return U8(0xED) + U16(n) + m.some(n)


def order(m, columns):
    """2.2.7.17"""
    places = [m.r.randint(1, len(columns)) for _ in range(m.r.randint(1, 4))]
    return U8(0xA9) + U16(2 * len(places)) + b"".join(U16(it) for it in places)


def table_names(m):
    """2.2.7.23: names of tables, each with the count of its parts."""
    body = b""
    for _ in range(m.r.randint(1, 3)):
        parts = m.r.randint(1, 4)
        body += U8(parts) + b"".join(m.us_varchar(10) for _ in range(parts))
    return U8(0xA4) + U16(len(body)) + body


def column_info(m, columns):
    """2.2.7.3: place, table, status, and a name where the status has 20."""
    body = b""
    for place in range(1, len(columns) + 1):
        renamed = m.r.random() < 0.2
        body += U8(place % 256) + U8(1) + U8(0x20 if renamed else 0x08) + (m.b_varchar() if renamed else b"")
    return U8(0xA5) + U16(len(body)) + body


def classification(m, columns, version):
    """DATACLASSIFICATION, 2.2.7.5; ranks since version 2."""
    pairs = lambda n: U16(n) + b"".join(m.b_varchar() + m.b_varchar() for _ in range(n))
    body = pairs(m.r.randint(0, 3)) + pairs(m.r.randint(0, 3))
    if version > 1:
        body += m.some(4)
    body += U16(len(columns))
    for _ in columns:
        sources = m.r.choice([0, 0, 1, 2])
        body += U16(sources) + b"".join(U16(0) + U16(0xFFFF) + (m.some(4) if version > 1 else b"") for _ in range(sources))
    return U8(0xA3) + body


def crypto(m, with_place):
    """CryptoMetadata of 2.2.7.4 and 2.2.7.19: the type that is hidden, and by which algorithm."""
    info = TYPES[m.r.choice([0x38, 0x26, 0xE7, 0xA5, 0x6A, 0x2A])](m)[0]
    named = m.r.random() < 0.3
    return (U16(0) if with_place else b"") + U32(0) + info + (U8(0) + m.b_varchar() if named else U8(2)) + U8(1) + U8(1)


def keys(m):
    """The table of keys of 2.2.7.4 (CekTable), and each key's values."""
    n, body = m.r.choice([1, 1, 2, 3]), b""
    for _ in range(n):
        values = m.r.randint(0, 2)
        body += m.some(20) + U8(values)
        for _ in range(values):
            size = m.r.choice([0, 1, 60, 256])
            body += U16(size) + m.some(size) + m.b_varchar() + m.us_varchar() + m.b_varchar()
    return U16(n) + body


def describe(m, a, columns):
    """COLMETADATA, 2.2.7.4."""
    out, marks = U8(0x81) + U16(len(columns)), [it.mark for it in columns if it.mark]
    if "encryption" in a.agreed:
        out += keys(m)
        marks.append("encryption")
        for it in columns:
            if it.kind in (0xA5, 0x1A5) and m.r.random() < 0.6:
                it.crypto = crypto(m, True)
    a.kinds.update(it.kind for it in columns)
    for it in columns:
        flags = m.r.choice([0, 1, 9, 0x21]) | (0x0800 if it.crypto else 0)
        out += U32(m.r.choice([0, 0, 80, 256])) + U16(flags) + it.info + it.table + it.crypto + m.b_varchar()
    if len(columns) > 256:
        marks.append("many columns")
    a.add(out, *marks)


def row(m, a, columns, with_nulls):
    """ROW and NBCROW, 2.2.7.20 and 2.2.7.15."""
    out, bits, marks = b"", bytearray((len(columns) + 7) // 8), []
    rate = m.r.choice([0, 0.1, 0.5, 0.95, 1])
    for place, it in enumerate(columns):
        if with_nulls and m.r.random() < rate:
            bits[place // 8] |= 1 << place % 8
            continue
        value, mark = it.value()
        out += value
        marks += [mark] if mark else []
    a.add(U8(0xD2) + bytes(bits) + out if with_nulls else U8(0xD1) + out, *marks)


def result(m, a, kinds, more, most_columns):
    n = m.r.choice([1, 1, 2, 3, 4, 7, 8, 9] * 3 + [15, 16, 17, 40])
    if m.r.random() < 0.0006:
        n = m.r.choice([255, 256, 257, 1024, 4096])
    columns = [Column(m, m.r.choice(kinds)) for _ in range(min(n, most_columns))]
    describe(m, a, columns)
    if "classification" in a.agreed or "classification 2" in a.agreed:
        a.add(classification(m, columns, 2 if "classification 2" in a.agreed else 1), "no such token")
    if m.r.random() < 0.05:
        a.add(table_names(m), "no such token")
        a.add(column_info(m, columns), "no such token")
    if m.r.random() < 0.15:
        a.add(order(m, columns))
    for _ in range(m.r.choice([0, 1, 1, 2, 3, 5, 9]) if n < 200 else 1):
        row(m, a, columns, m.r.random() < 0.4)
    if m.r.random() < 0.06:
        a.add(message(m, 0xAA))
    a.add(done(m, m.r.choice([0xFD, 0xFF]), more))


def parameter(m, a, kinds):
    """RETURNVALUE, 2.2.7.19: what may be an OUTPUT parameter, so none of TEXT, NTEXT and IMAGE."""
    it = Column(m, m.r.choice([kind for kind in kinds if kind not in (0x22, 0x23, 0x63)]))
    a.kinds.add(it.kind)
    hidden = crypto(m, False) if "encryption" in a.agreed and it.kind in (0xA5, 0x1A5) else b""
    out = U8(0xAC) + U16(m.r.randint(0, 9)) + m.b_varchar() + U8(m.r.choice([1, 2])) + U32(0)
    a.add(out + U16(0x0800 if hidden else 0) + it.info + hidden + it.value()[0], "no such token")


def procedure(m, a, kinds):
    if m.r.random() < 0.5:
        result(m, a, kinds, True, 40)
    a.add(b"\x79" + m.some(4))
    for _ in range(m.r.choice([0, 0, 1, 3])):
        parameter(m, a, kinds)
    a.add(done(m, 0xFE))


def login(m, a):
    for kind in (1, 7, 2, 4):
        a.add(environment(m, kind))
    a.add(message(m, 0xAB))
    token = login_ack(m)
    a.add(token, *(["long name"] if token[8] > 127 else []))
    if m.r.random() < 0.3:
        token, is_long = session_state(m)
        a.add(token, *(["long state"] if is_long else []))
    a.add(features(m))
    a.add(done(m))


def others(m, a):
    """What stands before a result, or in the place of one."""
    which = m.r.random()
    if which < 0.45:
        kind = m.r.choice(ENVIRONMENTS)
        a.add(environment(m, kind), *([f"ENVCHANGE {kind}"] if kind in (15, 20) else []))
    elif which < 0.75:
        a.add(message(m, m.r.choice([0xAA, 0xAB])))
    elif which < 0.85:
        token, is_long = session_state(m)
        a.add(token, *(["long state"] if is_long else []))
    elif which < 0.88:
        a.add(sspi(m), "SSPI")
    elif which < 0.91:
        a.add(federated(m), "no such token")
    elif which < 0.95:
        a.add(b"\x79" + m.some(4))
    else:
        a.add(features(m))


def answer(m):
    agreed = m.r.choices([(), ("encryption",), ("classification",), ("classification 2",)], [90, 4, 3, 3])[0]
    a = Answer(agreed)
    kinds = list(TYPES)
    if m.r.random() < 0.4:
        kinds = m.r.sample(kinds, m.r.randint(1, 4))
    elif m.r.random() < 0.5:
        kinds = [it for it in kinds if it not in (0x62, 0xF1, 0x22, 0x23, 0x63)]
    if all(it in (0x22, 0x23, 0x63) for it in kinds):
        kinds.append(0x26)
    which = m.r.random()
    if which < 0.05:
        login(m, a)
        return a
    for _ in range(m.r.choice([0, 0, 0, 1, 2, 4])):
        others(m, a)
    if which < 0.3:
        procedure(m, a, kinds)
    else:
        for left in reversed(range(m.r.choice([1, 1, 1, 2, 3]))):
            result(m, a, kinds, left > 0, 4096)
    return a


def answers(seed, count):
    m = Maker(seed)
    return (answer(m) for _ in range(count))
