"""Records as document 01 packs them, and recordings of them: for the scripts beside this file that write tests by rule."""

MOST = 2 ** 32 - 1


def bits(*fields):
    """Fields (width, value), most significant bit first."""
    return ''.join(format(v, '0%db' % w) for w, v in fields)


def packed(b):
    """Zero bits fill the last byte."""
    b += '0' * (-len(b) % 8)
    return bytes(int(b[i:i + 8], 2) for i in range(0, len(b), 8))


def view(node, count, *entries):
    return bits((4, 1), (6, node), (10, count)) + ''.join(entries)


def entry(index, term=0, content=b'', length=None):
    n = len(content) if length is None else length
    return bits((10, index), (32, term), (6, n), *[(8, c) for c in content])


def commit(node, index):
    return bits((4, 2), (6, node), (10, index))


def terms(old, new, term):
    return bits((4, 3), (10, old), (10, new), (32, term))


def election(leader, term, present, length):
    return bits((4, 4), (6, leader), (32, term), (1, present), (10, length))


def leader(node, term):
    return bits((4, 7), (6, node), (32, term))


CHECK = bits((4, 5))


def rows(count, *rs):
    return bits((4, 6), (10, count)) + ''.join(rs)


def configuration(present=0, index=0, identity=0):
    return bits((1, present), (10, index), (32, identity))


def row(node, floor=0, commit=0, last=0, f=configuration(), a=configuration()):
    return bits((6, node), (10, floor), (10, commit), (10, last)) + f + a


def piece(record):
    """A record behind its length."""
    return len(record).to_bytes(2, 'big') + record
