#!/usr/bin/env python3
"""record_limits.py: the cases of the program test_record_limits, written from document 01.

Writes crates/test_record_limits/stdin (a line each: name, record in hexadecimal) and stdout (name, and `ok`
or the number of the first fault). What each case must answer stands in the table below, by document 01;
nothing here runs the reader.
"""
import os
import sys

sys.dont_write_bytecode = True
from records import CHECK, MOST, bits, commit, configuration, election, entry, leader, packed, row, rows, terms, view

HERE = os.path.join(os.path.dirname(os.path.abspath(__file__)), '..', 'crates', 'test_record_limits')
CASES = []


def case(name, record, answer):
    assert ' ' not in name
    CASES.append((name, record, answer))


# kinds
case('no-bytes', b'', 2)
case('kind-0', b'\x00', 1)
for k in range(8, 16):
    case('kind-%d' % k, bytes([16 * k]), 1)
case('kind-8-and-more', bytes([0x80]) + bytes(40), 1)

# a record of each kind: whole, a byte short, the filling, further bytes
WHOLE = [
    ('view', view(5, 1, entry(1, 7, b'\x81'))),
    ('empty-view', view(0, 0)),
    ('commit', commit(1, 1)),
    ('terms', terms(0, 2, 7)),
    ('election', election(2, 4, 1, 3)),
    ('check', CHECK),
    ('rows', rows(2, row(1), row(3))),
    ('no-rows', rows(0)),
    ('leader', leader(2, 4)),
]
for name, b in WHOLE:
    whole = packed(b)
    case(name, whole, 'ok')
    case(name + '-byte-short', whole[:-1], 2)
    case(name + '-byte-long', whole + b'\x00', 3)
    case(name + '-set-byte-long', whole + b'\x80', 3)
    case(name + '-4096-bytes-long', whole + bytes(4096), 3) if name == 'commit' else None
    filling = -len(b) % 8
    if filling:
        case(name + '-first-filling-bit', packed(b + '1'), 3)
        case(name + '-last-filling-bit', packed(b + '0' * (filling - 1) + '1'), 3)
        case(name + '-filling-and-byte', packed(b + '1') + b'\x00', 3)
    for cut in range(1, len(whole) - 1):
        if name in ('view', 'terms', 'election', 'commit', 'leader'):
            case('%s-cut-to-%d' % (name, cut), whole[:cut], 2)

# a field that lacks one bit: of the third row the floor configuration's index (305 bits) and identity (337)
THREE = packed(rows(3, row(1), row(2), row(3)))
case('three-rows', THREE, 'ok')
case('index-one-bit-short', THREE[:38], 2)
case('identity-one-bit-short', THREE[:42], 2)

# nodes and terms have no value out of their limits
case('view-node-63', packed(view(63, 0)), 'ok')
case('commit-node-63', packed(commit(63, 0)), 'ok')
case('leader-63', packed(election(63, 0, 0, 0)), 'ok')
case('commit-terms-most', packed(terms(0, 0, MOST)), 'ok')
case('election-term-most', packed(election(0, MOST, 0, 0)), 'ok')
case('leader-log-63-term-most', packed(leader(63, MOST)), 'ok')
case('entry-term-most', packed(view(0, 1, entry(1, MOST))), 'ok')

# counts
FULL = [entry(i + 1) for i in range(257)]
case('count-256', packed(view(0, 256, *FULL[:256])), 'ok')
case('count-256-of-255', packed(view(0, 256, *FULL[:255])), 2)
case('count-257', packed(view(0, 257, *FULL)), 4)
case('count-257-alone', packed(view(0, 257)), 4)
case('count-1023-alone', packed(view(0, 1023)), 4)
case('count-255-of-256', packed(view(0, 255, *FULL[:256])), 3)
case('largest-view', packed(view(63, 256, *[entry(i + 1, MOST - i, bytes((i + 7 * j) % 256 for j in range(32))) for i in range(256)])), 'ok')

# entry indexes: 4 before 5 at one field, and the first fault from the left
case('entry-index-0', packed(view(0, 1, entry(0))), 4)
case('entry-index-1', packed(view(0, 1, entry(1))), 'ok')
case('entry-index-256', packed(view(0, 1, entry(256))), 'ok')
case('entry-index-257', packed(view(0, 1, entry(257))), 4)
case('entry-index-1023', packed(view(0, 1, entry(1023))), 4)
case('a-gap', packed(view(0, 2, entry(1), entry(3))), 'ok')
case('same-index', packed(view(0, 2, entry(7), entry(7))), 5)
case('lower-index', packed(view(0, 2, entry(7), entry(6))), 5)
case('then-index-0', packed(view(0, 2, entry(7), entry(0))), 4)
case('then-index-257', packed(view(0, 2, entry(7), entry(257))), 4)
case('after-256', packed(view(0, 2, entry(256), entry(256))), 5)
case('lower-index-cut-after-it', packed(view(0, 2, entry(7), bits((10, 6)))), 5)
case('index-0-cut-after-it', packed(view(0, 1, bits((10, 0)))), 4)
case('lower-index-then-content-33', packed(view(0, 2, entry(7), entry(6, 0, b'', 33))), 5)
case('content-33-then-lower-index', packed(view(0, 2, entry(7, 0, bytes(33)), entry(6))), 4)

# content
case('content-0', packed(view(0, 1, entry(1))), 'ok')
case('content-32', packed(view(0, 1, entry(1, 1, bytes(range(200, 232))))), 'ok')
case('content-32-of-31', packed(view(0, 1, entry(1, 1, bytes(31), 32))), 2)
case('content-33', packed(view(0, 1, entry(1, 1, bytes(33)))), 4)
case('content-33-alone', packed(view(0, 1, entry(1, 1, b'', 33))), 4)
case('content-63', packed(view(0, 1, entry(1, 1, b'', 63))), 4)
case('content-set-past-its-end', packed(view(0, 1, entry(1, 1, b'\xff', 0))), 3)

# commit and commit terms
case('commit-index-0', packed(commit(0, 0)), 'ok')
case('commit-index-256', packed(commit(0, 256)), 'ok')
case('commit-index-257', packed(commit(0, 257)), 4)
case('commit-index-257-and-filling', packed(commit(0, 257) + '1'), 4)
case('old-256', packed(terms(256, 256, 1)), 'ok')
case('old-257', packed(terms(257, 256, 1)), 4)
case('new-257', packed(terms(256, 257, 1)), 4)
case('old-above-new', packed(terms(2, 1, 5)), 'ok')

# elections: length 0 where the log is absent
case('length-256', packed(election(0, 1, 1, 256)), 'ok')
case('length-257', packed(election(0, 1, 1, 257)), 4)
case('absent-length-0', packed(election(0, 1, 0, 0)), 'ok')
case('absent-length-1', packed(election(0, 1, 0, 1)), 4)
case('absent-length-256', packed(election(0, 1, 0, 256)), 4)
case('absent-length-257', packed(election(0, 1, 0, 257)), 4)

# rows
ROWS = [row(n) for n in range(64)]
case('64-rows', packed(rows(64, *ROWS)), 'ok')
case('65-rows', packed(rows(65, *ROWS, row(63))), 5)
case('65-rows-of-64', packed(rows(65, *ROWS)), 2)
case('256-rows', packed(rows(256, *ROWS, row(0))), 5)
case('257-rows', packed(rows(257, *ROWS)), 4)
case('row-node-63', packed(rows(1, row(63))), 'ok')
case('same-node', packed(rows(2, row(4), row(4))), 5)
case('lower-node', packed(rows(2, row(4), row(3))), 5)
case('lower-node-cut-after-it', packed(rows(2, row(4), bits((6, 3)))), 5)
for name, at in (('floor', 'floor'), ('row-commit', 'commit'), ('last', 'last')):
    case(name + '-256', packed(rows(1, row(0, **{at: 256}))), 'ok')
    case(name + '-257', packed(rows(1, row(0, **{at: 257}))), 4)
for name, at in (('floor-configuration', 'f'), ('actual-configuration', 'a')):
    case(name + '-index-256', packed(rows(1, row(0, **{at: configuration(1, 256, MOST)}))), 'ok')
    case(name + '-index-257', packed(rows(1, row(0, **{at: configuration(1, 257, 0)}))), 4)
    case(name + '-present-zeros', packed(rows(1, row(0, **{at: configuration(1, 0, 0)}))), 'ok')
    case(name + '-absent-index', packed(rows(1, row(0, **{at: configuration(0, 1, 0)}))), 4)
    case(name + '-absent-identity', packed(rows(1, row(0, **{at: configuration(0, 0, 1)}))), 4)
    case(name + '-absent-identity-most', packed(rows(1, row(0, **{at: configuration(0, 0, MOST)}))), 4)
case('lower-node-then-floor-257', packed(rows(2, row(4), row(3, 257))), 5)
case('floor-257-then-lower-node', packed(rows(2, row(4, 257), row(3))), 4)

with open(os.path.join(HERE, 'stdin'), 'w') as f:
    f.write(''.join('%s %s\n' % (n, r.hex()) for n, r, a in CASES))
with open(os.path.join(HERE, 'stdout'), 'w') as f:
    f.write(''.join('%s %s\n' % (n, a) for n, r, a in CASES))
