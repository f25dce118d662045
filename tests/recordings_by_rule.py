#!/usr/bin/env python3
"""recordings_by_rule.py: recordings that go on past what `sheet` takes at a time, with their sheets, both written by rule from document 01.

`sheet` reads blocks of 131,072 bytes and takes 600 records at a time. Nothing here runs it, and nothing here is a history: what each
record is answered and what the lists hold is said where the record is made.
"""
import os
import sys

sys.dont_write_bytecode = True
from records import CHECK, MOST, commit, election, entry, packed, piece, terms, view

HERE = os.path.join(os.path.dirname(os.path.abspath(__file__)), 'recordings')
BLOCK = 131072
CHECKS = range(4, 253, 4)


def write(name, recording, lines):
    with open(os.path.join(HERE, name + '.records'), 'wb') as f:
        f.write(recording)
    with open(os.path.join(HERE, name + '.sheet'), 'w') as f:
        f.write(''.join(line + '\n' for line in lines))


class Told:
    """Records with the line of each."""

    def __init__(self):
        self.pieces = []
        self.lines = []

    def accepted(self, record, value=0):
        self.pieces.append(piece(packed(record)))
        self.lines.append('%d %d ok %d 0' % (len(self.pieces), int(record[:4], 2), value))


def growing(told):
    """The committed prefix grows by one index at a time to 256, entry k of term k, and nodes 1 and 2 own it in turn. So each view is told
    of by the flags of its node's commit, which it reaches, and each commit by flag 2 of the next one, of the other node. Without the
    commit term of an index a check sees another index, or it is listed as unknown.

    At each index k of CHECKS there is an election and a check. The first election is of the greatest term and without a log: it lacks
    what each check sees, so each check finds LG-05 of leader 0 at its own k. A later one is of term k+1, above the commit terms up to k
    and no further, and of leader 2, whose log is short by the entry k: the check finds LG-05 at k. Either sets flag 4.
    """
    entries = [entry(k, k, k.to_bytes(2, 'big')) for k in range(1, 257)]
    for k in range(1, 257):
        node = 1 if k % 2 else 2
        if k < 255:
            told.accepted(terms(k - 1, k, k))
        # the entries before it are in the view before, so one prefix is new
        told.accepted(view(node, k, *entries[:k]), 1)
        # the first one is only kept; each later one agrees (1), and the owner is the other node (2)
        told.accepted(commit(node, k), 0 if k == 1 else 3)
        if k in CHECKS:
            told.accepted(election(0, MOST, 0, 0) if k == 4 else election(2, k + 1, 1, k - 1))
            told.accepted(CHECK, 4)


def each_record_tells():
    """896 records in three blocks, more than 600 of them in the first. Each changes the history, and without any one of them a later line
    or a list is another.
    """
    told = Told()
    growing(told)
    # node 3 has entry 1 in another term, and shows it as committed: LG-04. Node 4 has no view. Node 5 has another entry 1 in its term: LG-03
    told.accepted(view(3, 1, entry(1, 1000)), 1)
    told.accepted(commit(3, 1))
    told.accepted(commit(4, 9))
    told.accepted(view(5, 1, entry(1, 1, b'x')), 1)
    lists = ['LG-03 5 1 1', 'LG-04 3 1 0']
    lists += ['LG-05 0 %d %d' % (k, MOST) for k in CHECKS]
    lists += ['LG-05 2 %d %d' % (k, k + 1) for k in CHECKS[1:]]
    lists += ['leader %d 2' % (k + 1) for k in CHECKS[1:]]
    lists += ['leader %d 0' % MOST, 'unseen 4 9', 'unknown 255', 'unknown 256', 'committed 256 2']
    recording = b''.join(told.pieces)
    assert len(told.pieces) == 896 and len(b''.join(told.pieces[:601])) < BLOCK and 2 * BLOCK < len(recording)
    write('rule-each-of-896-records-tells', recording, told.lines + lists)


def one_byte_behind_a_block():
    """Two pieces that fill a block (zeros: no known kind), and one byte of a third: it is told, with its number."""
    half = piece(bytes(BLOCK // 2 - 2))
    write('split-one-byte-behind-a-block', half + half + b'\0', ['1 0 1 0 0', '2 0 1 0 0', '3 0 2 0 0', 'committed 0 0'])


each_record_tells()
one_byte_behind_a_block()
