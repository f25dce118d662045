#!/usr/bin/env python3
"""appendix.py: what the programs appendix and appendix_pairs are to print, written from documents 01 and 02.

Writes the file stdout of their crates. The views and their order are document 02's words, the records document 01's bits
(records.py), and the pairs are counted by the Raft paper's Log Matching; nothing here runs a program of the library.
"""
import itertools
import os
import sys

sys.dont_write_bytecode = True
from records import entry, packed, view

CRATES = os.path.join(os.path.dirname(os.path.abspath(__file__)), '..', 'crates')

# every view of at most three entries with term 1 or 2 and content empty or the byte 00, as (term, content) of entries 1, 2, ..
CHOICES = [(term, content) for term in (1, 2) for content in (b'', b'\x00')]
VIEWS = [v for n in range(4) for v in itertools.product(CHOICES, repeat=n)]
# shorter first, then by entry, term before content, empty first: as lists of (term, content) compare
assert VIEWS == sorted(set(VIEWS), key=lambda v: (len(v), v))


def line(v):
    return packed(view(0, len(v), *[entry(i + 1, t, c) for i, (t, c) in enumerate(v)])).hex()


def match(a, b):
    """If two logs have an entry with the same index and term, they are identical in all entries through that index."""
    return all(a[:i + 1] == b[:i + 1] for i in range(min(len(a), len(b))) if a[i][0] == b[i][0])


def write(crate, lines):
    with open(os.path.join(CRATES, crate, 'stdout'), 'w') as f:
        f.write(''.join(l + '\n' for l in lines))


pairs = list(itertools.product(VIEWS, repeat=2))
write('appendix', [line(v) for v in VIEWS])
write('appendix_pairs', ['%d judged, %d match, 0 differ' % (len(pairs), sum(match(a, b) for a, b in pairs))])
