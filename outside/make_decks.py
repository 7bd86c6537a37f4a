#!/usr/bin/env python3
"""make_decks.py - a deterministic generator of decks of card RPG.

What it is
    It writes two files beside itself:
      decks.in    decks, good and broken, one after another
      decks.out   the expected answers, as deck_reader.py gives them
    The formats are told at the head of deck_reader.py.  The seed is fixed:
    every run writes the same bytes.

    Most decks carry, besides, the answer that the rules (docs/refusals.md)
    ask for, worked out where the deck is made and not by the reader; the
    random good decks carry their whole expected listing, written from the
    plan they were punched from.  If the reader disagrees with any of them,
    nothing is written and the disagreements are told.

How to run it
    python3 make_decks.py            writes decks.in and decks.out
    python3 make_decks.py --stats    the same, and counts of decks by section
                                     and by answer on standard output
    python3 deck_reader.py decks.in | cmp - decks.out
    Python 3 standard library only.
"""

import collections
import os
import random
import sys

import deck_reader

SEED = 1401
HERE = os.path.dirname(os.path.abspath(__file__))
OK = 'ok'

CASES = []          # (section, list of 80-byte cards, cut, expected)
SECTION = ['?']
SEEN = {}


def section(name):
    SECTION[0] = name


def add(cards, expect=None, cut=0):
    """expect: None (no claim), OK, (number, card, column), or a list of
    lines (the whole listing, without the ok)."""
    for c in cards:
        assert len(c) == 80 and 10 not in c and c[:2] != b'/*', c
    key = (b''.join(cards), cut)
    if key in SEEN:                  # the same deck again
        assert expect is None or SEEN[key] is None or SEEN[key] == expect \
            or OK in (expect, SEEN[key]), (expect, SEEN[key])
        return
    SEEN[key] = expect
    CASES.append((SECTION[0], [bytes(c) for c in cards], cut, expect))


# ------------------------------------------------------------ punching cards

def b(text):
    return text if isinstance(text, bytes) else text.encode('latin-1')


def put(card, *pairs):
    """card with texts placed at columns: put(card, 33, 'ABC', 43, 'X')."""
    card = bytearray(card)
    for column, text in zip(pairs[0::2], pairs[1::2]):
        text = b(text)
        assert 1 <= column and column - 1 + len(text) <= 80
        card[column - 1:column - 1 + len(text)] = text
    return bytes(card)


BLANK = b' ' * 80


def num(n, width):
    """A number entry: an int is set right, a string is punched as it is."""
    return n.ljust(width) if isinstance(n, str) else str(n).rjust(width)


def IR(ind='01', c1='', c2='', c3=''):
    return put(BLANK, 6, 'I', 19, ind, 21, c1, 28, c2, 35, c3)


def IF(frm, to, dec='', name='A', level='', plus='', minus='', zero=''):
    return put(BLANK, 6, 'I', 44, num(frm, 4), 48, num(to, 4), 52, str(dec),
               53, name, 59, level, 65, plus, 67, minus, 69, zero)


def cond(c):
    return c if len(c) == 3 or not c else ' ' + c


def C(op='', f1='', f2='', res='', length='', dec='', h='', inds=(),
      level='', conds=()):
    card = put(BLANK, 6, 'C', 7, level, 18, f1, 28, op, 33, f2, 43, res,
               49, num(length, 3) if length != '' else '', 52, str(dec),
               53, h)
    for column, c in zip((9, 12, 15), conds):
        card = put(card, column, cond(c))
    for column, i in zip((54, 56, 58), inds):
        card = put(card, column, i)
    return card


def OR(kind='D', spacing='', conds=()):
    card = put(BLANK, 6, 'O', 15, kind, 18, str(spacing))
    for column, c in zip((23, 26, 29), conds):
        card = put(card, column, cond(c))
    return card


def OF(end, name='', edit='', clear='', const=None, conds=()):
    card = put(BLANK, 6, 'O', 32, name, 38, edit, 39, clear, 40, num(end, 4))
    if const is not None:
        card = put(card, 45, "'" + const + "'")
    for column, c in zip((23, 26, 29), conds):
        card = put(card, column, cond(c))
    return card


def CM(form='I', text=''):
    return put(BLANK, 6, form, 7, '*', 8, text)


R1 = IR('01')
N5 = IF(1, 5, 2, 'N')            # N  numeric 5.2
M3 = IF(6, 8, 0, 'M')            # M  numeric 3.0
X8 = IF(10, 17, '', 'X')         # X  alphameric 8
Y3 = IF(20, 22, '', 'Y')         # Y  alphameric 3
BASE = [R1, N5, M3, X8, Y3]      # cards 1 to 5
ZADD = C('Z-ADD', f2='5', res='Q', length=3, dec=0)


# ------------------------------------------------------------------- sections

def sizes(rnd):
    section('size')
    add([], (1, 0, 0))
    add([], (1, 0, 0), 1)
    add([], (1, 0, 0), 80)
    for cards in ([R1], [R1, N5], [CM()], [ZADD], [R1, N5, ZADD, OR()]):
        add(cards, OK)
        for cut in (1, 2, 40, 78, 79):
            add(cards, (1, 0, 0), cut)
        add(cards, OK if len(cards) > 1 else (1, 0, 0), 80)
    # a cut deck goes before whatever else is wrong
    add([put(R1, 3, b'\x07'), IR('00')], (1, 0, 0), 1)
    add([put(R1, 3, b'\x07'), IR('00')], (3, 1, 3), 80)
    add([R1, IR('00')], OK, 80)
    add([CM()] * 256, OK)
    add([CM()] * 257, (1, 0, 0))
    add([CM()] * 257, OK, 80)
    add([CM()] * 257, (1, 0, 0), 79)
    add([CM()] * 257, (1, 0, 0), 1)
    add([CM()] * 256, (1, 0, 0), 1)
    add([CM()] * 258, (1, 0, 0))
    add([CM()] * 258, (1, 0, 0), 80)
    add([BLANK] * 300, (1, 0, 0))
    add([CM()] * 255 + [R1], OK)
    add([CM()] * 255 + [IR('00')], (3, 256, 19))
    add([CM()] * 255 + [N5], (2, 256, 6))
    add([CM()] * 256 + [IR('00')], (1, 0, 0))
    add([IR('00')] + [CM()] * 256, (1, 0, 0))
    add([IR('00')] + [CM()] * 255, (3, 1, 19))
    add([R1, N5] + [C('ADD', 'N', 'N', 'N')] * 254, OK)
    add([R1, N5] + [CM()] * 253 + [C('ADD', 'N', 'ZZ', 'N')], (4, 256, 33))
    add([R1, N5] + [CM()] * 252 + [OR(), OF(4, 'N')], (6, 256, 40))
    add([OR()] * 255 + [OF(1, 'N')], (4, 256, 32))
    for n in (100, 199, 200, 255):
        add([OR()] + [CM('O')] * (n - 2) + [OF(10, const='A')], OK)
        add([OR()] + [CM('O')] * (n - 2) + [OF(0, const='A')], (3, n, 40))


# Card kinds for the sweeps over columns: (cards before, the card, entries as
# (first, last), must-be-blank columns, free columns, columns where any
# printable byte is right though they belong to an entry).
def span(first, last):
    return set(range(first, last + 1))


KINDS = {
    'I record': ([], IR('07', '  12 CA', '   3NCB', '  80 C '),
                 [(19, 20), (21, 27), (28, 34), (35, 41)],
                 span(17, 18) | span(42, 74),
                 span(1, 5) | span(7, 16) | span(75, 80), {27, 34, 41}),
    'I record, bare': ([], IR('07'),
                       [(19, 20), (21, 27), (28, 34), (35, 41)],
                       span(17, 18) | span(42, 74),
                       span(1, 5) | span(7, 16) | span(75, 80), set()),
    'I field numeric': ([R1], IF(11, 15, 2, 'AMOUNT', 'L3', '21', '22', '23'),
                        [(19, 20), (44, 47), (48, 51), (52, 52), (53, 58),
                         (59, 60), (65, 66), (67, 68), (69, 70)],
                        span(7, 18) | span(21, 43) | span(61, 64)
                        | span(71, 74),
                        span(1, 5) | span(75, 80), set()),
    'I field text': ([R1], IF(1, 5, '', 'T'),
                     [(19, 20), (44, 47), (48, 51), (52, 52), (53, 58),
                      (59, 60), (65, 66), (67, 68), (69, 70)],
                     span(7, 18) | span(21, 43) | span(61, 64) | span(71, 74),
                     span(1, 5) | span(75, 80), set()),
    'C full': ([R1, N5], C('ADD', 'N', '-12.5', 'SUM', 7, 2, 'H',
                           ('31', '32', '33'), 'L2', ('01', 'N02', 'LR')),
               [(7, 8), (9, 11), (12, 14), (15, 17), (18, 27), (28, 32),
                (33, 42), (43, 48), (49, 51), (52, 52), (53, 53), (54, 55),
                (56, 57), (58, 59)],
               span(60, 74), span(1, 5) | span(75, 80), set()),
    'C bare': ([], C('SETON', inds=('', '44', '')),
               [(7, 8), (9, 11), (12, 14), (15, 17), (18, 27), (28, 32),
                (33, 42), (43, 48), (49, 51), (52, 52), (53, 53), (54, 55),
                (56, 57), (58, 59)],
               span(60, 74), span(1, 5) | span(75, 80), set()),
    'O record': ([], OR('T', 2, ('01', 'N02', 'L3')),
                 [(15, 15), (18, 18), (23, 25), (26, 28), (29, 31)],
                 span(16, 17) | span(19, 22) | span(32, 74),
                 span(1, 5) | span(7, 14) | span(75, 80), set()),
    'O field name': ([R1, N5, OR()],
                     OF(20, 'N', 'J', 'B', conds=('01', 'N02', 'L3')),
                     [(15, 15), (23, 25), (26, 28), (29, 31), (32, 37),
                      (38, 38), (39, 39), (40, 43), (45, 70)],
                     span(7, 14) | span(16, 22) | {44} | span(71, 74),
                     span(1, 5) | span(75, 80), set()),
    'O field constant': ([OR()], OF(100, const='ABCDEFGHIJKLMNOPQRSTUVWX'),
                         [(15, 15), (23, 25), (26, 28), (29, 31), (32, 37),
                          (38, 38), (39, 39), (40, 43), (45, 70)],
                         span(7, 14) | span(16, 22) | {44} | span(71, 74),
                         span(1, 5) | span(75, 80), span(46, 69)),
}


def told(kind, column):
    """The column told for a byte that is wrong wherever it stands."""
    for first, last in KINDS[kind][2]:
        if first <= column <= last:
            return first
    return column


def columns(rnd):
    for kind, (before, card, entries, blanks, free, any_) in KINDS.items():
        section('columns: ' + kind)
        covered = span(6, 6) | blanks | free
        for first, last in entries:
            covered |= span(first, last)
        assert covered == span(1, 80), kind
        at = len(before) + 1
        add(before + [card], OK)
        main = kind not in ('I record, bare', 'I field text', 'C bare')
        for column in range(1, 81):
            wild = rnd.choice((0, 7, 9, 13, 27, 128, 160, 201, 223, 241, 254,
                               255))
            for byte in ((31, 127, 200) if main
                         else (rnd.choice((31, 127, 200, wild)), wild)):
                bad = put(card, column, bytes([byte]))
                if column == 6:
                    add(before + [bad], (2, at, 6))
                else:
                    add(before + [bad], (3, at, told(kind, column)))
            # a question mark is printable, and wrong in every entry
            bad = put(card, column, '?')
            if column == 6:
                add(before + [bad], (2, at, 6))
            elif column in free or column in any_:
                add(before + [bad], OK)
            else:
                add(before + [bad], (3, at, told(kind, column)))
            # other punches, without a claim
            for text in (rnd.choice("*0159"), rnd.choice("ABCHILNRZ'.-")):
                if rnd.random() < 0.5:
                    continue
                if column != 6 or text not in 'ICO':
                    add(before + [put(card, column, text)],
                        (2, at, 6) if column == 6 else
                        OK if column in free and (column, text) != (7, '*')
                        else None)
            if card[column - 1] != 32:
                add(before + [put(card, column, ' ')],
                    (2, at, 6) if column == 6 else None)


def free_columns(rnd):
    section('free columns')
    for byte in range(32, 127):
        t = bytes([byte])
        first = t * 5 if byte != 47 else b'/////'
        cards = [put(R1, 1, first, 7, t * 10 if byte != 42 else b'#' + t * 9,
                     75, t * 6),
                 put(N5, 1, first, 75, t * 6),
                 put(ZADD, 1, first, 75, t * 6),
                 put(OR(), 1, first, 7, t * 8 if byte != 42 else b'#' + t * 7,
                     75, t * 6),
                 put(OF(9, 'N'), 1, first, 75, t * 6)]
        add(cards, OK)
    for byte in (0, 1, 9, 11, 13, 27, 30, 31, 127, 128, 129, 160, 199, 200,
                 254, 255):
        t = bytes([byte])
        add([put(R1, 5, t)], (3, 1, 5))
        add([put(R1, 80, t)], (3, 1, 80))
        add([R1, put(N5, 1, t)], (3, 2, 1))
        add([put(ZADD, 75, t)], (3, 1, 75))
        add([put(OR(), 14, t)], (3, 1, 14))
        add([put(R1, 7, t)], (3, 1, 7))
        add([OR(), put(OF(1, const='A'), 80, t)], (3, 2, 80))


def pairs_on_one_card(rnd):
    """Two wrong places on one card: the lower column is told."""
    for kind in ('I record', 'I field numeric', 'C full', 'O record',
                 'O field name', 'O field constant'):
        section('two columns: ' + kind)
        before, card, entries, blanks, free, any_ = KINDS[kind]
        at = len(before) + 1
        places = [f for f, l in entries]
        runs = sorted(c for c in blanks if c - 1 not in blanks)
        places += runs + [max(blanks), rnd.randint(1, 5), 6,
                          rnd.randint(75, 80)]
        places = sorted(set(places))
        for i, one in enumerate(places):
            for two in places[i + 1:]:
                bad = card
                for column in (one, two):
                    bad = put(bad, column, b'\x1f' if column in free
                              else rnd.choice((b'?', b'?', b'\xc8')))
                first = told(kind, one)
                # a punch in 19-20 or 15 makes a record card of a field
                # card, whose columns before that entry are free
                if kind == 'I field numeric' and two == 19 and 7 <= one <= 16:
                    first = 19 if 32 <= bad[one - 1] <= 126 else one
                if kind.startswith('O field') and two == 15 and 7 <= one < 15:
                    first = 15 if 32 <= bad[one - 1] <= 126 else one
                add(before + [bad],
                    (2, at, 6) if one == 6 else (3, at, first))
    section('two columns: order')
    # order at column 6 against punches before and behind it
    for bad, col in ((put(N5, 3, b'\x07'), 3), (put(N5, 7, '?'), 6),
                     (put(N5, 5, b'\x7f'), 5), (put(N5, 80, b'\x7f'), 6),
                     (put(N5, 44, '????'), 6)):
        add([bad], (3 if col < 6 else 2, 1, col))
    for late in (R1, N5):
        for first in (ZADD, OR()):
            pre = [] if late is R1 else [IR('02')]
            add(pre + [first, late], (2, len(pre) + 2, 6))
            add(pre + [first, put(late, 2, b'\x00')], (3, len(pre) + 2, 2))
            add(pre + [first, put(late, 42, '?')], (2, len(pre) + 2, 6))
    add([OR(), ZADD], (2, 2, 6))
    add([OR(), put(ZADD, 7, 'L1')], (2, 2, 6))
    add([OR(), put(ZADD, 7, '??')], (2, 2, 6))
    add([put(ZADD, 7, 'L1'), ZADD], (2, 2, 6))
    add([put(ZADD, 7, 'L1'), put(ZADD, 7, '?')], (3, 2, 7))
    add([put(ZADD, 7, 'L1'), put(ZADD, 8, b'\x1f')], (3, 2, 7))
    add([put(ZADD, 7, 'L1'), put(ZADD, 9, '?')], (2, 2, 6))
    add([put(ZADD, 7, 'L1'), put(ZADD, 4, b'\xff')], (3, 2, 4))
    add([put(IR('??'), 6, 'X')], (2, 1, 6))
    add([put(IR('??'), 6, b'\x80')], (2, 1, 6))
    add([put(IR('??'), 6, b'\x80', 5, b'\x80')], (3, 1, 5))
    add([put(IR('??'), 6, 'X', 1, b'\x80')], (3, 1, 1))
    add([put(OF(0), 1, b'\x01')], (3, 1, 1))
    add([put(OF(0), 7, b'\x01')], (2, 1, 6))
    add([put(OF(0), 15, '?')], (3, 1, 15))
    add([put(N5, 19, '?')], (3, 1, 19))
    add([put(N5, 20, '?')], (3, 1, 19))
    add([put(N5, 20, b'\x1f')], (3, 1, 19))
    add([put(N5, 19, '02')], (3, 1, 47))
    add([put(N5, 19, '02', 42, '9')], (3, 1, 42))
    for t, u, col in (('?', '?', 0), ('\x1f', '?', 1), ('?', '\x1f', 0),
                      ('\xc8', '\xc8', 1)):
        add([put(N5, 10, t, 19, u)], (3, 1, 10 if col else 19))
        add([R1, put(N5, 16, t, 20, u)], (3, 2, 16 if col else 19))
        add([R1, put(N5, 17, t, 20, u)], (3, 2, 17))
        add([ZADD, put(N5, 10, t, 19, u)], (2, 2, 6))
        add([put(OF(5, 'N'), 10, t, 15, u)], (3, 1, 10 if col else 15))
        add([OR(), put(OF(5, 'N'), 14, t, 15, u)], (3, 2, 14 if col else 15))
        add([OR(), put(OF(5, 'N'), 15, u, 16, t)], (3, 2, 15))
    # the neighbours of 19-20 and of 15 do not make a record card
    for t in ('?', '\x1f', '0'):
        for column in (17, 18, 21, 22):
            add([put(N5, column, t)], (2, 1, 6))
            add([R1, put(N5, 10, t, column, t)], (3, 2, 10))
        for column in (13, 14, 16, 17):
            add([put(OF(5, 'N'), column, t)], (2, 1, 6))
            add([OR(), put(OF(5, 'N'), 10, t, column, t)], (3, 2, 10))
        for column in (9, 12):
            add([put(ZADD, 7, 'LR'), put(ZADD, column, t)], (2, 2, 6))
    add([put(OF(5, 'N'), 15, 'D')], (3, 1, 32))
    add([put(OF(5, 'N'), 15, 'D', 18, '4')], (3, 1, 18))


def breach_cards():
    """Breaches on C cards, each (number, column) with a maker of the card;
    the deck before defines N, M numeric and X, Y alphameric."""
    return [
        (2, 6, put(ZADD, 6, 'F')),
        (3, 60, put(ZADD, 60, 'X')),
        (3, 33, C('ADD', 'N', '+1', 'N')),
        (4, 18, C('ADD', 'NOTHIS', 'N', 'N')),
        (4, 43, C('Z-ADD', f2='N', res='NOTHIS')),
        (5, 43, C('Z-ADD', f2='N', res='M', length=4, dec=0)),
        (5, 43, C('MOVE', f2='X', res='N', length=5)),
        (6, 18, C('ADD', 'X', 'N', 'N')),
        (6, 28, C('DIV', 'M', 'N', 'NINE', 9, 8)),
        (6, 33, C('COMP', 'X', 'N')),
        (6, 43, C('MOVE', f2='X', res='M')),
    ]


def rank(number):
    return 0 if number in (2, 3, 5, 7) else 1


def first_told(breaches):
    """Of (number, card, column): sweep first, then card."""
    return min(breaches, key=lambda x: (rank(x[0]), x[1]))


def pairs_on_two_cards(rnd):
    section('two cards: C')
    every = breach_cards()
    good = C('ADD', 'N', 'M', 'N')
    for n1, c1, one in every:
        for n2, c2, two in every:
            for gap in (0, 1):
                a, z = 6, 7 + gap
                if one == two and gap:
                    continue
                want = first_told([(n1, a, c1), (n2, z, c2)])
                # a breach that defines NINE twice is no double (alike)
                add(BASE + [one] + [good] * gap + [two], want)
    section('two cards: I, C, O')
    icards = [
        (3, 19, IR('00')), (3, 42, put(IR('02'), 42, 'X')),
        (3, 59, IF(1, 5, 2, 'K', 'L0')), (5, 53, IF(1, 5, 2, 'N')),
        (5, 53, IF(1, 5, 1, 'N')), (5, 19, IR('01')),
        (2, 6, put(R1, 6, 'J')),
    ]
    ocards = [
        (3, 40, OF(133, 'N')), (3, 45, OF(10)), (4, 32, OF(10, 'NOTHIS')),
        (6, 38, OF(10, 'X', 'J')), (6, 40, OF(4, 'N')),
        (6, 40, OF(4, const='ABCDE')), (2, 6, ZADD), (2, 6, R1),
        (3, 23, OR('D', '', ('00',))),
    ]
    for n1, c1, one in icards:
        for n2, c2, two in every:
            add(BASE + [one, two], first_told([(n1, 6, c1), (n2, 7, c2)]))
        for n2, c2, two in ocards:
            add(BASE + [one, OR(), two],
                first_told([(n1, 6, c1), (n2, 8, c2)]))
    for n1, c1, one in every:
        for n2, c2, two in ocards:
            add(BASE + [one, OR(), two],
                first_told([(n1, 6, c1), (n2, 8, c2)]))
    for n1, c1, one in ocards:
        for n2, c2, two in ocards:
            add(BASE + [OR(), one, two],
                first_told([(n1, 7, c1), (n2, 8, c2)]))
    section('two cards: full table')
    full = [R1] + [IF(1, 1, '', 'F%d' % i) for i in range(60)] + BASE[1:]
    at = len(full) + 1
    seventh = C('Z-ADD', f2='N', res='F64', length=5, dec=0)
    add(full, OK)
    add(full + [seventh], (7, at, 0))
    for n2, c2, two in every:
        if two[42:46] == b'NINE':
            continue
        add(full + [seventh, two], (7, at, 0))
        add(full + [two, seventh], first_told([(n2, at, c2), (7, at + 1, 0)]))
    # with the names used to define NINE the table is full one card earlier
    add(full + [C('DIV', 'M', 'N', 'NINE', 9, 8)], (7, at, 0))


def one_card_several(rnd):
    section('several on one card')
    # full table against double and punch
    full = [R1] + [IF(1, 1, '', 'F%d' % i) for i in range(63)] \
        + [IF(1, 2, 0, 'LV', 'L1')]
    at = 66
    add(full + [IF(1, 2, 0, 'NEW')], (7, at, 0))
    add(full + [IF(1, 2, 0, 'NEW', 'L1')], (7, at, 0))
    add(full + [IF(1, 2, 0, 'NEW', 'L0')], (3, at, 59))
    add(full + [put(IF(1, 2, 0, 'NEW'), 80, b'\x7f')], (3, at, 80))
    add(full + [IF(1, 1, '', 'F7')], (5, at, 53))
    add(full + [IF(1, 2, '', 'F7')], (5, at, 53))
    add(full + [IR('02'), IF(1, 1, '', 'F7')], OK)
    add(full + [IR('02'), IF(1, 2, '', 'F7')], (5, at + 1, 53))
    add(full + [IR('02'), IF(1, 2, '', 'F7', 'L1')], (5, at + 1, 53))
    add(full + [IR('02'), IF(1, 1, '', 'F7', 'L1')], (5, at + 1, 59))
    add(full + [IR('02'), IF(1, 2, '', 'NEW', 'L1')], (7, at + 1, 0))
    add(full + [C('Z-ADD', f2='NO', res='NEW', length=5, dec=0)], (7, at, 0))
    add(full + [C('Z-ADD', f2='NO', res='LV', length=2, dec=0)], (4, at, 33))
    add(full + [C('Z-ADD', f2='NO', res='LV', length=3, dec=0)], (5, at, 43))
    add(full + [C('Z-ADD', f2='LV', res='LV', length=2, dec=0)], OK)
    add(full + [C('MOVE', f2="'A'", res='F62', length=1)], OK)
    add(full + [C('MOVE', f2="'A'", res='F63', length=1)], (7, at, 0))
    add(full + [C('MOVE', f2="'A'", res='F63')], (4, at, 43))
    add(full[:-1] + [C('MOVE', f2="'A'", res='F63', length=1)], OK)
    add(full[:-1] + [C('MOVE', f2="'A'", res='F63', length=1)] * 2, OK)
    types = [IR('%02d' % i) for i in range(1, 17)]
    add(types, OK)
    add(types + [IR('17')], (7, 17, 0))
    add(types + [IR('01')], (7, 17, 0))
    add(types + [IR('00')], (3, 17, 19))
    add(types + [put(IR('01'), 75, b'\x1f')], (3, 17, 75))
    add(types + [put(IR('01'), 18, 'X')], (3, 17, 18))
    add(types[:15] + [IR('01')], (5, 16, 19))
    add(types + [ZADD, IR('01')], (2, 18, 6))
    add(types[:8] + [CM()] * 3 + types[8:] + [IR('01')], (7, 20, 0))
    # doubles by column
    add([R1, IF(1, 2, 0, 'A', 'L1'), IF(1, 3, 0, 'A', 'L1')], (5, 3, 53))
    add([R1, IF(1, 2, 0, 'A', 'L1'), IF(1, 2, 0, 'A', 'L1')], (5, 3, 53))
    add([R1, IF(1, 2, 0, 'A', 'L1'), IF(1, 2, 0, 'B', 'L1')], (5, 3, 59))
    # punch against double on one card
    add([R1, IR('01', '  99 CX')], (3, 2, 21))
    add([R1, put(IR('01'), 80, b'\x00')], (3, 2, 80))
    add([R1, N5, put(N5, 74, 'X')], (3, 3, 74))
    add(BASE + [put(C('Z-ADD', f2='N', res='M', length=4, dec=0), 58, '00')],
        (3, 6, 58))
    # double against unknown and kind on one card
    add(BASE + [C('ADD', 'NO', 'N', 'M', 4, 0)], (5, 6, 43))
    add(BASE + [C('ADD', 'X', 'N', 'M', 4, 0)], (5, 6, 43))
    # unknown against kind, every subset of three names
    for op in ('ADD', 'DIV'):
        for f1 in ('N', 'X', 'U1'):
            for f2 in ('N', 'X', 'U2', '5', "'AB'"):
                for res in ('N', 'X', 'U3'):
                    want = None
                    for name, col in ((f1, 18), (f2, 33), (res, 43)):
                        if want is None and name[0] == 'U':
                            want = (4, 6, col)
                    for name, col in ((f1, 18), (f2, 33), (res, 43)):
                        if want is None and name[0] in "X'":
                            want = (6, 6, col)
                    add(BASE + [C(op, f1, f2, res)], want or OK)
    for f1 in ('N', 'X', 'U1'):
        for f2 in ('N', 'X', 'U2', '5', "'AB'"):
            want = (4, 6, 18) if f1 == 'U1' else (4, 6, 33) if f2 == 'U2' \
                else OK if (f1 == 'N') == (f2 in ('N', '5')) else (6, 6, 33)
            add(BASE + [C('COMP', f1, f2)], want)
    for f2 in ('N', 'X', 'U2', '5', "'AB'"):
        for res in ('N', 'X', 'U3'):
            want = (4, 6, 33) if f2 == 'U2' else (4, 6, 43) if res == 'U3' \
                else (6, 6, 33) if f2 in ('N', '5') \
                else (6, 6, 43) if res == 'N' else OK
            add(BASE + [C('MOVE', f2=f2, res=res)], want)
            want = (4, 6, 33) if f2 == 'U2' else (4, 6, 43) if res == 'U3' \
                else (6, 6, 33) if f2 in ('X', "'AB'") \
                else (6, 6, 43) if res == 'X' else OK
            add(BASE + [C('Z-SUB', f2=f2, res=res)], want)
    # DIV limit beside text: asked only if all three are numeric
    pre = [R1, IF(1, 9, 9, 'D9'), IF(1, 9, 0, 'D0'), IF(1, 9, '', 'X')]
    for f1, f2, res, want in (
            ('D0', 'D9', 'D9', (6, 5, 28)), ('X', 'D9', 'D9', (6, 5, 18)),
            ('D0', 'X', 'D9', (6, 5, 33)), ('D0', 'D9', 'X', (6, 5, 43)),
            ('D0', "'A'", 'D9', (6, 5, 33)), ('D0', '.123456789', 'D9',
                                              (6, 5, 28)),
            ('X', 'X', 'D9', (6, 5, 18)), ('D0', 'X', 'X', (6, 5, 33)),
            ('X', 'X', 'X', (6, 5, 18)), ('D0', 'D9', 'U', (4, 5, 43)),
            ('U', 'D9', 'D9', (4, 5, 18)), ('D0', 'U', 'D9', (4, 5, 33)),
            ('D9', 'D9', 'D9', OK), ('D9', 'D0', 'D9', OK),
            ('D0', 'D0', 'D9', OK), ('D0', 'D9', 'D0', OK)):
        add(pre + [C('DIV', f1, f2, res)], want)
        add(pre + [C('MULT', f1, f2, res)],
            OK if want == (6, 5, 28) else want)
    # O field card: unknown, edit code, width
    for name, edit, end, want in (
            ('U', '', 5, (4, 7, 32)), ('U', 'J', 5, (4, 7, 32)),
            ('U', 'J', 1, (4, 7, 32)), ('X', 'J', 8, (6, 7, 38)),
            ('X', 'J', 7, (6, 7, 38)), ('X', '', 7, (6, 7, 40)),
            ('X', '', 8, OK), ('N', 'J', 6, (6, 7, 40)),
            ('N', 'J', 7, OK), ('N', '', 5, OK), ('N', '', 4, (6, 7, 40))):
        add(BASE + [OR(), OF(end, name, edit)], want)
    for edit in '1234JKLM':
        add([OR(), OF(5, edit=edit, const='ABCDE')], (6, 2, 38))
        add([OR(), OF(4, edit=edit, const='ABCDE')], (6, 2, 38))
        add(BASE + [OR(), OF(20, 'Y', edit)], (6, 7, 38))
    add([OR(), OF(4, const='ABCDE'), OF(10, 'U')], (6, 2, 40))
    add([OR(), OF(10, 'U'), OF(4, const='ABCDE')], (4, 2, 32))
    add([OR(), OF(10, 'U'), OF(4, const='')], (3, 3, 45))
    # kinds by column on one card, unknown on an earlier or later one
    add(BASE + [C('ADD', 'X', 'N', 'N'), C('ADD', 'U', 'N', 'N')],
        (6, 6, 18))
    add(BASE + [C('ADD', 'U', 'N', 'N'), C('ADD', 'X', 'N', 'N')],
        (4, 6, 18))
    add(BASE + [C('ADD', 'X', 'N', 'N'), OR(), OF(9, 'U')], (6, 6, 18))
    # the definition stands on the card itself
    add([C('Z-ADD', f2='5', res='R', length=5)], (6, 1, 43))
    add([C('MOVE', f2="'A'", res='R', length=5, dec=0)], (6, 1, 43))
    add([C('Z-ADD', f2='R', res='R', length=5, dec=0)], OK)
    add([C('Z-ADD', f2='R', res='R', length=5)], (6, 1, 33))
    add([C('MOVE', f2='R', res='R', length=5)], OK)
    add([C('ADD', 'R', 'R', 'R', 5, 0)], OK)
    add([C('ADD', 'R', 'R', 'R', 5)], (6, 1, 18))
    add([C('ADD', 'R', 'R', 'R')], (4, 1, 18))


def order(rnd):
    section('order: form letters')
    for byte in list(range(33, 127)) + [0, 1, 9, 13, 31, 127, 128, 200, 201,
                                        255, 32]:
        t = bytes([byte])
        if t in b'ICO':
            continue
        if byte % 3 and t not in (b'i', b'c', b'o', b'F', b'H', b'L', b'E',
                                  b'*', b' ', b'\x7f', b'\x1f', b'\xc8'):
            add([R1, put(N5, 6, t)], (2, 2, 6))
        else:
            add([put(R1, 6, t)], (2, 1, 6))
    add([BLANK], (2, 1, 6))
    add([R1, BLANK], (2, 2, 6))
    add([R1, N5, BLANK, BLANK], (2, 3, 6))
    add([OR(), BLANK, R1], (2, 2, 6))
    add([BLANK, BLANK], (2, 1, 6), 80)
    add([BLANK], (1, 0, 0), 80)
    section('order: sequences')
    kinds = 'RFctOP'

    def build(seq):
        cards, want, have = [], None, set()
        names = 0
        for at, k in enumerate(seq, 1):
            names += 1
            if k == '*':
                cards.append(CM(rnd.choice('ICOX '), 'NOTE'))
                continue
            cards.append({'R': IR('%02d' % at), 'F': IF(1, 4, '', 'F%d' % at),
                          'c': C('SETON', inds=('50',)),
                          't': C('SETON', inds=('50',), level='L1'),
                          'O': OR(), 'P': OF(4, const='TEXT')}[k])
            bad = {'R': have & set('ctOP'),
                   'F': have & set('ctOP') or 'R' not in have,
                   'c': have & set('tOP'), 't': have & set('OP'),
                   'O': False, 'P': 'O' not in have}[k]
            if bad and want is None:
                want = (2, at, 6)
            have.add(k)
        add(cards, want or OK)

    for x in kinds:
        build(x)
        for y in kinds:
            build(x + y)
            for z in kinds:
                build(x + y + z)
    for _ in range(60):
        build(''.join(rnd.choice(kinds + '**') for _ in
                      range(rnd.randint(2, 6))))
    for _ in range(60):
        n = rnd.randint(3, 9)
        seq = sorted((rnd.choice('RRFcctOP') for _ in range(n)),
                     key='RFctOP'.index)
        if 'P' in seq and 'O' not in seq:
            seq.insert(seq.index('P'), 'O')
        if 'F' in seq and 'R' not in seq:
            seq.insert(0, 'R')
        for _ in range(rnd.randint(0, 3)):
            seq.insert(rnd.randint(0, len(seq)), '*')
        build(seq)


def comments(rnd):
    section('comments')

    def wild():
        t = bytearray(rnd.choice([x for x in range(256) if x != 10])
                      for _ in range(80))
        t[6] = 42
        if t[0] == 47:
            t[0] = 46
        return bytes(t)

    for form in 'ICOX *':
        add([CM(form)], OK)
        add([R1, CM(form), N5], OK)
        add([CM(form), CM(form, 'X' * 73), IR('00')], (3, 3, 19))
    add([put(BLANK, 7, b'*')], OK)
    add([b'*' * 80], OK)
    add([b'\x00' * 6 + b'*' + b'\xff' * 73], OK)
    add([b'\xff' * 6 + b' ' + b'\xff' * 73], (3, 1, 1))
    for column in (1, 2, 5, 6, 8, 9, 15, 19, 20, 44, 60, 75, 80):
        for byte in (0, 31, 127, 200, 255):
            add([put(CM('I'), column, bytes([byte]))], OK)
    # the asterisk elsewhere makes no comment
    add([put(R1, 8, '*')], OK)
    add([put(R1, 5, '*')], OK)
    add([R1, put(N5, 8, '*')], (3, 2, 8))
    add([put(ZADD, 8, '*')], (3, 1, 7))
    add([put(ZADD, 7, '*')], OK)
    add([put(ZADD, 7, '*'), C('ADD', 'Q', 'Q', 'Q')], (4, 2, 18))
    add([put(ZADD, 7, '*8'), C('ADD', 'Q', 'Q', 'Q')], (4, 2, 18))
    add([OR(), put(OF(2, 'A'), 7, '*')], OK)
    add([put(OR(), 7, '*'), OF(2, const='A')], (2, 2, 6))
    add([put(R1, 7, '*'), N5], (2, 2, 6))
    add([put(R1, 7, '*'), IR('01'), put(N5, 7, '*'), N5], OK)
    for _ in range(60):
        seq = [R1, N5, C('ADD', 'N', 'N', 'T', 7, 2),
               C('Z-ADD', f2='T', res='T', level='LR'), OR('T', '', ('LR',)),
               OF(12, 'T', 'J', 'B')]
        what = rnd.randint(0, 5)
        bad = None
        if what == 1:
            seq[2] = C('ADD', 'U', 'N', 'T', 7, 2)
            bad = (4, 2, 18)
        elif what == 2:
            seq[5] = OF(9, 'T', 'J', 'B')
            bad = (6, 5, 40)
        elif what == 3:
            seq[4] = OR('X')
            bad = (3, 4, 15)
        cards, numbers = [], []
        for card in seq:
            while rnd.random() < 0.35:
                cards.append(rnd.choice((wild(), CM(rnd.choice('ICO')))))
            cards.append(card)
            numbers.append(len(cards))
        while rnd.random() < 0.35:
            cards.append(wild())
        add(cards, (bad[0], numbers[bad[1]], bad[2]) if bad else OK)


def numbers(rnd):
    section('numbers: four columns')

    def forms(high):
        good = {'   1': 1, '  01': 1, ' 001': 1, '0001': 1,
                '%4d' % high: high, '%04d' % high: high,
                '%4d' % (high - 1): high - 1, '   9': 9, '  10': 10,
                ' 012': 12, '0012': 12, '  12': 12, ' %03d' % high: high}
        wrong = ['   0', '0000', '  00', ' 000', '%4d' % (high + 1),
                 '%04d' % (high + 1), ' 999', '9999', '1   ', '12  ', ' 1  ',
                 '  1 ', '1 2 ', '0 12', '0 01', '1 01', '+012', '+001',
                 '-001', '  -1', '  +1', '    ', '  1.', ' 1.0', ' .01',
                 '   A', '   J', '  1A', 'A001', '  1{', '  1}', '  O1',
                 '0x10', '1e01', '1_00', ' 1,0', '\xb2   ', '  \xb22',
                 '   \x1f', '\x1f  1', '\t  1', '  \x001', '%4d' % (high * 10),
                 '%d' % (high + 1) + ' ', '   \xb9', '0 80', ' 256', '65536'[:4],
                 ' 257', '4097']
        wrong = [w.ljust(4) for w in wrong]
        assert all(len(x) == 4 for x in list(good) + wrong)
        return good, sorted(set(wrong))

    good, wrong = forms(80)
    for n, t in enumerate(good):
        add([R1, put(IF(1, 80, '', 'A'), 44, t, 48, num(good[t], 4))], OK)
        add([R1, put(IF(max(1, good[t] - 8), 80, 0, 'A'), 48, t)], OK)
        for i, column in enumerate((21, 28, 35)):
            codes = ['', '', '']
            codes[i] = t + rnd.choice((' CX', 'NCX', ' C '))
            add([IR('01', *codes)], OK)
    for t in wrong:
        if rank_number(t, 80):
            continue
        add([R1, put(IF(1, 80, '', 'A'), 44, t)], (3, 2, 44))
        add([R1, put(IF(1, 80, '', 'A'), 48, t)], (3, 2, 48))
        codes = [t + ' CX', '', '']
        if t == '    ':
            add([IR('01', *codes)], (3, 1, 21))
        i = rnd.randint(0, 2)
        add([put(R1, 21 + 7 * i, t + ' CX')], (3, 1, 21 + 7 * i))
    good, wrong = forms(132)
    for t in good:
        add([OR(), put(OF(1, const='A'), 40, t)], OK)
        add([R1, IF(1, 1, 0, 'A'), OR(), put(OF(1, 'A'), 40, t)], OK)
    for t in wrong:
        if rank_number(t, 132):
            continue
        add([OR(), put(OF(1, const='A'), 40, t)], (3, 2, 40))
    section('numbers: length')
    for t, n in (('  1', 1), ('001', 1), (' 01', 1), ('  9', 9), ('009', 9),
                 (' 09', 9)):
        add([C('Z-ADD', f2='5', res='Q', length=t, dec=0)], OK)
        add([C('Z-ADD', f2='5', res='Q', length=t, dec=1)], OK)
        add([C('MOVE', f2="'A'", res='Q', length=t)], OK)
    for t in (' 10', '010', ' 31', ' 32', '032', '031'):
        add([C('Z-ADD', f2='5', res='Q', length=t, dec=0)], (3, 1, 49))
        add([C('MOVE', f2="'A'", res='Q', length=t)], OK)
        add([C('Z-ADD', f2='5', res='Q', length=t)], (6, 1, 43))
    for t in (' 33', '033', '999', '  0', '000', ' 00', '1  ', '12 ', ' 1 ',
              '0 1', '1 1', '+01', '-01', ' +1', ' 1.', '1.0', ' .1', '  A',
              'A01', ' O1', '\x1f 1', '  \xb9', '  \x7f', '256', '257', '265',
              ' 64', '100'):
        add([C('Z-ADD', f2='5', res='Q', length=t, dec=0)], (3, 1, 49))
        add([C('MOVE', f2="'A'", res='Q', length=t)], (3, 1, 49))
    section('numbers: widths')
    for start in (1, 5, 30, 49, 71, 72, 80):
        for width in (1, 2, 8, 9, 10, 11, 31, 32, 33, 34, 79, 80):
            to = start + width - 1
            if to > 80:
                continue
            add([R1, IF(start, to, '', 'A')],
                OK if width <= 32 else (3, 2, 48))
            add([R1, IF(start, to, 0, 'A')], OK if width <= 9 else (3, 2, 48))
    for start, to in ((2, 1), (80, 79), (80, 1), (10, 9), (9, 8), (80, 81),
                      (81, 80), (81, 81), (0, 0), (0, 1), (1, 0), (1, 81)):
        want = (3, 2, 44) if not 1 <= start <= 80 else (3, 2, 48)
        add([R1, IF(start, to, '', 'A')], want)
        add([R1, IF(start, to, 0, 'A')], want)
    section('numbers: decimals')
    for width in range(1, 10):
        for dec in range(10):
            add([R1, IF(1, width, dec, 'A')],
                OK if dec <= width else (3, 2, 52))
            add([C('Z-ADD', f2='5', res='A', length=width, dec=dec)],
                OK if dec <= width else (3, 1, 52))
    for bad in ('A', '-', '.', '+', "'", 'H', 'J', '{', '/', ':', '\x1f',
                '\x7f', '\xb2', '\xc8', '\x00'):
        add([R1, put(IF(1, 9, '', 'A'), 52, bad)], (3, 2, 52))
        add([R1, put(IF(1, 10, '', 'A'), 52, bad)], (3, 2, 48))
        add([C('Z-ADD', f2='5', res='A', length=9, dec=bad)], (3, 1, 52))
        add([C('Z-ADD', f2='5', res='A', length=10, dec=bad)], (3, 1, 49))
        add([C('Z-ADD', f2='5', res='A', dec=bad)], (3, 1, 52))
    for dec in (0, 2, 9):
        add([C('Z-ADD', f2='5', res='A', dec=dec)], (3, 1, 52))
        add([C('Z-ADD', f2='5', res='A', length='000', dec=dec)], (3, 1, 49))
        add([C('MOVE', f2="'5'", res='A', dec=dec)], (3, 1, 52))
        add(BASE + [C('COMP', 'N', 'N', dec=dec)], (3, 6, 52))
        add(BASE + [C('COMP', 'N', 'N', length=5, dec=dec)], (3, 6, 49))
        add([C('SETON', dec=dec, inds=('01',))], (3, 1, 52))


def rank_number(t, high):
    """Whether a four-column text of the wrong list is right after all
    (4097 and 256 are wrong for both limits, so none is)."""
    body = t.lstrip(' ')
    return bool(body) and all(c in '0123456789' for c in body) \
        and 1 <= int(body) <= high


def codes(rnd):
    section('codes')
    for byte in range(32, 127):
        c = chr(byte)
        col = rnd.choice((0, 1, 2))
        cs = ['', '', '']
        cs[col] = '%4d%sC%s' % (rnd.randint(1, 80), rnd.choice(' N'), c)
        add([IR('%02d' % rnd.randint(1, 99), *cs)], OK)
    good = ['   1 CA', '  80NCA', '0001 C ', '   5NC ', "  10 C'",
            '  10 C,', '   1 CC', '   1NCN']
    wrong = ['   1  A', '   1XCA', '   1CCA', '   1 DA', '   1 NA', '   1 c ',
             '    NCA', '     CA', '      A', '     C ', '    N  ', '   1   ',
             '   1N  ', '1    CA', '   0 CA', '  81 CA', '   1nCA',
             '   1 C\x1f', '   1 C\x7f', '   1 C\xc8', '\x7f  1 CA',
             '   1\xa0CA', '   1N A', '  1N CA', '   1 ZA', '   10CA',
             'C   1 A', '   A CA', '   1 \xc3A', '   1 C\x00']
    for i, column in enumerate((21, 28, 35)):
        for g in good:
            cs = ['', '', '']
            cs[i] = g
            add([IR('01', *cs)], OK)
        for w in wrong:
            add([put(R1, column, w)], (3, 1, column))
    for mask in range(8):
        cs = [good[rnd.randrange(8)] if mask >> i & 1 else ''
              for i in range(3)]
        add([IR('01', *cs)], OK)
        ws = [wrong[rnd.randrange(20)] if mask >> i & 1 else ''
              for i in range(3)]
        cols = [c for i, c in enumerate((21, 28, 35)) if mask >> i & 1]
        add([IR('01', *ws)], (3, 1, cols[0]) if cols else OK)


def indicators(rnd):
    general = ['01', '05', '09', '10', '50', '90', '98', '99']
    others = ['L0', 'L1', 'L5', 'L9', 'LR', '1P']
    nothing = ['00', ' 5', '5 ', ' 0', '0 ', 'L ', ' L', 'LA', 'RL', 'R ',
               ' R', 'P1', 'P ', '1 ', ' P', '2P', '0P', '1R', '1L', 'l1',
               'lr', 'Lr', '1p', 'H1', 'U1', 'OF', 'MR', 'A1', '1A', '0A',
               'KL', 'LL', 'LP', 'L:', 'L/', ':1', '/1', '1:', '1/', '-1',
               '+1', '1.', '*1', "'1", '0\x1f', '\x1f1', '\x7f1', '1\xc8',
               '\xb21', '1\xb2', 'L\xb9', 'L\x1f', '\x00\x00', ' \x1f']
    section('indicators: pairs')
    # (column, cards before, card, which are right)
    num_f, txt_f = IF(1, 5, 2, 'A'), IF(1, 5, '', 'A')
    places = [
        (19, [], IR('01'), 'g'),
        (65, [R1], num_f, 'g'), (67, [R1], num_f, 'g'),
        (69, [R1], num_f, 'g'), (69, [R1], txt_f, 'g'),
        (65, [R1], txt_f, ''), (67, [R1], txt_f, ''),
        (59, [R1], num_f, 'l'), (59, [R1], txt_f, 'l'),
        (7, [], ZADD, 'tl'),
        (54, [], ZADD, 'g'), (56, [], ZADD, 'g'), (58, [], ZADD, 'g'),
        (54, [], C('SETON', inds=('', '', '11')), 'g'),
        (56, [], C('SETOF', inds=('', '', '11')), 'g'),
        (58, [], C('SETOF', inds=('11', '', '')), 'g'),
    ]
    for column, before, card, right in places:
        for pair in general + others + nothing:
            good = ('g' in right and pair in general) or \
                ('l' in right and pair in others
                 and pair not in ('L0', 'LR', '1P')) or \
                ('t' in right and pair in ('L0', 'LR'))
            if pair in nothing and pair not in ('00', ' 5', '5 ') \
                    and rnd.random() < 0.72:
                continue
            if column == 7 and pair == '*1':      # that is a comment
                good = True
            add(before + [put(card, column, pair)],
                OK if good else (3, len(before) + 1, column))
        if column != 19:
            add(before + [put(card, column, '  ')], OK)
    add([C('MOVE', f2="'A'", res='Q', length=5, inds=('11',))], (3, 1, 54))
    add([C('MOVE', f2="'A'", res='Q', length=5, inds=('', '11'))],
        (3, 1, 56))
    add([C('MOVE', f2="'A'", res='Q', length=5, inds=('', '', '11'))],
        (3, 1, 58))
    add([C('MOVE', f2="'A'", res='Q', length=5, inds=('', '11', '11'))],
        (3, 1, 56))
    add([C('MOVE', f2="'A'", res='Q', length=5)], OK)
    for op in ('SETON', 'SETOF'):
        for mask in range(8):
            inds = ['%02d' % rnd.randint(1, 99) if mask >> i & 1 else ''
                    for i in range(3)]
            add([C(op, inds=inds)], OK if mask else (3, 1, 54))
        add([C(op, inds=('', '00', ''))], (3, 1, 56))
        add([C(op, inds=('', '', '00'))], (3, 1, 58))
        add([C(op, inds=('', ' ', ' 5'))], (3, 1, 58))
        add([C(op, inds=('', '\x1f', ''))], (3, 1, 56))
        add([put(C(op), 60, 'X')], (3, 1, 54))
        add([put(C(op), 53, 'H')], (3, 1, 53))
        add([put(C(op, inds=('11', '11', '11')), 74, 'X')], (3, 1, 74))
    add(BASE + [C('COMP', 'N', 'N')], OK)
    add(BASE + [C('ADD', 'N', 'N', 'N')], OK)
    section('indicators: all general')
    for n in range(1, 100):
        i = '%02d' % n
        j = '%02d' % (n % 99 + 1)
        add([IR(i), IF(1, 5, 2, 'A', '', i, j, i), IR(j),
             C('SETON', inds=(i, j, i), conds=(i, 'N' + j, i)),
             OR('D', '', (j, 'N' + i)), OF(1, const='A', conds=('', i, j))],
            OK)
    section('indicators: conditions')
    cplaces = [(9, [], ZADD), (12, [], ZADD), (15, [], ZADD),
               (9, [], put(ZADD, 7, 'L3')),
               (23, [], OR()), (26, [], OR()), (29, [], OR()),
               (23, [OR()], OF(9, const='A')), (26, [OR()], OF(9, const='A')),
               (29, [R1, N5, OR()], OF(9, 'N'))]
    for column, before, card in cplaces:
        at = len(before) + 1
        for pair in general[:1] + general[-2:] + others:
            for sign in ' N':
                add(before + [put(card, column, sign + pair)], OK)
        for sign in ('n', 'X', '-', '0', 'L', '1', '\x1f', '\xce'):
            add(before + [put(card, column, sign + rnd.choice(general
                                                              + others))],
                (3, at, column))
        add(before + [put(card, column, 'N  ')], (3, at, column))
        add(before + [put(card, column, ' N ')], (3, at, column))
        add(before + [put(card, column, '  N')], (3, at, column))
        add(before + [put(card, column, '01 ')], (3, at, column))
        add(before + [put(card, column, 'N1 ')], (3, at, column))
        add(before + [put(card, column, 'N 1')], (3, at, column))
        add(before + [put(card, column, 'NN1')], (3, at, column))
        add(before + [put(card, column, '   ')], OK)
        for pair in rnd.sample(nothing, 12) + ['00', ' 5']:
            add(before + [put(card, column, rnd.choice(' N') + pair)],
                (3, at, column))
    for mask in range(8):
        cs = [rnd.choice(('01', 'N01', 'LR', 'NL0', '1P')) if mask >> i & 1
              else '' for i in range(3)]
        add([C('SETOF', inds=('09',), conds=cs), OR('H', 3, cs),
             OF(5, const='A', conds=cs)], OK)
    add([C('SETOF', inds=('09',), conds=('01', 'N01', '01'))], OK)


def names(rnd):
    good = ['A', 'Z', 'AB', 'A1', 'Z9', 'ABCDEF', 'A12345', 'ZZZZZZ',
            'A0', 'X9Y8Z7', 'ADD', 'L1', 'LR', 'I', 'PAGE']
    wrong = ['1', '1A', '0ABC', '9A', 'A B', 'AB  C', ' A', '  ABC', '     A',
             'a', 'Ab', 'ABc', 'A-B', 'A.B', 'A_B', "A'B", 'A$', '#A', '@A',
             'A*', '-A', 'A\x1f', '\x1fA', 'A\x7f', 'A\xc8', '\xc1BC', 'A[',
             'A@', 'A/', 'A:', '[A', '\x00', 'A\x00', 'ABCDE-', 'ABCDE ',
             'AB\xc4', 'A(1)', 'A,B', 'A B C ', '      '[:5] + '1']
    wrong.remove('ABCDE ')
    section('names')
    for n in good:
        add([R1, IF(1, 5, 0, n)], OK)
        add([R1, IF(1, 5, 0, n), C('ADD', n, n, n),
             C('COMP', n, n), OR(), OF(9, n, '1', 'B')], OK)
        add([C('Z-ADD', f2=n, res=n, length=5, dec=0), OR('T'), OF(5, n)], OK)
    pre = [R1, IF(1, 5, 0, 'A')]
    for w in wrong:
        add([R1, IF(1, 5, 0, w)], (3, 2, 53))
        add(pre + [C('ADD', w, 'A', 'A')], (3, 3, 18))
        if w[0] not in "0123456789-'" :
            add(pre + [C('ADD', 'A', w, 'A')], (3, 3, 33))
        else:
            add(pre + [C('ADD', 'A', w, 'A')],
                OK if w == '1' else (3, 3, 33))
        add(pre + [C('ADD', 'A', 'A', w)], (3, 3, 43))
        add(pre + [C('ADD', 'A', 'A', w, 5, 0)], (3, 3, 43))
        add(pre + [OR(), OF(9, w)], (3, 4, 32))
    for w in ('ABCDEFG', 'ABCDEFGH', 'ABCDEFGHIJ', 'A     B', 'A        B',
              'ABCDEF   X', 'A12345678', '      A', '         A',
              'ABCDEF   \x1f'):
        add(pre + [C('ADD', w, 'A', 'A')], (3, 3, 18))
        add(pre + [C('ADD', 'A', w, 'A')], (3, 3, 33))
    add([R1, put(IF(1, 5, 0, ''), 53, '      ')], (3, 2, 53))
    section('names: unknown')
    pre = [R1, IF(1, 5, 0, 'ABC'), IF(1, 5, 0, 'ABCDEF'), IF(6, 9, '', 'T')]
    for n in ('AB', 'ABCD', 'A', 'ABCDE', 'ABD', 'BC', 'CBA', 'ABC0', 'T1',
              'ABCDEG'):
        add(pre + [C('ADD', n, 'ABC', 'ABC')], (4, 5, 18))
        add(pre + [C('ADD', 'ABC', n, 'ABC')], (4, 5, 33))
        add(pre + [C('ADD', 'ABC', 'ABC', n)], (4, 5, 43))
        add(pre + [C('ADD', 'ABC', 'ABC', n, 5, 0)], OK)
        add(pre + [C('COMP', n, 'ABC')], (4, 5, 18))
        add(pre + [C('MOVE', f2='T', res=n)], (4, 5, 43))
        add(pre + [OR(), OF(9, n)], (4, 6, 32))
    section('names: used above their definition')
    late = C('Z-ADD', f2='7', res='LATE', length=5, dec=1)
    add([C('ADD', 'LATE', 'LATE', 'LATE'), late], OK)
    add([C('ADD', 'LATE', 'LATE', 'LATE'), put(late, 7, 'LR')], OK)
    add([C('ADD', 'LATE', '1', 'EARLY', 5, 0), late,
         C('Z-SUB', f2='EARLY', res='LATE', level='L2')], OK)
    add([C('ADD', 'LATE', 'NEVER', 'LATE'), late], (4, 1, 33))
    add([C('COMP', 'LATE', "'X'"), late], (6, 1, 33))
    add([C('COMP', 'LATE', '-1.5'), late], OK)
    add([C('MOVE', f2="'X'", res='LATE'), late], (6, 1, 43))
    add([C('MOVE', f2="'X'", res='LATE', length=5), late], (5, 2, 43))
    add([C('DIV', 'LATE', '.123456789', 'LATE'), late], OK)
    add([C('DIV', 'LATE', '.123456789', 'D'), late,
         C('Z-ADD', f2='1', res='D', length=9, dec=2)], (6, 1, 28))
    add([C('DIV', 'LATE', '.123456789', 'D'), late,
         C('Z-ADD', f2='1', res='D', length=9, dec=1)], OK)
    add([R1, N5, C('ADD', 'N', 'S', 'S'), C('Z-ADD', f2='S', res='S',
                                            length=6, dec=2, level='L1'),
         OR(), OF(6, 'S')], OK)
    add([C('MOVE', f2='LATE', res='LATE'),
         C('MOVE', f2="' '", res='LATE', length=32), OR(), OF(31, 'LATE')],
        (6, 4, 40))
    add([C('MOVE', f2='LATE', res='LATE'),
         C('MOVE', f2="' '", res='LATE', length=32), OR(), OF(32, 'LATE')],
        OK)


def literals(rnd):
    section('literals: numeric')
    good = {'5.': (5, 1, 0), '.5': (5, 1, 1), '-.5': (-5, 1, 1),
            '-0': (0, 1, 0), '0': (0, 1, 0), '-5': (-5, 1, 0),
            '123456789.': (123456789, 9, 0), '-123456789': (-123456789, 9, 0),
            '123456789': (123456789, 9, 0), '.123456789': (123456789, 9, 9),
            '-.12345678': (-12345678, 8, 8), '-1.20': (-120, 3, 2),
            '1.2': (12, 2, 1), '12345.6789': (123456789, 9, 4),
            '000000001': (1, 9, 0), '0.00': (0, 3, 2), '-0.': (0, 1, 0),
            '-.0': (0, 1, 1), '-00': (0, 2, 0), '-1234567.8': (-12345678, 8,
                                                               1),
            '0.1234567': (1234567, 8, 7), '-0.10': (-10, 3, 2),
            '007': (7, 3, 0), '.00': (0, 2, 2), '99999999.9': (999999999, 9,
                                                               1),
            '1': (1, 1, 0), '-9.': (-9, 1, 0), '-12345678.': (-12345678, 8,
                                                              0),
            '-00000001': (-1, 8, 0), '.000000001': (1, 9, 9),
            '-000000000': (0, 9, 0), '000000000.': (0, 9, 0)}
    for t, (count, digits, dec) in good.items():
        lit = '=%d/%d/%d' % (count, digits, dec)
        add([C('Z-ADD', f2=t, res='Q', length=9, dec=9)],
            ['field,Q,n9.9',
             'calc,1,-,-,-,-,Z-ADD,-,%s,0,-,-,-,-' % lit])
        add([R1, N5, C('COMP', 'N', t, inds=('', '', '77'))],
            ['field,N,n5.2', 'type,01,-,-,-', 'input,0,1,-,-,-,-',
             'calc,3,-,-,-,-,COMP,0,%s,-,-,-,-,77' % lit])
        add(BASE + [C('COMP', 'X', t)], (6, 6, 33))
        add([C('MOVE', f2=t, res='Q', length=9)], (6, 1, 33))
    wrong = ['.', '-', '-.', '+1', '+', '1-', '1.2.3', '1..2', '..1', '1234567890',
             '0000000001', '-.-5', '--5', '-+5', '5-', '5 5', '1 .5',
             '- 5', '-  .5', ' 5', '  5', '         5', '5        5', '5,0',
             '1,234', '5A', '5.A', 'A.5', '5E2', '1/2', '$5', '5.5.', '.5.',
             '-5-', '1234567.89'[:9] + 'X', '5\x1f', '\x1f5', '5       \x7f',
             '5\xb2', '\xb25', '5_0', '5\x00', '-.  5', '. 5', '5 .', '#5',
             '5:', '5/', '-\xad5', '1e5', '0x1', '-a', '1.-', '.-1', '(5)']
    assert '1234567.8X' in wrong
    for t in wrong:
        add([C('Z-ADD', f2=t, res='Q', length=9, dec=9)], (3, 1, 33))
        add([R1, N5, C('COMP', 'N', t)], (3, 3, 33))
    section('literals: text')
    good = ['A', ' ', '  ', 'AB', 'SMITH', 'ABCDEFG', 'ABCDEFGH', '        ',
            '12345678', '-5', '"', 'a b', '~', '/*', '.', 'A ', ' A', ',',
            'A,B,C', '"Q"', '=5/1/0', '!#$%&()*', '`{|}~^_', '       X']
    for t in good:
        add([C('MOVE', f2="'" + t + "'", res='Q', length=9)],
            ['field,Q,a9', "calc,1,-,-,-,-,MOVE,-,'%s',0,-,-,-,-" % t])
        add(BASE + [C('COMP', 'X', "'" + t + "'")], OK)
        add(BASE + [C('COMP', 'N', "'" + t + "'")], (6, 6, 33))
        add([C('Z-ADD', f2="'" + t + "'", res='Q', length=9, dec=0)],
            (6, 1, 33))
    wrong = ["''", "'", "'A", "'ABCDEFGH", "'ABCDEFGHI", "ABC'", "A'", "'''",
             "''''", "'A''", "'A'B", "'A'B'", "'IT'S'", "'A' B", "'A'      B",
             "'A' '", "'A'      '", "''A'", "'A'.", " 'A'", "  'A'", '"A"',
             "'A\x1f'", "'\x7f'", "'\xc8'", "'A'\x1f", "'A'      \x7f",
             "'ABCDEFG", "'       ", "`A'", "'A`", "'A\"", "' ", "'  ''",
             "'\x00'", "-'A'", "'A'\xa0"]
    for t in wrong:
        add([C('MOVE', f2=t, res='Q', length=9)], (3, 1, 33))
        add(BASE + [C('COMP', 'X', t)], (3, 6, 33))
    section('constants')
    good = ['A', ' ', 'AB', 'HELLO WORLD', 'X' * 23, 'X' * 24, ' ' * 24, '"',
            'a', '~!@#$%^&*()_+', '/*', ',', '1,234.56-', 'A ', ' A', '5',
            'ABCDEFGHI']
    for t in good:
        add([OR(), OF(24, const=t)],
            ['line,1,D,1,-,-,-', "print,-,-,-,'%s',24" % t])
    wrong = ['', "'", "''", "'A", 'A', "A'", "'" + 'X' * 25, "'" + 'X' * 24,
             'X' * 26, "'A''", "'''", "'IT'S'", "'A'B", "'A' B",
             "'A'" + ' ' * 22 + 'B', " 'A'", "'A'" + ' ' * 22 + "'",
             "'A\x1f'", "'\x7f'", "'\xc8'", "'A'\x1f", '"A"', "'" + ' ' * 24,
             '5', 'NAME', "'A' 'B'", ' ' * 25 + 'X', ' ' * 25 + "'",
             "'" + 'X' * 23 + "''", "''A'", "'A\x00B'", "'A\xe4B'"]
    for t in wrong:
        add([OR(), put(OF(24), 45, t)], (3, 2, 45))
    for byte in range(32, 127):
        t = chr(byte)
        if t == "'":
            continue
        add([C('MOVE', f2="'%s'" % (t * rnd.randint(1, 8)), res='Q',
               length=1), OR('H'),
             OF(60, const=t * rnd.randint(1, 24)), OF(1, 'Q', '', 'B')], OK)
    pre = [R1, N5, OR()]
    for t in ("'A'", 'A', "'", ' ' * 25 + 'X', "''", '5', '\x1f', '\xc8'):
        add(pre + [put(OF(9, 'N'), 45, t)], (3, 4, 45))
        add([OR(), put(OF(9, 'U'), 45, t)], (3, 2, 45))
    add([OR(), OF(9)], (3, 2, 45))
    add([OR(), put(OF(9), 39, 'B')], (3, 2, 39))
    add([OR(), OF(9, const='A', clear='B')], (3, 2, 39))
    add([OR(), put(OF(9), 38, 'J')], (3, 2, 45))
    add([OR(), put(OF(9), 38, 'X')], (3, 2, 38))


def operations(rnd):
    section('operations: entries')
    takes = {'ADD': 'frhd', 'SUB': 'frhd', 'MULT': 'frhd', 'DIV': 'frhd',
             'Z-ADD': 'rhd', 'Z-SUB': 'rhd', 'COMP': 'f', 'MOVE': 'rd',
             'SETON': 's', 'SETOF': 's'}
    for op, t in takes.items():
        text = op == 'MOVE'
        two = 's' not in t
        full = C(op, 'N' if 'f' in t else '',
                 ('X' if text else 'M') if two else '',
                 ('Y' if text else 'N') if 'r' in t else '',
                 inds=() if text else ('11', '12', '13'))
        add(BASE + [full], OK)
        # each entry missing
        add(BASE + [put(full, 18, ' ' * 10)],
            (3, 6, 18) if 'f' in t else OK)
        add(BASE + [put(full, 33, ' ' * 10)], (3, 6, 33) if two else OK)
        add(BASE + [put(full, 43, ' ' * 6)], (3, 6, 43) if 'r' in t else OK)
        add(BASE + [put(full, 54, ' ' * 6)], (3, 6, 54) if 's' in t else OK)
        # each entry surplus or optional
        add(BASE + [put(full, 18, 'N')], OK if 'f' in t else (3, 6, 18))
        add(BASE + [put(full, 18, 'U')],
            (4, 6, 18) if 'f' in t else (3, 6, 18))
        add(BASE + [put(full, 27, 'N')], (3, 6, 18))
        for f2 in ('M', '5', "'A'", 'U', '?'):
            want = None if two else (3, 6, 33)
            if two and f2 == '?':
                want = (3, 6, 33)
            if two and f2 == 'U':
                want = (4, 6, 33)
            if want is None:
                want = OK if (f2 == "'A'") == text else (6, 6, 33)
            add(BASE + [put(full, 33, f2.ljust(10))], want)
        add(BASE + [put(full, 43, 'Y' if text else 'N')],
            OK if 'r' in t else (3, 6, 43))
        for length in ('  5', '  3', '  0', '?', '5  '):
            want = (3, 6, 49)
            if 'r' in t and length in ('  5', '  3'):
                # text of length 3 is alike for Y, else unlike
                want = OK if text and length == '  3' else (5, 6, 43)
            add(BASE + [put(full, 49, length)], want)
        add(BASE + [put(full, 49, '  52')],
            (5, 6, 43) if text else OK if 'r' in t else (3, 6, 49))
        add(BASE + [put(full, 52, '2')], (3, 6, 52))
        add(BASE + [put(full, 53, 'H')], OK if 'h' in t else (3, 6, 53))
        for h in rnd.sample(('h', 'X', '1', 'B', '\x1f', '\xc8'), 2):
            add(BASE + [put(full, 53, h)], (3, 6, 53))
        for column in (54, 56, 58):
            add(BASE + [put(full, column, '21')],
                OK if not text else (3, 6, column))
            add(BASE + [put(full, column, '  ')], OK)
            for bad in ('00', 'L1', '1 '):
                add(BASE + [put(full, column, bad)], (3, 6, column))
        # several wrong at once, by column
        add(BASE + [put(full, 18, ' ' * 10 if 'f' in t else 'N', 53, 'X')],
            (3, 6, 18))
        add(BASE + [put(full, 53, 'X', 54, '00')], (3, 6, 53))
        add(BASE + [put(full, 52, '?', 49, '?')], (3, 6, 49))
        add(BASE + [put(full, 43, '9', 49, '?')], (3, 6, 43))
        for level in ('L0', 'L1', 'L9', 'LR'):
            add(BASE + [put(full, 7, level)], OK)
        add(BASE + [put(full, 7, '1P')], (3, 6, 7))
        add(BASE + [put(full, 7, '01')], (3, 6, 7))
    section('operations: words')
    for op in ('ADDX', 'ADD X', ' ADD', '  ADD', 'add', 'Add', 'Z-AD', 'ZADD',
               'Z ADD', 'Z_ADD', 'Z-ADDX'[:5] + '', 'MVR', 'GOTO', 'SETO',
               'SET', 'MOVEL', 'COMPX', 'COM', '', 'DIVX', 'MULTI', 'MUL',
               'SUBT', 'SU', 'A', 'SETFF', 'EXSR', 'TAG', 'MOVE\x1f',
               'ADD\x1f', 'ADD \x7f', '\x1f', 'ADD.', 'AD', 'SETOG', 'SET0N',
               'Z-SUP', 'Z-ADE', 'LOKUP', 'XFOOT', 'TESTN', 'MHHZO', 'DI',
               'ADD 1', 'SUB\xa0', 'Z+ADD', 'Z--ADD'[:5], 'M0VE'):
        if op == 'Z-ADD':
            continue
        card = put(C('', '', '5', 'Q', 5, 0), 28, op)
        add([card], (3, 1, 28))
        add([put(card, 18, 'N')], (3, 1, 28))
        add([put(card, 18, '9A')], (3, 1, 18))
        add([put(card, 33, '??', 18, ' ' * 10)], (3, 1, 28))
    section('operations: kinds')
    for op in ('ADD', 'SUB', 'MULT', 'DIV', 'Z-ADD', 'Z-SUB', 'MOVE', 'COMP'):
        t = takes[op]
        for f1 in (('N', 'X') if 'f' in t else ('',)):
            for f2 in ('M', 'Y', '2.5', "'T'"):
                for res in (('M', 'Y', 'NEWN', 'NEWT') if 'r' in t
                            else ('',)):
                    n1, n2 = f1 == 'N', f2 in ('M', '2.5')
                    nr = res in ('M', 'NEWN')
                    if op == 'COMP':
                        want = OK if n1 == n2 else (6, 6, 33)
                    elif op == 'MOVE':
                        want = (6, 6, 33) if n2 else (6, 6, 43) if nr else OK
                    else:
                        want = (6, 6, 18) if f1 and not n1 else \
                            (6, 6, 33) if not n2 else \
                            (6, 6, 43) if not nr else OK
                    extra = {'NEWN': (7, 2), 'NEWT': (7, '')}.get(res,
                                                                  ('', ''))
                    add(BASE + [C(op, f1, f2, res, *extra)], want)


def div_limit(rnd):
    section('DIV limit: fields')
    for p in range(10):
        for q in range(10):
            for s in range(10):
                over = s + q - p
                if over in (9, 10):
                    own = (p + q + s) % 2
                    cards = [R1, IF(1, 9, p, 'P'), IF(11, 19, q, 'Q')]
                    if not own:
                        cards.append(IF(21, 29, s, 'S'))
                    cards.append(C('DIV', 'P', 'Q', 'S',
                                   *((9, s) if own else ())))
                    add(cards, OK if over == 9 else (6, len(cards), 28))
    section('DIV limit: literals')
    for p in range(10):
        for q in range(10):
            for s in range(10):
                over = s + q - p
                if over in (9, 10):
                    digits = ''.join(rnd.choice('0123456789')
                                     for _ in range(max(q, rnd.randint(1,
                                                                       8))))
                    at = len(digits) - q
                    lit = digits[:at] + '.' + digits[at:]
                    if q == 0 and rnd.random() < 0.5:
                        lit = digits
                    if len(lit) < 10 and rnd.random() < 0.4:
                        lit = '-' + lit
                    cards = [R1, IF(1, 9, p, 'P'),
                             C('DIV', 'P', lit, 'S', 9, s)]
                    add(cards, OK if over == 9 else (6, 3, 28))
    section('DIV limit: others')
    for op in ('ADD', 'SUB', 'MULT'):
        for p, q, s in ((0, 9, 9), (0, 5, 5), (1, 9, 2), (9, 9, 9)):
            add([R1, IF(1, 9, p, 'P'), IF(11, 19, q, 'Q'),
                 C(op, 'P', 'Q', 'S', 9, s)], OK)
    for p, q, s in ((9, 0, 0), (0, 0, 0), (9, 9, 9), (5, 5, 9), (9, 9, 0),
                    (0, 9, 9), (0, 9, 4), (1, 9, 9), (3, 7, 8)):
        add([R1, IF(1, 9, p, 'P'), IF(11, 19, q, 'Q'),
             C('DIV', 'P', 'Q', 'S', 9, s)],
            OK if q + s - p <= 9 else (6, 4, 28))
        add([R1, IF(1, 9, p, 'P'), IF(11, 19, q, 'Q'),
             C('DIV', 'P', 'Q', 'S'), C('Z-ADD', f2='P', res='S', length=9,
                                        dec=s, level='LR')],
            OK if q + s - p <= 9 else (6, 4, 28))
    for lit, q in (('.500000000', 9), ('1.00000000', 8), ('0.5', 1),
                   ('.000000000', 9), ('-0.0000000', 7), ('5.', 0),
                   ('500000000', 0), ('1.20', 2), ('-.10', 2)):
        for s in (8 - q, 9 - q, 10 - q):
            if 0 <= s <= 9:
                add([R1, IF(1, 3, 0, 'P'), C('DIV', 'P', lit, 'S', 9, s)],
                    OK if s + q <= 9 else (6, 3, 28))
                if s < 9:
                    add([R1, IF(1, 3, 1, 'P'), C('DIV', 'P', lit, 'S', 9,
                                                 s + 1)],
                        OK if s + q <= 9 else (6, 3, 28))
    add([C('DIV', 'S', 'S', 'S', 9, 9)], OK)
    add([C('DIV', 'S', '.123456789', 'S', 9, 9)], OK)


def image_width(digits, dec, code):
    """By building the image of the largest value."""
    text = '9' * digits
    whole, part = text[:digits - dec], text[digits - dec:]
    if code in '12JK':
        groups = []
        while len(whole) > 3:
            groups.insert(0, whole[-3:])
            whole = whole[:-3]
        whole = ','.join([whole] + groups)
    if dec:
        whole += '.'
    image = whole + part
    if code in 'JKLM':
        image += '-'
    return len(image)


def images(rnd):
    section('images: numbers')
    for code in ' 1234JKLM':
        for digits in range(1, 10):
            for dec in range(digits + 1):
                width = digits if code == ' ' else image_width(digits, dec,
                                                               code)
                by_c = (digits + dec) % 2
                pre = [C('Z-ADD', f2='0', res='V', length=digits, dec=dec)] \
                    if by_c else [R1, IF(1, digits, dec, 'V')]
                clear = rnd.choice(' B')
                at = len(pre) + 2
                add(pre + [OR(rnd.choice('HDT')), OF(width, 'V', code,
                                                     clear)], OK)
                add(pre + [OR(rnd.choice('HDT')), OF(width - 1, 'V', code,
                                                     clear)],
                    (6, at, 40) if width > 1 else (3, at, 40))
    section('images: text')
    for length in range(1, 33):
        pre = [R1, IF(81 - length, 80, '', 'V'), OR()]
        add(pre + [OF(length, 'V')], OK)
        add(pre + [OF(length - 1, 'V')],
            (6, 4, 40) if length > 1 else (3, 4, 40))
    for length in range(1, 25):
        t = ''.join(rnd.choice('ABC xyz.,-"') for _ in range(length))
        add([OR(), OF(length, const=t)], OK)
        add([OR(), OF(length - 1, const=t)],
            (6, 2, 40) if length > 1 else (3, 2, 40))
    for end in range(1, 133):
        add([OR(), OF(end, const='A')], OK)
    for end in (0, 133, 134, 200, 999, 1000, 1320, 9999):
        add([OR(), OF(end, const='A')], (3, 2, 40))
    section('images: edit codes')
    for byte in list(range(33, 127)) + [0, 31, 127, 200, 255]:
        t = chr(byte)
        if t in '1234JKLM':
            add([R1, N5, OR(), OF(20, 'N', t)], OK)
        elif byte in (0, 31, 127, 200, 255) or byte % 2 or t in '05INA':
            add([R1, N5, OR(), OF(20, 'N', t)], (3, 4, 38))
    for t in ('B', 'b', 'X', '1', '\x1f', '\xc8', '*'):
        add([R1, N5, OR(), OF(20, 'N', 'J', t)], OK if t == 'B' else
            (3, 4, 39))
        add([R1, X8, OR(), OF(20, 'X', '', t)], OK if t == 'B' else
            (3, 4, 39))
        add([OR(), OF(20, '', '', t, 'ABC')], (3, 2, 39))
    section('O record entries')
    for t in ('H', 'D', 'T'):
        for s in ('', '1', '2', '3'):
            add([OR(t, s)], ['line,1,%s,%s,-,-,-' % (t, s or '1')])
    for t in ('h', 'd', 't', 'E', 'X', '1', '*', 'I', '\x1f', '\xc8'):
        add([OR(t)], (3, 1, 15))
    for s in ('0', '4', '9', 'A', '-', '\x1f', '\x7f', '*', 'N'):
        add([OR('D', s)], (3, 1, 18))
    add([put(OR('D'), 17, '1')], (3, 1, 17))
    add([put(OR('D'), 19, '1')], (3, 1, 19))


def definitions(rnd):
    section('definitions: alike and unlike')
    defs = [('n', 5, 2), ('n', 5, 0), ('n', 5, 5), ('n', 4, 2), ('n', 6, 2),
            ('a', 5, ''), ('a', 4, ''), ('a', 9, ''), ('n', 9, 9),
            ('n', 1, 0), ('a', 1, ''), ('n', 1, 1)]

    def icard(d, name, start=1, level=''):
        return IF(start, start + d[1] - 1, d[2], name, level)

    def ccard(d, name):
        if d[0] == 'n':
            return C('Z-ADD', f2='1', res=name, length=d[1], dec=d[2])
        return C('MOVE', f2="'1'", res=name, length=d[1])

    for d in defs:
        for e in defs:
            alike = d == e
            if not alike and rnd.random() < 0.35:
                continue
            add([R1, icard(d, 'A'), IR('02'), icard(e, 'A', 30)],
                OK if alike else (5, 4, 53))
            add([R1, icard(d, 'A'), ccard(e, 'A')],
                OK if alike else (5, 3, 43))
            add([ccard(d, 'A'), ccard(e, 'A')], OK if alike else (5, 2, 43))
    for d in defs[:6]:
        add([R1, icard(d, 'A'), icard(d, 'A')], (5, 3, 53))
        add([R1, icard(d, 'A'), icard(d, 'A', 40)], (5, 3, 53))
        add([R1, icard(d, 'A'), icard(d, 'B', 40), icard(d, 'A', 40)],
            (5, 4, 53))
        add([R1, icard(d, 'A'), icard(d, 'B')], OK)
        add([R1, icard(d, 'A'), IR('02'), icard(d, 'A'), IR('03'),
             icard(d, 'A', 20), ccard(d, 'A'), ccard(d, 'A')], OK)
        add([R1, icard(d, 'A'), IR('02'), icard(d, 'A'), icard(d, 'A')],
            (5, 5, 53))
        add([R1, icard(d, 'A'), IR('02'), IR('03'), icard(d, 'A')], OK)
    # the third definition unlike
    add([R1, IF(1, 5, 2, 'A'), IR('02'), IF(6, 10, 2, 'A'), IR('03'),
         IF(6, 10, 1, 'A')], (5, 6, 53))
    add([ccard(defs[0], 'A'), ccard(defs[0], 'B'), ccard(defs[5], 'A')],
        (5, 3, 43))
    add([ccard(defs[0], 'A'), ccard(defs[0], 'AB'), ccard(defs[5], 'AB0'),
         ccard(defs[6], 'A0')], OK)
    section('definitions: record indicators')
    for a, z in (('01', '01'), ('99', '99'), ('10', '10')):
        add([IR(a), IR(z)], (5, 2, 19))
        add([IR(a), IR('50'), IR(z)], (5, 3, 19))
        add([IR(a), N5, CM(), IR('50'), N5, IR(z)], (5, 6, 19))
        add([IR(a), IR(z), IR('00')], (5, 2, 19))
        add([IR(a), IR('00'), IR(z)], (3, 2, 19))
    for a, z in (('01', '10'), ('09', '90'), ('11', '12')):
        add([IR(a), IR(z)], OK)
    add([IR('01'), IF(1, 5, 0, 'A', '', '01', '01', '01'), IR('02'),
         C('SETON', inds=('01', '02', '01'))], OK)
    section('levels')
    for lv in range(10):
        for form in (0, ''):
            add([R1, IF(1, 5, form, 'A', 'L%d' % lv)],
                OK if lv else (3, 2, 59))
    for one, two, want in (
            (('n', 5, 2), ('n', 5, 2), 1), (('n', 5, 2), ('n', 5, 0), 1),
            (('n', 5, 2), ('n', 4, 2), 0), (('n', 5, 2), ('a', 5, ''), 0),
            (('a', 5, ''), ('a', 5, ''), 1), (('a', 5, ''), ('a', 6, ''), 0),
            (('a', 5, ''), ('n', 5, 5), 0), (('n', 9, 0), ('n', 9, 9), 1),
            (('a', 32, ''), ('a', 32, ''), 1), (('a', 32, ''), ('a', 31, ''),
                                                0)):
        for lv in ('L1', 'L5', 'L9'):
            a = icard(one, 'A', 1, lv)
            z = icard(two, 'B', 40, lv)
            add([R1, a, z], (5, 3, 59))
            add([R1, a, IR('02'), z], OK if want else (5, 4, 59))
            add([R1, a, IR('02'), put(z, 59, 'L3')], OK)
            add([R1, a, IR('02'), IR('03'), CM(), z],
                OK if want else (5, 6, 59))
            if one == two:
                add([R1, a, IR('02'), put(z, 53, 'A')], OK)
    add([R1, IF(1, 2, 0, 'A', 'L1'), IF(3, 4, 0, 'B', 'L2'),
         IF(5, 6, 0, 'C', 'L1')], (5, 4, 59))
    add([R1, IF(1, 2, 0, 'A', 'L1'), IR('02'), IF(1, 2, 0, 'A'), IR('03'),
         IF(1, 3, 0, 'B', 'L1')], (5, 6, 59))
    add([R1, IF(1, 2, 0, 'A', 'L1'), IR('02'), IF(1, 2, 0, 'A'),
         IF(3, 4, 0, 'B', 'L1'), IR('03'), IF(1, 2, 1, 'C', 'L1')], OK)
    # a field with a level on one type and without on another
    add([R1, IF(1, 2, 0, 'A'), IR('02'), IF(1, 2, 0, 'A', 'L4')], OK)
    # all nine levels, in any order
    levels = list(range(1, 10))
    for _ in range(10):
        rnd.shuffle(levels)
        cards = [R1] + [IF(1, 1 + i, rnd.choice(('', 0)), 'A%d' % i,
                           'L%d' % lv) for i, lv in enumerate(levels[:8])]
        add(cards, OK)
        add(cards + [IF(1, 1, 0, 'Z', 'L%d' % levels[8])], OK)
        add(cards + [IF(1, 1, 0, 'Z', 'L%d' % levels[rnd.randrange(8)])],
            (5, 10, 59))
    for bad in ('L', ' L', ' 1', '1', 'LR', '1P', '01', 'l1', 'LA', 'K1',
                'M1', 'L\x1f', 'L:', 'L/', '\xcc1'):
        add([R1, put(IF(1, 5, 0, 'A'), 59, bad)], (3, 2, 59))
    section('limits: fields')
    big = [R1] + [IF(1, 1, '', 'F%d' % i) for i in range(64)]
    add(big, OK)
    add(big[:64], OK)
    add(big + [IF(1, 1, '', 'F64')], (7, 66, 0))
    add(big + [ZADD], (7, 66, 0))
    add(big[:-1] + [ZADD], OK)
    add(big[:-1] + [ZADD, ZADD], OK)
    add(big[:-1] + [ZADD, C('Z-ADD', f2='5', res='QQ', length=3, dec=0)],
        (7, 66, 0))
    add(big[:-1] + [ZADD, C('Z-ADD', f2='5', res='QQ')], (4, 66, 43))
    add(big + [IR('02')] + [IF(2, 2, '', 'F%d' % i) for i in
                            range(0, 64, 4)], OK)
    add(big + [IR('02')] + [IF(2, 2, '', 'F%d' % i) for i in
                            range(60, 65)], (7, 71, 0))
    cs = [C('Z-ADD', f2='5', res='G%d' % i, length=9, dec=i % 10)
          for i in range(65)]
    add(cs[:64], OK)
    add(cs, (7, 65, 0))
    add(cs[:64] + [C('ADD', 'G0', 'G63', 'G63'), OR(), OF(9, 'G63')], OK)
    add(cs[:64] + [C('ADD', 'G0', 'G64', 'G63')], (4, 65, 33))
    add(cs[:40] + [CM()] * 3 + cs[40:], (7, 68, 0))
    add(big[:33] + cs[:32], OK)
    add(big[:33] + cs[:33], (7, 66, 0))
    add(big[:33] + cs[:31] + cs[:32], OK)
    section('limits: types')
    types = [IR('%02d' % (i * 5 + 3)) for i in range(17)]
    add(types[:15], OK)
    add(types[:16], OK)
    add(types, (7, 17, 0))
    add([CM()] + types[:16] + [CM()], OK)
    withf = []
    for i in range(16):
        withf += [types[i], IF(i + 1, i + 5, 2, 'AMT'),
                  IF(40, 41, '', 'K', 'L1')]
    add(withf, OK)
    add(withf + [types[16]], (7, 49, 0))
    add(withf + [IF(1, 1, '', 'LAST')], OK)


def examples(rnd):
    section('examples of the docs')
    deck = ['     I            01   1 CS',
            '     I                                        2   30DEPT  L1',
            '     I                                        4   82AMT',
            '     C   01      AMT       ADD  T1        T1      72',
            '     CL1         T1        ADD  T2        T2      72',
            '     O        T        L1',
            '     O                         T1    JB  20',
            '     O        T        LR',
            '     O                         T2    JB  20']
    deck = [b(x).ljust(80) for x in deck]
    more = ['     I*  A COMMENT',
            '     ISALES       02   1 CC  80NC',
            '     I                                       10  24 NAME'
            '            31',
            '     I                                       25  302PRICE'
            '       323334',
            '     C   02N34   AMT       DIV  PRICE     RATIO   53H404142',
            "     C   02      NAME      COMP 'SMITH'                  43",
            "     C   43                MOVE 'KNOWN'   NOTE   12",
            '     C                     SETOF                     4344',
            '     O        H  2     1P',
            "     O                                   30 "
            "'SALES BY DEPARTMENT'"]
    more = [b(x).ljust(80) for x in more]
    add(deck, ['field,DEPT,n2.0', 'field,AMT,n5.2', 'field,T1,n7.2',
               'field,T2,n7.2', 'type,01,1CS,-,-', 'input,0,2,L1,-,-,-',
               'input,1,4,-,-,-,-', 'calc,4,-,01,-,-,ADD,1,2,2,-,-,-,-',
               'calc,5,L1,-,-,-,ADD,2,3,3,-,-,-,-', 'line,6,T,1,L1,-,-',
               'print,-,-,-,2/J/B,20', 'line,8,T,1,LR,-,-',
               'print,-,-,-,3/J/B,20'])
    add(deck[:3] + more[:4] + deck[3:4] + more[4:8] + deck[4:] + more[8:],
        OK)
    add(more, (4, 5, 18))
    add([R1, C('ADD', 'U', 'U', 'U')] + [CM()] * 6
        + [put(ZADD, 60, 'X')], (3, 9, 60))
    add([R1, IF(1, 10, 2, 'A')], (3, 2, 48))
    add([R1, IF(1, 2, 3, 'A')], (3, 2, 52))
    add([R1, IF(1, 2, 0, 'A', 'L0')], (3, 2, 59))
    add([C('ADD', '', 'A', 'A')], (3, 1, 18))
    add([C('ADDX', '', 'A', 'A')], (3, 1, 28))
    add([C('ADDX', '9A', 'A', 'A')], (3, 1, 18))
    add([R1, N5, C('ADD', 'N', 'N', 'R', 5)], (6, 3, 43))
    add([C('SETON')], (3, 1, 54))
    add([OR(), OF(4, const='ABCDE')], (6, 2, 40))
    # the example deck, each card left out, doubled, and put to the front
    for i in range(len(deck)):
        add(deck[:i] + deck[i + 1:])
        add(deck[:i + 1] + deck[i:])
        add([deck[i]] + deck[:i] + deck[i + 1:])
        add(deck[:i] + deck[i + 1:] + [deck[i]])


# ------------------------------------------------------------- random decks

TYPICAL = "0123456789 ABCDEFGHIJKLMNOPQRSTUVWXYZ'.-NLHBICO* "


class Plan:
    """A random good deck: its cards, and the listing expected of it."""

    def __init__(self, rnd, size):
        self.rnd, self.size = rnd, size
        self.cards = []
        self.punch()

    def number(self, n, width):
        t = str(n)
        t = '0' * self.rnd.choice((0, 0, 0, 1, 2, 3)) + t
        if self.rnd.random() < 0.05:
            t = t.zfill(width)
        return t[-width:].rjust(width) if len(t) >= width else t.rjust(width)

    def free(self, card, first, last):
        if self.rnd.random() < 0.12:
            t = ''.join(chr(self.rnd.randint(32, 126))
                        for _ in range(last - first + 1))
            if first == 7 and t[0] == '*':
                t = '+' + t[1:]
            if first == 1 and t[0] == '/':
                t = '+' + t[1:]
            card = put(card, first, t)
        return card

    def card(self, card):
        rnd = self.rnd
        while rnd.random() < 0.06 and len(self.cards) < self.most:
            t = bytearray(BLANK)
            t[5] = ord(rnd.choice('ICO'))
            t[6] = 42
            if rnd.random() < 0.5:
                for _ in range(rnd.randint(1, 20)):
                    t[rnd.choice([0, 5] + list(range(7, 40)))] = rnd.choice(
                        [x for x in range(256) if x != 10])
            if t[:2] == b'/*':
                t[0] = 65
            self.cards.append(bytes(t))
            self.most -= 1
        card = self.free(card, 1, 5)
        card = self.free(card, 75, 80)
        self.cards.append(card)
        return len(self.cards)

    def general(self, chance):
        return '%02d' % self.rnd.randint(1, 99) \
            if self.rnd.random() < chance else ''

    def conditions(self):
        rnd, got = self.rnd, []
        for _ in range(3):
            if rnd.random() < 0.3:
                got.append(rnd.choice(('', '', 'N')) + rnd.choice(
                    ['%02d' % rnd.randint(1, 99)] * 3
                    + ['L%d' % rnd.randint(0, 9), 'LR', '1P']))
            else:
                got.append('')
        return got

    @staticmethod
    def dash(items):
        return ','.join(i or '-' for i in items)

    def newname(self):
        rnd = self.rnd
        while True:
            n = rnd.choice('ABCDEFGHIJKLMNOPQRSTUVWXYZ') + ''.join(
                rnd.choice('ABCDEFGHIJKLMNOPQRSTUVWXYZ0123456789')
                for _ in range(rnd.randint(0, 5)))
            if n not in self.kinds:
                return n

    def define(self, name):
        if name not in self.places:
            self.places.append(name)

    def text(self, most):
        rnd = self.rnd
        return ''.join(rnd.choice('ABCDEFG xyz0123,.-/"')
                       for _ in range(rnd.randint(1, most)))

    def literal(self):
        """(punched, expected, decimals)"""
        rnd = self.rnd
        digits = ''.join(rnd.choice('0123456789')
                         for _ in range(rnd.choice((1, 1, 2, 3, 4, 7, 9))))
        minus = rnd.random() < 0.3
        where = rnd.randint(0, len(digits)) if rnd.random() < 0.5 else None
        t = ('-' if minus else '') + (
            digits if where is None
            else digits[:where] + '.' + digits[where:])
        if len(t) > 10:
            t, where = digits, None
            minus = False
        dec = 0 if where is None else len(digits) - where
        count = int(digits) * (-1 if minus else 1)
        return t, '=%d/%d/%d' % (count, len(digits), dec), dec

    def punch(self):
        rnd, size = self.rnd, self.size
        self.most = 256
        self.kinds, self.places = {}, []
        ntypes = min(16, rnd.choice((0, 1, 1, 1, 2, 2, 3, 4))
                     if size < 30 else rnd.randint(1, 16))
        total = rnd.randint(1, 3) if size < 8 else rnd.randint(1, 6) \
            if size < 30 else rnd.randint(10, 64)
        for _ in range(total):
            if rnd.random() < 0.65:
                d = rnd.randint(1, 9)
                kind = (d, rnd.choice((0, 0, min(2, d), rnd.randint(0, d))))
            else:
                kind = (rnd.choice((1, 2, 5, 8, 20, rnd.randint(1, 32))),
                        None)
            self.kinds[self.newname()] = kind
        everyone = list(self.kinds)
        by_input = everyone[:rnd.randint(0, total)] if ntypes else []
        by_calc = [n for n in everyone if n not in by_input]
        levels = {}
        types = []
        inds = rnd.sample(range(1, 100), ntypes)
        # which names go on which types; each by_input name on at least one
        onto = [set() for _ in range(ntypes)]
        for n in by_input:
            for i in rnd.sample(range(ntypes), min(ntypes, rnd.choice(
                    (1, 1, 1, 2, 3)))):
                onto[i].add(n)
        lines = []
        for i in range(ntypes):
            codes, told_ = ['', '', ''], ['-', '-', '-']
            for k in range(3):
                if rnd.random() < 0.35:
                    pos, neg = rnd.randint(1, 80), rnd.random() < 0.3
                    ch = chr(rnd.randint(32, 126))
                    codes[k] = self.number(pos, 4) + ' N'[neg] + 'C' + ch
                    told_[k] = '%d%s%s' % (pos, 'NC' if neg else 'C', ch)
            card = IR('%02d' % inds[i], *codes)
            self.card(self.free(card, 7, 16))
            types.append('type,%02d,%s' % (inds[i], ','.join(told_)))
            mine = sorted(onto[i])
            rnd.shuffle(mine)
            used = set()
            for n in mine:
                length, dec = self.kinds[n]
                start = rnd.randint(1, 81 - length)
                level = ''
                if rnd.random() < 0.25:
                    sig = (length, dec is None)
                    fit = [v for v in range(1, 10) if v not in used
                           and levels.get(v, sig) == sig]
                    if fit:
                        v = rnd.choice(fit)
                        used.add(v)
                        levels[v] = sig
                        level = 'L%d' % v
                tells = [self.general(0.15) if dec is not None else '',
                         self.general(0.15) if dec is not None else '',
                         self.general(0.15)]
                self.card(IF(self.number(start, 4),
                             self.number(start + length - 1, 4),
                             '' if dec is None else dec, n, level, *tells))
                self.define(n)
                types.append(('input', n, 'input,%%d,%d,%s,%s'
                              % (start, level or '-', self.dash(tells))))
        # calculations
        ncalc = len(by_calc) + (rnd.randint(0, 2) if size < 8
                                else rnd.randint(0, 5) if size < 30
                                else rnd.randint(0, size // 2))
        jobs = by_calc + [None] * (ncalc - len(by_calc))
        rnd.shuffle(jobs)
        nums = [n for n in everyone if self.kinds[n][1] is not None]
        texts = [n for n in everyone if self.kinds[n][1] is None]
        ndetail = rnd.randint(0, len(jobs))
        calcs = []
        for at, job in enumerate(jobs):
            if len(self.cards) >= self.most - 1 and job is None:
                continue
            level = '' if at < ndetail else rnd.choice(
                ['L%d' % rnd.randint(0, 9), 'LR', 'L1'])
            conds = self.conditions()
            f1 = f2 = res = ''
            h = ''
            tells = [self.general(0.2) for _ in range(3)]
            length = dec = ''
            if job is not None:
                res = job
                numeric = self.kinds[job][1] is not None
                op = rnd.choice(('ADD', 'SUB', 'MULT', 'DIV', 'Z-ADD',
                                 'Z-SUB')) if numeric else 'MOVE'
            else:
                choice = ['SETON', 'SETOF']
                if nums:
                    choice += ['ADD', 'SUB', 'MULT', 'DIV', 'Z-ADD', 'Z-SUB',
                               'COMP', 'ADD', 'COMP']
                if texts:
                    choice += ['MOVE', 'MOVE', 'COMPT']
                op = rnd.choice(choice)
                if op == 'MOVE':
                    res = rnd.choice(texts)
                elif op not in ('SETON', 'SETOF', 'COMP', 'COMPT'):
                    res = rnd.choice(nums)
            want2 = '-'
            if op in ('SETON', 'SETOF'):
                if not any(tells):
                    tells[rnd.randrange(3)] = '%02d' % rnd.randint(1, 99)
            elif op in ('MOVE', 'COMPT'):
                if op == 'MOVE':
                    tells = ['', '', '']
                else:
                    f1, op = rnd.choice(texts), 'COMP'
                if rnd.random() < 0.5:
                    f2 = "'" + self.text(8) + "'"
                    want2 = f2
                else:
                    f2 = rnd.choice(texts)
                    want2 = None
            else:
                while True:
                    if op in ('ADD', 'SUB', 'MULT', 'DIV', 'COMP'):
                        f1 = rnd.choice(nums)
                    else:
                        f1 = ''
                    if rnd.random() < 0.35:
                        f2, want2, d2 = self.literal()
                    else:
                        f2 = rnd.choice(nums)
                        want2, d2 = None, self.kinds[f2][1]
                    if op != 'DIV':
                        break
                    if self.kinds[res][1] + d2 - self.kinds[f1][1] <= 9:
                        break
                    op = rnd.choice(('DIV', 'MULT'))
                if op != 'COMP' and rnd.random() < 0.3:
                    h = 'H'
            if res and (job is not None or rnd.random() < 0.2):
                length, dec = self.kinds[res]
                length = self.number(length, 3)
                dec = '' if dec is None else dec
            n = self.card(C(op, f1, f2, res, length, dec, h, tells, level,
                            conds))
            if length:
                self.define(res)
            calcs.append((n, level, conds, op, f1, f2, want2, res, h, tells))
        # output
        nout = rnd.choice((0, 1, 1)) if size < 8 \
            else rnd.choice((0, 1, 1, 2, 3)) if size < 30 \
            else rnd.randint(1, size // 4)
        known = list(self.places)
        for _ in range(nout):
            if len(self.cards) >= self.most - 1:
                break
            kind, sp = rnd.choice('HDT'), rnd.choice(('', '1', '2', '3'))
            conds = self.conditions()
            card = self.free(OR(kind, sp, conds), 7, 14)
            n = self.card(card)
            lines.append('line,%d,%s,%s,%s' % (n, kind, sp or '1',
                                               self.dash(conds)))
            for _ in range(rnd.choice((0, 1, 2) if size < 8
                                      else (0, 1, 2, 3, 5))):
                if len(self.cards) >= self.most - 1:
                    break
                conds = self.conditions()
                if known and rnd.random() < 0.65:
                    name = rnd.choice(known)
                    length, dec = self.kinds[name]
                    edit = ''
                    width = length
                    if dec is not None and rnd.random() < 0.7:
                        edit = rnd.choice('1234JKLM')
                        width = image_width(length, dec, edit)
                    clear = rnd.choice(('', 'B'))
                    end = rnd.choice((width, 132, rnd.randint(width, 132)))
                    self.card(OF(self.number(end, 4), name, edit, clear,
                                 None, conds))
                    lines.append(('print', name, 'print,%s,%%d/%s/%s,%d' % (
                        self.dash(conds), edit or '-', clear or '-', end)))
                else:
                    t = self.text(24)
                    end = rnd.choice((len(t), 132, rnd.randint(len(t), 132)))
                    self.card(OF(self.number(end, 4), const=t, conds=conds))
                    lines.append("print,%s,'%s',%d" % (self.dash(conds), t,
                                                       end))
        if not self.cards:
            self.card(CM('O'))
        assert len(self.cards) <= 256
        # the listing
        place = {n: i for i, n in enumerate(self.places)}
        out = []
        for n in self.places:
            length, dec = self.kinds[n]
            out.append('field,%s,%s' % (n, 'a%d' % length if dec is None
                                        else 'n%d.%d' % (length, dec)))
        for t in types:
            out.append(t if isinstance(t, str) else t[2] % place[t[1]])
        for n, level, conds, op, f1, f2, want2, res, h, tells in calcs:
            out.append('calc,%d,%s,%s,%s,%s,%s,%s,%s,%s' % (
                n, level or '-', self.dash(conds), op,
                place[f1] if f1 else '-',
                place[f2] if want2 is None else want2,
                place[res] if res else '-', h or '-', self.dash(tells)))
        for t in lines:
            out.append(t if isinstance(t, str) else t[2] % place[t[1]])
        self.listing = out


def spoil(rnd, cards, changes):
    """One to three random bytes changed."""
    while True:
        new = [bytearray(c) for c in cards]
        for _ in range(changes):
            card = rnd.choice(new)
            if rnd.random() < 0.6:
                column = rnd.choice([i for i in range(80) if card[i] != 32])
            else:
                column = rnd.randrange(80)
            old = card[column]
            alike = rnd.random() < 0.5
            while card[column] == old or card[column] == 10:
                r = rnd.random()
                if alike and 48 <= old <= 57:
                    card[column] = rnd.randint(48, 57)
                elif alike and 65 <= old <= 90:
                    card[column] = rnd.randint(65, 90)
                elif r < 0.6:
                    card[column] = ord(rnd.choice(TYPICAL))
                elif r < 0.85:
                    card[column] = rnd.randint(32, 126)
                else:
                    card[column] = rnd.randrange(256)
        if all(c[:2] != b'/*' for c in new):
            return [bytes(c) for c in new]


def disturb(rnd, cards):
    """Cards swapped, left out, doubled, or a name exchanged."""
    cards = list(cards)
    what = rnd.choice('sldnn')
    i = rnd.randrange(len(cards))
    if what == 's' and len(cards) > 1:
        j = rnd.randrange(len(cards))
        cards[i], cards[j] = cards[j], cards[i]
    elif what == 'l' and len(cards) > 1:
        del cards[i]
    elif what == 'd':
        cards.insert(rnd.randint(0, len(cards)), cards[i])
    else:
        places = [(c, k) for c in range(len(cards)) for k in
                  {73: (53,), 67: (18, 33, 43), 79: (32,)}.get(
                      cards[c][5], ()) if 65 <= cards[c][k - 1] <= 90]
        if len(places) > 1:
            (c1, k1), (c2, k2) = rnd.sample(places, 2)
            cards[c1] = put(cards[c1], k1, cards[c2][k2 - 1:k2 + 5])
    return cards


def randoms(rnd):
    goods = []
    section('random: good')
    for n in range(1150):
        size = 60 if n % 90 == 7 else 120 if n % 250 == 13 \
            else 10 if n % 3 == 0 else 5
        plan = Plan(rnd, size)
        add(plan.cards, plan.listing)
        goods.append(plan.cards)
    section('random: bytes changed')
    for n in range(1050):
        cards = goods[rnd.randrange(len(goods))]
        if len(cards) > 10 and rnd.random() < (0.97 if len(cards) > 40
                                               else 0.7):
            continue
        add(spoil(rnd, cards, rnd.randint(1, 3)))
    section('random: cards disturbed')
    for n in range(360):
        cards = goods[rnd.randrange(len(goods))]
        if len(cards) > 12:
            continue
        add(disturb(rnd, cards))
    section('random: cut')
    for n in range(40):
        cards = goods[rnd.randrange(len(goods))]
        if len(cards) > 30:
            continue
        cut = rnd.randint(1, 80)
        add(cards, (1, 0, 0) if cut < 80 or len(cards) == 1 else None, cut)


SECTIONS = [examples, sizes, columns, free_columns, pairs_on_one_card,
            pairs_on_two_cards, one_card_several, order, comments, numbers,
            codes, indicators, names, literals, operations, div_limit,
            images, definitions, randoms]


# ------------------------------------------------------------------- writing

def write(rnd, cards, cut):
    """A deck in the input format; trailing blanks mostly left out."""
    out = []
    for c in cards:
        r = rnd.random()
        if r < 0.96:
            c = c.rstrip(b' ')
        elif r < 0.98:
            short = c.rstrip(b' ')
            c = c[:rnd.randint(len(short), 80)]
        out.append(c + b'\n')
    out.append(b'/*%d\n' % cut if cut else b'/*\n')
    return b''.join(out)


def main(args):
    for n, make in enumerate(SECTIONS):
        make(random.Random(SEED + n))
    rnd = random.Random(SEED - 1)
    text = b''.join(write(rnd, cards, cut) for _, cards, cut, _ in CASES)
    decks = deck_reader.split_decks(text)
    assert len(decks) == len(CASES)

    wrong = 0
    by_answer, by_section = collections.Counter(), collections.OrderedDict()
    claims = 0
    for n, (deck, (name, cards, cut, want)) in enumerate(zip(decks, CASES),
                                                         1):
        assert deck == b''.join(cards)[:max(0, 80 * len(cards) - cut)]
        got = deck_reader.answer(deck)
        head = got[0].decode('ascii')
        kind = 'ok' if head == 'ok' else head.split(',')[1]
        by_answer[kind] += 1
        by_section.setdefault(name, collections.Counter())[kind] += 1
        if want is None:
            continue
        claims += 1
        if want == OK:
            good = head == 'ok'
        elif isinstance(want, list):
            good = [x.decode('latin-1') for x in got] == ['ok'] + want
        else:
            good = head == 'deck,%d,%d,%d' % want
        if not good:
            wrong += 1
            if wrong <= 40:
                sys.stderr.write('deck %d (%s): wanted %r, got %r\n'
                                 % (n, name, want, got[:3]))
                for c in cards[-4:]:
                    sys.stderr.write('   |%s|\n' % c.decode('latin-1'))
    if wrong:
        sys.stderr.write('%d disagreements; nothing written\n' % wrong)
        return 1
    answers = deck_reader.answers(decks)
    with open(os.path.join(HERE, 'decks.in'), 'wb') as f:
        f.write(text)
    with open(os.path.join(HERE, 'decks.out'), 'wb') as f:
        f.write(answers)
    if '--stats' in args:
        print('%d decks, %d bytes in, %d bytes out; %d answers claimed '
              'beforehand' % (len(decks), len(text), len(answers), claims))
        for kind in sorted(by_answer):
            print('%8s %6d' % (kind, by_answer[kind]))
        for name, counts in by_section.items():
            print('%-34s %5d   %s' % (name, sum(counts.values()), '  '.join(
                '%s:%d' % (k, counts[k]) for k in sorted(counts))))
    return 0


if __name__ == '__main__':
    sys.exit(main(sys.argv[1:]))
