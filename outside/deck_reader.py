#!/usr/bin/env python3
"""deck_reader.py - an independent reader for decks of card RPG.

What it is
    A reader of report decks (I, C and O cards of 80 bytes), written from
    docs/deck.md, docs/refusals.md and docs/numbers.md alone.  It reads a file
    of decks and tells for each one either the one refusal that is told
    (number, card, column) or what the table holds after reading.

How to run it
    python3 deck_reader.py decks.in > decks.out
    python3 deck_reader.py < decks.in > decks.out
    To compare with the expected output of the generator make_decks.py:
    python3 deck_reader.py decks.in | cmp - decks.out
    Python 3 standard library only.

Input
    Decks one after another, one card a text line (byte 10 ends it), filled
    with blanks to 80 bytes.  A line `/*` or `/*N` (N 1-80) ends the deck; the
    last N bytes of the deck are cut off.

Output
    For each deck `#<n>`, then `deck,<number>,<card>,<column>` if it is
    refused, else `ok` and the lines field, type/input, calc, line/print.

From Python
    read_deck(bytes) -> Table, or raises Refused(number, card, column)
    answer(bytes)    -> the output lines of one deck, as a list of bytes
"""

import re
import sys

CARD = 80
MAX_CARDS = 256
MAX_FIELDS = 64
MAX_TYPES = 16
MAX_DIGITS = 9
MAX_TEXT = 32
MAX_END = 132

CUT, ORDER, PUNCH, UNKNOWN, DOUBLE, KIND, FULL = 1, 2, 3, 4, 5, 6, 7

ARITHMETIC = (b'ADD', b'SUB', b'MULT', b'DIV', b'Z-ADD', b'Z-SUB')
TAKES_FACTOR1 = (b'ADD', b'SUB', b'MULT', b'DIV', b'COMP')
TAKES_FACTOR2 = ARITHMETIC + (b'COMP', b'MOVE')
TAKES_RESULT = ARITHMETIC + (b'MOVE',)
SETTERS = (b'SETON', b'SETOF')
OPERATIONS = ARITHMETIC + (b'COMP', b'MOVE') + SETTERS

COMMA_CODES = b'12JK'
SIGN_CODES = b'JKLM'


class Refused(Exception):
    def __init__(self, number, card, column):
        Exception.__init__(self, number, card, column)
        self.number, self.card, self.column = number, card, column


# ---------------------------------------------------------------- the table

class Field:
    """numeric: digits = length, decimals 0-9; alphameric: decimals None."""

    def __init__(self, name, length, decimals):
        self.name, self.length, self.decimals = name, length, decimals

    @property
    def numeric(self):
        return self.decimals is not None

    def alike(self, other):
        return (self.length, self.decimals) == (other.length, other.decimals)


class Type:
    def __init__(self, indicator, codes):
        self.indicator, self.codes = indicator, codes
        self.inputs = []


class Input:
    def __init__(self, name, start, length, decimals, level, tells):
        self.name, self.start = name, start
        self.length, self.decimals = length, decimals
        self.level, self.tells = level, tells


class Number:
    """A numeric literal."""

    def __init__(self, count, digits, decimals):
        self.count, self.digits, self.decimals = count, digits, decimals
    numeric = True


class Text:
    """An alphameric literal or a constant."""

    def __init__(self, text):
        self.text = text
    numeric = False


class Calc:
    pass


class Line:
    def __init__(self, card, kind, spacing, conditions):
        self.card, self.kind = card, kind
        self.spacing, self.conditions = spacing, conditions
        self.prints = []


class Print:
    pass


class Table:
    def __init__(self):
        self.fields = []          # Field, in order of first definition
        self.place = {}           # name -> place in fields
        self.types = []
        self.calcs = []
        self.lines = []

    def field(self, name):
        return self.fields[self.place[name]]


# ------------------------------------------------------------ entries' forms

def is_blank(entry):
    return all(b == 32 for b in entry)


def is_printable(byte):
    return 32 <= byte <= 126


def digit(byte):
    return 48 <= byte <= 57


def letter(byte):
    return 65 <= byte <= 90


def name_of(entry):
    """The name in an entry (6 columns, or 10 of a factor), or None."""
    name = entry.rstrip(b' ')
    if not 1 <= len(name) <= 6 or not letter(name[0]):
        return None
    if not all(letter(b) or digit(b) for b in name):
        return None
    return name


def number_of(entry):
    """Blanks, then one or more digits up to the last column; or None."""
    digits = entry.lstrip(b' ')
    if not digits or not all(digit(b) for b in digits):
        return None
    return int(digits)


def number_in(entry, low, high):
    n = number_of(entry)
    return n if n is not None and low <= n <= high else None


def is_general(pair):
    return digit(pair[0]) and digit(pair[1]) and pair != b'00'


def is_indicator(pair):
    return (is_general(pair) or pair in (b'LR', b'1P')
            or (pair[0:1] == b'L' and digit(pair[1])))


def is_condition(entry):
    return entry[0:1] in (b' ', b'N') and is_indicator(entry[1:3])


def code_of(entry):
    """(position, negated, character), or None if it is no code."""
    position = number_in(entry[0:4], 1, 80)
    if position is None:
        return None
    if entry[4:5] not in (b' ', b'N') or entry[5:6] != b'C':
        return None
    if not is_printable(entry[6]):
        return None
    return position, entry[4:5] == b'N', entry[6:7]


def text_of(entry, most):
    """Text between apostrophes from the first column, 1 to most bytes."""
    if entry[0:1] != b"'":
        return None
    end = entry.find(b"'", 1)
    if end < 0:
        return None
    text = entry[1:end]
    if not 1 <= len(text) <= most or not all(is_printable(b) for b in text):
        return None
    if not is_blank(entry[end + 1:]):
        return None
    return Text(text)


def numeral_of(entry):
    """A numeric literal: optional minus, 1-9 digits, at most one point."""
    body = entry.rstrip(b' ')
    minus = body[0:1] == b'-'
    if minus:
        body = body[1:]
    if body.count(b'.') > 1:
        return None
    before, point, behind = body.partition(b'.')
    digits = before + behind
    if not 1 <= len(digits) <= 9 or not all(digit(b) for b in digits):
        return None
    count = int(digits)
    return Number(-count if minus else count, len(digits), len(behind))


# ------------------------------------------------------------------- a card

class Card:
    def __init__(self, number, data):
        self.number, self.data = number, data

    def cols(self, first, last=None):
        """Columns first to last, counted from 1."""
        return self.data[first - 1:last if last is not None else first]

    def filled(self, first, last=None):
        return not is_blank(self.cols(first, last))

    def refuse(self, number, column):
        raise Refused(number, self.number, column)

    def need(self, good, number, column):
        if not good:
            self.refuse(number, column)

    def printable(self, first, last):
        for column in range(first, last + 1):
            self.need(is_printable(self.data[column - 1]), PUNCH, column)

    def blank(self, first, last):
        for column in range(first, last + 1):
            self.need(self.data[column - 1] == 32, PUNCH, column)

    def conditions(self, *columns):
        got = []
        for column in columns:
            entry = self.cols(column, column + 2)
            if is_blank(entry):
                got.append(None)
            else:
                self.need(is_condition(entry), PUNCH, column)
                got.append(entry.lstrip(b' '))
        return got

    def comment(self):
        return self.cols(7) == b'*'


# -------------------------------------------------------------- the reading

class Reader:
    def __init__(self):
        self.table = Table()
        self.c_seen = self.total_seen = self.o_seen = False
        self.levels = {}                 # level -> (length, numeric)
        self.second = []                 # checks of the second sweep, by card

    def read(self, data):
        if not data or len(data) % CARD or len(data) > MAX_CARDS * CARD:
            raise Refused(CUT, 0, 0)
        for at in range(0, len(data), CARD):
            card = Card(at // CARD + 1, data[at:at + CARD])
            if not card.comment():
                self.first_sweep(card)
        for check, card, entry in self.second:
            check(card, entry)
        return self.table

    def first_sweep(self, card):
        form = card.cols(6)
        card.printable(1, 5)
        if form == b'I':
            if card.filled(19, 20):
                self.i_record(card)
            else:
                self.i_field(card)
        elif form == b'C':
            self.c_card(card)
        elif form == b'O':
            if card.filled(15):
                self.o_record(card)
            else:
                self.o_field(card)
        else:
            card.refuse(ORDER, 6)

    # -- field table

    def ask_room(self, card, name):
        card.need(name in self.table.place
                  or len(self.table.fields) < MAX_FIELDS, FULL, 0)

    def ask_alike(self, card, field, column):
        if field.name in self.table.place:
            card.need(self.table.field(field.name).alike(field),
                      DOUBLE, column)

    def define(self, field):
        if field.name not in self.table.place:
            self.table.place[field.name] = len(self.table.fields)
            self.table.fields.append(field)

    # -- I cards

    def i_record(self, card):
        card.need(not self.c_seen and not self.o_seen, ORDER, 6)
        card.printable(7, 16)
        card.blank(17, 18)
        indicator = card.cols(19, 20)
        card.need(is_general(indicator), PUNCH, 19)
        codes = []
        for column in (21, 28, 35):
            entry = card.cols(column, column + 6)
            code = None
            if not is_blank(entry):
                code = code_of(entry)
                card.need(code is not None, PUNCH, column)
            codes.append(code)
        card.blank(42, 74)
        card.printable(75, 80)
        card.need(len(self.table.types) < MAX_TYPES, FULL, 0)
        card.need(all(t.indicator != indicator for t in self.table.types),
                  DOUBLE, 19)
        self.table.types.append(Type(indicator, codes))

    def i_field(self, card):
        card.need(not self.c_seen and not self.o_seen
                  and bool(self.table.types), ORDER, 6)
        card.blank(7, 43)
        start = number_in(card.cols(44, 47), 1, 80)
        card.need(start is not None, PUNCH, 44)
        numeric = card.filled(52)
        to = number_in(card.cols(48, 51), 1, 80)
        card.need(to is not None and to >= start, PUNCH, 48)
        length = to - start + 1
        card.need(length <= (MAX_DIGITS if numeric else MAX_TEXT), PUNCH, 48)
        decimals = None
        if numeric:
            decimals = number_in(card.cols(52), 0, length)
            card.need(decimals is not None, PUNCH, 52)
        name = name_of(card.cols(53, 58))
        card.need(name is not None, PUNCH, 53)
        level = None
        if card.filled(59, 60):
            level = card.cols(59, 60)
            card.need(level[0:1] == b'L' and digit(level[1])
                      and level != b'L0', PUNCH, 59)
        card.blank(61, 64)
        tells = []
        for column in (65, 67, 69):
            pair = card.cols(column, column + 1)
            if is_blank(pair):
                tells.append(None)
            else:
                card.need((numeric or column == 69) and is_general(pair),
                          PUNCH, column)
                tells.append(pair)
        card.blank(71, 74)
        card.printable(75, 80)
        self.ask_room(card, name)
        field = Field(name, length, decimals)
        self.ask_alike(card, field, 53)
        this = self.table.types[-1]
        card.need(all(i.name != name for i in this.inputs), DOUBLE, 53)
        if level is not None:
            card.need(all(i.level != level for i in this.inputs), DOUBLE, 59)
            card.need(self.levels.setdefault(level, (length, numeric))
                      == (length, numeric), DOUBLE, 59)
        self.define(field)
        this.inputs.append(Input(name, start, length, decimals, level, tells))

    # -- C cards

    def c_card(self, card):
        total = card.filled(7, 8)
        card.need(not self.o_seen and (total or not self.total_seen),
                  ORDER, 6)
        self.c_seen = True
        calc = Calc()
        calc.card = card.number
        calc.level = None
        if total:
            self.total_seen = True
            calc.level = card.cols(7, 8)
            card.need(calc.level == b'LR' or (calc.level[0:1] == b'L'
                                              and digit(calc.level[1])),
                      PUNCH, 7)
        calc.conditions = card.conditions(9, 12, 15)

        operation = card.cols(28, 32).rstrip(b' ')
        known = operation in OPERATIONS
        calc.operation = operation
        calc.factor1 = None
        if card.filled(18, 27):
            calc.factor1 = name_of(card.cols(18, 27))
            card.need(calc.factor1 is not None, PUNCH, 18)
        if known:
            card.need((calc.factor1 is not None)
                      == (operation in TAKES_FACTOR1), PUNCH, 18)
        card.need(known, PUNCH, 28)

        calc.factor2 = None              # None, a name (bytes), Number, Text
        entry = card.cols(33, 42)
        if operation in TAKES_FACTOR2:
            calc.factor2 = (name_of(entry) or numeral_of(entry)
                            or text_of(entry, 8))
            card.need(calc.factor2 is not None, PUNCH, 33)
        else:
            card.need(is_blank(entry), PUNCH, 33)

        calc.result = None
        takes_result = operation in TAKES_RESULT
        if takes_result:
            calc.result = name_of(card.cols(43, 48))
            card.need(calc.result is not None, PUNCH, 43)
        else:
            card.need(not card.filled(43, 48), PUNCH, 43)

        numeric = card.filled(52)
        length = None
        if card.filled(49, 51):
            card.need(takes_result, PUNCH, 49)
            length = number_in(card.cols(49, 51), 1,
                               MAX_DIGITS if numeric else MAX_TEXT)
            card.need(length is not None, PUNCH, 49)
        decimals = None
        if numeric:
            card.need(length is not None, PUNCH, 52)
            decimals = number_in(card.cols(52), 0, length)
            card.need(decimals is not None, PUNCH, 52)

        calc.half = card.filled(53)
        if calc.half:
            card.need(card.cols(53) == b'H' and operation in ARITHMETIC,
                      PUNCH, 53)

        calc.tells = []
        for column in (54, 56, 58):
            pair = card.cols(column, column + 1)
            if is_blank(pair):
                calc.tells.append(None)
            else:
                card.need(is_general(pair) and operation != b'MOVE',
                          PUNCH, column)
                calc.tells.append(pair)
            if column == 54 and operation in SETTERS:
                card.need(card.filled(54, 59), PUNCH, 54)
        card.blank(60, 74)
        card.printable(75, 80)
        if length is not None:
            field = Field(calc.result, length, decimals)
            self.ask_room(card, calc.result)
            self.ask_alike(card, field, 43)
            self.define(field)
        self.table.calcs.append(calc)
        self.second.append((self.c_second, card, calc))

    def c_second(self, card, calc):
        table, operation = self.table, calc.operation
        if calc.factor1 is not None:
            card.need(calc.factor1 in table.place, UNKNOWN, 18)
        if isinstance(calc.factor2, bytes):
            card.need(calc.factor2 in table.place, UNKNOWN, 33)
        if calc.result is not None:
            card.need(calc.result in table.place, UNKNOWN, 43)

        factor1 = factor2 = result = None
        if calc.factor1 is not None:
            factor1 = table.field(calc.factor1)
        if isinstance(calc.factor2, bytes):
            factor2 = table.field(calc.factor2)
        else:
            factor2 = calc.factor2
        if calc.result is not None:
            result = table.field(calc.result)

        if operation in ARITHMETIC:
            if factor1 is not None:
                card.need(factor1.numeric, KIND, 18)
            if (operation == b'DIV' and factor1.numeric and factor2.numeric
                    and result.numeric):
                card.need(result.decimals + factor2.decimals
                          - factor1.decimals <= 9, KIND, 28)
            card.need(factor2.numeric, KIND, 33)
            card.need(result.numeric, KIND, 43)
        elif operation == b'MOVE':
            card.need(not factor2.numeric, KIND, 33)
            card.need(not result.numeric, KIND, 43)
        elif operation == b'COMP':
            card.need(factor2.numeric == factor1.numeric, KIND, 33)

    # -- O cards

    def o_record(self, card):
        self.o_seen = True
        card.printable(7, 14)
        kind = card.cols(15)
        card.need(kind in (b'H', b'D', b'T'), PUNCH, 15)
        card.blank(16, 17)
        card.need(card.cols(18) in (b' ', b'1', b'2', b'3'), PUNCH, 18)
        spacing = int(card.cols(18)) if card.filled(18) else 1
        card.blank(19, 22)
        conditions = card.conditions(23, 26, 29)
        card.blank(32, 74)
        card.printable(75, 80)
        self.table.lines.append(Line(card.number, kind, spacing, conditions))

    def o_field(self, card):
        card.need(bool(self.table.lines), ORDER, 6)
        card.blank(7, 22)
        out = Print()
        out.conditions = card.conditions(23, 26, 29)
        named = card.filled(32, 37)
        out.name = None
        if named:
            out.name = name_of(card.cols(32, 37))
            card.need(out.name is not None, PUNCH, 32)
        out.edit = None
        if card.filled(38):
            out.edit = card.cols(38)
            card.need(out.edit in (b'1', b'2', b'3', b'4',
                                   b'J', b'K', b'L', b'M'), PUNCH, 38)
        out.clear = card.filled(39)
        if out.clear:
            card.need(card.cols(39) == b'B' and named, PUNCH, 39)
        out.end = number_in(card.cols(40, 43), 1, MAX_END)
        card.need(out.end is not None, PUNCH, 40)
        card.blank(44, 44)
        out.constant = None
        entry = card.cols(45, 70)
        if named:
            card.need(is_blank(entry), PUNCH, 45)
        else:
            out.constant = text_of(entry, 24)
            card.need(out.constant is not None, PUNCH, 45)
        card.blank(71, 74)
        card.printable(75, 80)
        self.table.lines[-1].prints.append(out)
        self.second.append((self.o_second, card, out))

    def o_second(self, card, out):
        field = None
        if out.name is not None:
            card.need(out.name in self.table.place, UNKNOWN, 32)
            field = self.table.field(out.name)
        if out.edit is not None:
            card.need(field is not None and field.numeric, KIND, 38)
        if field is None:
            width = len(out.constant.text)
        elif out.edit is None:
            width = field.length
        else:
            width = edited_width(field.length, field.decimals, out.edit)
        card.need(width <= out.end, KIND, 40)


def edited_width(digits, decimals, code):
    width = digits
    if decimals > 0:
        width += 1
    if code in COMMA_CODES and digits > decimals:
        width += (digits - decimals - 1) // 3
    if code in SIGN_CODES:
        width += 1
    return width


def read_deck(data):
    return Reader().read(bytes(data))


# --------------------------------------------------------------- the output

def tell(table):
    """What the table holds, one line (bytes) each."""
    lines = []

    def put(*parts):
        lines.append(b','.join(p if isinstance(p, bytes)
                               else b'-' if p is None
                               else b'%d' % p for p in parts))

    for f in table.fields:
        put(b'field', f.name, b'n%d.%d' % (f.length, f.decimals)
            if f.numeric else b'a%d' % f.length)

    for t in table.types:
        put(b'type', t.indicator,
            *[None if c is None
              else b'%d%s%s' % (c[0], b'NC' if c[1] else b'C', c[2])
              for c in t.codes])
        for i in t.inputs:
            put(b'input', table.place[i.name], i.start, i.level, *i.tells)

    for c in table.calcs:
        factor2 = c.factor2
        if isinstance(factor2, bytes):
            factor2 = table.place[factor2]
        elif isinstance(factor2, Number):
            factor2 = b'=%d/%d/%d' % (factor2.count, factor2.digits,
                                      factor2.decimals)
        elif isinstance(factor2, Text):
            factor2 = b"'" + factor2.text + b"'"
        put(b'calc', c.card, c.level, *c.conditions, c.operation,
            None if c.factor1 is None else table.place[c.factor1],
            factor2,
            None if c.result is None else table.place[c.result],
            b'H' if c.half else None, *c.tells)

    for o in table.lines:
        put(b'line', o.card, o.kind, o.spacing, *o.conditions)
        for p in o.prints:
            if p.name is not None:
                what = b'%d/%s/%s' % (table.place[p.name], p.edit or b'-',
                                      b'B' if p.clear else b'-')
            else:
                what = b"'" + p.constant.text + b"'"
            put(b'print', *p.conditions, what, p.end)
    return lines


def answer(data):
    try:
        return [b'ok'] + tell(read_deck(data))
    except Refused as no:
        return [b'deck,%d,%d,%d' % (no.number, no.card, no.column)]


def split_decks(text):
    """The decks (their bytes) of a file in the input format."""
    lines = text.split(b'\n')
    if lines[-1] == b'':
        lines.pop()
    decks, cards = [], []
    for at, line in enumerate(lines, 1):
        if line[0:2] == b'/*':
            ending = re.fullmatch(rb'/\*([0-9]+)?', line)
            if not ending or not (ending[1] is None
                                  or 1 <= int(ending[1]) <= 80):
                raise ValueError('line %d: not the end of a deck' % at)
            data = b''.join(cards)
            if ending[1] is not None:
                data = data[:max(0, len(data) - int(ending[1]))]
            decks.append(data)
            cards = []
        else:
            if len(line) > CARD:
                raise ValueError('line %d: more than 80 bytes' % at)
            cards.append(line.ljust(CARD, b' '))
    if cards:
        raise ValueError('the last deck has no /* line')
    return decks


def answers(decks):
    out = []
    for n, data in enumerate(decks, 1):
        out.append(b'#%d' % n)
        out.extend(answer(data))
    return b''.join(line + b'\n' for line in out)


def main(args):
    if len(args) > 1:
        sys.stderr.write(__doc__)
        return 2
    if args:
        with open(args[0], 'rb') as f:
            text = f.read()
    else:
        text = sys.stdin.buffer.read()
    try:
        decks = split_decks(text)
    except ValueError as wrong:
        sys.stderr.write('deck_reader: %s\n' % wrong)
        return 2
    sys.stdout.buffer.write(answers(decks))
    sys.stdout.buffer.flush()
    return 0


if __name__ == '__main__':
    sys.exit(main(sys.argv[1:]))
