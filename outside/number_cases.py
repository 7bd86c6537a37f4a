#!/usr/bin/env python3
"""What the program `number_cases` must write, worked out from the rules of numeric fields alone.

Run it as

    python3 outside/number_cases.py > crates/number_cases/stdout

It shares no code with the crates `numbers` and `images`: values are Python's fractions, images are built from texts.
"""
from fractions import Fraction

# count, digits, decimals
AMOUNTS = [
    (0, 1, 0), (1, 1, 0), (-1, 1, 0), (8, 2, 0), (5, 2, 1), (-15, 3, 1), (150, 5, 2), (99999, 5, 2), (1, 3, 2),
    (-3, 4, 3), (999999999, 9, 0), (-999999999, 9, 0), (999999999, 9, 9), (-123456789, 9, 4),
]
# digits, decimals
PICTURES = [(1, 0), (5, 2), (9, 0), (9, 9), (9, 4), (3, 3)]
# columns, digits
FIELDS = [
    ("", 1), ("1", 2), ("12", 1), ("5", 1), ("}", 1), ("R", 1), ("999999999", 9), ("99999999R", 9), ("99999999I", 9),
    ("        }", 9), ("000000{", 7), ("0012}", 5), ("   12", 5), ("1 2 3", 5), ("12-", 3), ("1.2", 3), ("A12", 3),
    ("1}2", 3), ("     ", 5), ("-5", 2), ("0S", 2), ("0@", 2), ("0I", 2), ("0J", 2),
]
CODES = "1234JKLM"
ENDS = [0, 1, 9, 10, 11, 131, 132, 133, 255]


def column_digit(byte):
    if byte == 32:
        return 0
    if 48 <= byte <= 57:
        return byte - 48
    return None


def last_column(byte):
    """The sign and the digit of a last column."""
    char = chr(byte)
    if column_digit(byte) is not None:
        return 1, column_digit(byte)
    for sign, chars in ((1, "{ABCDEFGHI"), (-1, "}JKLMNOPQR")):
        if char in chars:
            return sign, chars.index(char)
    return None


def read(columns, first, digits):
    if len(columns) != digits:
        return "width"
    text = ""
    for place, byte in enumerate(columns[:-1]):
        digit = column_digit(byte)
        if digit is None:
            return "column %d" % (first + place)
        text += str(digit)
    last = last_column(columns[-1])
    if last is None:
        return "column %d" % (first + digits - 1)
    return str(last[0] * int(text + str(last[1])))


def value(amount):
    return Fraction(amount[0], 10 ** amount[1 + 1])


def settle(exact, picture, half_adjust):
    digits, decimals = picture
    units = abs(exact) * 10 ** decimals
    size = units.numerator // units.denominator
    if half_adjust and units - size >= Fraction(1, 2):
        size += 1
    if len(str(size)) > digits:
        return "stop24"
    return str(-size if exact < 0 else size)


def divide(a, b, picture, half_adjust):
    if picture[1] + b[2] - a[2] > 9:
        return "scale"
    if b[0] == 0:
        return "stop25"
    return settle(value(a) / value(b), picture, half_adjust)


def unedited(count, digits):
    text = str(abs(count)).zfill(digits)
    return text[:-1] + "}JKLMNOPQR"[int(text[-1])] if count < 0 else text


def edited(code, count, digits, decimals):
    plain = CODES[CODES.index(code) % 4]
    text = str(abs(count)).zfill(digits)
    whole, fraction = text[: digits - decimals], text[digits - decimals:]
    if plain in "12":
        groups = []
        while len(whole) > 3:
            groups.insert(0, whole[-3:])
            whole = whole[:-3]
        whole = ",".join([whole] + groups)
    text = whole + ("." + fraction if decimals else "")
    kept = text.lstrip("0,")
    if not kept:
        kept = text[-1]
    text = kept.rjust(len(text))
    if code in "JKLM":
        text += "-" if count < 0 else " "
    if plain in "24" and count == 0:
        text = " " * len(text)
    return text


def reading_lines():
    for byte in range(256):
        yield "last %d %s" % (byte, read(bytes([49, 50, byte]), 70, 3))
        yield "front %d %s" % (byte, read(bytes([49, byte, 51]), 255, 3))
    for number, (columns, digits) in enumerate(FIELDS):
        yield "read %d %s" % (number, read(columns.encode(), 4, digits))


def arithmetic_lines():
    for i, a in enumerate(AMOUNTS):
        for j, b in enumerate(AMOUNTS):
            order = "<" if value(a) < value(b) else ">" if value(a) > value(b) else "="
            yield "compare %d %d %s" % (i, j, order)
            for k, picture in enumerate(PICTURES):
                for half in (False, True):
                    results = [settle(exact, picture, half) for exact in (value(a) + value(b), value(a) - value(b), value(a) * value(b))]
                    results.append(divide(a, b, picture, half))
                    yield "%d %d %d %s %s" % (i, j, k, "half" if half else "cut", " ".join(results))
        zeros = [settle(sign * value(a), (5, 2), False) for sign in (1, -1)]
        yield "zero %d %s" % (i, " ".join(zeros))


def image_lines():
    for byte in range(256):
        char = chr(byte)
        if char in CODES:
            plain = CODES.index(char) % 4
            yield "code %d %d %d %d" % (byte, plain < 2, plain % 2, char in "JKLM")
    for digits in range(1, 10):
        widest = 10 ** digits - 1
        for decimals in (0, digits // 2, digits):
            widths = [digits] + [len(edited(code, widest, digits, decimals)) for code in CODES]
            yield "width %d %d %s" % (digits, decimals, " ".join(map(str, widths)))
            for count in (0, 1, -1, widest, -widest, widest // 7, -(widest // 7)):
                images = [unedited(count, digits)] + [edited(code, count, digits, decimals) for code in CODES]
                yield "image %d %d %d |%s|" % (digits, decimals, count, "|".join(images))


def lay_lines():
    image = edited("K", -123450, 7, 2)
    for end in ENDS:
        line = "." * 132
        if end < 1 or end > 132:
            answer = "end"
        elif end < len(image):
            answer = "start"
        else:
            answer = "laid"
            line = line[: end - len(image)] + image + line[end:]
        yield "lay %d %s %s" % (end, answer, line)


def picture_lines():
    for digits in range(12):
        for decimals in range(12):
            if 1 <= digits <= 9 and decimals <= digits:
                fit = [str(count) for count in (10 ** digits - 1, 10 ** digits, -10 ** digits) if len(str(abs(count))) <= digits]
                yield "picture %d %d %s" % (digits, decimals, " ".join(fit))


for section in (picture_lines, reading_lines, arithmetic_lines, image_lines, lay_lines):
    for line in section():
        print(line)
