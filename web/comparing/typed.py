"""web/comparing/typed.py [--count N] [--seed S]: numbers as somebody types them, and what the sheet and a door should have of them, by exact fractions.

Written from README's table ("A sheet"), RULES 6.2 and 6.4 and these rules of a field, and from nothing else: a number is digits 0 to 9, with at most one
decimal point or comma that has a digit on either side, and a minus in front (-, U+2212 or U+2013) where it is below 0; spaces, tabs and no-break spaces
about it are dropped; nothing at all, or a minus alone, is a blank. The sheet has it where it is a whole number there of at most ten digits, and a
cylinder's number, which is written as it is, where it has no separator. All else is a slip. A door has the double nearest to the exact number.
A line of JSON for each, for typed.mjs:

    {"case": .., "typed": .., "places": .., "more": .., "over": .., "whole": a text, null for a blank or "slip", "kind": of that slip, where it has
     one alone, "double": 16 hexadecimal digits, null or "slip", "separator": .., "scale": its name}"""
import argparse
import json
import random
import struct
from fractions import Fraction

# README's table: typed times 10^places plus more; over: what RULES 6.4 divides by for a door, as a power of ten
SCALES = {
    'need': (6, 0, None), 'number': (0, 0, None), 'celsius': (4, 2731500, 4), 'bar': (5, 0, 0), 'gauge': (5, 101300, 0),
    'density': (3, 0, 3), 'weighed': (3, 0, None), 'litres': (3, 0, None),
}
MOST = 9999999999
DIGITS = '0123456789'
ABOUT = ' \t\u00a0\u202f'
MINUS = '-\u2212\u2013'


class Slip(Exception):
    pass


def value(typed):
    """What was typed, exactly; None for a blank"""
    text = typed.strip(ABOUT)
    below = text[:1] != '' and text[0] in MINUS
    if below:
        text = text[1:]
    if text == '':
        return None
    marks = [place for place, sign in enumerate(text) if sign in '.,']
    if any(sign not in DIGITS + '.,' for sign in text) or len(marks) > 1 or marks and marks[0] in (0, len(text) - 1):
        raise Slip
    decimals = len(text) - 1 - marks[0] if marks else 0
    exact = Fraction(int(text.replace('.', '').replace(',', '')), 10 ** decimals)
    return -exact if below else exact


def on_sheet(typed, places, more):
    exact = value(typed)
    if exact is None:
        return None
    number = exact * 10 ** places + more
    if places == 0 and set(typed) & set('.,'):  # a cylinder's number has no separator
        raise Slip
    if number.denominator != 1 or not 0 <= number <= MOST:
        raise Slip
    return str(number.numerator)


def at_door(typed, places, more, over):
    exact = value(typed)
    if exact is None:
        return None
    try:
        number = float((exact * 10 ** places + more) / 10 ** over)
    except OverflowError:
        raise Slip from None
    return struct.pack('>d', number).hex()


def or_slip(work, *words):
    try:
        return work(*words)
    except Slip:
        return 'slip'


# ---- what is typed

def decimal(exact, mark):
    """The finite decimal of a fraction"""
    digits, denominator = 0, exact.denominator
    while denominator % 10 == 0 or denominator % 5 == 0 or denominator % 2 == 0:
        denominator //= 10 if denominator % 10 == 0 else 5 if denominator % 5 == 0 else 2
        digits += 1
    number = abs(exact) * 10 ** digits
    assert denominator == 1 and number.denominator == 1
    text = str(number.numerator).rjust(digits + 1, '0')
    front, behind = text[:len(text) - digits], text[len(text) - digits:].rstrip('0')
    return ('-' if exact < 0 else '') + front + (mark + behind if behind else '')


UNITS = [*"°%²½'_:;()*/OlhCKL", '\u2014', '\u066b', '\u200b', '\u00b7', '°C', 'bar', 'kg', 'kg/m³']
WORDS = ['NaN', 'nan', 'Infinity', '-Infinity', 'inf', '0x10', 'null', 'undefined', 'none', '12h', '1/2', 'true']


class Typist:
    def __init__(self, seed):
        self.r = random.Random(seed)

    def mark(self):
        return self.r.choice('.,')

    def digits(self, least, most):
        return ''.join(self.r.choice(DIGITS) for _ in range(self.r.randint(least, most)))

    def front(self, most=5):
        return str(self.r.randrange(10 ** self.r.randint(1, most)))

    def plain(self, places, more):
        """A number that the sheet has"""
        room = max(1, min(5, 10 - places))
        text = self.front(room) + (self.mark() + self.digits(1, places) if places and self.r.random() < 0.8 else '')
        return self.r.choice(MINUS) + text if more and self.r.random() < 0.2 else text

    def zeros(self, places, more):
        return '0' * self.r.randint(0, 30) + self.front(3) + self.mark() + self.digits(places, places) + '0' * self.r.randint(1, 30)

    def of_sheet(self, number, places, more):
        text = decimal(Fraction(number - more, 10 ** places), self.mark())
        return text.replace('-', self.r.choice(MINUS))

    def any_of_sheet(self, places, more):
        return self.of_sheet(self.r.randrange(10 ** self.r.randint(1, 10)), places, more)

    def at_an_end(self, places, more):
        return self.of_sheet(self.r.choice([0, MOST]) + self.r.randint(-3, 3), places, more)

    def past_an_end(self, places, more):
        step = Fraction(self.r.choice([-1, 1]), 10 ** self.r.randint(1, 25))
        return self.of_sheet(self.r.choice([0, MOST]) + step, places, more)

    def far_over(self, places, more):
        return self.r.choice('123456789') + self.digits(11, 40) + (self.mark() + self.digits(1, 5) if self.r.random() < 0.5 else '')

    def of_400_digits(self, places, more):
        return self.r.choice('123456789') + self.digits(300, 400)

    def a_decimal_more(self, places, more):
        return self.front(4) + self.mark() + self.digits(places, places) + '0' * self.r.randint(0, 9) + self.r.choice('123456789') + self.digits(0, 12)

    def below(self, places, more):
        return self.r.choice(MINUS) + str(more // 10 ** places + self.r.randint(1, 10 ** self.r.randint(1, 6)))

    def about(self, places, more):
        ends = [''.join(self.r.choice(ABOUT) for _ in range(self.r.randint(0, 3))) for _ in range(2)]
        return ends[0] + self.plain(places, more) + ends[1]

    def blank(self, places, more):
        ends = [''.join(self.r.choice(ABOUT) for _ in range(self.r.randint(0, 3))) for _ in range(2)]
        return ends[0] + self.r.choice(['', *MINUS]) + ends[1]

    def minus_zero(self, places, more):
        return self.r.choice(MINUS) + '0' * self.r.randint(1, 3) + (self.mark() + '0' * self.r.randint(1, 6) if self.r.random() < 0.5 else '')

    def halfway(self, places, more):
        """Exactly between two doubles at a door, or a hair beside it"""
        low = self.r.choice([0.0001, 1.0, 216.592, 1e4, 1e6]) * (1 + self.r.random() * 3)
        bits = struct.unpack('>q', struct.pack('>d', low))[0]
        high = struct.unpack('>d', struct.pack('>q', bits + 1))[0]
        middle = (Fraction(low) + Fraction(high)) / 2 + self.r.choice([0, 0, 1, -1]) * Fraction(1, 10 ** self.r.randint(60, 90))
        over = {2731500: 4}.get(more, 3 if places == 3 else 0)
        return decimal((middle * 10 ** over - more) / 10 ** places, self.mark())

    def long_decimals(self, places, more):
        return self.front(5) + self.mark() + self.digits(15, 60)

    def thousands(self, places, more):
        front = self.r.choice(['', '', '', *MINUS] if more else ['']) + str(self.r.randrange(10 ** self.r.randint(1, 4)))
        return self.r.choice(['', '', ' ']) + front + self.mark() + self.digits(2, 4)[:self.r.choice([3, 3, 3, 4])] + self.r.choice(['', '', '\u00a0'])

    # one slip each, by its kind
    def exponent(self, places, more):
        return self.plain(places, 0) + self.r.choice('eE') + self.r.choice(['', '-', '+']) + self.digits(1, 3)

    def plus(self, places, more):
        return '+' + self.plain(places, 0)

    def sign(self, places, more):
        unit = self.r.choice(UNITS)
        text = self.plain(places, 0)
        at = self.r.randint(1, len(text))
        return self.r.choice([text + unit, text[:at] + unit + text[at:], text + ' ' + unit, self.r.choice(WORDS)])

    def space(self, places, more):
        return self.front(3) + self.r.choice([' ', '\t', '\u00a0', '\u202f', '\u2009', '\n', '\r\n', '\u3000', '\u2028']) + self.front(3)

    def alphabet(self, places, more):
        text, zero = self.front(4), self.r.choice('٠۰०০๐０᠐')
        foreign = ''.join(chr(ord(zero) + int(digit)) for digit in text)
        return self.r.choice([foreign, text + foreign[0], foreign + self.mark() + text])

    def minus(self, places, more):
        text = self.plain(places, 0)
        at = self.r.randint(1, len(text))
        return self.r.choice([text[:at] + '-' + text[at:], '--' + text, '\u2212-' + text])

    def mixed(self, places, more):
        first = self.mark()
        return self.front(3) + first + self.digits(3, 3) + {'.': ',', ',': '.'}[first] + self.digits(1, 3)

    def separators(self, places, more):
        mark = self.mark()
        return self.front(3) + mark + self.digits(1, 3) + mark + self.digits(0, 3)

    def bare(self, places, more):
        mark, digits = self.mark(), self.digits(1, 4)
        return self.r.choice([mark + digits, digits + mark, '-' + mark + digits, mark, '-' + mark])

    def any_signs(self, places, more):
        return ''.join(self.r.choice('0011223456789..,,--+eE \u2212\u2013\u00a0xK°٣') for _ in range(self.r.randint(1, 8)))

    def few_signs(self, places, more):
        return ''.join(self.r.choice('019.,-') for _ in range(self.r.randint(1, 6)))


NUMBERS = ['plain', 'zeros', 'any_of_sheet', 'at_an_end', 'past_an_end', 'far_over', 'of_400_digits', 'a_decimal_more', 'below', 'about', 'blank', 'minus_zero',
           'halfway', 'long_decimals', 'thousands', 'any_signs', 'few_signs']
SLIPS = ['exponent', 'plus', 'sign', 'space', 'alphabet', 'minus', 'mixed', 'separators', 'bare']
OFTEN = {'plain': 6, 'any_of_sheet': 6, 'at_an_end': 2, 'halfway': 3, 'any_signs': 3, 'few_signs': 4}


def main():
    words = argparse.ArgumentParser()
    words.add_argument('--count', type=int, default=200000)
    words.add_argument('--seed', type=int, default=1)
    asked = words.parse_args()
    typist = Typist(asked.seed)
    cases = [case for case in NUMBERS + SLIPS for _ in range(OFTEN.get(case, 1))]
    for _ in range(asked.count):
        case, scale = typist.r.choice(cases), typist.r.choice(list(SCALES))
        places, more, over = SCALES[scale]
        typed = getattr(typist, case)(places, more)
        marks = set(typed) & set('.,')
        print(json.dumps({
            'case': case, 'scale': scale, 'typed': typed, 'places': places, 'more': more, 'over': over, 'whole': or_slip(on_sheet, typed, places, more),
            'kind': case if case in SLIPS else None, 'double': None if over is None else or_slip(at_door, typed, places, more, over),
            'separator': marks.pop() if len(marks) == 1 else '',
        }))


if __name__ == '__main__':
    main()
