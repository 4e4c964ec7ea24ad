"""web/comparing/sheets.py FOLDER [--sheets N] [--forms N] [--seed S]: sheets, good and damaged, and what the program writes of each; and forms as they are
typed, and the text that each should give. For sheets.mjs:

    FOLDER/sheets.json  a line for each sheet: {"case": .., "text": its bytes in base64, "wrote": what crates/scorer/out/scorer --explain wrote, its report too}
    FOLDER/forms.json   a line for each form: {"form": {"need": .., "rows": [..]}, "text": the sheet's text, or null where it has none, "marks": the fields
                        that are marked, each [row, field], "notes": those that are noted, each [row, field, words, whether thousands may be meant]}

A form's text is worked here from README's table by typed.py. It has none where a field is a slip, where a reading doesn't say what was read, or where a
decimal comma stands in one field and a point in another (RULES 15.1)."""
import argparse
import base64
import json
import math
import os
import random
import re
import subprocess
import sys
import tempfile

sys.dont_write_bytecode = True
import typed  # noqa: E402, beside this file

PROGRAM = 'crates/scorer/out/scorer'
CRITICAL, TRIPLE, HOTTEST = 3041282, 2165920, 5230000  # 0.1 mK
AT_ONCE = 100


def vapour_pressure(temperature):
    """In Pa, by 004's equation in plain floats: near enough to stand at the ends of 14.4's 2 bar"""
    t = temperature / 10000
    x = 1 - t / 304.1282
    return 7377300 * math.exp(304.1282 / t * (-7.0602087 * x + 1.9391218 * x ** 1.5 - 1.6463597 * x ** 2 - 3.2995634 * x ** 4))


class Sheets:
    def __init__(self, seed):
        self.r = random.Random(seed)

    def near(self, *ends):
        return max(0, round(self.r.choice(ends)) + self.r.choice([-2, -1, 0, 0, 1, 2]))

    def number(self):
        return self.r.choice([self.r.randrange(60), self.r.randrange(10 ** 10), self.r.randrange(1000)])

    def volume(self):
        return self.r.choice([67500, 40000, self.r.randint(1, 1000000), self.r.randint(1, 1000000), self.near(1, 1000000)])

    def warm(self):
        return self.r.randint(CRITICAL + 30000, 3400000), self.r.choice(['P', 'D'])

    def line(self, number, temperature, letter, value, volume):
        fields = [number, temperature, value, volume]
        if self.r.random() < self.blanks:
            fields[self.r.randrange(4)] = '-'
        return 'C {} {} {} {} {}\n'.format(fields[0], fields[1], letter, fields[2], fields[3])

    def of_a_gauge(self):
        """A pressure about that of vapour, and about 2 bar from it"""
        temperature = self.r.choice([self.r.randint(TRIPLE + 60000, CRITICAL - 1), self.near(TRIPLE, CRITICAL), self.r.randint(2731500, 3031000)])
        p = vapour_pressure(min(temperature, CRITICAL))
        value = self.r.choice([self.near(p - 200000, p + 200000), self.near(p), max(0, round(p + self.r.uniform(-400000, 400000)))])
        return self.line(self.number(), temperature, 'P', value, self.volume())

    def plain(self):
        temperature = self.r.randint(CRITICAL + 20000, 3500000)
        if self.r.random() < 0.5:
            return self.line(self.number(), temperature, 'P', self.r.randint(8000001, 20000000), self.volume())
        return self.line(self.number(), temperature, 'D', self.r.choice([self.r.randint(100, 900000), self.near(750000)]), self.volume())

    def weighed(self):
        volume = self.volume()
        grams = self.r.choice([self.near(volume * 3 / 4), self.near(0), self.r.randrange(10 ** self.r.randint(1, 10)), volume * 3 // 5])
        return self.line(self.number(), self.r.choice(['-', 2931500, self.r.randrange(10 ** 10)]), 'W', min(grams, 9999999999), volume)

    def any(self):
        temperature = self.r.choice([self.r.randint(TRIPLE, HOTTEST), self.near(TRIPLE, CRITICAL, HOTTEST, 3031282, 3051282), self.r.randrange(10 ** 7)])
        letter = self.r.choice('PDW')
        value = self.r.choice([self.r.randrange(10 ** self.r.randint(1, 10)), self.near(10000, 30000000, 7000000, 8000000, 100, 1300000, 350700, 584500)])
        return self.line(self.number(), temperature, letter, value, self.r.choice([self.volume(), self.near(0, 1, 1000000)]))

    def lines(self, kinds, most=32):
        found = [getattr(self, self.r.choice(kinds))() for _ in range(self.r.choice([1, 2, 3, self.r.randint(1, most)]))]
        if self.r.random() < 0.1:
            found.append(self.r.choice(found))
        return found

    def need(self):
        return self.r.choice([self.r.randrange(10 ** self.r.randint(1, 10)), self.r.randint(10 ** 7, 10 ** 9), self.r.randint(1, 2000), 9999999999])

    def text(self, kinds, blanks):
        self.blanks = blanks
        return f'N {self.need()}\n' + ''.join(self.lines(kinds))

    # ---- cases

    def good(self):
        return self.text(['plain', 'weighed', 'of_a_gauge'], 0).encode()

    def answered(self):
        text = f'N {self.need()}\n'
        for number in range(100 - self.r.randint(1, 30), 100):
            volume = self.r.randint(1, 1000000)
            letter, value = self.r.choice([('P', self.r.randint(8000001, 20000000)), ('D', self.r.randint(100000, 850000)), ('D', self.near(750000)),
                                           ('W', max(1, self.near(volume * 3 / 4, volume * 0.6)))])
            text += f'C {number} {self.r.randint(3071282, 3200000)} {letter} {value} {volume}\n'
        return text.encode()

    def to_a_milligram(self):
        """A need that is what is held, or a milligram beside it"""
        _, _, lines = (self.answered() if self.r.random() < 0.7 else self.weighed_alone()).partition(b'\n')
        report = explained([b'N 1\n' + lines])[0]
        total = int(re.search(r'^TOTAL ([0-9]+) ', report, re.M)[1])
        if total + 1 > typed.MOST:
            return self.to_a_milligram()
        return f'N {max(1, total + self.r.choice([-1, 0, 0, 1]))}\n'.encode() + lines

    def weighed_alone(self):
        numbers = self.r.sample(range(1000), self.r.randint(1, 32))
        return ('N 1\n' + ''.join(f'C {number} - W {self.r.randint(1, 50000)} 67500\n' for number in numbers)).encode()

    def gauges(self):
        return self.text(['of_a_gauge'], 0.05).encode()

    def weighings(self):
        return self.text(['weighed'], 0.05).encode()

    def readings(self):
        return self.text(['any', 'of_a_gauge', 'plain'], 0.1).encode()

    def need_is_none(self):
        self.blanks = 0.1
        return (f'N {self.r.choice(["-", 0])}\n' + ''.join(self.lines(['any']))).encode()

    def counted(self):
        self.blanks = 0
        return (f'N {self.need()}\n' + ''.join(self.weighed() for _ in range(self.r.choice([0, 0, 31, 32, 33, 34, 60])))).encode()

    def too_long(self):
        if self.r.random() < 0.5:  # in the form up to byte 65,536
            return b'N 1\n' + 5461 * b'C 1 - W 1 1\n' + self.r.choice([b'', b'C', b'\n', b'C 1 - W 1 1\n'])
        self.blanks = 0
        text = f'N {self.need()}\n'
        while len(text) < 65536 + self.r.randint(-40, 40):
            text += self.weighed()
        return text.encode()

    def damaged(self):
        text = bytearray(self.r.choice([self.good, self.readings])())
        for _ in range(self.r.randint(1, 2)):
            at = self.r.randrange(len(text))
            byte = self.r.choice([*b'NCPDWL0019-. ,\n\r\t+\xef\xbb', self.r.randrange(256)])
            text[at:self.r.choice([at, at + 1, at + 1, len(text)])] = self.r.choice([b'', bytes([byte])])
            text = text or bytearray(b'N')
        return bytes(text)

    def in_another_form(self):
        text = self.good()
        return self.r.choice([
            b'\xef\xbb\xbf' + text, text.replace(b'\n', b'\r\n'), text[:-1], text + b'\n', b'', b'\n', text.replace(b' ', b'\t', 1), text.lower(),
            text.replace(b' P ', b' '), text.replace(b'C ', b'C 0', 1), text.replace(b' W ', b' - ', 1), b'-' + text, text + b'C 1'])


CASES = ['answered', 'answered', 'answered', 'good', 'gauges', 'gauges', 'weighings', 'readings', 'readings', 'need_is_none', 'counted', 'damaged', 'damaged',
         'in_another_form', 'to_a_milligram', 'to_a_milligram']


def explained(texts):
    """What the program writes of each"""
    with tempfile.TemporaryDirectory() as folder:
        names = [f'{folder}/{place}' for place in range(len(texts))]
        for name, text in zip(names, texts):
            with open(name, 'wb') as file:
                file.write(text)
        # the first twice, so that there is more than one and each has its name before it
        wrote = subprocess.run([PROGRAM, '--explain', *names, names[0]], stdout=subprocess.PIPE, check=True).stdout.decode('ascii')
    rest, parts = wrote, []
    for name in reversed([*names, names[0]]):
        rest, _, part = rest.rpartition(f'== {name}\n')
        parts.append(part)
    if rest != '':
        sys.exit(f'web/comparing/sheets.py: {PROGRAM} wrote something before the first report')
    return parts[::-1][:len(texts)]


class Forms:
    KINDS = ['bar', 'gauge', 'density', 'weighed', '']

    def __init__(self, seed):
        self.typist = typed.Typist(seed)
        self.r = self.typist.r

    def typed(self, scale, slip):
        places, more, _ = typed.SCALES[scale]
        case = self.r.choice(['plain', 'plain', 'any_of_sheet', 'blank', 'about', *(['zeros', 'thousands'] if places else [])])
        if slip:
            case = self.r.choice(typed.SLIPS + ['few_signs', 'at_an_end', 'a_decimal_more', 'below'])
        text = getattr(self.typist, case)(places, more)
        return text.replace('.,'.replace(self.mark, ''), self.mark) if self.mark else text

    def form(self):
        self.mark = self.r.choice(['.', ',', '.', ',', ''])
        slips = self.r.random() < 0.3
        rows = []
        for _ in range(self.r.randint(0, 6)):
            kind = self.r.choice(self.KINDS)
            row = {name: self.typed(name, slips and self.r.random() < 0.1) for name in ('number', 'celsius', 'litres')}
            reading = self.typed(kind or 'bar', slips and self.r.random() < 0.1) if kind or self.r.random() < 0.2 else ''
            rows.append({**row, 'kind': kind, 'reading': reading})
        return {'need': self.typed('need', slips and self.r.random() < 0.1), 'rows': rows}


FIELDS = ['number', 'celsius', 'reading', 'litres']
LETTERS = {'bar': 'P', 'gauge': 'P', 'density': 'D', 'weighed': 'W', '': 'P'}
NOT_USED = 'Not used: a weighed cylinder needs no temperature.'


def is_blank(text):
    try:
        return typed.value(text) is None
    except typed.Slip:
        return False


def note_of_thousands(text):
    """RULES 15.1: one to three digits, the first no 0, a separator, and three digits more"""
    text = text.strip(typed.ABOUT)
    below = text[0] in typed.MINUS
    front, _, behind = text[below:].replace(',', '.').partition('.')
    if not (1 <= len(front) <= 3 and front[0] != '0' and len(behind) == 3):
        return None
    return 'Read as {}. If thousands are meant, write {}.'.format(typed.decimal(typed.value(text), '.'), '-' * below + front + behind)


class Read:
    """A form as RULES 15.1 has it: its text, or None; the fields that are marked, and those that are noted"""

    def __init__(self, form):
        self.mark, self.marks, self.notes = None, [], []
        lines = [f'N {self.field(-1, "need", "need", form["need"])}']
        for row, fields in enumerate(form['rows']):
            kind = fields['kind']
            parts = {name: self.field(row, name, kind if name == 'reading' else name, fields[name]) for name in FIELDS if name != 'reading' or kind}
            if not kind and not is_blank(fields['reading']):
                self.marks.append([row, 'kind'])
            if kind == 'weighed' and not is_blank(fields['celsius']):
                self.notes.append([row, 'celsius', NOT_USED, False])
            lines.append('C {number} {celsius} {letter} {reading} {litres}'.format(**{'reading': '-', **parts}, letter=LETTERS[kind]))
        self.text = None if self.marks else ''.join(line + '\n' for line in lines)

    def field(self, row, name, scale, text):
        found = set(text) & set('.,')
        try:
            number = typed.on_sheet(text, *typed.SCALES[scale][:2])
            if number is None:
                return '-'
            if found and self.mark and found != self.mark:
                raise typed.Slip
        except typed.Slip:
            self.marks.append([row, name])
            return None
        self.mark = found or self.mark
        words = note_of_thousands(text) if found else None
        if words:
            self.notes.append([row, name, words, True])
        return number


def main():
    words = argparse.ArgumentParser()
    words.add_argument('folder')
    words.add_argument('--sheets', type=int, default=4000)
    words.add_argument('--forms', type=int, default=20000)
    words.add_argument('--seed', type=int, default=1)
    asked = words.parse_args()
    os.makedirs(asked.folder, exist_ok=True)
    sheets, forms = Sheets(asked.seed), Forms(asked.seed)
    with open(f'{asked.folder}/sheets.json', 'w', encoding='ascii') as file:
        for begun in range(0, asked.sheets, AT_ONCE):
            cases = [sheets.r.choice(CASES) if sheets.r.random() > 0.01 else 'too_long' for _ in range(min(AT_ONCE, asked.sheets - begun))]
            texts = [getattr(sheets, case)() for case in cases]
            for case, text, wrote in zip(cases, texts, explained(texts)):
                file.write(json.dumps({'case': case, 'text': base64.b64encode(text).decode(), 'wrote': wrote}) + '\n')
    with open(f'{asked.folder}/forms.json', 'w', encoding='ascii') as file:
        for _ in range(asked.forms):
            form = forms.form()
            read = Read(form)
            file.write(json.dumps({'form': form, 'text': read.text, 'marks': sorted(read.marks), 'notes': sorted(read.notes)}) + '\n')


if __name__ == '__main__':
    main()
