"""Sheets scored a second time, by RULES 2.4, 3, 6 and 7: what the program `run_sheets` must print.
    python3 crosscheck/sheets.py | diff - crates/run_sheets/stdout

The texts are those of crates/run_sheets/data, and the few below that a file can't show.
"""
import math
import pathlib
import re
import sys

sys.dont_write_bytecode = True
import doors

DATA = pathlib.Path(__file__).parent.parent / "crates" / "run_sheets" / "data"
EXAMPLE = b"N 45000000\nC 7 - P 5000000 40000\nC 8 2000000 P 5000000 40000\n"
NUMBER = rb"(-|0|[1-9][0-9]{0,9})"
NEED = rb"N " + NUMBER + rb"\n"
LINE = rb"C " + NUMBER + rb" " + NUMBER + rb" ([PDW]) " + NUMBER + rb" " + NUMBER + rb"\n"
SHEET = re.compile(NEED + rb"(?:" + LINE + rb")*")


def milligrams(number, temperature, kind, value, volume, before):
    """Of a line, by the order of RULES 3.2; `before` has the cylinder numbers of the lines before it."""
    weighed = kind == b"W"
    # RULES 6.7: the temperature of a weighed line is not looked at; one whose value is blank is refused for that
    if b"-" in (number, value, volume) or temperature == b"-" and not weighed:
        raise doors.Refusal(1)
    if number in before:
        raise doors.Refusal(30)
    if not 1 <= int(volume) <= 1000000:
        raise doors.Refusal(2)
    if weighed:
        grams = int(value)
        if not 1 <= grams <= 9999999999:
            raise doors.Refusal(23)
        return 1000 * grams
    t = float(int(temperature)) / 10000.0
    if kind == b"P":
        _phase, eight, _count = doors.by_pressure(t, float(int(value)))
    else:
        _phase, eight, _count = doors.by_density(t, float(int(value)) / 1000.0)
    return math.floor(eight[2] * float(int(volume)))


def sent_back(number):
    return f"SENT BACK {number}\n"


def report(text):
    if len(text) > 65536 or not SHEET.fullmatch(text):
        return sent_back(14)
    lines = re.findall(LINE, text)
    if not lines:
        return sent_back(10)
    if len(lines) > 32:
        return sent_back(11)
    need = re.match(NEED, text)[1]
    if need == b"-" or not 1 <= int(need) <= 9999999999:
        return sent_back(12)
    # RULES 6.6: an earlier line counts by its number alone, which is written in one way only; a blank is not looked for
    numbers = [number for number, *_others in lines]
    out, total, refused = "", 0, False
    for i, line in enumerate(lines, 1):
        try:
            mg = milligrams(*line, before=numbers[:i - 1])
            total += mg
            out += f"L {i} M {mg}\n"
        except doors.Refusal as r:
            refused = True
            out += f"L {i} R {r.args[0]}\n"
    if refused:
        return out + sent_back(13)
    return out + f"TOTAL {total} {'COVERED' if total >= int(need) else 'SHORT'}\n"


def show(title, text):
    print(f"= {title}\n{report(text)}", end="")


def lend(room):
    written = report(EXAMPLE)
    if len(written) > room:
        print(f"= an output of dots: {room}, refused by 15\n" + "." * room)
    else:
        print(f"= an output of dots: {room}, bytes written: {len(written)}\n" + written + "." * (room - len(written)))


if __name__ == "__main__":
    for block in (DATA / "sheets.txt").read_bytes().split(b"=")[1:]:
        title, text = block.split(b"\n", 1)
        show(title.decode().strip(), text)
    show("CR LF in the first line", b"N 1\r\nC 7 3000000 P 5000000 1\n")
    show("CR LF in the last line", b"N 1\nC 7 3000000 P 5000000 1\r\n")
    show("a tab", b"N 1\nC 7\t3000000 P 5000000 1\n")
    show("a NUL byte", b"N 1\nC 7 3000000 P 5000000 1\0\n")
    show("a byte above 127", b"N 1\nC 7 3000000 P 5000000 \xb1\n")
    bank = (DATA / "bank.txt").read_bytes()
    show("32 good lines, the need their total", b"N 1354720333\n" + bank)
    show("32 good lines, the need 1 mg more", b"N 1354720334\n" + bank)
    show("33 good lines, a blank need: 11 before 12", b"N -\n" + bank + b"C 33 3000000 P 5000000 1\n")
    show("33 lines, the last not in the form: 14 before 11", b"N -\n" + bank + b"C 33 3000000 P 5000000\n")
    show("65,536 bytes", b"N 1\n" + b"C 1 1 P 1 1\n" * 5461)
    show("65,537 bytes", b"N 10\n" + b"C 1 1 P 1 1\n" * 5461)
    for room in (28, 29, 40):
        lend(room)
