"""What is said to a person worked a second time, by RULES 14: what the program `run_desk` must print.
    python3 crosscheck/desk.py | diff - crates/run_desk/stdout

First the help, as crosscheck/help.txt has it. Then for each text of crates/run_desk/data, and three that are long, its report (sheets.py), the explanation
under it, and its warnings by themselves, of a file sheet.txt. Then the words of 0 to 31, read from README.md, which has
those of each refusal letter for letter.
"""
import functools
import math
import pathlib
import re
import sys

sys.dont_write_bytecode = True
import doors
import saturation
import sheets

ROOT = pathlib.Path(__file__).parent.parent
SHEETS = ROOT / "crates" / "run_desk" / "data" / "sheets.txt"
HELP = ROOT / "crosscheck" / "help.txt"
# a text is explained from the doors' answers, which its report has asked for already
doors.by_pressure, doors.by_density = functools.cache(doors.by_pressure), functools.cache(doors.by_density)


def words():
    """RULES 14.1: of each number, what README's table says in its second cell, and what to do in its third."""
    rows = re.findall(r"^\| (\d+) \| ([^|]+) \| ([^|]+) \|$", (ROOT / "README.md").read_text(encoding="utf-8"), re.M)
    return {int(number): f"{says}. {do}" for number, says, do in rows}


WORDS = words()


# RULES 14.2: numbers as they are shown


def with_places(n, k):
    return f"{n // 10**k}.{n % 10**k:0{k}}"


def shortest(n, k):
    whole, places = with_places(n, k).split(".")
    return f"{whole}.{places.rstrip('0') or '0'}"


def of_sheet(field, k):
    return "-" if field == b"-" else shortest(int(field), k)


def celsius(field):
    if field == b"-":
        return "-"
    above = int(field) - 2731500
    return ("-" if above < 0 else "") + shortest(abs(above), 4)


def at_or_below(x):
    """RULES 6.5: the largest whole number not above x; None where it can't be had."""
    return math.floor(x) if 0.0 <= x < 2.0**53 else None


def nearest(x, unit, k):
    """The whole number at or below x, over the unit to the nearest, a half up."""
    n = at_or_below(x)
    return "-" if n is None else with_places((2 * n + unit) // (2 * unit), k)


def density(rho):
    return nearest(rho * 1000.0, 100, 1)


def bar(p):
    return nearest(p, 1000, 2)


def down(mg):
    """What is held or to spare, in kg."""
    return "-" if mg is None else with_places(mg // 1000, 3)


def up(mg):
    """What is needed or missing, in kg."""
    return with_places(-(-mg // 1000), 3)


# RULES 14.3 and 14.4: the explanation and its warnings


def kelvin(temperature):
    return float(int(temperature)) / 10000.0


def of_gauge(_number, temperature, kind, value, volume):
    """The warning that a line without blanks has where its gauge can't tell, or None."""
    if not 1 <= int(volume) <= 1000000 or kind != b"P":
        return None
    try:
        p, vapour, liquid = saturation.at(kelvin(temperature))
    except doors.Refusal:
        return None
    if not -200000.0 <= float(int(value)) - p <= 200000.0:
        return None
    held = [down(at_or_below(rho * float(int(volume)))) for rho in (vapour, liquid)]
    return (f"the gauge can't tell. At {celsius(temperature)} C the vapour pressure is {bar(p)} bar, and {of_sheet(value, 5)} bar is within 2 bar of it. "
            f"At the vapour pressure the cylinder holds {held[0]} kg if all is vapour, {held[1]} kg if all is liquid, and anything between if it holds both. "
            "Weigh it and write W and the grams of agent in the place of P and the pressure, or warm it evenly to 40 to 45 C, minding its pressure, and read again.")


def of_mass(value, volume):
    """The warning that an answered line has where more was weighed than a cylinder is filled with, or None: by whole numbers, of milligrams and millilitres."""
    if not 1000 * int(value) > 750 * int(volume):
        return None
    return (f"{of_sheet(value, 3)} kg in {of_sheet(volume, 3)} L is more than a cylinder is filled with (750 kg/m3). "
            "Check its volume, and that the empty cylinder's weight was taken off.")


def of_density(rho):
    """The same by the density of a state."""
    if not rho > 750.0:
        return None
    return f"{density(rho)} kg/m3 is more than a cylinder is filled with (750 kg/m3). Check its volume and its reading."


# the letter of a reading, also of one that is blank, says in what it is shown, and with how many places
SHOWN = {b"P": (5, "bar"), b"D": (3, "kg/m3"), b"W": (3, "kg")}


def of_cylinder(line, reported, first):
    """What stands under the report of one cylinder's line; `reported` is its line there, and `first` the place of the first line with its number."""
    number, temperature, kind, value, volume = line
    _, place, answered, n = reported.split(" ")
    places, unit = SHOWN[kind]
    warnings = [] if b"-" in line else [of_gauge(*line)]
    if answered == "R":
        outcome = f"refused by {n}. {WORDS[int(n)]}" + (f" It stands in L {first}." if n == "30" else "")
    elif kind == b"W":
        outcome = f"{down(int(n))} kg, weighed"
        warnings.append(of_mass(value, volume))
    else:
        door, over = (doors.by_pressure, 1.0) if kind == b"P" else (doors.by_density, 1000.0)
        phase, eight, _count = door(kelvin(temperature), float(int(value)) / over)
        outcome = f"{down(int(n))} kg, {density(eight[2])} kg/m3, {phase}"
        warnings.append(of_density(eight[2]))
    told = [f"{celsius(temperature)} C, {of_sheet(value, places)} {unit}, {of_sheet(volume, 3)} L: {outcome}"] + [warning for warning in warnings if warning]
    return [f"L {place}, cylinder {number.decode()}: {words}" for words in told]


def of_cylinders(text):
    """Of each line that is reported what stands under it: first itself, then its warnings."""
    lines = re.findall(sheets.LINE, text)
    numbers = [number for number, *_others in lines]
    return [of_cylinder(line, reported, numbers.index(line[0]) + 1) for line, reported in zip(lines, sheets.report(text).splitlines()[:-1])]


def warnings(text):
    return "".join(f"sheet.txt: {warning}\n" for told in of_cylinders(text) for warning in told[1:])


def explanation(text):
    ending = sheets.report(text).splitlines()[-1]
    lines = [told for of_line in of_cylinders(text) for told in of_line]
    first, second, third = ending.split(" ")
    if first == "TOTAL":
        held, need = int(second), int(re.match(sheets.NEED, text)[1])
        margin = f"{down(held - need)} kg to spare" if third == "COVERED" else f"{up(need - held)} kg missing"
        doubts = sum("the gauge can't tell" in told for told in lines)
        heavy = sum("more than a cylinder is filled with" in told for told in lines)
        counts = (f" Gauges that can't tell: {doubts}." if doubts else "") + (f" Lines above 750 kg/m3: {heavy}." if heavy else "")
        lines.append(f"Held {down(held)} kg, needed {up(need)} kg: {margin}.{counts}")
    else:
        need = f"Needed {up(int(re.match(sheets.NEED, text)[1]))} kg. " if third == "13" else ""
        lines.append(f"{need}Sent back by {third}. {WORDS[int(third)]}")
    if third == "14":
        lines.append(where(text))
    return "".join(line + "\n" for line in lines)


# RULES 14.5: where a text stops being in the form

FORMS = (sheets.NEED, b"N 0\n"), (sheets.LINE, b"C 0 0 P 0 0\n")
DIGITS = b"0123456789"
EXPECTED = {b"N": "N", b"C": "C", b"DPW": "P, D or W", b" ": "a space", b"\n": "LF", b"-" + DIGITS: "a digit or -", b" " + DIGITS: "a digit or a space",
            b"\n" + DIGITS: "a digit or LF"}
NAMED = {b"": "the end of the text", b"\r": "CR", b"\n": "LF", b" ": "a space", b"\t": "a tab"}


def begins(front, place):
    """Whether a line of the form begins so: where one does, there is one that goes on as some end of the shortest does."""
    form, least = FORMS[place > 1]
    return any(re.fullmatch(form, front + least[i:]) for i in range(len(least) + 1))


def hint(mark, there, expected, front):
    behind = front.split(b" ")[-1]
    digit = there != b"" and there in DIGITS
    hints = [
        (mark, "Save the text without it."),
        (there == b"\r", "Lines end in LF alone, not in CR LF."),
        (there == b"", "Every line ends in LF, the last too."),
        (there == b"-" and expected == "P, D or W", "A blank keeps its letter: P -, D - or W -."),
        (there in (b"P", b"D", b"W") and expected == "a digit or -", "What was not read is written -, in its place."),
        (there in (b".", b","), "Every number is whole: scorer --help shows the units."),
        (digit and behind == b"0", "No number has a 0 in front."),
        (digit and behind.isdigit() and len(behind) == 10, "No number has more than ten digits."),
        (digit and behind == b"-", "No number is below 0: - alone is a blank."),
        (there == b"\n" and front == b"", "No line is empty."),
        (there == b" ", "One space stands between two parts, and none at a line's front or end."),
        (True, ""),
    ]
    return next(words for holds, words in hints if holds)


def where(text):
    if len(text) > 65536:
        return "The text has more than 65,536 bytes."
    lines = re.findall(rb"[^\n]*\n|[^\n]+", text) or [b""]
    place, line = next((place, line) for place, line in enumerate(lines, 1) if not re.fullmatch(FORMS[place > 1][0], line))
    size = max(size for size in range(len(line) + 1) if begins(line[:size], place))
    front, there = line[:size], line[size:size + 1]
    expected = EXPECTED[bytes(byte for byte in range(256) if begins(front + bytes([byte]), place))]
    mark = (place, size) == (1, 0) and text.startswith(b"\xef\xbb\xbf")
    found = "a byte order mark" if mark else NAMED.get(there) or (f"'{there.decode()}'" if 33 <= there[0] <= 126 else f"byte {there[0]}")
    return f"Line {place}, column {size + 1}: {expected} is expected, and there is {found}. {hint(mark, there, expected, front)}".rstrip(" ")


def show(title, text):
    print(f"= {title}\n{sheets.report(text)}{explanation(text)}{warnings(text)}", end="")


if __name__ == "__main__":
    if HELP.exists():
        sys.stdout.buffer.write(b"= help\n" + HELP.read_bytes())
        sys.stdout.buffer.flush()
    for block in SHEETS.read_bytes().split(b"=")[1:]:
        title, text = block.split(b"\n", 1)
        show(title.decode().strip(), text)
    show("65,536 bytes", b"N 1\n" + b"C 1 1 P 1 1\n" * 5461)
    show("65,537 bytes", b"N 10\n" + b"C 1 1 P 1 1\n" * 5461)
    show("65,536 bytes, the last line damaged", b"N 1\n" + b"C 1 1 P 1 1\n" * 5460 + b"C 1 1 P 1 x\n")
    for number in range(32):
        print(f"words of {number} are {WORDS.get(number, 'none')}")
