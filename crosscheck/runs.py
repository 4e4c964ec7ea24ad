"""The expected runs of the program, worked by RULES 13 and 14, with the explanations of desk.py: what examples/runs.d holds.
    python3 crosscheck/runs.py OUT && diff -r OUT examples/runs.d

OUT must not be there yet, or be empty. Nothing is taken from the program. examples/runs says what the files of a run are.
"""
import pathlib
import sys

sys.dont_write_bytecode = True
import sheets
from desk import explanation, of_cylinders

OUT = pathlib.Path(sys.argv[1])


def warned(text):
    """The warnings of a sheet, each with its line's end; none where its report has no lines."""
    return [f"{warning}\n" for told in of_cylinders(text) for warning in told[1:]]


USAGE = "usage: scorer [--explain] [FILE..], scorer --help, scorer --version; - is standard input, which is read where no file is named\n"
HELP = "crosscheck/help.txt"


def run(name, args, files=None, stdin=None, folder=None, to=None, raw=None):
    """raw: stdout and stderr, where nothing is scored; else both are worked from the files."""
    place = OUT / name
    place.mkdir(parents=True)
    if args:
        (place / "args").write_bytes("".join(a + "\n" for a in args).encode(errors="surrogateescape"))
    files = files or {}
    for f, text in files.items():
        (place / f).write_bytes(text)
    if folder:
        (place / folder).mkdir()
        (place / folder / "sheet.txt").write_bytes(EXAMPLE)
    if stdin is not None:
        (place / "stdin").write_bytes(stdin)
    if to:
        (place / "to").write_text(to + "\n")
    if raw:
        stdout, stderr = raw
    else:
        explained = "--explain" in args
        if "--" in args:
            cut = args.index("--")
            named = [a for a in args[:cut] if a != "--explain"] + args[cut + 1:]
        else:
            named = [a for a in args if a != "--explain"]
        stdout, stderr = "", ""
        for f in named or ["-"]:
            said, text = ("standard input", stdin) if f == "-" else (f, files.get(f))
            if text is None:
                stderr += f"{said}: {'Is a directory' if f == folder else 'No such file or directory'}\n"
                continue
            if len(named) > 1:
                assert f != "-"
                stdout += f"== {f}\n"
            stdout += sheets.report(text)
            if explained:
                stdout += explanation(text)
            else:
                stderr += "".join(f"{said}: {w}" for w in warned(text))
    if stdout == HELP:
        (place / "stdout_is").write_text(HELP + "\n")
    elif not to:
        (place / "stdout").write_text(stdout)
    (place / "stderr").write_bytes(stderr.encode(errors="surrogateescape"))


def bank(pressure, volume=67500):
    return b"N 180000000\n" + b"".join(b"C %d 2931500 P %d %d\n" % (i, pressure, volume) for i in range(1, 5))


LIQUID, VAPOUR = bank(5730000), bank(5728000)
EXAMPLE = sheets.EXAMPLE
README = b"N 120000000\nC 1 3131500 P 10600000 67500\nC 2 3151500 P 11200000 67500\nC 3 3146500 D 667000 67500\n"

OUT.mkdir(exist_ok=True)
# the texts are compared byte for byte, CR included
(OUT / ".gitattributes").write_text("* -text\n")

# 0.02 bar decide between enough and a quarter of it
run("gauge_can_tell_nothing", ["bank.txt"], {"bank.txt": LIQUID})
run("gauge_can_tell_nothing_explained", ["--explain", "bank.txt"], {"bank.txt": LIQUID})
run("gauge_a_little_lower", ["bank.txt"], {"bank.txt": VAPOUR})
run("gauge_a_little_lower_explained", ["--explain", "bank.txt"], {"bank.txt": VAPOUR})
# 2 bar on each side: the vapour pressure at 20 C is 5,729,194.42 Pa
EDGE = b"N 1\n" + b"".join(b"C %d 2931500 P %d 67500\n" % (i, p) for i, p in enumerate((5529194, 5529195, 5929194, 5929195), 1))
run("gauge_two_bar_away", ["--explain", "edge.txt"], {"edge.txt": EDGE})
# the same bank weighed, README's cylinder the first: 177 kg, which is short; two of it weighed and two by their gauges, which can't tell
WEIGHED = b"N 180000000\nC 1 - W 38500 67500\nC 2 - W 45000 67500\nC 3 2931500 W 49500 67500\nC 4 - W 44000 67500\n"
IN_PART = b"N 180000000\nC 1 - W 38500 67500\nC 2 - W 45000 67500\nC 3 2931500 P 5730000 67500\nC 4 2931500 P 5730000 67500\n"
run("weighed_bank", ["bank.txt"], {"bank.txt": WEIGHED})
run("weighed_bank_explained", ["--explain", "bank.txt"], {"bank.txt": WEIGHED})
run("weighed_in_part", ["bank.txt"], {"bank.txt": IN_PART})
run("weighed_in_part_explained", ["--explain", "bank.txt"], {"bank.txt": IN_PART})
# the first with its 75 kg of steel, and the bank looks covered
STEEL = WEIGHED.replace(b"W 38500 ", b"W 113500 ")
run("weighed_with_its_steel", ["bank.txt"], {"bank.txt": STEEL})
run("weighed_with_its_steel_explained", ["--explain", "bank.txt"], {"bank.txt": STEEL})
# a cylinder of 67.5 litres is filled with 50,625 g at the most
run("weighed_a_gram_too_much", ["most.txt", "more.txt"],
    {"most.txt": b"N 50625000\nC 1 - W 50625 67500\n", "more.txt": b"N 50625001\nC 1 - W 50626 67500\n"})
# three cylinders, the third copied: they hold 156.6 kg, and with the copy it would be the 208.8 kg of four
COPIED = LIQUID.replace(b"C ", b"C 2").replace(b"C 24 ", b"C 23 ")
run("copied_line", ["bank.txt"], {"bank.txt": COPIED})
run("copied_line_explained", ["--explain", "bank.txt"], {"bank.txt": COPIED})
# the example of RULES 7.4, the sheet of README and two more
run("example_of_the_rules", ["sheet.txt"], {"sheet.txt": EXAMPLE})
run("example_of_the_rules_explained", ["--explain", "sheet.txt"], {"sheet.txt": EXAMPLE})
run("sheet_of_the_readme", ["sheet.txt"], {"sheet.txt": README})
run("sheet_of_the_readme_explained", ["--explain", "sheet.txt"], {"sheet.txt": README})
run("sheet_of_the_readme_and_one_weighed", ["--explain", "sheet.txt"], {"sheet.txt": README + b"C 4 - W 45000 67500\n"})
THIRTEEN = b"N 13000\nC 1 - W 12 50000\nC 2 9999999999 W 1 40\n"
run("example_of_the_rules_weighed", ["sheet.txt", "without.txt"], {"sheet.txt": THIRTEEN + b"C 3 - W 0 40\n", "without.txt": THIRTEEN})
WINTER = b"N 45000000\nC 1 2170000 P 5000000 40000\nC 2 2531500 D 1050000 40000\nC 3 2531500 P 2500000 40000\nC 4 2531500 D 500000 40000\n"
run("winter_explained", ["--explain", "winter.txt"], {"winter.txt": WINTER})
run("one_milligram_missing", ["--explain", "small.txt"], {"small.txt": b"N 29\nC 1 3000000 D 290 100\n"})
# texts that are not in the form
run("cr_lf_explained", ["--explain", "bank.txt"], {"bank.txt": LIQUID.replace(b"\n", b"\r\n")})
run("byte_order_mark_explained", ["--explain", "bank.txt"], {"bank.txt": b"\xef\xbb\xbf" + LIQUID})
run("no_last_lf", ["bank.txt"], {"bank.txt": LIQUID[:-1]})
run("no_last_lf_explained", ["--explain", "bank.txt"], {"bank.txt": LIQUID[:-1]})
run("blank_without_its_letter", ["--explain", "bank.txt"], {"bank.txt": b"N 180000000\nC 7 2931500 - 67500\n"})
# what was not read, as zeros and as blanks; sheets that are sent back whole
run("zeros_for_blanks", ["--explain", "bank.txt"],
    {"bank.txt": b"N 180000000\nC 1 2931500 P 5730000 0\nC 2 0 P 5730000 67500\nC 3 2931500 P 0 67500\nC 4 2931500 P 6500000 67500\n"})
run("blanks", ["--explain", "bank.txt"],
    {"bank.txt": b"N 180000000\nC - 2931500 P 5730000 67500\nC 2 - P 5730000 67500\nC 3 2931500 D - 67500\nC 4 2931500 P 5730000 -\n"})
run("weighed_zeros", ["--explain", "bank.txt"],
    {"bank.txt": b"N 180000000\nC 1 - W 0 67500\nC 2 0 W 45000 67500\nC 3 - W 49500 0\nC 4 - W 0 0\nC 1 - W 0 67500\n"})
run("weighed_blanks", ["--explain", "bank.txt"],
    {"bank.txt": b"N 180000000\nC - - W 38500 67500\nC 2 - W 45000 67500\nC 3 - W - 67500\nC 4 - W 44000 -\nC 5 - P 5730000 67500\nC 6 - D 667000 67500\n"})
run("sent_back_whole", ["--explain", "need_blank.txt", "need_zero.txt", "no_cylinders.txt", "too_many.txt"], {
    "need_blank.txt": LIQUID.replace(b"180000000", b"-"),
    "need_zero.txt": LIQUID.replace(b"180000000", b"0"),
    "no_cylinders.txt": b"N 180000000\n",
    "too_many.txt": b"N 180000000\n" + b"C 1 2931500 D 650000 67500\n" * 33,
})
SLIPS = {
    "a_point.txt": b"N 180000000\nC 1 2931500 P 57.3 67500\n",
    "a_comma.txt": b"N 180,5\nC 1 2931500 P 5730000 67500\n",
    "a_tab.txt": b"N 180000000\nC 1\t2931500 P 5730000 67500\n",
    "two_spaces.txt": b"N 180000000\nC 1 2931500  P 5730000 67500\n",
    "space_at_the_end.txt": b"N 180000000 \nC 1 2931500 P 5730000 67500\n",
    "zero_in_front.txt": b"N 180000000\nC 01 2931500 P 5730000 67500\n",
    "eleven_digits.txt": b"N 18000000000\nC 1 2931500 P 5730000 67500\n",
    "empty_line.txt": b"N 180000000\n\nC 1 2931500 P 5730000 67500\n",
    "empty_last_line.txt": b"N 180000000\nC 1 2931500 P 5730000 67500\n\n",
    "small_letters.txt": b"n 180000000\nc 1 2931500 p 5730000 67500\n",
    "letter_forgotten.txt": b"N 180000000\nC 1 2931500 5730000 67500\n",
    "volume_forgotten.txt": b"N 180000000\nC 1 2931500 P 5730000\n",
    "one_too_many.txt": b"N 180000000\nC 1 2931500 P 5730000 67500 1\n",
    "below_zero.txt": b"N 180000000\nC 1 -200000 P 5730000 67500\n",
    "a_degree.txt": "N 180000000\nC 1 20°C P 5730000 67500\n".encode(),
    "a_heading.txt": b"# bank 3\nN 180000000\nC 1 2931500 P 5730000 67500\n",
    "nothing.txt": b"",
}
run("slips_of_the_pen", ["--explain", *SLIPS], SLIPS)
WEIGHED_SLIPS = {
    "small_letter.txt": b"N 180000000\nC 1 - w 38500 67500\n",
    "letter_forgotten.txt": b"N 180000000\nC 1 - 38500 67500\n",
    "blank_without_its_letter.txt": b"N 180000000\nC 1 - - 67500\n",
    "temperature_forgotten.txt": b"N 180000000\nC 1 W 38500 67500\n",
    "no_space.txt": b"N 180000000\nC 1 - W38500 67500\n",
    "in_kg.txt": b"N 180000000\nC 1 - W 38.5 67500\n",
    "with_its_unit.txt": b"N 180000000\nC 1 - W 38500g 67500\n",
    "volume_forgotten.txt": b"N 180000000\nC 1 - W 38500\n",
    "another_letter.txt": b"N 180000000\nC 1 - M 38500 67500\n",
    "both_readings.txt": b"N 180000000\nC 1 2931500 P 5730000 W 38500 67500\n",
}
run("slips_with_a_weighed_mass", ["--explain", *WEIGHED_SLIPS], WEIGHED_SLIPS)
# standard input
SMALL = b"N 13000000\nC 7 2931500 P 5728000 67500\n"
run("standard_input", [], stdin=SMALL)
run("standard_input_as_a_dash", ["-"], stdin=SMALL)
run("explain_standard_input", ["--explain"], stdin=SMALL)
run("explain_standard_input_as_a_dash", ["--explain", "-"], stdin=SMALL)
run("explain_a_dash_first", ["-", "--explain"], stdin=SMALL)
# flags, several files, and what can't be read or written
run("flag_behind_the_file", ["bank.txt", "--explain"], {"bank.txt": SMALL})
run("flag_twice", ["--explain", "bank.txt", "--explain"], {"bank.txt": SMALL})
run("name_with_a_dash_in_front", ["--", "-bank.txt"], {"-bank.txt": SMALL})
run("name_with_a_dash_in_front_explained", ["--explain", "--", "-bank.txt"], {"-bank.txt": SMALL})
run("name_of_a_flag", ["--", "--help"], {"--help": README})
run("standard_input_behind_two_dashes", ["--", "-"], stdin=README)
run("nothing_behind_two_dashes", ["--explain", "--"], stdin=README)
run("unknown_flag", ["--expain"], stdin=README, raw=("", "--expain: no such flag\n" + USAGE))
run("unknown_flag_and_a_file", ["bank.txt", "--expain"], {"bank.txt": SMALL}, raw=("", "--expain: no such flag\n" + USAGE))
run("unknown_flag_before_help", ["-x", "--help"], raw=("", "-x: no such flag\n" + USAGE))
run("help", ["--help"], raw=(HELP, ""))
run("help_by_a_letter", ["-h"], raw=(HELP, ""))
run("help_behind_a_file", ["bank.txt", "--help"], {"bank.txt": SMALL}, raw=(HELP, ""))
run("help_before_an_unknown_flag", ["--help", "--expain"], raw=(HELP, ""))
run("version", ["--version"], raw=("makhroeng 1.7.0\n", ""))
run("version_before_help", ["--version", "--help"], raw=("makhroeng 1.7.0\n", ""))
THREE = {"bank.txt": SMALL, "dryer.txt": README}
run("several_files_two_unread", ["bank.txt", "nosuch.txt", "sheets", "dryer.txt"], THREE, folder="sheets")
run("several_files_two_unread_explained", ["bank.txt", "nosuch.txt", "sheets", "--explain", "dryer.txt"], THREE, folder="sheets")
run("missing_file", ["nosuch"])
run("missing_file_explained", ["--explain", "nosuch"])
run("folder_as_a_file", ["sheets"], folder="sheets")
run("full_disk", ["sheet.txt"], {"sheet.txt": EXAMPLE}, to="/dev/full", raw=("", "standard output: No space left on device\n"))
run("full_disk_for_help", ["--help"], to="/dev/full", raw=("", "standard output: No space left on device\n"))
run("full_disk_for_the_version", ["--version"], to="/dev/full", raw=("", "standard output: No space left on device\n"))

# warnings beside a refusal, what is not to be done after a failure, odd words
DOUBTED = b"N 180000000\nC 1 2931500 P 5730000 67500\nC 2 - P 5730000 67500\n"
run("warnings_where_another_line_is_refused", ["bank.txt"], {"bank.txt": DOUBTED})
run("full_disk_for_two_sheets", ["a.txt", "b.txt"], {"a.txt": EXAMPLE, "b.txt": EXAMPLE}, to="/dev/full", raw=("", "standard output: No space left on device\n"))
run("two_dashes_twice", ["--", "--"])
run("two_unknown_flags", ["--one", "--two"], raw=("", "--one: no such flag\n" + USAGE))
run("version_before_an_unknown_flag", ["--version", "--two"], raw=("makhroeng 1.7.0\n", ""))
run("a_word_too_long", ["a" * 5000, "sheet.txt"], {"sheet.txt": EXAMPLE}, raw=("== sheet.txt\n" + sheets.report(EXAMPLE), "FILE: File name too long\n"))
# a byte that is no text in UTF-8
run("a_name_that_is_no_text", ["\udcff.txt", "sheet.txt"], {"sheet.txt": EXAMPLE},
    raw=("== sheet.txt\n" + sheets.report(EXAMPLE), "\udcff.txt: Invalid or incomplete multibyte or wide character\n"))
# a sheet that comes in pieces: the first two lines, then the rest
run("standard_input_in_pieces", [], stdin=LIQUID)
place = OUT / "standard_input_in_pieces"
(place / "stdin").unlink()
cut = LIQUID.index(b"C 3")
(place / "stdin.1").write_bytes(LIQUID[:cut])
(place / "stdin.2").write_bytes(LIQUID[cut:cut + 5])
(place / "stdin.3").write_bytes(LIQUID[cut + 5:])
# texts that are too long, or just not, made where they are run
MAKE = "yes 'C 1 1 P 1 1' | head -n 5461 | cat first - >long.txt\n"
for name, first, stdout in [("as_long_as_a_sheet_can_be", b"N 1\n", "SENT BACK 11\n"), ("one_byte_too_long", b"N 10\n", "SENT BACK 14\n")]:
    stderr = "long.txt: The text has more than 65,536 bytes.\n" if first == b"N 10\n" else ""
    run(name, ["long.txt"], {"first": first, "make": MAKE.encode()}, raw=(stdout, stderr))
