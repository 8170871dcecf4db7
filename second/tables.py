"""Extracts the tables of the light readings from the source documents.

    python3 second/tables.py write [DOCUMENTS]    writes tables.txt
    python3 second/tables.py check [DOCUMENTS]    exits 1 if tables.txt differs

DOCUMENTS is the folder of the documents' text; without it, the folder `shared`
beside the repository root. All numbers are whole: weights at 10^13 to one,
illuminants at 10^5 to one. Whatever can't be read stops the extraction.

The text of document 003 has the 2° cone-fundamental curve up to 503 nm only and
nothing of the 10° one. So the rows of the 2° curve from 504 on and all rows of
the 10° curve are not from a document: they are from cone_fundamental_curves.tsv,
which lies beside the documents. Where both have a row they must agree in every
digit.
"""

import argparse
import re
import sys
from decimal import Context, Decimal, localcontext
from itertools import zip_longest
from pathlib import Path

TABLES = Path(__file__).with_name("tables.txt")
DOCUMENTS = TABLES.parents[2] / "shared"

WAVELENGTHS = range(360, 831)
WEIGHT_PLACES = 13
ILLUMINANT_PLACES = 5
SUM_PLACES = 12

# The cone-fundamental curves, and what the text of document 003 has of the 2° one.
CURVES = "cone_fundamental_curves.tsv"
CURVES_HEAD = "nm\tV_F\tV_F10"
CURVE_WAVELENGTHS = range(390, 831)
PRINTED_CURVE = range(390, 504)

# The text of document 004 has A up to here, and D65 undamaged up to here.
LAST_PRINTED_A = 799
LAST_LEGIBLE_D65 = 760

# Published D65 at the tens that are damaged in the text of document 004.
PUBLISHED_D65 = {
    770: "66,805 4",
    780: "63,382 8",
    790: "64,304 0",
    800: "59,451 9",
    810: "51,959 0",
    820: "57,440 6",
    830: "60,312 5",
}

# Lines that stand among a table's rows, emphasis marks taken off.
NO_ROW = re.compile(
    r"|(Table|TABLE) \d \(continued\)|\(λ in standard air\)|Wave-length .*|\t\$.*|λ ?/ ?nm\t.*"
    r"|for 2° field size"
)
DECIMAL = re.compile(r"(\d+),(\d+(?: \d+)*)")
CURVE_CELL = rf"([0-9]\.[0-9]{{{WEIGHT_PLACES}}})"
CURVES_ROW = re.compile(rf"([0-9]{{3}})\t{CURVE_CELL}\t{CURVE_CELL}")
SUM = re.compile(r"\$\$\\(?:Sigma|sum) \\bar\{([xyz])\}(?:_\{(10)\})?\(\\lambda\) = (.*)\$\$")

HEAD = """\
# Weights and illuminants from 360 to 830 nm, written by tables.py.
# Weights are at 10^13 to one, illuminants at 10^5 to one.
# A from 800 on is equation (1) of document 004 to six significant digits, and
# D65 from 761 on is the straight line between published tens: the text of
# document 004 stops or is damaged there.
# vf from 504 on and all of vf10 are from cone_fundamental_curves.tsv: the text of
# document 003 doesn't have them.
# wavelength x y z x10 y10 z10 vprime a d65 vf vf10
"""


class Unreadable(Exception):
    """The documents don't give the tables; the message says where."""


def document(folder, number):
    """The lines of the one document with this number."""
    found = list(folder.glob(f"{number}_*.txt"))
    if len(found) != 1:
        raise Unreadable(f"{len(found)} documents {number} in {folder}, not one")
    return found[0].read_text(encoding="utf-8").split("\n")


def section(lines, head, end):
    """The lines between the only one that starts with `head` and the next with `end`."""
    heads = [i for i, line in enumerate(lines) if line.lstrip("*").startswith(head)]
    if len(heads) != 1:
        raise Unreadable(f"{len(heads)} heads '{head}', not one")
    body = lines[heads[0] + 1 :]
    if end is None:
        return body
    for i, line in enumerate(body):
        if line.startswith(end):
            return body[:i]
    raise Unreadable(f"'{head}' doesn't end with '{end}'")


def rows(lines, width, wavelengths):
    """Each wavelength's cells as printed; rows of `width` cells may stand side by side."""
    found = {}
    for line in lines:
        if NO_ROW.fullmatch(line.replace("*", "")):
            continue
        cells = line.split("\t")
        if len(cells) % width:
            raise Unreadable(f"not rows of {width} cells: '{line}'")
        for i in range(0, len(cells), width):
            wavelength, *values = cells[i : i + width]
            if not any(cells[i : i + width]) and i > 0:
                continue  # the last columns of a page may be shorter
            if not re.fullmatch(r"\d{3}", wavelength):
                raise Unreadable(f"no wavelength '{wavelength}' in '{line}'")
            if int(wavelength) in found:
                raise Unreadable(f"{wavelength} nm is there twice")
            found[int(wavelength)] = values
    if missing := set(wavelengths) - set(found):
        raise Unreadable(f"{min(missing)} nm is missing")
    if strange := set(found) - set(wavelengths):
        raise Unreadable(f"{min(strange)} nm doesn't belong to the table")
    return found


def whole(cell, places):
    """A printed decimal as a whole number at 10^places to one."""
    match = DECIMAL.fullmatch(cell)
    if not match:
        raise Unreadable(f"no decimal: '{cell}'")
    digits = match[2].replace(" ", "")
    if len(digits) > places:
        raise Unreadable(f"more than {places} decimals: '{cell}'")
    return int(match[1] + digits.ljust(places, "0"))


def weights(table, column):
    """A column of a table whose first cell after the wavelength is column 0."""
    return {w: whole(cells[column], WEIGHT_PLACES) for w, cells in table.items()}


def observer(lines, head):
    """The three colour-matching functions of one observer, from document 002."""
    table = rows(section(lines, head, "$$"), 7, WAVELENGTHS)
    for cells in table.values():
        if cells[2] == "":
            cells[2] = "0,0"  # an empty place of z means 0
    return [weights(table, column) for column in range(3)]


def luminosity(lines, head, end, wavelengths):
    """One efficiency function of document 003, as far as it is printed."""
    return weights(rows(section(lines, head, end), 2, wavelengths), 0)


def widened(table):
    """A function from 360 to 830, 0 outside its own range."""
    return {w: table.get(w, 0) for w in WAVELENGTHS}


def curves(folder):
    """The 2° and the 10° cone-fundamental curve, each row in its place and with every digit."""
    path = folder / CURVES
    if not path.exists():
        raise Unreadable(f"{CURVES} is missing")
    lines = path.read_text(encoding="utf-8").splitlines()
    if lines[:1] != [CURVES_HEAD]:
        raise Unreadable(f"{CURVES} doesn't begin with its head")
    two, ten = {}, {}
    for w, line in zip_longest(CURVE_WAVELENGTHS, lines[1:]):
        match = CURVES_ROW.fullmatch(line or "")
        if not match or int(match[1]) != w:
            raise Unreadable(f"{CURVES} has '{line}' in the place of {w} nm")
        two[w], ten[w] = (int(cell.replace(".", "")) for cell in match.groups()[1:])
    return two, ten


def check_curve(printed, curve):
    """Holds the rows that document 003 prints against the curve."""
    for w, weight in printed.items():
        if curve[w] != weight:
            raise Unreadable(f"{CURVES} isn't document 003 at {w} nm")


def check_sums(lines, functions):
    """Holds the six sums that document 002 prints against the functions."""
    printed = {}
    for line in lines:
        if match := SUM.fullmatch(line):
            number = re.sub(r"\\[, ]", " ", match[3])
            printed[match[1] + (match[2] or "")] = whole(number, SUM_PLACES)
    if set(printed) != set(functions):
        raise Unreadable(f"the printed sums are {sorted(printed)}")
    finer = 10 ** (WEIGHT_PLACES - SUM_PLACES)
    for name, function in functions.items():
        if (sum(function.values()) + finer // 2) // finer != printed[name]:
            raise Unreadable(f"the sum of {name} isn't the printed one")


def equation_a(wavelength):
    """Equation (1) of document 004 to six significant digits."""
    with localcontext(Context(prec=50)):
        ratio = Decimal(14350000) / 2848
        power = 100 * (Decimal(560) / wavelength) ** 5
        power *= ((ratio / 560).exp() - 1) / ((ratio / wavelength).exp() - 1)
    return int(Context(prec=6).plus(power).scaleb(ILLUMINANT_PLACES))


def line_d65(tens, wavelength):
    """The straight line between two tens to six significant digits, halves down."""
    below = wavelength // 10 * 10
    d = wavelength - below
    if d == 0:
        return tens[wavelength]
    tenfold = (10 - d) * tens[below] + d * tens[below + 10]
    unit = 10 ** (len(str(tenfold)) - 6)
    return -((unit - 2 * tenfold) // (2 * unit)) * unit // 10


def illuminant_a(table):
    """A as printed, which must be the equation, and the equation where the text stops."""
    for w in range(WAVELENGTHS[0], LAST_PRINTED_A + 1):
        if whole(table[w][0], ILLUMINANT_PLACES) != equation_a(w):
            raise Unreadable(f"A at {w} nm isn't equation (1): '{table[w][0]}'")
    return {w: equation_a(w) for w in WAVELENGTHS}


def illuminant_d65(table):
    """D65 as printed, which must be the line between tens, and that line where it is damaged."""
    tens = {w: table[w][1] for w in range(WAVELENGTHS[0], LAST_LEGIBLE_D65 + 1, 10)}
    tens |= PUBLISHED_D65
    tens = {w: whole(cell, ILLUMINANT_PLACES) for w, cell in tens.items()}
    for w in range(WAVELENGTHS[0], LAST_LEGIBLE_D65 + 1):
        if whole(table[w][1], ILLUMINANT_PLACES) != line_d65(tens, w):
            raise Unreadable(f"D65 at {w} nm isn't on the line between tens: '{table[w][1]}'")
    return {w: line_d65(tens, w) for w in WAVELENGTHS}


def extract(folder):
    """The whole text of tables.txt, from the documents in `folder`."""
    two, three, four = (document(folder, number) for number in ("002", "003", "004"))
    x, y, z = observer(two, "Table 1 —")
    x10, y10, z10 = observer(two, "Table 2 —")
    check_sums(two, {"x": x, "y": y, "z": z, "x10": x10, "y10": y10, "z10": z10})

    # 002 and 003 print y and y10 both. They agree in every digit today; were
    # they to differ, a person should look before either is taken.
    if luminosity(three, "Table 6 —", "9.2", WAVELENGTHS) != y:
        raise Unreadable("V of document 003 isn't y of document 002")
    if luminosity(three, "Table 8 —", "Annex A", WAVELENGTHS) != y10:
        raise Unreadable("V10 of document 003 isn't y10 of document 002")
    vprime = luminosity(three, "Table 7 —", "9.3", range(380, 781))

    vf, vf10 = curves(folder)
    check_curve(luminosity(three, "Table E.1 —", None, PRINTED_CURVE), vf)

    power = rows(section(four, "TABLE 1. ", None), 3, range(300, LAST_PRINTED_A + 1))
    illuminants = illuminant_a(power), illuminant_d65(power)
    tables = x, y, z, x10, y10, z10, widened(vprime), *illuminants, widened(vf), widened(vf10)
    return HEAD + "".join(
        " ".join(str(number) for number in (w, *(table[w] for table in tables))) + "\n"
        for w in WAVELENGTHS
    )


def check(text):
    """Stops with a clear line unless tables.txt is `text`."""
    if not TABLES.exists():
        raise Unreadable(f"{TABLES.name} is missing")
    held = TABLES.read_text(encoding="utf-8").split("\n")
    given = text.split("\n")
    for i, (ours, theirs) in enumerate(zip(held, given), start=1):
        if ours != theirs:
            raise Unreadable(f"{TABLES.name} differs at line {i}: '{ours}', documents: '{theirs}'")
    if len(held) != len(given):
        raise Unreadable(f"{TABLES.name} has {len(held)} lines, documents: {len(given)}")


def main():
    parser = argparse.ArgumentParser(description="Extract the tables from the documents.")
    parser.add_argument("action", choices=["write", "check"])
    parser.add_argument("documents", nargs="?", type=Path, default=DOCUMENTS)
    wanted = parser.parse_args()
    try:
        text = extract(wanted.documents)
        if wanted.action == "write":
            TABLES.write_text(text, encoding="utf-8")
        else:
            check(text)
    except Unreadable as fault:
        sys.exit(f"tables.py: {fault}")


if __name__ == "__main__":
    main()
