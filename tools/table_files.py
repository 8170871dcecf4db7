"""The files of the tree that name every table, as text.

Each table stands twice: for the contracts in full, with what is computed over it, and for the code as a static, a curve's
in units. `each` turns what is computed over the list of all curves into a law.
"""

from string import Template
from typing import NamedTuple

# The stretches of places that a table has in the code, each with a unit of its own.
STRETCHES = 4
# The largest unit: weights are at 10^13 to one.
LARGEST_POWER = 13
# Fields that take no more room than this stand on one line where rt fmt lays out the code, and so wide are its lines.
SHORT = 18
WIDTH = 99


class Misfit(Exception):
    """A table that the code has no room for."""


class Table(NamedTuple):
    """A table of the tree: its enum in the code, its variant there and its name, what it is, and its entries."""

    enum: str
    variant: str
    name: str
    meaning: str
    entries: list

    def words(self):
        """What the templates say of it."""
        names = {"constant": self.name.upper(), "count": len(self.entries)}
        return self._asdict() | names


def filled(template, **words):
    return Template(template).substitute(words)


def for_each(template, tables):
    """The template once for each table."""
    return "".join(filled(template, **table.words()) for table in tables)


# The units of a curve's table


class Stretch(NamedTuple):
    """The places below `end`, from where the stretch before ends, and the unit that their entries are counted in."""

    end: int
    unit: int


def stretches_of(table):
    """The fewest stretches in each of which every entry is a whole number of one power of ten that fits 32 bits.

    Those of the code that the table doesn't need are empty ones at the end.
    """
    entries, stretches, end = table.entries, [], 0
    while end < len(entries):
        ends = {10**power: end_in_units(entries, end, 10**power) for power in range(LARGEST_POWER + 1)}
        # Of the units that reach as far the smallest, so that a table that fits as it stands is left so.
        unit = max(ends, key=lambda unit: (ends[unit], -unit))
        if ends[unit] == end:
            raise Misfit(f"{table.name}: entry {entries[end]} fits 32 bits in no unit")
        end = ends[unit]
        stretches.append(Stretch(end, unit))
    missing = STRETCHES - len(stretches)
    if missing < 0:
        raise Misfit(f"{table.name}: needs {len(stretches)} stretches, and the code has {STRETCHES}")
    return stretches + [Stretch(len(entries), 1)] * missing


def end_in_units(entries, begin, unit):
    misfits = (at for at in range(begin, len(entries)) if entries[at] % unit or entries[at] // unit >= 2**32)
    return next(misfits, len(entries))


def counts_of(table):
    """What the code holds of a curve's table: its entries, each counted in its stretch's unit."""
    counts = []
    for stretch in stretches_of(table):
        counts += [entry // stretch.unit for entry in table.entries[len(counts) : stretch.end]]
    return counts


# What the code reads

NUMBERS = """\
// The tables as the code reads them, from 360 to 830 nm, each a static that is read in place: written by tools/tables.
use crate::units::Stretch;
$curves$illuminants"""

CURVE_NUMBERS = """
// $meaning, counted in the unit of each stretch.
pub static $constant: [u64; $count] = [
$numbers];

pub static ${constant}_STRETCHES: [Stretch; $stretch_count] = [
$stretches];
"""

ILLUMINANT_NUMBERS = """
// $meaning.
pub static $constant: [u32; $count] = [
$numbers];
"""


def lines_of(words):
    """The words with commas, as many on a line as it takes."""
    lines = []
    for word in words:
        if lines and len(lines[-1]) + len(f" {word},") <= WIDTH:
            lines[-1] += f" {word},"
        else:
            lines.append(f"    {word},")
    return "".join(f"{line}\n" for line in lines)


def stretches_text(table):
    lines = []
    for stretch in stretches_of(table):
        fields = [f"end: {stretch.end}", f"unit: {stretch.unit}"]
        if len(", ".join(fields)) <= SHORT:
            lines.append(f"Stretch {{ {', '.join(fields)} }},")
        else:
            lines += ["Stretch {", *(f"    {field}," for field in fields), "},"]
    return "".join(f"    {line}\n" for line in lines)


def numbers_text(curves, illuminants):
    return filled(
        NUMBERS,
        curves="".join(
            filled(
                CURVE_NUMBERS,
                **curve.words(),
                numbers=lines_of(counts_of(curve)),
                stretch_count=STRETCHES,
                stretches=stretches_text(curve),
            )
            for curve in curves
        ),
        illuminants="".join(
            filled(ILLUMINANT_NUMBERS, **table.words(), numbers=lines_of(table.entries)) for table in illuminants
        ),
    )


# The proofs of the code

TABLE_PROOF = """\
-- The numbers of the code are the tables', counted in their units: written by tools/tables.
use Rattle.tables.specs.Tables.{table}
use Rattle.tables.specs.Units.{unit_at}
use Rattle.tables.specs.Held.{counted_from, in_units}
use Rattle.tables.proofs.Curve.table.Goals as goal
$answers"""

TABLE_ANSWER = """
pub returns-in-$variant-clause-counts : goal.returns-in-$variant-clause-counts
unfolding in_units counted_from unit_at table
returns-in-$variant-clause-counts c = rw c.in-$variant.is
"""

EACH = """\
-- What is computed alike over the list of all curves is equal at each of them: written by tools/tables.
use mathlib.Core.Path.{◌≡◌, ap}
use mathlib.Core.Bool.{true}
use mathlib.Core.List.{List, map}
use Prim.Native.Nat.{ℕ, ◌≤◌}
use borrow.Author.Tests.{leb-true}
use lib.Dec.{leb}
use lib.ListN.{get_or}
use Rattle.tables.specs.Columns.{curves}
use Rattle.tables.specs.declared.Curve.{Curve}
use Rattle.tables.specs.declared.Curve.TheVariants.{$variants}

pub each : {A : Type 0} (f g : Curve → A) → map f curves ≡ map g curves → (c : Curve) → f c ≡ g c
each {A} f g e = go
  where
    at : (k : ℕ) → get_or (map f curves) k (f $first) ≡ get_or (map g curves) k (f $first)
    at k = ap (λ (xs : List A). get_or xs k (f $first)) e

    go : (c : Curve) → f c ≡ g c
$cases
-- so is a bound that no curve's number passes, or falls short of
pub each_most : (f : Curve → ℕ) (most : ℕ) → map (λ c. leb (f c) most) curves ≡ map (λ c. true) curves → (c : Curve) → f c ≤ most
each_most f most e c = leb-true (f c) most (each (λ c. leb (f c) most) (λ c. true) e c)

pub each_least : (f : Curve → ℕ) (least : ℕ) → map (λ c. leb least (f c)) curves ≡ map (λ c. true) curves → (c : Curve) → least ≤ f c
each_least f least e c = leb-true least (f c) (each (λ c. leb least (f c)) (λ c. true) e c)
"""

def table_proof(curves):
    return filled(TABLE_PROOF, answers=for_each(TABLE_ANSWER, curves))


def each_text(curves):
    cases = "".join(f"    go {curve.variant} = at {place}\n" for place, curve in enumerate(curves))
    return filled(EACH, variants=variants_of(curves), first=curves[0].variant, cases=cases)


# What the contracts read

TABLES = """\
-- The tables as the contracts read them, from 360 to 830 nm: written by tools/tables from the source documents and, where said,
-- from elsewhere.
use Rattle.std.specs.Prelude.{List, [], ◌∷◌, ◌++◌, ℕ, replicate}
use Rattle.tables.specs.declared.Curve.{Curve}
use Rattle.tables.specs.declared.Curve.TheVariants.{$curves}
use Rattle.tables.specs.declared.Illuminant.{Illuminant}
use Rattle.tables.specs.declared.Illuminant.TheVariants.{$illuminants}

-- the whole table of a curve, from 360 nm on
unfoldable pub table : Curve → List ℕ
$table
-- and of an illuminant
unfoldable pub powers : Illuminant → List ℕ
$powers"""

COLUMNS = """\
-- What is computed over each table: written by tools/tables, and proved.
use Rattle.std.specs.Prelude.{List, [], ◌∷◌, ℕ}
use Rattle.tables.specs.Units.{stretch}
use Rattle.tables.specs.declared.Curve.{Curve}
use Rattle.tables.specs.declared.Curve.TheVariants.{$curves}
use Rattle.tables.specs.declared.Illuminant.{Illuminant}
use Rattle.tables.specs.declared.Illuminant.TheVariants.{$illuminants}
use Rattle.tables.specs.declared.units.Stretch.{Stretch}

-- every curve
abbrev pub curves : List Curve
curves = $list

-- what the entries of a curve add up to
abbrev pub table_sum : Curve → ℕ
$table_sum
-- and the largest of them
abbrev pub table_top : Curve → ℕ
$table_top
-- the same of an illuminant
abbrev pub powers_sum : Illuminant → ℕ
$powers_sum
-- and its largest
abbrev pub powers_top : Illuminant → ℕ
$powers_top
-- what illuminant times curve adds up to
abbrev pub lit_sum : Illuminant → Curve → ℕ
$lit_sum
-- the units in which the code counts a curve's entries, stretch by stretch
abbrev pub units : Curve → List Stretch
$units"""


def variants_of(tables):
    return ", ".join(table.variant for table in tables)


def list_text(entries):
    """A table's entries, ten a line, so that a line is ten nanometres; whole tens of 0 at an end are said at once."""
    tens = [entries[at : at + 10] for at in range(0, len(entries), 10)]
    lit = [at for at, ten in enumerate(tens) if any(ten)]
    begin, end = 10 * lit[0], min(10 * lit[-1] + 10, len(entries))
    rows = [" ∷ ".join(str(entry) for entry in ten) for ten in tens[lit[0] : lit[-1] + 1]]
    before = f"replicate {begin} 0 ++ " if begin else ""
    behind = f"replicate {len(entries) - end} 0" if end < len(entries) else "[]"
    return "    " + before + "\n    ∷ ".join([*rows, behind])


def clauses(name, tables, number):
    """A line of a definition for each table."""
    return "".join(f"{name} {table.variant} = {number(table)}\n" for table in tables)


def listed(name, tables):
    """The same with each table's entries, and what it is."""
    return "".join(f"-- {table.meaning}\n{name} {table.variant} =\n{list_text(table.entries)}\n" for table in tables)


def tables_text(curves, illuminants):
    return filled(
        TABLES,
        curves=variants_of(curves),
        illuminants=variants_of(illuminants),
        table=listed("table", curves),
        powers=listed("powers", illuminants),
    )


def sum_of(table):
    return sum(table.entries)


def largest_of(table):
    return max(table.entries)


def units_of(curve):
    return " ∷ ".join([*(f"stretch {stretch.end} {stretch.unit}" for stretch in stretches_of(curve)), "[]"])


def lit_sums(illuminant, curves):
    def lit_by(curve):
        return sum(power * weight for power, weight in zip(illuminant.entries, curve.entries))

    return clauses(f"lit_sum {illuminant.variant}", curves, lit_by)


def columns_text(curves, illuminants):
    return filled(
        COLUMNS,
        curves=variants_of(curves),
        illuminants=variants_of(illuminants),
        list=" ∷ ".join([curve.variant for curve in curves] + ["[]"]),
        table_sum=clauses("table_sum", curves, sum_of),
        table_top=clauses("table_top", curves, largest_of),
        powers_sum=clauses("powers_sum", illuminants, sum_of),
        powers_top=clauses("powers_top", illuminants, largest_of),
        lit_sum="".join(lit_sums(illuminant, curves) for illuminant in illuminants),
        units=clauses("units", curves, units_of),
    )


def texts_of(curves, illuminants):
    """Every file by its name."""
    return {
        "crates/tables/src/numbers.rt": numbers_text(curves, illuminants),
        "crates/tables/specs/Tables.antt": tables_text(curves, illuminants),
        "crates/tables/specs/Columns.antt": columns_text(curves, illuminants),
        "crates/tables/proofs/Curve/table/Answers.antt": table_proof(curves),
        "crates/tables/proofs/Each.antt": each_text(curves),
    }
