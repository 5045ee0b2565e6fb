#!/usr/bin/env python3
"""Writes the number tables of the crates names_upper, names_a_to_l and names_m_to_z from the readable entries of crates/rules/specs/Names.antt, the list of values of
names_search, the choice by first letter in names, the table of names_bare from the entries and the names of Bare.antt, and the tables of names_written, by
characters, the shortest name of each, and of several as short the first by bytes: the code and the proofs of it.

Nothing rests on this script: the check of the crates compares every number with the entries. It takes a moment."""
import argparse
import re
import sys
from pathlib import Path

ROOT = Path(__file__).resolve().parent.parent
ENTRIES = ROOT / "crates/rules/specs/Names.antt"
BARE = ROOT / "crates/rules/specs/Bare.antt"

# A group has at most so many names, since it is searched name by name. Where more have the same first two letters, they are groups by the fourth, which have
# at most so many.
LARGEST = 32
LARGEST_BY_FOURTH = 20

# The letters of each crate.
CRATES = {"names_upper": "ABCDEFGHIJKLMNOPQRSTUVWXYZ", "names_a_to_l": "abcdefghijkl", "names_m_to_z": "mnopqrstuvwxyz"}

# The ranges of characters of names_written, each from its first to its last character that has a name, by the function that chooses among them and the
# span of characters that it is for. The tables of a range are laid out on the stack, so none has much over a kilobyte; and a function has few, so that they
# are all compiled in line, where they share one place.
SPANS = {
    "put_from_80": ((0x80, 0x2FF), [(0xA0, 0xFF), (0x100, 0x17F), (0x180, 0x2FF)]),
    "put_from_300": ((0x300, 0x215F), [(0x300, 0x45F), (0x2000, 0x20FF), (0x2100, 0x215F)]),
    "put_from_2160": ((0x2160, 0x22FF), [(0x2160, 0x21FF), (0x2200, 0x227F), (0x2280, 0x22FF)]),
    "put_from_2300": ((0x2300, 0x27FF), [(0x2300, 0x24FF), (0x2500, 0x25FF), (0x2600, 0x27FF)]),
    "put_from_2800": ((0x2800, 0x2A7F), [(0x2900, 0x297F), (0x2980, 0x29FF), (0x2A00, 0x2A7F)]),
    "put_from_2a80": ((0x2A80, 0x10FFFF), [(0x2A80, 0x2AFF), (0xFB00, 0xFB04), (0x1D49C, 0x1D56B)]),
}

HEAD = """\
// Made by tools/make_names.py from the entries of crates/rules/specs/Names.antt; not to be edited.
// The names that begin with {letters}, a function for each letter, and in it groups by the second byte, or by the second and the fourth. Each group
// is a table: the names one after the other without their first letter, the length of each, and the numbers of their values (`code_bytes` in
// crates/names_search/specs/Lent.antt).
// A function for each group, as each has a contract of its own, proved by computing; the work of all is `Table::find`.
#![tactic(auto)]

ghost use Rattle.std.specs.Prelude.{{◌≡◌, ◌∷◌}};
ghost use Rattle.rules.specs.Names.{{{lists}}};
ghost use Rattle.rules.specs.References.{{lookup}};
ghost use Rattle.rules.specs.Answers.{{meaning_bytes}};
ghost use Rattle.names_search.specs.Having.{{having}};

use names_search::Table;
use rules::DecodedEntityValue;
"""

BARE_CODE = """\
// Made by tools/make_names.py from crates/rules/specs/Bare.antt and Names.antt; not to be edited.
// The names without `;` as numbers: a name's bytes, the first highest, and behind them three bits that say how many they are.
ghost use Rattle.std.specs.Prelude.{{false, ◌≡◌, ◌<◌, MatchOption}};
ghost use Rattle.rules.specs.Bytes.{{In}};
ghost use Rattle.names_bare.specs.Words.{{words, char_for, heads}};

// Reports whether the first two bytes of a text may begin such a name. Most references that stay end here.
pub fn begins(head: u64) -> bool
    ensures {{ result ≡ false → In head heads → ⊥ }}
{{
    match head {{
{heads}
        _ => false,
    }}
}}

// Returns the number of the character that such a name stands for.
pub fn character(word: u64) -> Option<u32>
    ensures {{ MatchOption result (char_for words word ≡ 0) (λ number. (number ≡ char_for words word) × (0 < number)) }}
{{
    match word {{
{arms}
        _ => None,
    }}
}}
"""

BARE_WORDS = """\
-- Made by tools/make_names.py from crates/rules/specs/Bare.antt and Names.antt; not to be edited.
-- The names without `;` as numbers, each with the number of the character that it stands for, and the first two bytes of each. That they are those of the
-- tables is computed (proofs/Words.antt). Assumes nothing.
use Rattle.std.specs.Prelude.{{List, [], ◌∷◌, ℕ}}
use Rattle.names_search.specs.Pairs.{{beside}}

-- The number beside n in a table of pairs, or 0 where it is in none.
abbrev pub char_for : List (ℕ × ℕ) → ℕ → ℕ
char_for pairs n = beside 0 pairs n

-- The names.
unfoldable pub words : List (ℕ × ℕ)
words =
    {words}
    ∷ []

-- Their first two bytes.
unfoldable pub heads : List ℕ
heads =
    {heads}
    ∷ []
"""

MATCH_PROOF = """\
-- `{path}` meets its contract: each number of the table is one arm, and a number of none of them stands for none.
-- Made by tools/make_names.py. Assumes nothing.
{uses}use mathlib.Core.List.{{map}}
use Prim.Native.Nat.{{ℕ}}
use {specs}.{{{table}}}
use Rattle.names_search.proofs.Arms.{{rest-none, beside-out}}
use {proofs}.Goals as goal

{arms}
pub {rest} : goal.{rest}
unfolding {table}
{rest} c = let n = c.args.{argument} in {turn}(beside-out 0 {table} n (rest-none n _ (map (λ (pair : ℕ × ℕ). pair.0) {table}) c.in_default.in_default-own.rest))
"""

BARE_USES = """\
use Rattle.std.proofs.Common.{refl, lit<}
"""

HEADS_PROOF = """\
-- `names_bare::table::begins` meets its contract: each head is one arm, and the last arm knows that it is none of them.
-- Made by tools/make_names.py. Assumes nothing.
use mathlib.Core.Path.{{subst}}
use lib.Dec.{{T}}
use Rattle.names_bare.specs.Words.{{heads}}
use Rattle.names_search.proofs.Arms.{{rest-none}}
use Rattle.names_bare.proofs.table.begins.Goals as goal

{arms}
pub {rest} : goal.{rest}
unfolding heads
{rest} c = λ e. rest-none c.args.head _ heads c.in_default.in_default-own.rest
"""

GROUP = """
const {const}: Table<'static> = Table {{
    names: b"\\
{names}",
{lengths}
    values: &[
{values}
    ],
}};

// What `{letter}` and `rest` stand for{among}.
{public}fn {function}(rest: &[u8]) -> Option<DecodedEntityValue>
    ensures {{ meaning_bytes result ≡ lookup {rows} (0x{first:X} ∷ rest.now) }}
{{
    {const}.find(rest)
}}
"""

WRITTEN_HEAD = """\
// Made by tools/make_names.py from the entries of crates/rules/specs/Names.antt; not to be edited.
// The names that are written for characters, in ranges. Each range is two number tables: the names' bytes one after the other, and where the name of each
// character begins and the last one ends; a character without a name has no bytes.
// A function for each range, as each has a contract of its own, proved by computing; the work of all is `put_named`, and 0 is the length of no bytes.
ghost use Rattle.std.specs.Prelude.{◌≡◌, ◌≤◌, length};
ghost use Rattle.rules.specs.Utf8.{utf8};
ghost use Rattle.rules.specs.Ascii.{name_of};
ghost use Rattle.rules.specs.Browsing.{given};
ghost use Rattle.names_written.specs.Ties.{Puts};

use crate::place;
"""

WRITTEN_GROUP = """
const {const}_NAMES: [u8; {size}] = *b"\\
{names}";

{offsets}

// Copies the name of a character from U+{low:04X} to U+{high:04X} to the start of `room` and returns its length, 0 if it has none.
pub fn {function}(code: u32, room: &mut [u8]) -> usize
    requires {{ (0x{low:X} ≤ code) × (code ≤ 0x{high:X}) × (20 ≤ length room.old) }}
    ensures {{ Puts (given (name_of (utf8 code))) result room.old room.new × (result ≤ 20) }}
{{
    place::put_named({arguments})
}}
"""

SPAN_HEAD = """\
// Made by tools/make_names.py from the entries of crates/rules/specs/Names.antt; not to be edited.
// The choice of a table by the range that a character is in.
ghost use Rattle.std.specs.Prelude.{◌≡◌, ◌≤◌, length};
ghost use Rattle.rules.specs.Bytes.{inside};
ghost use Rattle.rules.specs.Utf8.{utf8};
ghost use Rattle.rules.specs.Ascii.{name_of};
ghost use Rattle.rules.specs.Browsing.{given};
ghost use Rattle.names_written.specs.Ties.{Puts};

use crate::table;

// Reports whether a character is from `low` to `high`.
fn is_among(low: u32, high: u32, code: u32) -> bool
    ensures { result ≡ inside (low, high) code }
{
    (low <= code) & (code <= high)
}
"""

SPAN_CODE = """
// Copies the name of a character from U+{low:04X} to U+{high:04X}, as `put_name` does.
pub fn {function}(code: u32, room: &mut [u8]) -> usize
    requires {{ (0x{low:X} ≤ code) × (code ≤ 0x{high:X}) × (20 ≤ length room.old) }}
    ensures {{ Puts (given (name_of (utf8 code))) result room.old room.new × (result ≤ 20) }}
{{
{tests}
    0
}}
"""

SPAN_TEST = """\
    if is_among(0x{low:X}, 0x{high:X}, code) {{
        return table::from_{low:x}(code, room);
    }}"""

SPAN_PROOF = """\
-- `names_written::choice::{function}` meets its contract: the name is in the table of the range that the character is in, and there is none outside of
-- all ranges.
-- Made by tools/make_names.py. Assumes nothing.
use mathlib.Core.Bool.{{false}}
use mathlib.Core.Path.{{◌≡◌, refl, sym, ◌∙◌}}
use mathlib.Core.List.{{[], ◌∷◌}}
use native.Mathlib.Omega.{{arith}}
use Rattle.rules.specs.Bytes.{{inside}}
use Rattle.rules.specs.Names.{{names}}
use Rattle.names_written.proofs.Named.{{among, none-outside}}
use Rattle.names_written.proofs.choice.{function}.Goals as goal

{needs}
pub returns : goal.returns
unfolding names
returns c =
    let code = c.args.code in
    let h = c.requires in
{tests}
    let none = none-outside (0x{low:X}, 0x{high:X}) ({ranges} ∷ []) tt code h.0 h.1 (omega (arith, h)) (rw ({facts}) refl) in
    (rw none (refl, refl), omega arith)
"""

SPAN_NEEDS = """\
pub from_{low:x}-requires : goal.from_{low:x}-requires
from_{low:x}-requires c =
    let (l, h) = among c.is_among{dash}.result 0x{low:X} 0x{high:X} c.args.code c.is_among{dash}.ensures c.if-is_among{dash}.true in
    (l, h, c.requires.2)
"""

WRITTEN_PROOF = """\
-- `names_written::table::{function}` meets its contract: computed, its numbers are the names of the rule.
-- Made by tools/make_names.py. Assumes nothing.
use native.Mathlib.Omega.{{arith}}
use Rattle.rules.specs.Names.{{names}}
use Rattle.names_written.specs.Ties.{{is_tied}}
use Rattle.names_written.proofs.Named.{{in_table, in-unicode}}
use Rattle.names_written.proofs.table.{function}.Goals as goal

pub put_named-requires : goal.put_named-requires
unfolding is_tied names
put_named-requires c =
    let h = c.requires in
    (h.0, in_table c.args.code 0x{low:X} 0x{high:X} {places} h.0 h.1 (omega arith), in-unicode c.args.code 0x{high:X} h.1 (omega arith), h.2, tt)

pub returns : goal.returns
returns c = c.put_named.ensures
"""

LETTER = """
// What `{letter}` and `rest` stand for.
pub fn {function}(rest: &[u8]) -> Option<DecodedEntityValue>
    ensures {{ meaning_bytes result ≡ lookup {rows} (0x{first:X} ∷ rest.now) }}
{{
    let second = names_search::byte_at(rest, 0);
{tests}
    {last}(rest)
}}
"""

BY_FOURTH = """
// What `{letter}` and `rest` stand for{among}.
fn {function}(rest: &[u8]) -> Option<DecodedEntityValue>
    ensures {{ meaning_bytes result ≡ lookup {rows} (0x{first:X} ∷ rest.now) }}
{{
    let fourth = names_search::byte_at(rest, 2);
{tests}
    {last}(rest)
}}
"""

GROUP_PROOF = """\
-- `{crate}::{function}` meets its contract: computed, its numbers are those rows of the table.
-- Made by tools/make_names.py. Assumes nothing.
use Rattle.rules.specs.Names.{{{list}}}
use Rattle.names_search.specs.Listed.{{listed}}
use Rattle.{crate}.proofs.{function}.Goals as goal

pub returns : goal.returns
unfolding {list} listed
returns c = c.find.ensures 0x{first:X}
"""

PARTS_PROOF = """\
-- `{crate}::{function}` meets its contract: a name is looked up in the group of its {which} byte as it is in all of them.
-- Made by tools/make_names.py. Assumes nothing.
use mathlib.Core.Path.{{◌∙◌}}
use mathlib.Core.List.{{◌∷◌}}
use native.Mathlib.Omega.{{arith}}
use Rattle.rules.specs.Names.{{{list}}}
{uses}use Rattle.names_search.proofs.Lookups.{{in-part}}
use Rattle.{crate}.proofs.{function}.Goals as goal

{needs}"""

PARTS_NEEDS = """\
pub {name} : goal.{name}
{name} c = c.{called}.ensures ∙ in-part {place} 0x{low:02X} 0x{high:02X} (0x{first:X} ∷ c.args.rest.now) (omega {facts}) (omega {facts}) {rows}
"""

CHOICE_CODE = """\
// Made by tools/make_names.py from crates/rules/specs/Names.antt; not to be edited.
// The choice of a table by the first letter of a name.
ghost use Rattle.std.specs.Prelude.{{◌≡◌, ◌∷◌}};
ghost use Rattle.rules.specs.Names.{{names}};
ghost use Rattle.rules.specs.References.{{lookup}};
ghost use Rattle.rules.specs.Answers.{{meaning_bytes}};

use rules::DecodedEntityValue;

// Returns the value of the name that is the byte `first` and then `rest`, or nothing.
pub fn find_by_letter(first: u8, rest: &[u8]) -> Option<DecodedEntityValue>
    ensures {{ meaning_bytes result ≡ lookup names (first ∷ rest.now) }}
{{
    match first {{
{arms}
        _ => None,
    }}
}}
"""

CHOICE_PROOF = """\
-- `names::by_letter::find_by_letter` meets its contract: a name is looked up among those of its first letter, and no name begins with another byte.
-- Made by tools/make_names.py. Assumes nothing.
use mathlib.Core.Path.{{◌∙◌}}
use mathlib.Core.List.{{List, map}}
use Prim.Native.Nat.{{ℕ}}
use Rattle.rules.specs.Tables.{{Row}}
use Rattle.names_search.proofs.Arms.{{rest-none}}
use Rattle.names.proofs.Letters.{{letters, at-letter, no-letter}}
use Rattle.names.proofs.by_letter.find_by_letter.Goals as goal

{arms}
pub {rest} : goal.{rest}
unfolding letters
{rest} c =
    let a = c.args in
    no-letter a.first a.rest.now (rest-none a.first _ (map (λ (pair : ℕ × List Row). pair.0) letters) c.in_default.in_default-own.rest)
"""

CHOICE_ARM = """\
pub {name} : goal.{name}
unfolding letters
{name} c =
    let a = c.args in
    c.{called}.ensures ∙ at-letter 0x{first:X} a.first a.rest.now c.in-{first}.is
"""

LISTED_CODE = """\
// Made by tools/make_names.py from crates/rules/specs/Names.antt; not to be edited.
// The values that are no character below E000 hex or from 1D400 to 1D7FF hex, most of them two characters, by the numbers that the tables have for them.
// A number that no table has gives 0, which packs no bytes: no table asks for one.
ghost use Rattle.std.specs.Prelude.{{◌≡◌}};
ghost use Rattle.names_search.specs.Pairs.{{beside}};
ghost use Rattle.names_search.specs.Listed.{{listed}};

// Returns the value of such a number, packed, the first byte lowest; 0 for any other number.
pub fn listed_value(code: u16) -> u64
    ensures {{ result ≡ beside 0 listed code }}
{{
    match code {{
{arms}
        _ => 0,
    }}
}}
"""

LISTED_SPECS = """\
-- Made by tools/make_names.py from crates/rules/specs/Names.antt; not to be edited.
-- The values that are no character below E000 hex or from 1D400 to 1D7FF hex: the number that the tables have for each, and its bytes packed, the first lowest.
-- Assumes nothing.
use Rattle.std.specs.Prelude.{{List, [], ◌∷◌, ℕ}}

unfoldable pub listed : List (ℕ × ℕ)
listed =
    {pairs}
    ∷ []
"""

def entries():
    """The entries in the order of the table: each a name and the bytes of its value."""
    text = ENTRIES.read_text(encoding="utf-8")
    found = []
    for name, numbers in re.findall(r'entry "(\w+)" \(([^)]*)\)', text):
        value = "".join(chr(int(n, 16)) for n in re.findall(r"0x([0-9A-F]+)", numbers)).encode("utf-8")
        if len(value) > 6 or 0 in value:
            sys.exit(f"{name}: its value cannot be packed")
        found.append((name, value))
    return found


def lines_of(words, width, indent=4):
    """The words one after the other, in lines of at most that width, each but the last ended by a backslash."""
    lines = [""]
    for word in words:
        if len(lines[-1]) + len(word) > width:
            lines.append("")
        lines[-1] += word
    return "\\\n".join(" " * indent + line for line in lines)


def arms(keys):
    """What the goals of a match are called: one for each number of an arm, and the last for every other number."""
    return [f"returns-in-{key}" for key in keys] + ["returns-in_default"]


def match_proof(crate, module, function, specs, table, argument, keys, uses="use mathlib.Core.Path.{sym}\n", rest="", turn="sym "):
    """The proof of a function that is one match with an arm for each pair of a table; `rest` proves what an arm says beside its value, and
    `turn` turns the equation of the last arm."""
    names = arms(keys)
    proofs = [f"pub {name} : goal.{name}\nunfolding {table}\n{name} c = rw c.in-{key}.is{rest}\n" for key, name in zip(keys, names)]
    return MATCH_PROOF.format(
        uses=uses,
        turn=turn,
        path=f"{crate}::{module}::{function}",
        specs=f"Rattle.{crate}.specs.{specs}",
        proofs=f"Rattle.{crate}.proofs.{module}.{function}",
        table=table,
        argument=argument,
        arms="\n".join(proofs),
        rest=names[-1],
    )


def bare_of(rows):
    """The names without `;`: the code, the definitions that it is held to, and the proofs of the two functions with an arm for each."""
    words = [(int.from_bytes(name.encode(), "big") * 8 + len(name), ord(value.decode()), name) for name, value in rows]
    heads = sorted({word >> 8 * (len(name) - 2) + 3 for word, _, name in words})
    begins = arms(heads)
    code = BARE_CODE.format(heads="\n".join(f"        0x{head:X} => true," for head in heads), arms="\n".join(f"        0x{word:X} => Some(0x{value:X}), // {name}" for word, value, name in words))
    specs = BARE_WORDS.format(
        words="\n    ∷ ".join(f"(0x{word:X}, 0x{value:X})" for word, value, _ in words),
        heads="\n    ∷ ".join(f"0x{head:X}" for head in heads),
    )
    proofs = {
        "character": match_proof("names_bare", "table", "character", "Words", "words", "word", [word for word, _, _ in words], BARE_USES, " (refl, lit< tt)", ""),
        "begins": HEADS_PROOF.format(
            arms="\n".join(f"pub {name} : goal.{name}\n{name} c = λ e. absurd (subst T e tt)\n" for name in begins[:-1]),
            rest=begins[-1],
        ),
    }
    return code, specs, proofs


def written(table):
    """The name that is written for each character above 7F that has one."""
    best = {}
    for name, value in table:
        text = value.decode("utf-8")
        if len(text) == 1 and ord(text) > 0x7F:
            code = ord(text)
            best[code] = min(best.get(code, name), name, key=lambda n: (len(n), n))
    return best


def ranges_of(best, parts):
    """The ranges, each from its first to its last character that has a name."""
    for first, last in parts:
        codes = [code for code in best if first <= code <= last]
        yield min(codes), max(codes)


def range_code(best, low, high):
    """The tables of a range and the function that searches them; and its proof."""
    names = [best.get(code, "") for code in range(low, high + 1)]
    places = [0]
    for name in names:
        places.append(places[-1] + len(name))
    function = f"from_{low:x}"
    code = WRITTEN_GROUP.format(
        const=function.upper(),
        function=function,
        low=low,
        high=high,
        size=places[-1],
        names=lines_of([name for name in names if name], 110),
        offsets=numbers_of(f"const {function.upper()}_OFFSETS: [u16; {len(places)}] = ", places),
        arguments=arguments_of(["code", f"0x{low:X}", f"&{function.upper()}_NAMES", f"&{function.upper()}_OFFSETS", "room"]),
    )
    return code, WRITTEN_PROOF.format(function=function, low=low, high=high, places=len(places))


def span_code(function, span, ranges):
    """The function that chooses among the ranges of a span; and its proof."""
    dashes = [""] + [f"-{k}" for k in range(2, len(ranges) + 1)]
    code = SPAN_CODE.format(function=function, low=span[0], high=span[1], tests="\n".join(SPAN_TEST.format(low=low, high=high) for low, high in ranges))
    needs = [SPAN_NEEDS.format(low=low, high=high, dash=dash) for dash, (low, high) in zip(dashes, ranges)]
    tests = [
        f"    let e{k} : inside (0x{low:X}, 0x{high:X}) code ≡ false = sym c.is_among{dash}.ensures ∙ c.if-is_among{dash}.false in"
        for k, (dash, (low, high)) in enumerate(zip(dashes, ranges), 1)
    ]
    proof = SPAN_PROOF.format(
        function=function,
        needs="\n".join(needs),
        tests="\n".join(tests),
        low=span[0],
        high=span[1],
        ranges=" ∷ ".join(f"(0x{low:X}, 0x{high:X})" for low, high in ranges),
        facts=", ".join(f"e{k}" for k in range(1, len(ranges) + 1)),
    )
    return code, proof


def written_files(table):
    """The crate names_written: the tables of the ranges, the choice among them, and the proofs."""
    folder, best = ROOT / "crates/names_written", written(table)
    made, tables, choice, covered = {}, WRITTEN_HEAD, SPAN_HEAD, set()
    for function, (span, parts) in SPANS.items():
        ranges = list(ranges_of(best, parts))
        for low, high in ranges:
            code, made[folder / f"proofs/table/from_{low:x}/Answers.antt"] = range_code(best, low, high)
            tables += code
            covered.update(range(low, high + 1))
        code, made[folder / f"proofs/choice/{function}/Answers.antt"] = span_code(function, span, ranges)
        choice += code
    if not set(best) <= covered:
        sys.exit("a character that has a name is in no range")
    return made | {folder / "src/table.rt": tables, folder / "src/choice.rt": choice}


def pack(value):
    """The bytes of a value as one number, the first lowest."""
    return int.from_bytes(value, "little")


def listed_of(table):
    """The values that have a number of their own: those that are no character with a number below E000 or from 1D400 to 1D7FF."""
    odd = {value: None for _, value in table if len(value.decode()) > 1 or not (ord(value.decode()) < 0xE000 or 0x1D400 <= ord(value.decode()) < 0x1D800)}
    return {value: 0xF000 + k for k, value in enumerate(odd)}


def code_of(value, listed):
    """The number of a value in the tables, of two bytes."""
    if value in listed:
        return listed[value]
    character = ord(value.decode())
    return character if character < 0xE000 else character - 0x1D400 + 0xE000


def listed_files(listed):
    """The list of values: the code, the definition that it is held to, and its proof."""
    folder = ROOT / "crates/names_search"
    return {
        folder / "src/listed.rt": LISTED_CODE.format(arms="\n".join(f"        0x{code:X} => 0x{pack(value):X}," for value, code in listed.items())),
        folder / "specs/Listed.antt": LISTED_SPECS.format(pairs="\n    ∷ ".join(f"(0x{code:X}, 0x{pack(value):X})" for value, code in listed.items())),
        folder / "proofs/listed/listed_value/Answers.antt": match_proof("names_search", "listed", "listed_value", "Listed", "listed", "code", list(listed.values())),
    }


def groups_of(rows, place, largest):
    """The rows in groups of at most so many, if that can be: each has the rows with some bytes at a place of their names, in the order of the table."""
    groups = [[]]
    for byte in sorted({name[place : place + 1] for name, _ in rows}):
        more = [row for row in rows if row[0][place : place + 1] == byte]
        if groups[-1] and len(groups[-1]) + len(more) > largest:
            groups.append([])
        groups[-1] += more
    return [[row for row in rows if row in group] for group in groups]


def list_of(letter):
    """What the list of the names of a letter is called in crates/rules/specs/Names.antt."""
    return f"{'upper' if letter.isupper() else 'lower'}-{letter}"


def function_of(letter):
    """What the function of a letter is called."""
    return list_of(letter).replace("-", "_").lower()


def numbers_of(head, numbers, end=";", indent=0):
    """A table of numbers: in one line if it is short, and otherwise in lines that are as full as they can be, as the formatter has it."""
    words = ", ".join(map(str, numbers))
    if len(words) <= 60:
        return f"{' ' * indent}{head}[{words}]{end}"
    start = " " * (indent + 3)
    lines = [start]
    for k, number in enumerate(numbers, 1):
        if len(lines[-1]) + len(f" {number},") > (100 if k == len(numbers) else 99):
            lines.append(start)
        lines[-1] += f" {number},"
    return f"{' ' * indent}{head}[\n" + "\n".join(lines) + f"\n{' ' * indent}]{end}"


def arguments_of(words):
    """The arguments of a call: in one line where they fit, as the formatter has it."""
    line = ", ".join(words)
    return line if len(line) <= 60 else "\n" + "".join(f"        {word},\n" for word in words) + "    "


class Group:
    """Some rows of a letter: how they are called, and which rows of its list they are, as the code says it and as the definitions do."""

    def __init__(self, crate, letter, function, rows, among="", said=None):
        self.crate, self.letter, self.function, self.rows, self.among, self.said = crate, letter, function, rows, among, said or list_of(letter)

    def facts(self):
        return {
            "crate": self.crate,
            "letter": self.letter,
            "function": self.function,
            "list": list_of(self.letter),
            "first": ord(self.letter),
            "among": self.among,
            "rows": self.said,
        }

    def parts(self, place, largest):
        """Its groups by the byte at a place of the names, each with the range of that byte."""
        groups = groups_of(self.rows, place, largest)
        lows = [0] + [min(ord(name[place]) for name, _ in group) for group in groups[1:]]
        for k, (rows, low, high) in enumerate(zip(groups, lows, lows[1:] + [256])):
            words = "where `rest` begins with a byte" if place == 1 else "and the fourth byte of the name is one"
            among = f"{self.among or ','} {words} from {low:02X} to {high - 1:02X} hex"
            said = f"(having {place} (0x{low:02X}, 0x{high - 1:02X}) {self.said})"
            yield Group(self.crate, self.letter, f"{self.function}_{k + 1}", rows, among, said), (low, high - 1)


def table_code(group, listed, public):
    """The tables of a group and the function that searches them; and its proof."""
    rest = [name[1:] for name, _ in group.rows]
    code = GROUP.format(
        const=group.function.upper(),
        public="pub " if public else "",
        names=lines_of(rest, 106, 8),
        lengths=numbers_of("lengths: &", [len(name) for name in rest], ",", 4),
        values="\n".join(f"        0x{code_of(value, listed):04X}, // {name}" for name, value in group.rows),
        **group.facts(),
    )
    return code, {group.function: GROUP_PROOF.format(**group.facts())}


def choice_code(group, place, parts):
    """The function that chooses one of the groups of a group by the byte at a place of the name; and its proof."""
    byte, template = ("second", LETTER) if place == 1 else ("fourth", BY_FOURTH)
    tests = "\n".join(f"    if {byte} < b'{chr(low)}' {{\n        return {called.function}(rest);\n    }}" for (called, _), (_, (low, _)) in zip(parts, parts[1:]))
    code = template.format(tests=tests, last=parts[-1][0].function, **group.facts())
    names = [f"returns-then-{byte}-lt{low}" for _, (low, _) in parts[1:]] + ["returns"]
    needs = [
        PARTS_NEEDS.format(
            called=called.function,
            name=name,
            place=place,
            low=low,
            high=high,
            facts=f"(arith, c.byte_at-{byte}.ensures)",
            first=ord(group.letter),
            rows=group.said,
        )
        for (called, (low, high)), name in zip(parts, names)
    ]
    uses = "" if place == 1 else "use Rattle.names_search.specs.Having.{having}\n"
    return code, {group.function: PARTS_PROOF.format(which=byte, uses=uses, needs="\n".join(needs), **group.facts())}


def group_files(group, listed):
    """The code of a group of a letter, by the fourth byte if it is large, and its proofs by their functions."""
    parts = list(group.parts(3, LARGEST_BY_FOURTH)) if len(group.rows) > LARGEST else []
    if len(parts) < 2:
        return table_code(group, listed, False)
    code, proofs = "", {}
    for part, _ in parts:
        more, proof = table_code(part, listed, False)
        code, proofs = code + more, proofs | proof
    more, proof = choice_code(group, 3, parts)
    return code + more, proofs | proof


def letter_files(crate, letter, rows, listed):
    """The code of one letter, and its proofs by their functions."""
    whole = Group(crate, letter, function_of(letter), rows)
    parts = list(whole.parts(1, LARGEST))
    if len(parts) == 1:
        return table_code(whole, listed, True)
    code, proofs = "", {}
    for part, _ in parts:
        more, proof = group_files(part, listed)
        code, proofs = code + more, proofs | proof
    more, proof = choice_code(whole, 1, parts)
    return code + more, proofs | proof


def choice_files():
    """The choice by the first letter: the code, and its proof."""
    letters = [letter for crate in CRATES.values() for letter in crate]
    crate_of = {letter: crate for crate, own in CRATES.items() for letter in own}
    calls = {letter: f"{crate_of[letter]}::{function_of(letter)}(rest)" for letter in letters}
    names = arms([ord(letter) for letter in letters])
    proofs = [CHOICE_ARM.format(name=name, called=function_of(letter), first=ord(letter)) for name, letter in zip(names, letters)]
    folder = ROOT / "crates/names"
    return {
        folder / "src/by_letter.rt": CHOICE_CODE.format(arms="\n".join(f"        b'{letter}' => {calls[letter]}," for letter in letters)),
        folder / "proofs/by_letter/find_by_letter/Answers.antt": CHOICE_PROOF.format(
            arms="\n".join(proofs),
            rest=names[-1],
        ),
    }


def table_files(table, listed):
    """The crates of the tables: the code, and the proof of each function."""
    made = {}
    for crate, letters in CRATES.items():
        folder = ROOT / "crates" / crate
        code = HEAD.format(letters=f"{letters[0]} to {letters[-1]}", lists=", ".join(list_of(letter) for letter in letters))
        for letter in letters:
            text, proofs = letter_files(crate, letter, [row for row in table if row[0][0] == letter], listed)
            code += text
            made |= {folder / "proofs" / function / "Answers.antt": proof for function, proof in proofs.items()}
        made[folder / "src/lib.rt"] = code
    return made


def files():
    """Every file that is made, with its text."""
    table = entries()
    listed = listed_of(table)
    made = listed_files(listed) | table_files(table, listed) | choice_files()
    values = dict(table)
    folder = ROOT / "crates/names_bare"
    code, specs, proofs = bare_of([(name, values[name]) for name in re.findall(r'ascii "(\w+)"', BARE.read_text(encoding="utf-8"))])
    made[folder / "src/table.rt"] = code
    made[folder / "specs/Words.antt"] = specs
    for function, proof in proofs.items():
        made[folder / "proofs/table" / function / "Answers.antt"] = proof
    return made | written_files(table)


def main():
    usage = argparse.ArgumentParser(prog="tools/make_names.py", description=__doc__, formatter_class=argparse.RawDescriptionHelpFormatter)
    usage.add_argument("--check", action="store_true", help="write nothing; status 1 if a file is not what would be written")
    check = usage.parse_args().check
    stale, made = [], files()
    for path, text in made.items():
        if check:
            if not path.exists() or path.read_text(encoding="utf-8") != text:
                stale.append(str(path.relative_to(ROOT)))
        else:
            path.parent.mkdir(parents=True, exist_ok=True)
            path.write_text(text, encoding="utf-8")
    if stale:
        sys.exit("tools/make_names.py: not as made: " + ", ".join(stale))
    print(f"tools/make_names.py: {len(made)} files {'are as made' if check else 'written'}")


main()
