"""The test of what the sum of a body takes: a tree of two crates, a body of the upper one, and edits of the tree, each with whether the sum has to change."""
import os

from .judge import bodies_of
from .sums import Sums

TREE = {
    "crates.txt": "low: itoa\nhigh: low itoa\n",
    "HANDLES": "",
    "crates/low/src/lib.rt": """#![tactic(auto)]

mod faults;
mod others;
mod shapes;

pub use faults::{Fault, Thin};
pub use others::Grown as Wide;
pub use shapes::{LIMIT, Name, Shape, Side, Square, area, doubled, ended};
""",
    "crates/low/src/shapes.rt": """ghost use Rattle.std.specs.Prelude.{◌≡◌, ◌+◌, ◌*◌};
ghost use Rattle.low.specs.Sizes.{size_of, ◌⊕◌, IsSmall};

use crate::others::{Thick, least};
use std::marker::Model;

const QUOTE: u8 = b'"';
const LEAST: u8 = 1; // a comment

/// The most sides.
pub const LIMIT: u8 = 4;

/// A side.
#[derive(Drop)]
pub struct Side {
    pub length: u8,
}

/// A square.
pub struct Square {
    side: Side,
}

/// Another name of a square.
pub type Name = Square;

/// What has a width.
pub trait Shape {
    /// What it is made of.
    type Made;

    /// Its width.
    ghost width_of: { Self → ℕ };

    /// Returns what it is made of.
    fn made(&self) -> Self::Made;

    /// Returns the width.
    fn width(&self) -> u8
        ensures { result ≡ width_of self.now }
    {
        3
    }

    ghost is_small: { (x : Self) → IsSmall (width_of x) };
}

impl Shape for Square {
    type Made = Thick;

    ghost width_of = { λ q. q.side.length };

    fn made(&self) -> Thick {
        Thick { by: 1 }
    }

    ghost is_small = { λ q. q.side.length };
}

impl Shape for u8 {
    type Made = Side;

    ghost width_of = { λ n. n };
}

impl Drop for Square {
    fn drop(self)
        ensures { self.exit.side ≡ 0 }
    {
        let Square { .. } = self;
    }
}

impl Square {
    /// Returns a square.
    pub fn of(length: u8) -> Square
        ensures { result.side.length ≡ length }
    {
        Square { side: Side { length } }
    }

    /// Returns the rim.
    pub fn rim(&self) -> u8
        ensures { result ≡ 4 * self.now.side.length }
    {
        4
    }
}

/// Returns the area.
pub fn area(square: &Square) -> u8
    requires { IsSmall square.now.side.length }
    ensures { result ≡ size_of square.now ⊕ 1 }
{
    least(1)
}

/// Returns twice a number.
pub const fn doubled(number: u8) -> u8 {
    number + number
}

/// Ends.
pub fn ended() {}
""",
    "crates/low/src/others.rt": """ghost use Rattle.std.specs.Prelude.{◌≡◌};
ghost use Rattle.low.specs.Others.{far};

/// What is grown.
pub struct Grown {
    pub to: u8,
}

/// What is thick.
pub struct Thick {
    pub by: u8,
}

/// Returns the least.
pub fn least(number: u8) -> u8
    ensures { result ≡ far number }
{
    number
}

/// Returns the most.
pub fn most(number: u8) -> u8
    ensures { result ≡ far number }
{
    number
}

impl Thick {
    /// Returns by how much.
    pub fn by(&self) -> u8
        ensures { result ≡ self.now.by }
    {
        self.by
    }

    /// Returns by how much more.
    pub fn by_more(&self) -> u8
        ensures { 1 ≤ result }
    {
        1
    }
}

impl Grown {
    /// Returns what is wider.
    pub fn wider() -> u8
        ensures { result ≡ 2 }
    {
        2
    }
}
""",
    "crates/low/src/faults.rt": """ghost use Rattle.std.specs.Prelude.{◌≡◌};

use std::convert::From;

/// A fault.
pub enum Fault {
    Late,
    Lost(u8),
}

/// A fault that becomes another.
pub struct Thin;

impl From<Thin> for Fault {
    ghost from_gives = { λ _ e. e ≡ Lost 3 };

    fn from(_thin: Thin) -> Fault {
        Fault::Lost(3)
    }
}
""",
    "crates/low/specs/Lib.antt": "pub mod Sizes\npub mod Others\n",
    "crates/low/specs/Sizes.antt": """-- Sizes.
use Rattle.std.specs.Prelude.{ℕ, ◌+◌, ◌≤◌}
use Rattle.low.specs.declared.shapes.Square.{Square}

infixl 10 ◌⊕◌

-- joined
abbrev pub ◌⊕◌ : ℕ → ℕ → ℕ
a ⊕ b = a + b

-- how small
pub data Sort : Type 0 where
  tiny large : Sort

abbrev pub sort_of : ℕ → Sort
sort_of n = tiny

-- a size
abbrev pub size_of : Square → ℕ
size_of square = inner square

module _ (square : Square) where
  abbrev pub inner : ℕ
  inner = square.side.length + 1

  abbrev pub outer : ℕ
  outer = square.side.length + 2

pub record IsSmall (n : ℕ) : Type 0 where
  pub bound : n ≤ 9
""",
    "crates/low/specs/Others.antt": """use Rattle.std.specs.Prelude.{ℕ}

-- far away
abbrev pub far : ℕ → ℕ
far n = n

abbrev pub unnamed : ℕ → ℕ
unnamed n = n

abbrev pub of_a_proof : ℕ → ℕ
of_a_proof n = n
""",
    "crates/low/proofs/Lib.antt": "pub mod Lemmas\n",
    "crates/low/proofs/Lemmas.antt": "lemma : ℕ\nlemma = 0\n",
    "crates/high/src/lib.rt": "#![tactic(auto)]\n\nmod tops;\n\nuse low::ended as at_end;\n",
    "crates/high/src/tops.rt": """ghost use Rattle.std.specs.Prelude.{◌≡◌, ◌≤◌};
ghost use Rattle.high.specs.Tops.{top_of};

use low::{Fault, LIMIT, Name, Shape, Thin, Wide, area, doubled};

macro_rules! raised {
    ($number:expr) => {
        $number + 1
    };
}

/// Returns the top.
pub fn top(name: &Name) -> Result<u8, Fault>
    ensures { top_of name.now ≤ 9 }
{
    let width = name.width();
    let rest = area(name) + doubled(LIMIT);
    sure(width)?;
    crate::at_end();
    Ok(raised!(rest) + name.made().by() + Wide::wider())
}

/// Returns whether it is sure.
fn sure(width: u8) -> Result<u8, Thin>
    ensures { width ≡ 0 }
{
    Ok(width)
}

/// Returns what nothing calls.
fn unused(name: &Name) -> u8 {
    name.made().by_more()
}
""",
    "crates/high/specs/Lib.antt": "pub mod Tops\n",
    "crates/high/specs/Tops.antt": """use Rattle.std.specs.Prelude.{ℕ}
use Rattle.low.specs.{declared.shapes.Square.Square, Sizes.sort_of}

abbrev pub top_of : Square → ℕ
top_of other = rank (sort_of other.side.length)
""",
    "crates/high/proofs/tops/top/Answers.antt": "use Rattle.low.specs.Others.{of_a_proof}\n\nreturns c = of_a_proof 1\n",
    "crates/high/wrong/a.edit": """fn: tops::top
file: src/tops.rt
old:     let width = name.width();
new:     let width = name.width() + Name::of(1).side.length;
""",
}
LOW, HIGH = "crates/low/", "crates/high/"
SHAPES, OTHERS, FAULTS, SIZES, TOPS = f"{LOW}src/shapes.rt", f"{LOW}src/others.rt", f"{LOW}src/faults.rt", f"{LOW}specs/Sizes.antt", f"{HIGH}src/tops.rt"
FAR = f"{LOW}specs/Others.antt"
# Edits after which the sum is another: a file, an old text, of which `` stands for the file's end, and a new one.
CHANGES = {
    "its own body": (TOPS, "rest = area", "rest = 1 + area"),
    "its own clause": (TOPS, "name.now ≤ 9", "name.now ≤ 8"),
    "its own proof": (f"{HIGH}proofs/tops/top/Answers.antt", "of_a_proof 1", "of_a_proof 2"),
    "its wrong line": (f"{HIGH}wrong/a.edit", "of(1)", "of(2)"),
    "a clause of a method that its wrong line calls": (SHAPES, "result.side.length ≡ length", "result.side.length ≡ 1"),
    "a definition of its clause": (f"{HIGH}specs/Tops.antt", "rank (sort_of", "rank (1 + sort_of"),
    "a definition that its proof names": (FAR, "of_a_proof n = n", "of_a_proof n = 0"),
    "a macro that it calls": (TOPS, "$number + 1", "$number + 2"),
    "a clause of a function that it calls": (SHAPES, "requires { IsSmall square", "requires { 1 ≤ square"),
    "a clause of a function of its file": (TOPS, "width ≡ 0", "width ≡ 1"),
    "a clause of a trait's function": (SHAPES, "result ≡ width_of self.now }", "result ≡ 1 + width_of self.now }"),
    "what an impl says of its type": (SHAPES, "width_of = { λ q. q.side.length }", "width_of = { λ q. 0 }"),
    "an impl of its trait for a type of the library": (SHAPES, "width_of = { λ n. n }", "width_of = { λ n. 0 }"),
    "what a drop ensures": (SHAPES, "self.exit.side ≡ 0", "self.exit.side ≡ 1"),
    "what an error becomes by a question mark": (FAULTS, "e ≡ Lost 3 }", "e ≡ Late }"),
    "a variant": (FAULTS, "    Late,\n", "    Late,\n    Early,\n"),
    "a field of a field": (SHAPES, "pub length: u8", "pub length: u16"),
    "the type behind another name": (SHAPES, "pub type Name = Square", "pub type Name = Side"),
    "a renamed type": (OTHERS, "pub to: u8", "pub to: u16"),
    "a method of a renamed type": (OTHERS, "result ≡ 2", "result ≡ 3"),
    "an associated type": (OTHERS, "pub by: u8", "pub by: u16"),
    "a method of an associated type": (OTHERS, "result ≡ self.now.by", "result ≡ 1"),
    "a constant": (SHAPES, "LIMIT: u8 = 4", "LIMIT: u8 = 5"),
    "the body of a const fn": (SHAPES, "number + number", "number + 1"),
    "an operator": (SIZES, "a ⊕ b = a + b", "a ⊕ b = a"),
    "an operator's level": (SIZES, "infixl 10", "infixl 11"),
    "a definition of a definition": (SIZES, "inner = square.side.length + 1", "inner = square.side.length"),
    "a parameter of a block": (SIZES, "module _ (square : Square)", "module _ (square : Square) (n : ℕ)"),
    "a record of a law": (SIZES, "n ≤ 9", "n ≤ 8"),
    "a constructor": (SIZES, "tiny large : Sort", "tiny middle large : Sort"),
    "an import of its file": (TOPS, "Wide, area,", "Wide, ended as area,"),
    "an import of the root of its crate": (f"{HIGH}src/lib.rt", "low::ended as", "low::fin as"),
    "a function by an import of that root": (SHAPES, "pub fn ended() {}", "pub fn ended() -> u8 {\n    1\n}"),
    "an import of a file that it reaches": (SIZES, "{ℕ, ◌+◌, ◌≤◌}", "{ℕ, ◌*◌ as ◌+◌, ◌≤◌}"),
    "what a crate passes on": (f"{LOW}src/lib.rt", "others::Grown as Wide", "shapes::Side as Wide"),
    "what a module is open to": (f"{LOW}specs/Lib.antt", "pub mod Sizes", "mod Sizes"),
    "a function that the trait gets": (SHAPES, "    ghost is_small: {", "    fn more(&self) -> u8;\n\n    ghost is_small: {"),
    "a law below the last function": (SHAPES, "IsSmall (width_of x)", "IsSmall (1 + width_of x)"),
    "an attribute of a crate": (f"{LOW}src/lib.rt", "#![tactic(auto)]", "#![tactic(none)]"),
    "an added function of a called name": (OTHERS, "", "\nfn area() -> u8 {\n    1\n}\n"),
    "an added method of a called name": (SHAPES, "", "\nimpl Square {\n    fn width(&self) -> u8 {\n        1\n    }\n}\n"),
    "an added definition of a named name": (FAR, "", "\nabbrev pub size_of : ℕ → ℕ\nsize_of n = n\n"),
    "an added constructor of a pattern's name": (FAR, "", "\npub data New : Type 0 where\n  first : New\n  other : New\n"),
    "an added constant of a named name": (OTHERS, "", "\npub const LIMIT: u8 = 1;\n"),
    "an added macro of a called name": (TOPS, "/// Returns the top.", "macro_rules! area {\n    () => {};\n}\n\n/// Returns the top."),
    "an added impl for all types": (OTHERS, "", "\nimpl<T: Clone> Shape for T {}\n"),
    "an added impl for a reference": (OTHERS, "", "\nuse crate::Shape;\n\nimpl Shape for &Square {}\n"),
    "an added impl by a renamed trait": (OTHERS, "", "\nuse crate::{Shape as Form, Square};\n\nimpl Form for Square {}\n"),
    "an added impl for a renamed type": (OTHERS, "", "\nuse crate::{Shape, Square as Form};\n\nimpl Shape for Form {}\n"),
    "an added impl of a trait of the library": (OTHERS, "", "\nuse crate::Square;\n\nimpl Clone for Square {}\n"),
    "an added impl for the other name of a type": (OTHERS, "", "\nuse crate::{Name, Shape};\n\nimpl Shape for Name {}\n"),
    "an added import of all names": (OTHERS, "", "\nuse crate::faults::*;\n"),
    "what stands behind a comment in brackets": (FAR, "abbrev pub far", "{- no\nnew : ℕ\n-}\nabbrev pub far"),
    "what cannot be read": (OTHERS, "", "\nfn new( {\n"),
    "what is not known": (OTHERS, "", "\nunion New {\n    by: u8,\n}\n"),
    "a definition that is not known": (FAR, "unnamed n = n\n", "unnamed n = n\nnotation 1\n"),
    "definitions that call each other": (FAR, "", "\nmutual\n  new : ℕ\n  new = 1\n"),
}
# Edits after which it is the same.
KEEPS = {
    "a comment": (SHAPES, "/// Returns the area.", "/// Returns an area."),
    "the body of a function that it calls": (SHAPES, "    least(1)", "    least(2)"),
    "the body of another function": (TOPS, "by_more()", "by()"),
    "a broken line of a clause": (SHAPES, "result ≡ size_of square.now", "result\n        ≡ size_of square.now"),
    "a broken line of a definition": (SIZES, "size_of square = inner square", "size_of square =\n    inner square"),
    "a hint": (SHAPES, "/// Returns the area.\n", "#[inline]\n"),
    "a lemma below": (f"{LOW}proofs/Lemmas.antt", "lemma = 0", "lemma = 1"),
    "a clause of a function that is not called": (OTHERS, "pub fn most(number: u8)", "pub fn most(number: u16)"),
    "a clause of a method that is not called": (SHAPES, "result ≡ 4 * self", "result ≡ 3 * self"),
    "a clause of a method of its file's other function": (OTHERS, "1 ≤ result", "2 ≤ result"),
    "a clause of what a callee calls": (OTHERS, "pub fn least(number: u8)", "pub fn least(number: u16)"),
    "a definition that is not named": (FAR, "unnamed n = n", "unnamed n = 0"),
    "a definition beside one of a block": (SIZES, "outer = square.side.length + 2", "outer = 0"),
    "an added function": (SHAPES, "", "\n/// New.\npub fn new_one(square: &Square) -> u8\n    ensures { result ≡ size_of square.now }\n{\n    1\n}\n"),
    "an added method": (SHAPES, "", "\nimpl Square {\n    pub fn new_one(&self) -> u8\n        ensures { result ≡ 1 }\n    {\n        1\n    }\n}\n"),
    "an added type with its impls": (
        SHAPES,
        "",
        "\npub struct New {\n    side: Side,\n}\n\nimpl Shape for New {\n    ghost width_of = { λ q. 1 };\n}\n\nimpl Drop for New {\n    fn drop(self) {}\n}\n",
    ),
    "an added definition": (SIZES, "", "\nabbrev pub new_size : Square → ℕ\nnew_size square = inner square\n"),
    "an added variant of a named name": (OTHERS, "", "\nenum New {\n    Lost,\n}\n"),
    "an added private definition of a named name": (FAR, "", "\nabbrev rank : ℕ → ℕ\nrank n = n\n"),
    "an added constructor": (FAR, "", "\npub data New : Type 0 where\n  new_one : New\n"),
    "an added file of definitions": (f"{LOW}specs/Lib.antt", "", "pub mod New\n"),
    "an added import beside": (OTHERS, "", "\nuse crate::shapes::Square;\n"),
    "imports in another layout": (TOPS, "Thin, Wide, area, doubled};", "Thin, Wide};\nuse low::{area, doubled};"),
    "a module of a named name": (f"{LOW}src/lib.rt", "mod shapes;", "mod shapes;\nmod width;"),
    "a private import below": (f"{LOW}src/lib.rt", "pub use faults", "use shapes::Square as rest;\npub use faults"),
    "a library below": ("crates.txt", "low: itoa", "low: itoa thiserror"),
}


def write(room, path, text):
    os.makedirs(os.path.dirname(f"{room}/{path}"), exist_ok=True)
    with open(f"{room}/{path}", "w", encoding="utf-8") as it:
        it.write(text)


def sum_in(lib, room):
    """Returns the sum of the body of the tree in this folder."""
    crate = next(it for it in lib.crates_below(room) if it.name == "high")
    return Sums(lib, "", [crate]).of(crate, bodies_of(crate, f"{crate.folder}/wrong"))["high/a.edit"]


def wrong_sums(lib, room):
    """Yields the edits of a tree in this folder after which the sum is not as it has to be."""
    for path, text in TREE.items():
        write(room, path, text)
    before = sum_in(lib, room)
    for edits, is_new in ((CHANGES, True), (KEEPS, False)):
        for name, (path, old, new) in edits.items():
            text = TREE[path]
            write(room, path, text.replace(old, new, 1) if old else text + new)
            if old not in text or (sum_in(lib, room) != before) != is_new:
                yield f"the sum after an edit of {name}"
            write(room, path, text)
