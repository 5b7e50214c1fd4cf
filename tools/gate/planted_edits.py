"""A crate with planted edits, right ones among them, by which tools/gate/try_edits checks itself."""
import os

SOURCE = """//! Functions in which edits are planted.
#![tactic(auto)]

ghost use Rattle.std.specs.Prelude.{◌≡◌, ◌≤◌, ◌+◌, length, nat_lt};

/// The sum of two small numbers.
pub fn sum(a: u32, b: u32) -> u64
    ensures { result ≡ a + b }
{
    u64::from(a) + u64::from(b)
}

/// Twice the sum of two small numbers.
pub fn twice(a: u32, b: u32) -> u64
    ensures { result ≡ (a + b) + (a + b) }
{
    let once = sum(a, b);
    once + once
}

/// The greater of two numbers.
pub fn greater(a: u64, b: u64) -> u64
    ensures first { a ≤ result }
    ensures second { b ≤ result }
{
    if a < b { b } else { a }
}

const LIMIT: u64 = 7;

/// Whether a number is below 7.
pub fn is_small(a: u64) -> bool
    ensures { result ≡ nat_lt a 7 }
{
    a < LIMIT
}

/// A number that was found.
pub struct Found {
    number: u64,
}

impl From<u32> for Found {
    ghost from_gives = { λ number found. found.number ≡ number };

    fn from(number: u32) -> Found {
        Found { number: u64::from(number) }
    }
}

impl From<u16> for Found {
    ghost from_gives = { λ number found. found.number ≡ number };

    fn from(number: u16) -> Found {
        Found { number: u64::from(number) }
    }
}

/// How many bytes there are.
pub fn count(bytes: &[u8]) -> usize
    ensures { result ≡ length bytes.now }
{
    let all = bytes.len();
    let mut n = 0;
    while n < all {
        n += 1;
    }
    n
}
"""

# What is written by hand of the proof of the last function.
INVARIANTS = """use Rattle.std.proofs.Common.{◌-◌, ◌≡◌, ◌≤◌, length}
use Rattle.planted.proofs.count.Given as goal

abbrev pub invariant-loop-n : goal.invariant-loop-n
invariant-loop-n l = (l.n ≤ l.all) × (l.all ≡ length l.bytes)

abbrev pub decreases-loop-n : goal.decreases-loop-n
decreases-loop-n l = l.all - l.n
"""

FUNCTIONS = ["planted::sum", "planted::twice", "planted::greater", "planted::is_small", "planted::FoundFromU32::from", "planted::FoundFromU16::from", "planted::count"]

# An edit's name, what it changes to what, the verdict with which it has to end, by what it is refused, and how its reason begins.
PLANTS = [
    ("a_sum_is_one_more", "u64::from(a) + u64::from(b)", "1 + u64::from(a) + u64::from(b)", "refused by values", "planted::sum: "),
    ("b_right_beside_a_refused_callee", "once + once", "sum(a, b) + once", "NOT REFUSED", ""),
    ("c_wrong_beside_a_refused_callee", "once + once", "once", "refused by values", "planted::twice: "),
    ("d_right_turned_round", "if a < b { b } else { a }", "if b < a { a } else { b }", "NOT REFUSED", ""),
    ("e_least_of_the_two", "if a < b { b } else { a }", "if a < b { a } else { b }", "refused by values", "planted::greater: "),
    ("f_constant", "u64 = 7", "u64 = 8", "refused by values", "alone, planted::is_small: "),
    ("f_constant_in_a_named_function", "u64 = 7", "u64 = 9\nrefused in: planted::is_small", "refused by search", "planted::is_small: "),
    ("f_constant_in_another_function", "u64 = 7", "u64 = 6\nrefused in: planted::twice", "refused by values", "alone, planted::is_small: "),
    ("f_conversion_of_another", "(number: u16) -> Found {", "(number: u16) -> Found { if true { return Found { number: 1 }; }", "refused by values", "planted::FoundFromU16::from: "),
    ("f_conversion_of_one_type", "(number: u32) -> Found {", "(number: u32) -> Found { if true { return Found { number: 1 }; }", "refused by values", "planted::FoundFromU32::from: "),
    ("f_one_too_few", "while n < all", "while n + 1 < all", "refused by search", "planted::count: "),
    ("f_right_by_another_loop", "while n < all", "for _ in 0..all", "refused by form", "planted::count: "),
    ("f_right_from_another_number", "let mut n = 0", "let mut n = 0_usize", "NOT REFUSED", ""),
    ("g_unknown_name", "a < LIMIT", "a < LIMITS", "FAULT", ""),
    ("h_spaces", "a < LIMIT", "a <  LIMIT", "FAULT", "it changes nothing"),
    ("i_text_that_is_not_there", "a > LIMIT", "a < LIMIT", "FAULT", "an 'old:' text"),
]


# A repository with one edit, and the changes after each of which a kept verdict of the edit counts for nothing.
KEPT = {
    "crates.txt": "below:\nplanted: below\n",
    "HANDLES": "Handles allowed: none.\n",
    "crates/below/src/lib.rt": "//! Nothing.\n",
    "crates/planted/src/lib.rt": SOURCE,
    "crates/planted/specs/Words.antt": "mod sums\n",
    "crates/planted/proofs/sum/Answers.antt": "-- nothing\n",
    "crates/planted/edits/wrong.edit": "file: src/lib.rt\nold: u64 = 7\nnew: u64 = 8\n",
}
CHANGES = [
    ("crates.txt", "below:\nplanted: below arrayvec\n"),
    ("crates/below/src/lib.rt", "//! Nothing more.\n"),
    ("crates/below/specs/More.antt", "mod more\n"),
    ("crates/planted/src/lib.rt", SOURCE.replace("once + once", "once + sum(a, b)")),
    ("crates/planted/specs/Words.antt", "mod words\n"),
    ("crates/planted/proofs/sum/Answers.antt", "-- something\n"),
    ("crates/planted/edits/wrong.edit", "file: src/lib.rt\nold: u64 = 7\nnew: u64 = 9\n"),
]


def plant_files(top, write, files):
    """Makes a repository of these files."""
    for file, text in files.items():
        os.makedirs(os.path.dirname(f"{top}/{file}"), exist_ok=True)
        write(f"{top}/{file}", text)


def plant(top, write):
    """Makes a repository of one crate with the planted edits."""
    edits = {name: f"file: src/lib.rt\nold: {old}\nnew: {new}\n" for name, old, new, *_ in PLANTS}
    files = {f"crates/planted/edits/{name}.edit": text for name, text in edits.items()}
    files["crates/planted/proofs/count/Invariants.antt"] = INVARIANTS
    plant_files(top, write, {"crates.txt": "planted:\n", "HANDLES": "Handles allowed: none.\n", "crates/planted/src/lib.rt": SOURCE, **files})
