"""The symbols in the definitions of specs/ and their meanings, for `tools/reading-list`."""
from __future__ import annotations

import re
from typing import Iterable

# Columns: the tokens of a symbol, its notation, and its meaning.
ROWS = """
→ | A → B | if A then B; also: functions from A to B
→ | (x : A) → P | for every x of A, P; (x y : ℕ) (p : List ℕ) → P the same for several
× | A × B | A and B; (x : A) × P: there is an x of A with P
⊎ | A ⊎ B | A or B
↔ | A ↔ B | A if and only if B
⊥ ⊤ Unit | A → ⊥; ⊥; ⊤, Unit {0} | not A; never; always
≡ ≢ | a ≡ b, a ≢ b | equal, not equal
≤ < + - * / % ^ max suc zero | ≤ < + - * / % ^ | of whole numbers ℕ from 0: 3 - 5 is 0, / rounds down, % is the rest, ^ is "to the power of"; max a b is the greater; suc n is n + 1, zero is 0; 0x20 is hexadecimal
record | record R (..) where | the list of facts and things that its fields name; it holds if each does
record | record { a = ..; b = .. }, r.a | a value by its fields; its field a
.0 .1 | p.0, p.1 | the first and the second part of a pair (x, y) or of A × B
data | data D where | a value of D is one of the listed forms
[] ∷ ++ | [], x ∷ xs, xs ++ more | the empty list; x before xs; one list after another
length take drop map filter concat flat_map zip replicate | length, take n, drop n, map f, filter f, concat, flat_map f, zip, replicate n x | of lists: how many; the first n; all but the first n; f of each; those that pass f; joined; f of each, joined; in pairs; x n times
range_with_len filter_map onto_first fold | range_with_len a n, filter_map f xs, onto_first x xs, fold f s xs | a, a + 1 and so on, n of them; the y of each Some y that f gives; x before the first of the lists xs, or alone if there are none; s, changed by f for each item in turn
slice_index slice_index_or slice_get slice_range | slice_index xs i, slice_index_or xs i d, slice_get xs i, slice_range xs a b | the item at place i, from 0 (past the end: 0; d; None); the part from place a up to b
λ | λ x. e | the function that gives e for x
All AllByRecursion AllPairs AllWithin HoldsAt | All P xs, AllByRecursion P xs, AllPairs R xs | P holds of each item; R of each two, the earlier first; AllWithin, HoldsAt of the items at places
Any Contains list_any find | Any P xs, Contains xs x, list_any f xs, find f xs | P holds of some item; x is an item; true if some item passes f; the first that does
AllZip pointwise nat_eq items_where_true | AllZip R xs more, pointwise t xs more, items_where_true marks xs | the lists are of one length, and R holds of their items, place by place; the same as a test (nat_eq is == of numbers); the items whose entry in marks is true
Option Some None is_some is_none IfSome option_map option_or option_to_list | Option A: Some x, None | a value x; no value. is_some o: whether there is a value; IfSome o P: P of the value, if there is one; option_map f o: f of the value; option_or o p: o, or p if o is None; option_to_list o: a list of the value, or the empty list
Result Ok Err IsOk IfOk IfErr | Result A F: Ok x, Err f | a result: success with x; failure f. IsOk: success; IfOk r P, IfErr r P: P of x, P of f
Bool true false not && || == nat_lt nat_le IsTrue IsFalse | Bool: true, false; not, &&, ||, ==, nat_lt, nat_le | tests that a program can compute: not, and, or, equal, less, at most. IsTrue t, IsFalse t: t is true, false
if let | if t then a else b, let x = a in b | as in any language
MatchBool unwrap_or result_unwrap_or >>= option_and_then | MatchBool t A B; unwrap_or o d, result_unwrap_or r d; o >>= f, option_and_then f o | A if t is true, else B; the x of Some x or Ok x, else d; f of the x, if there is one
bit_and bit_or bit_xor count_ones bytes_high_first | bit_and, bit_or, bit_xor, count_ones, bytes_high_first n k | of numbers, bit by bit; how many bits are 1; k in n bytes, the high one first
IfKnown | IfKnown told P | P holds of the bytes of a source, if they are known
"""

HEAD = """-- begins a comment; use lines import names; ignore pub, abbrev, unfoldable and Type 0. A
definition is its type, after the colon, and its value, one line for each form of its arguments; _
is any other form.

Places count from 0. EN 300 706 counts the bytes of a packet from 1, with clock run-in and framing
code before the 42: so place 0 is its byte 4; the text begins at place 2 of a row, at place 10 of a
page header. Bits of a byte count from 1, the lowest; rows as in the standard, columns from 0.

In a contract requires is a condition on the call, ensures a promise about it; result is what it
returns; x.old and x.new are an argument's values before and after the call, x.now is a value that
does not change. S.remaining is Some bytes that a source has still to give, or None if that is not
known; S.failure_count is how often it has failed."""

WORD = re.compile(r"\.[01]\b|[^\s(){},;.]+")


def find_signs(lines: Iterable[str]) -> list[str]:
    """Return the meanings of the symbols that occur in these lines."""
    words = {word for line in lines for word in WORD.findall(line)}
    rows = [[part.strip() for part in re.split(r" \| ", row, maxsplit=2)]
            for row in ROWS.strip().split("\n")]
    return [f"{shown}\n    {means}" for seen, shown, means in rows
            if not words.isdisjoint(seen.split())]
