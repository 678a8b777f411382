"""The mass bench for Python: the calls of the proved library, over ctypes, with ordinary types.

What each call answers is proved for the archive that the shared library is made of (tools/shared-library), for x86-64 Linux. What this module adds is not
proved: it looks at types, ranges and lengths, copies what is handed in, lends the copies to the library, and hands back what the library lays into them.

Example A of the request: five objects in five blocks, objects 0 and 1 restrained to 7 counts together.

>>> job = analyse(Head(n=5, flag=0, p=2, m=1), [1, 4, 2, 3], [11, -3, 4, 1, -8], {0, 1}, 7)
>>> job.values[1], job.spreading.spread.hundredths
(Fraction(73, 10), 223)

A job that is refused raises a Refusal; what no call can be handed raises TypeError or ValueError, before the library is called.

>>> judge(Head(4, 0, 1, 1), [0, 1])
Traceback (most recent call last):
mass_bench.Refusal: refused 6 at 0: the developed design is unbalanced
>>> judge(Head(4, 0, 1, 1), [0, 256])
Traceback (most recent call last):
ValueError: blocks: an entry is out of its range, 0 to 255

Calls may be made from several threads at once, and do not wait for each other. What a call takes of its thread's stack stands in bench.h: a thread that threading.stack_size
gave less must make none.
"""
from __future__ import annotations

import ctypes
import itertools
import numbers
import operator
import os
import pathlib
from fractions import Fraction
from typing import Any, FrozenSet, Iterable, List, NamedTuple, Optional, Sequence, Tuple, Union

SONAME = "libmass_bench.so.0"

# No more entries than these are copied of anything that is handed in. The 64 longest jobs of a pool have fewer.
MOST = 1 << 19

# Room that is enough for every job, as in bench.h.
_WORDS, _TABLE, _VALUES, _DEVIATIONS, _FILE, _FILE_SECOND, _TEXT, _CERTIFICATE = 2600, 2500, 50, 1300, 6584, 16384, 65536, 8192


def _loaded() -> ctypes.CDLL:
    """The library that MASS_BENCH_LIBRARY names; else the one in a folder above this module, where tools/install lays it; else the loader's own."""
    above = [folder / SONAME for folder in pathlib.Path(__file__).resolve().parents[:3]]
    found = os.environ.get("MASS_BENCH_LIBRARY") or next((str(path) for path in above if path.exists()), SONAME)
    try:
        return ctypes.CDLL(found)
    except OSError as error:
        raise ImportError(f"the mass bench's library, for x86-64 Linux, cannot be loaded: {error}") from None


_LIBRARY = _loaded()

# ---- refusals

# The table of the request, by its numbers.
WORDS = {
    1: "a field's three-byte start or its body runs past the end",
    2: "another tag stands there",
    3: "the length is not the one required",
    4: "a size is broken",
    5: "an object is out of range, is ∞ with flag 0 or 2, or was already in its block",
    6: "the developed design is unbalanced",
    7: "the restraint set is empty or has a bit at v or above, or the sum is out of range",
    8: "a reading is out of range",
    9: "bytes follow the fourth field",
    10: "a lent buffer is too short",
    11: "the restraint has one object: a bad standard would shift the whole set and show nowhere",
    12: "the edition is not 2",
    13: "a file of the second edition that is moved to the first has an optional field",
    14: "groups: g is below 2 or g·v above 50; there are fewer than two groups, or they are not of one size of at least 2",
    15: "the claims of a sheet are not one for each object",
    16: "a true value or the width of practice readings is out of range",
    17: "a job that is pooled has another v or beta than job 0",
    18: "no jobs to pool, more than 64, or lengths that do not add to the bytes lent",
}


class Refusal(Exception):
    """What the bench refuses: its number in the request's table, its place, and that number in words.

    The place is a byte of the file; in a call that takes no file, an index in the list or the number that was asked for, modulo 2^48. `job` is the job of a pool
    that is refused, counted from 0, and None elsewhere.

    >>> try:
    ...     solve(b"")
    ... except Refusal as refusal:
    ...     refusal.number, refusal.place, refusal.words
    (1, 0, "a field's three-byte start or its body runs past the end")
    """

    def __init__(self, number: int, place: int, job: Optional[int] = None) -> None:
        super().__init__(number, place, job)
        self.number, self.place, self.job = number, place, job
        self.words = WORDS.get(number, "a number of another version of the library")

    def __str__(self) -> str:
        return f"refused {self.number} at {self.place}{'' if self.job is None else f' in job {self.job}'}: {self.words}"


# ---- what is lent: numbers and lists, each looked at and copied before the library is called

_U8, _I32, _U32, _I64, _U64, _SIZE = ctypes.c_uint8, ctypes.c_int32, ctypes.c_uint32, ctypes.c_int64, ctypes.c_uint64, ctypes.c_size_t


def _range(kind: type) -> Tuple[int, int]:
    bits = 8 * ctypes.sizeof(kind)
    return (-(1 << bits - 1), (1 << bits - 1) - 1) if kind(-1).value < 0 else (0, (1 << bits) - 1)


def _wholes(what: str, kind: type, values: Iterable[object]) -> List[int]:
    low, high = _range(kind)
    try:
        found = [operator.index(value) for value in values]  # type: ignore[arg-type]
    except TypeError:
        raise TypeError(f"{what} is no whole number") from None
    if found and not (low <= min(found) and max(found) <= high):
        raise ValueError(f"{what} is out of its range, {low} to {high}")
    return found


def _number(name: str, kind: type, value: object) -> Any:
    return kind(_wholes(name, kind, [value])[0])


def _lent(name: str, kind: type, values: object) -> ctypes.Array:
    """A list of whole numbers, or bytes, copied."""
    if kind is _U8 and isinstance(values, (bytes, bytearray)):
        found: Sequence[int] = bytes(memoryview(values))
    elif isinstance(values, (str, int)):
        raise TypeError(f"{name} is no list of whole numbers")
    else:
        try:
            found = list(itertools.islice(values, MOST + 1))  # type: ignore[call-overload]
        except TypeError:
            raise TypeError(f"{name} is no list of whole numbers") from None
    if len(found) > MOST:
        raise ValueError(f"{name} has more than {MOST} entries")
    return (kind * len(found))(*(found if isinstance(found, bytes) else _wholes(f"{name}: an entry", kind, found)))


def _real(name: str, value: object) -> ctypes.c_double:
    if not isinstance(value, numbers.Real):
        raise TypeError(f"{name} is no real number")
    try:
        return ctypes.c_double(float(value))
    except OverflowError:
        raise ValueError(f"{name} is out of the range of a float") from None


def _room(kind: type, length: int) -> ctypes.Array:
    return (kind * length)()


def _call(name: str, *arguments: object) -> None:
    """Makes a call of bench.h: a list or a room is lent as its pointer, which is never null, and its length."""
    call = getattr(_LIBRARY, name)
    call.restype = _U64
    lent = [[argument, _SIZE(len(argument))] if isinstance(argument, ctypes.Array) else [argument] for argument in arguments]
    returned = call(*itertools.chain.from_iterable(lent))
    if returned:
        raise Refusal(returned & 255, returned >> 16, returned >> 8 & 255 or None)


# ---- what a call takes and hands back

Wholes = Union[bytes, Iterable[int]]
"""Whole numbers in their order: bytes, a list, a tuple, .."""


class Head(NamedTuple):
    """The sizes of a design: n elements, the flag, p objects a side, m initial blocks.

    With the flags 1 and 3 the fixed object takes part; with 2 and 3 blocks are developed by the addition of the field of n elements.

    >>> judge(Head(n=9, flag=2, p=4, m=1), [1, 7, 2, 5, 3, 8, 6, 4]).l1
    3
    """

    n: int
    flag: int
    p: int
    m: int


class Block(NamedTuple):
    """A block: the objects on its left side and on its right."""

    left: FrozenSet[int]
    right: FrozenSet[int]


class Parameters(NamedTuple):
    """The parameters of a balanced design: objects, blocks, blocks with each object, objects a side, and how often two objects share a side and oppose."""

    v: int
    b: int
    r: int
    p: int
    l1: int
    l2: int


class Spread(NamedTuple):
    """The spread, in whole hundredths of a count and as a float."""

    hundredths: int
    real: float


class Spreading(NamedTuple):
    """The spread with what it is made from: Q, v·beta, degrees of freedom. The spread is None where there is no degree of freedom."""

    q: int
    vbeta: int
    freedom: int
    spread: Optional[Spread]


class Value(NamedTuple):
    """The value of one object, exact, published in hundredths of a count, and as a float; its variance factor, exact and as a float.

    `denominator` is the one over which a listing writes the value, not reduced; it is that of the factor too.
    """

    value: Fraction
    hundredths: int
    real: float
    factor: Fraction
    real_factor: float
    denominator: int

    def standard_deviation(self, spread: Optional[Spread]) -> Optional[float]:
        """The standard deviation of this value in counts: the spread of the readings times the root of the factor; None where there is no spread.

        This is computed here in floating point, and not proved.

        >>> a = Head(5, 0, 2, 1), [1, 4, 2, 3], [11, -3, 4, 1, -8]
        >>> round(value_of(*a, {0, 1}, 7, 1).standard_deviation(spread(*a).spread), 4)
        0.7052
        """
        return None if spread is None else spread.real * self.real_factor**0.5


class Uncertainty(NamedTuple):
    """The standard uncertainty of a value, in whole hundredths of a count and as a float."""

    hundredths: int
    real: float


class Deviation(NamedTuple):
    """The deviation of one block, and the denominator over which a listing writes it, not reduced."""

    value: Fraction
    denominator: int


class Job(NamedTuple):
    """A job worked out. `denominator` is the one over which a listing writes the values; that of the deviations is `spreading.vbeta`."""

    parameters: Parameters
    blocks: Tuple[Block, ...]
    values: Tuple[Fraction, ...]
    denominator: int
    deviations: Tuple[Fraction, ...]
    spreading: Spreading


class Field(NamedTuple):
    """A field of a file: where its body starts, and the byte after it."""

    body: int
    next: int


class JobRead(NamedTuple):
    """What a job file holds: its head, the bytes at which its initial blocks and its readings start, its restraint and the accepted sum; names in the second edition."""

    head: Head
    blocks_at: int
    readings_at: int
    restraint: FrozenSet[int]
    accepted_sum: int
    names: Tuple[bytes, ...] = ()


class GroupCounts(NamedTuple):
    """In how many blocks two objects of one group share a side and oppose (l11, l21), and two of different groups (l12, l22)."""

    l11: int
    l21: int
    l12: int
    l22: int


class GroupedSet(NamedTuple):
    """The grouped set of a design: its sizes, its counts, its blocks, and for each object the number of its group."""

    v: int
    b: int
    r: int
    p: int
    counts: GroupCounts
    blocks: Tuple[Block, ...]
    groups: Tuple[int, ...]


class ClaimedSpread(NamedTuple):
    """A claimed spread in counts, with its degrees of freedom."""

    real: float
    freedom: int


class Sheet(NamedTuple):
    """What another laboratory claims of a job: hundredths of a count for each object, and the spread, or that there is none."""

    hundredths: Sequence[int]
    spread: Optional[ClaimedSpread]


class Checked(NamedTuple):
    """What becomes of a sheet: whether it agrees, which is also its truth; and the first object whose claim differs, None where only the spread does."""

    agrees: bool
    object: Optional[int]

    def __bool__(self) -> bool:
        return self.agrees


class Practice(NamedTuple):
    """What practice readings are made from: the true value of each object, a start number for the noise, and its width in bits, 0 to 8."""

    truths: Sequence[int]
    start: int
    width: int


def flat(blocks: Iterable[Block]) -> bytes:
    """Blocks as calls take them: the left objects of each, which rise, then the right ones.

    >>> list(flat([Block({2, 0}, {1, 3})]))
    [0, 2, 1, 3]
    """
    return b"".join(bytes(sorted(side)) for block in blocks for side in block)


def _objects(word: int) -> FrozenSet[int]:
    return frozenset(bit for bit in range(64) if word >> bit & 1)


def _blocks(words: Sequence[int]) -> Tuple[Block, ...]:
    return tuple(Block(_objects(left), _objects(right)) for left, right in zip(words[::2], words[1::2]))


def _head(head: Head) -> List[Any]:
    n, flag, p, m = head
    return [_number("n", _SIZE, n), _number("flag", _SIZE, flag), _number("p", _SIZE, p), _number("m", _SIZE, m)]


def _design(head: Head, blocks: Wholes) -> List[Any]:
    return [*_head(head), _lent("blocks", _U8, blocks)]


def _v(taken: List[Any]) -> int:
    """The objects of an accepted design, by the head at the front of what a call took."""
    return taken[0].value + taken[1].value % 2


def _b(taken: List[Any]) -> int:
    """Its blocks."""
    return taken[3].value * taken[0].value


def _weighed(head: Head, blocks: Wholes, readings: Wholes) -> List[Any]:
    return [*_design(head, blocks), _lent("readings", _I32, readings)]


def _set(restraint: Iterable[int]) -> ctypes.c_uint64:
    objects = set(_lent("restraint", _U8, restraint))
    if any(bit > 63 for bit in objects):
        raise ValueError("restraint: an object is out of its range, 0 to 63")
    return _U64(sum(1 << bit for bit in objects))


def _restraint(restraint: Iterable[int], accepted_sum: int) -> List[Any]:
    return [_set(restraint), _number("accepted_sum", _I64, accepted_sum)]


def _job(head: Head, blocks: Wholes, readings: Wholes, restraint: Iterable[int], accepted_sum: int) -> List[Any]:
    return [*_weighed(head, blocks, readings), *_restraint(restraint, accepted_sum)]


def _wide(words: Sequence[int]) -> int:
    return words[0] << 64 | words[1]


def _over(numerators: Iterable[int], denominator: int) -> Tuple[Fraction, ...]:
    return tuple(Fraction(numerator, denominator) for numerator in numerators)


def _spreading(answer: Sequence[int], real: Sequence[float]) -> Spreading:
    high, low, vbeta, freedom, hundredths, has_spread = answer
    return Spreading(_wide([high, low]), vbeta, freedom, Spread(hundredths, real[0]) if has_spread else None)


def _worked_out(name: str, taken: List[Any]) -> Job:
    words, values, deviations = _room(_U64, _WORDS), _room(_I64, _VALUES), _room(_I64, _DEVIATIONS)
    answer, real = _room(_U64, 13), _room(ctypes.c_double, 1)
    _call(name, *taken, words, values, deviations, answer, real)
    parameters, denominator, spreading = Parameters(*answer[:6]), answer[6], _spreading(answer[7:], real)
    v, b = parameters.v, parameters.b
    return Job(parameters, _blocks(words[: 2 * b]), _over(values[:v], denominator), denominator, _over(deviations[:b], spreading.vbeta), spreading)


def _put(name: str, room: int, taken: List[Any]) -> bytes:
    out, answer = _room(_U8, room), _room(_U64, 1)
    _call(name, *taken, out, answer)
    return bytes(out[: answer[0]])


def _sums(name: str, taken: List[Any]) -> int:
    answer = _room(_U64, 2)
    _call(name, *taken, answer)
    return _wide(answer)


# ---- designs: `blocks` has the initial blocks, each p left objects, then p right ones; 255 is the fixed object


def pairs_refusal(head: Head, blocks: Wholes) -> None:
    """Whether a block list can be developed: nothing where it can, else a Refusal.

    >>> pairs_refusal(Head(4, 0, 1, 1), [0, 1])
    >>> pairs_refusal(Head(4, 0, 1, 1), [0, 4])
    Traceback (most recent call last):
    mass_bench.Refusal: refused 5 at 1: an object is out of range, is ∞ with flag 0 or 2, or was already in its block
    """
    _call("bench_pairs_refusal", *_design(head, blocks))


def develop(head: Head, blocks: Wholes) -> Tuple[Block, ...]:
    """Every block of a design, shift after shift. The fixed object is object n.

    >>> develop(Head(5, 0, 2, 1), [1, 4, 2, 3])[1]
    Block(left=frozenset({0, 2}), right=frozenset({3, 4}))
    """
    taken, words = _design(head, blocks), _room(_U64, _WORDS)
    _call("bench_develop", *taken, words)
    return _blocks(words[: 2 * _b(taken)])


def develop_initial(head: Head, blocks: Wholes, j: int) -> Tuple[Block, ...]:
    """The blocks that initial block j is developed into.

    >>> develop_initial(Head(4, 0, 1, 2), [0, 1, 0, 2], 1)[0]
    Block(left=frozenset({0}), right=frozenset({2}))
    """
    taken, number, words = _design(head, blocks), _number("j", _SIZE, j), _room(_U64, _WORDS)
    _call("bench_develop_initial", *taken, number, words)
    first, own = 2 * taken[0].value * number.value, 2 * taken[0].value
    return _blocks(words[first : first + own])


def _table(name: str, head: Head, blocks: Wholes) -> Tuple[Tuple[int, ...], ...]:
    taken, table = _design(head, blocks), _room(_U64, _TABLE)
    _call(name, *taken, table)
    return tuple(tuple(table[50 * i : 50 * i + _v(taken)]) for i in range(_v(taken)))


def company(head: Head, blocks: Wholes) -> Tuple[Tuple[int, ...], ...]:
    """In how many blocks objects i and j share a side: row i, column j; on the diagonal, in how many an object stands. Balance is not asked.

    >>> company(Head(5, 0, 2, 1), [1, 4, 2, 3])[0]
    (4, 1, 1, 1, 1)
    """
    return _table("bench_company", head, blocks)


def opposition(head: Head, blocks: Wholes) -> Tuple[Tuple[int, ...], ...]:
    """In how many blocks objects i and j stand on opposite sides: row i, column j. Balance is not asked.

    >>> opposition(Head(5, 0, 2, 1), [1, 4, 2, 3])[0]
    (0, 2, 2, 2, 2)
    """
    return _table("bench_opposition", head, blocks)


def judge(head: Head, blocks: Wholes) -> Parameters:
    """Judges whether a design is balanced.

    >>> judge(Head(5, 0, 2, 1), [1, 4, 2, 3])
    Parameters(v=5, b=5, r=4, p=2, l1=1, l2=2)
    """
    answer = _room(_U64, 6)
    _call("bench_judge", *_design(head, blocks), answer)
    return Parameters(*answer)


def judge_by_differences(head: Head, blocks: Wholes) -> Parameters:
    """The same judgement by the differences of the initial blocks, with no block developed. A whole job is judged so.

    >>> judge_by_differences(Head(7, 1, 4, 1), [255, 1, 2, 4, 0, 3, 5, 6])
    Parameters(v=8, b=7, r=7, p=4, l1=3, l2=4)
    """
    answer = _room(_U64, 6)
    _call("bench_judge_by_differences", *_design(head, blocks), answer)
    return Parameters(*answer)


# ---- sets of blocks with groups


def grouped(count: int, v: int, p: int, blocks: Wholes, groups: Wholes) -> GroupCounts:
    """Judges any `count` blocks over v objects with respect to groups: `blocks` has, for each, p left objects, then p right ones; `groups` a label for each object.

    >>> grouped(4, 4, 1, [0, 1, 1, 2, 2, 3, 3, 0], [7, 9, 7, 9])
    GroupCounts(l11=0, l21=0, l12=0, l22=1)
    """
    answer = _room(_U64, 4)
    sizes = [_number("count", _SIZE, count), _number("v", _SIZE, v), _number("p", _SIZE, p)]
    _call("bench_grouped", *sizes, _lent("blocks", _U8, blocks), _lent("groups", _U8, groups), answer)
    return GroupCounts(*answer)


def group_base(head: Head, blocks: Wholes, g: int) -> GroupedSet:
    """The grouped set of a balanced design: every object i replaced by its g members, gi to gi + g-1.

    >>> made = group_base(Head(3, 0, 1, 1), [0, 1], 2)
    >>> made.v, made.blocks[0]
    (6, Block(left=frozenset({0, 1}), right=frozenset({2, 3})))
    >>> grouped(made.b, made.v, made.p, flat(made.blocks), made.groups) == made.counts
    True
    """
    size, words, answer = _number("g", _SIZE, g), _room(_U64, _WORDS), _room(_U64, 8)
    _call("bench_group_base", *_design(head, blocks), size, words, answer)
    v, b, r, p = answer[:4]
    return GroupedSet(v, b, r, p, GroupCounts(*answer[4:]), _blocks(words[: 2 * b]), tuple(member // size.value for member in range(v)))


# ---- jobs: a design with its readings in development order, a restraint (two objects at least) and its accepted sum


def total(head: Head, blocks: Wholes, readings: Wholes, object: int) -> int:
    """The total of one object: the readings with it on the left less those with it on the right. Balance is not asked.

    >>> total(Head(5, 0, 2, 1), [1, 4, 2, 3], [11, -3, 4, 1, -8], 0)
    -16
    """
    found = _room(_I64, 1)
    _call("bench_total", *_weighed(head, blocks, readings), _number("object", _SIZE, object), found)
    return found[0]


def sum_of_squares(head: Head, readings: Wholes) -> int:
    """The sum of the squared readings.

    >>> sum_of_squares(Head(5, 0, 2, 1), [11, -3, 4, 1, -8])
    211
    """
    return _sums("bench_sum_of_squares", [*_head(head), _lent("readings", _I32, readings)])


def sum_of_squared_totals(head: Head, blocks: Wholes, readings: Wholes) -> int:
    """The sum of the squared totals. Balance is not asked.

    >>> sum_of_squared_totals(Head(5, 0, 2, 1), [1, 4, 2, 3], [11, -3, 4, 1, -8])
    1030
    """
    return _sums("bench_sum_of_squared_totals", _weighed(head, blocks, readings))


def refusal(head: Head, blocks: Wholes, readings: Wholes, restraint: Iterable[int], accepted_sum: int) -> None:
    """Whether a whole job is accepted: nothing where it is, else a Refusal.

    >>> refusal(Head(5, 0, 2, 1), [1, 4, 2, 3], [11, -3, 4, 1, -8], {0}, 7)
    Traceback (most recent call last):
    mass_bench.Refusal: refused 11 at 0: the restraint has one object: a bad standard would shift the whole set and show nowhere
    """
    _call("bench_refusal", *_job(head, blocks, readings, restraint, accepted_sum))


def values(head: Head, blocks: Wholes, readings: Wholes, restraint: Iterable[int], accepted_sum: int) -> Tuple[Fraction, ...]:
    """The exact values of all objects.

    >>> values(Head(5, 0, 2, 1), [1, 4, 2, 3], [11, -3, 4, 1, -8], {0, 1}, 7)[:2]
    (Fraction(-3, 10), Fraction(73, 10))
    """
    taken, found = _job(head, blocks, readings, restraint, accepted_sum), _room(_I64, _VALUES)
    _call("bench_values", *taken, found)
    return _over(found[: _v(taken)], _value_of(taken, 0).denominator)


def _value_of(taken: List[Any], object: int) -> Value:
    signed, answer, real = _room(_I64, 2), _room(_U64, 2), _room(ctypes.c_double, 2)
    _call("bench_value_of", *taken, _number("object", _SIZE, object), signed, answer, real)
    value, factor = _over([signed[0], answer[1]], answer[0])
    return Value(value, signed[1], real[0], factor, real[1], answer[0])


def value_of(head: Head, blocks: Wholes, readings: Wholes, restraint: Iterable[int], accepted_sum: int, object: int) -> Value:
    """The value of one object, with its variance factor.

    >>> value = value_of(Head(5, 0, 2, 1), [1, 4, 2, 3], [11, -3, 4, 1, -8], {0, 1}, 7, 1)
    >>> value.value, value.hundredths, value.real, value.factor
    (Fraction(73, 10), 730, 7.3, Fraction(1, 10))
    """
    return _value_of(_job(head, blocks, readings, restraint, accepted_sum), object)


def uncertainty_of(
    head: Head, blocks: Wholes, readings: Wholes, restraint: Iterable[int], accepted_sum: int, object: int
) -> Optional[Uncertainty]:
    """The standard uncertainty of one object, which a certificate states, never understated; None where there is no degree of freedom.

    >>> uncertainty_of(Head(5, 0, 2, 1), [1, 4, 2, 3], [11, -3, 4, 1, -8], {0, 1}, 7, 1)
    Uncertainty(hundredths=71, real=0.71)
    """
    answer, real = _room(_U64, 2), _room(ctypes.c_double, 1)
    _call("bench_uncertainty_of", *_job(head, blocks, readings, restraint, accepted_sum), _number("object", _SIZE, object), answer, real)
    return Uncertainty(answer[0], real[0]) if answer[1] else None


def published(head: Head, blocks: Wholes, readings: Wholes, restraint: Iterable[int], accepted_sum: int) -> Tuple[int, ...]:
    """The published hundredths of a count of all objects. Those of the restraint's members add to 100 times the accepted sum.

    >>> published(Head(3, 0, 1, 1), [0, 1], [0, 0, 0], {0, 1, 2}, 1)
    (34, 33, 33)
    """
    taken, hundredths = _job(head, blocks, readings, restraint, accepted_sum), _room(_I64, _VALUES)
    _call("bench_published", *taken, hundredths)
    return tuple(hundredths[: _v(taken)])


def deviations(head: Head, blocks: Wholes, readings: Wholes) -> Tuple[Fraction, ...]:
    """The deviations of all blocks.

    >>> deviations(Head(5, 0, 2, 1), [1, 4, 2, 3], [11, -3, 4, 1, -8])[0]
    Fraction(1, 1)
    """
    taken, found = _weighed(head, blocks, readings), _room(_I64, _DEVIATIONS)
    _call("bench_deviations", *taken, found)
    return _over(found[: _b(taken)], _deviation_of(taken, 0).denominator)


def _deviation_of(taken: List[Any], block: int) -> Deviation:
    signed, answer = _room(_I64, 1), _room(_U64, 1)
    _call("bench_deviation_of", *taken, _number("block", _SIZE, block), signed, answer)
    return Deviation(Fraction(signed[0], answer[0]), answer[0])


def deviation_of(head: Head, blocks: Wholes, readings: Wholes, block: int) -> Deviation:
    """The deviation of one block.

    >>> deviation_of(Head(5, 0, 2, 1), [1, 4, 2, 3], [11, -3, 4, 1, -8], 4)
    Deviation(value=Fraction(1, 1), denominator=5)
    """
    return _deviation_of(_weighed(head, blocks, readings), block)


def q(head: Head, blocks: Wholes, readings: Wholes) -> int:
    """Q: v·beta times the sum of squared deviations.

    >>> q(Head(5, 0, 2, 1), [1, 4, 2, 3], [11, -3, 4, 1, -8])
    25
    """
    return _sums("bench_q", _weighed(head, blocks, readings))


def _spread(name: str, taken: List[Any]) -> Spreading:
    answer, real = _room(_U64, 6), _room(ctypes.c_double, 1)
    _call(name, *taken, answer, real)
    return _spreading(answer, real)


def spread(head: Head, blocks: Wholes, readings: Wholes) -> Spreading:
    """The spread, with what it is made from.

    >>> spread(Head(5, 0, 2, 1), [1, 4, 2, 3], [11, -3, 4, 1, -8])
    Spreading(q=25, vbeta=5, freedom=1, spread=Spread(hundredths=223, real=2.23))
    """
    return _spread("bench_spread", _weighed(head, blocks, readings))


def analyse(head: Head, blocks: Wholes, readings: Wholes, restraint: Iterable[int], accepted_sum: int) -> Job:
    """Everything at once: blocks, values, deviations and spread.

    >>> analyse(Head(5, 0, 2, 1), [1, 4, 2, 3], [11, -3, 4, 1, -8], {0, 1}, 7).parameters.v
    5
    """
    return _worked_out("bench_analyse", _job(head, blocks, readings, restraint, accepted_sum))


# ---- files


def _file(file: Wholes) -> List[Any]:
    return [_lent("file", _U8, file)]


def field_at(file: Wholes, place: int, tag: int, length: int) -> Field:
    """The field at a place of some bytes, by its tag and the length that its body must have.

    >>> field_at([1, 0, 4, 5, 0, 2, 1], 0, 1, 4)
    Field(body=3, next=7)
    """
    answer = _room(_U64, 2)
    _call("bench_field_at", *_file(file), _number("place", _SIZE, place), _number("tag", _U8, tag), _number("length", _SIZE, length), answer)
    return Field(*answer)


def _read(name: str, file: Wholes, slots: int) -> Tuple[JobRead, List[int]]:
    signed, answer = _room(_I64, 1), _room(_U64, slots)
    _call(name, *_file(file), signed, answer)
    return JobRead(Head(*answer[:4]), answer[4], answer[5], _objects(answer[6]), signed[0]), answer[7:]


def read(file: Wholes) -> JobRead:
    """Reads a job file.

    >>> read(write(Head(5, 0, 2, 1), [1, 4, 2, 3], {0, 1}, 7, [11, -3, 4, 1, -8]))
    JobRead(head=Head(n=5, flag=0, p=2, m=1), blocks_at=10, readings_at=36, restraint=frozenset({0, 1}), accepted_sum=7, names=())
    """
    return _read("bench_read", file, 7)[0]


def solve(file: Wholes) -> Job:
    """Works a job file out.

    >>> solve(write(Head(5, 0, 2, 1), [1, 4, 2, 3], {0, 1}, 7, [11, -3, 4, 1, -8])).values[4]
    Fraction(51, 10)
    """
    return _worked_out("bench_solve", _file(file))


def write(head: Head, blocks: Wholes, restraint: Iterable[int], accepted_sum: int, readings: Wholes) -> bytes:
    """Writes the file of a job.

    >>> write(Head(5, 0, 2, 1), [1, 4, 2, 3], {0, 1}, 7, [11, -3, 4, 1, -8])[:10].hex()
    '01000405000201020004'
    """
    return _put("bench_write", _FILE, [*_design(head, blocks), *_restraint(restraint, accepted_sum), _lent("readings", _I32, readings)])


def listing(file: Wholes) -> str:
    """The text that the bench prints for a job file: its listing, or the line of its refusal.

    >>> listing(b"")
    'refused 1 0\\n'
    """
    return _put("bench_listing", _TEXT, _file(file)).decode("ascii")


def certificate(file: Wholes) -> str:
    """The certificate of a job file, a text of fixed width, or the line of its refusal.

    >>> print(certificate(write(Head(5, 0, 2, 1), [1, 4, 2, 3], {0, 1}, 7, [11, -3, 4, 1, -8])).splitlines()[3])
    0                                        yes                        -0.30                  0.71
    """
    return _put("bench_certificate", _CERTIFICATE, _file(file)).decode("ascii")


def card(file: Wholes) -> str:
    """The card of a job file: the text from which the same job is read, a line for each thing; or the line of its refusal.

    >>> print(card(write(Head(5, 0, 2, 1), [1, 4, 2, 3], {0, 1}, 7, [11, -3, 4, 1, -8])).splitlines()[2])
    initial 1 4 | 2 3
    """
    return _put("bench_card", _TEXT, _file(file)).decode("ascii")


# ---- files of the second edition


def read_second(file: Wholes) -> JobRead:
    """Reads a file of the second edition, with the names of its objects, none or eight bytes each.

    >>> read_second(write_second(Head(3, 0, 1, 1), [0, 1], {0, 1}, 7, [1, 2, 3], [b"1 kg a  ", b"1 kg b  ", b"1 kg c  "])).names[0]
    b'1 kg a  '
    """
    copy = bytes(_file(file)[0])  # type: ignore[call-overload]
    job, (names_at,) = _read("bench_read_second", copy, 8)
    v = job.head.n + job.head.flag % 2 if names_at else 0
    return job._replace(names=tuple(copy[names_at + 8 * i : names_at + 8 * i + 8] for i in range(v)))


def solve_second(file: Wholes) -> Job:
    """Works a file of the second edition out.

    >>> solve_second(to_second(write(Head(5, 0, 2, 1), [1, 4, 2, 3], {0, 1}, 7, [11, -3, 4, 1, -8]))).denominator
    10
    """
    return _worked_out("bench_solve_second", _file(file))


def write_second(head: Head, blocks: Wholes, restraint: Iterable[int], accepted_sum: int, readings: Wholes, names: Sequence[bytes] = ()) -> bytes:
    """Writes the file of a job in the second edition, with a name of eight bytes, filled with spaces, for each object, or with none.

    >>> len(write_second(Head(5, 0, 2, 1), [1, 4, 2, 3], {0, 1}, 7, [11, -3, 4, 1, -8]))
    60
    """
    found = [bytes(_lent("a name", _U8, name)) for name in itertools.islice(names, MOST)]
    if any(len(name) != 8 for name in found):
        raise ValueError("a name has not eight bytes")
    taken = [*_design(head, blocks), *_restraint(restraint, accepted_sum), _lent("readings", _I32, readings), _lent("names", _U8, b"".join(found))]
    return _put("bench_write_second", _FILE_SECOND, taken)


def to_second(file: Wholes) -> bytes:
    """Moves a file of the first edition to the second.

    >>> file = write(Head(5, 0, 2, 1), [1, 4, 2, 3], {0, 1}, 7, [11, -3, 4, 1, -8])
    >>> to_second(file)[:4].hex(), to_first(to_second(file)) == file
    ('10000102', True)
    """
    return _put("bench_to_second", _FILE_SECOND, _file(file))


def to_first(file: Wholes) -> bytes:
    """Moves a file of the second edition to the first: only where it has no optional field, so that nothing is dropped.

    >>> to_first(write_second(Head(3, 0, 1, 1), [0, 1], {0, 1}, 7, [1, 2, 3], [b"1 kg    "] * 3))
    Traceback (most recent call last):
    mass_bench.Refusal: refused 13 at 50: a file of the second edition that is moved to the first has an optional field
    """
    return _put("bench_to_first", _FILE, _file(file))


def listing_second(file: Wholes) -> str:
    """The text for a file of the second edition: the listing of its job, without the names, or the line of its refusal.

    >>> listing_second([0x10, 0, 1, 3])
    'refused 12 3\\n'
    """
    return _put("bench_listing_second", _TEXT, _file(file)).decode("ascii")


def certificate_second(file: Wholes) -> str:
    """The certificate of a file of the second edition, with its names, or the line of its refusal.

    >>> named = write_second(Head(3, 0, 1, 1), [0, 1], {0, 1}, 7, [1, 2, 3], [b"1 kg a  ", b"1 kg b  ", b"1 kg c  "])
    >>> certificate_second(named).splitlines()[4].split()[:3]
    ['1', '1\\\\x20kg\\\\x20b', 'yes']
    """
    return _put("bench_certificate_second", _CERTIFICATE, _file(file)).decode("ascii")


def card_second(file: Wholes) -> str:
    """The card of a file of the second edition, with its names and its other optional fields, or the line of its refusal.

    >>> named = write_second(Head(3, 0, 1, 1), [0, 1], {0, 1}, 7, [1, 2, 3], [b"1 kg a  ", b"1 kg b  ", b"1 kg c  "])
    >>> card_second(named).splitlines()[-1].split()[1]
    '1\\\\x20kg\\\\x20a'
    """
    return _put("bench_card_second", _TEXT, _file(file)).decode("ascii")


# ---- another laboratory's sheet


def _checked(name: str, taken: List[Any], sheet: Sheet) -> Checked:
    hundredths, claimed = sheet
    claims, answer = _lent("hundredths", _I64, hundredths), _room(_U64, 2)
    real, freedom = (0.0, 0) if claimed is None else claimed
    _call(name, *taken, claims, _U64(claimed is not None), _real("real", real), _number("freedom", _U64, freedom), answer)
    # The claims are one for each object, else they were refused.
    return Checked(answer[0] == 1, answer[1] if answer[0] == 0 and answer[1] < len(claims) else None)


def check(head: Head, blocks: Wholes, readings: Wholes, restraint: Iterable[int], accepted_sum: int, sheet: Sheet) -> Checked:
    """Checks a sheet against the published hundredths and the spread of its job. That it differs is an answer and no refusal.

    >>> a = Head(5, 0, 2, 1), [1, 4, 2, 3], [11, -3, 4, 1, -8], {0, 1}, 7
    >>> check(*a, Sheet([-30, 730, 190, 50, 510], ClaimedSpread(2.23, 1)))
    Checked(agrees=True, object=None)
    >>> check(*a, Sheet([-30, 730, 190, 51, 510], None))
    Checked(agrees=False, object=3)
    >>> check(*a, Sheet([-30, 730, 190, 50, 510], None))
    Checked(agrees=False, object=None)
    """
    return _checked("bench_check_parts", _job(head, blocks, readings, restraint, accepted_sum), sheet)


def check_file(file: Wholes, sheet: Sheet) -> Checked:
    """Checks a sheet against a job file.

    >>> bool(check_file(write(Head(3, 0, 1, 1), [0, 1], {0, 1, 2}, 1, [0, 0, 0]), Sheet([34, 33, 33], ClaimedSpread(0.0, 1))))
    True
    """
    return _checked("bench_check_file", _file(file), sheet)


def check_second(file: Wholes, sheet: Sheet) -> Checked:
    """Checks a sheet against a file of the second edition.

    >>> bool(check_second(write_second(Head(3, 0, 1, 1), [0, 1], {0, 1, 2}, 1, [0, 0, 0]), Sheet([33, 34, 33], ClaimedSpread(0.0, 1))))
    False
    """
    return _checked("bench_check_second", _file(file), sheet)


# ---- practice: readings from weights whose values are known


def _practice(head: Head, blocks: Wholes, practice: Practice) -> List[Any]:
    truths, start, width = practice
    return [*_design(head, blocks), _lent("truths", _I32, truths), _number("start", _U32, start), _number("width", _SIZE, width)]


def practice(head: Head, blocks: Wholes, practice: Practice) -> Tuple[int, ...]:
    """The practice readings of a design, one for each block: the left sum of the true values less the right sum, plus noise.

    >>> practice(Head(5, 0, 2, 1), [1, 4, 2, 3], Practice([1, 2, 3, 4, 5], start=0, width=8))
    (-68, -62, 81, 47, -30)
    """
    taken, readings = _practice(head, blocks, practice), _room(_I32, _DEVIATIONS)
    _call("bench_practice", *taken, readings)
    return tuple(readings[: _b(taken)])


def practice_file(head: Head, blocks: Wholes, practice: Practice, restraint: Iterable[int]) -> bytes:
    """The file of a practice job: those readings, restrained to the true sum of the restraint.

    >>> [int(value) for value in solve(practice_file(Head(5, 0, 2, 1), [1, 4, 2, 3], Practice([1, 2, 3, 4, 5], 9, 0), {0, 1})).values]
    [1, 2, 3, 4, 5]
    """
    return _put("bench_practice_file", _FILE, [*_practice(head, blocks, practice), _set(restraint)])


# ---- several jobs


def pool(files: Iterable[Wholes]) -> Spreading:
    """The pooled spread of up to 64 job files of one v and beta.

    >>> file = write(Head(5, 0, 2, 1), [1, 4, 2, 3], {0, 1}, 7, [11, -3, 4, 1, -8])
    >>> pool([file, file]).freedom
    2
    >>> pool([file, file[:55]])
    Traceback (most recent call last):
    mass_bench.Refusal: refused 1 at 33 in job 1: a field's three-byte start or its body runs past the end
    """
    # More than 64 are refused, however many more.
    found = [bytes(_lent("a file", _U8, file)) for file in itertools.islice(files, 65)]
    try:
        return _spread("bench_pool", [_lent("files", _U8, b"".join(found)), _lent("lengths", _SIZE, map(len, found))])
    except Refusal as refusal:
        # Every refusal of a pool is that of one of its jobs, but for 18.
        raise refusal if refusal.number == 18 else Refusal(refusal.number, refusal.place, refusal.job or 0) from None
