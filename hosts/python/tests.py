"""tests.py: the examples in mass_bench's own text; every call with what it cannot take; every call from several threads at once.

MASS_BENCH_LIBRARY names the library, or it is installed (tools/install). The last line is 'N passed, M failed'; a crash of the interpreter has no such line."""
import ctypes
import concurrent.futures
import doctest
import inspect
import itertools
import sys
import threading

import mass_bench as bench

A = bench.Head(5, 0, 2, 1)
BLOCKS, READINGS = [1, 4, 2, 3], [11, -3, 4, 1, -8]
FILE = bench.write(A, BLOCKS, {0, 1}, 7, READINGS)

# What each argument is when it is right, by its name: a new one is a row here.
RIGHT = {
    "head": A, "blocks": BLOCKS, "readings": READINGS, "restraint": {0, 1}, "accepted_sum": 7, "object": 1, "block": 4, "j": 0, "g": 2,
    "count": 5, "v": 5, "p": 2, "groups": [1] * 5, "file": FILE, "place": 0, "tag": 1, "length": 4, "names": [b"a       "] * 5, "files": [FILE, FILE],
    "sheet": bench.Sheet([-30, 730, 190, 50, 510], bench.ClaimedSpread(2.23, 1)), "practice": bench.Practice([1, 2, 3, 4, 5], 0, 8),
}  # fmt: skip
SECOND = {"read_second", "solve_second", "to_first", "listing_second", "certificate_second", "card_second", "check_second"}
# What is no call of the bench: it takes what calls hand back.
HELPERS = {"flat"}


class Liar(list):
    """A list that says another length than it has."""

    def __len__(self):
        return 1 << 40


class Shrinking:
    """An entry that empties its list when it is looked at."""

    def __init__(self, within):
        self.within = within

    def __index__(self):
        del self.within[:]
        return 1


def shrinking():
    found = []
    found.extend([Shrinking(found), 2, 3, 4])
    return found


def wrong():
    """What no call takes, or only some: numbers of every size, lists of every length and kind, texts, things. Made anew each time, since some are used up."""
    numbers = [0, -1, 2, 51, 255, 256, 65537, 2**31, 2**32, 2**63, 2**64 - 1, 2**64, -(2**63) - 1, 10**5000, True, 1.0, float("nan"), float("inf"), 1j]
    lists = [[], [0], [-1], [255] * 4, [2**31], [2**64], [1.0], [None], [[1]], list(range(70000)), itertools.count(), iter([1, 4, 2, 3])]
    things = [None, "", "text", b"", b"\0", bytes(70000), bytes(2**21), bytearray(b"\1\4\2\3"), memoryview(b"\1\4\2\3"), memoryview(b"\1\4\2\3" * 4).cast("i"), {}, {1: 2}, {63, 64}]
    odd = [object(), int, len, Liar([1, 4, 2, 3]), shrinking(), ctypes.c_void_p(8), (ctypes.c_int * 4)(1, 4, 2, 3), bench.Head(2**70, "", None, -1), (5, 0, 2, 1), (5, 0, 2)]
    deep = [bench.Sheet([0] * 5, (2**70, 2**70)), bench.Sheet(None, 3), bench.Sheet([2**70], None), bench.Practice([2**40] * 5, 2**40, -1), [[]], [b"\0" * 7], [FILE] * 70, [b""] * 64]
    return numbers + lists + things + odd + deep


def calls():
    found = {name: call for name, call in vars(bench).items() if inspect.isfunction(call) and call.__module__ == bench.__name__ and name[0] != "_"}
    return {name: call for name, call in found.items() if name not in HELPERS}


def right(name, call):
    found = {parameter: RIGHT[parameter] for parameter in inspect.signature(call).parameters}
    return {**found, "file": bench.to_second(FILE)} if name in SECOND else found


def outcome(call, arguments):
    """What a call hands back, or how it ends."""
    try:
        return call(**arguments)
    except (TypeError, ValueError, bench.Refusal) as error:
        return f"{type(error).__name__}: {error}"


def hostile(name, call):
    """Each argument in turn, all others right; then all at once. Anything but an answer and those three errors fails."""
    arguments = right(name, call)
    for parameter in arguments:
        for value in wrong():
            outcome(call, {**arguments, parameter: value})
    for value in wrong():
        outcome(call, dict.fromkeys(arguments, value))
    for none in ({}, {"another": 1}):
        assert outcome(call, none).startswith("TypeError")


def threads(name, call, at_once=4, times=20):
    """The same call from several threads that start together: each answer as from one thread alone."""
    alone, start = outcome(call, right(name, call)), threading.Barrier(at_once)

    def made():
        start.wait()
        return all(outcome(call, right(name, call)) == alone for _ in range(times))

    with concurrent.futures.ThreadPoolExecutor(at_once) as several:
        assert all(one.result() for one in [several.submit(made) for _ in range(at_once)]), "an answer from several threads is another one"


def main():
    passed, failed = 0, 0
    runner = doctest.DocTestRunner()
    for example in doctest.DocTestFinder(exclude_empty=True).find(bench):
        failed, passed = (failed + 1, passed) if runner.run(example).failed else (failed, passed + bool(example.examples))
    for name, call in calls().items():
        if not call.__doc__ or ">>>" not in call.__doc__ or "return" not in call.__annotations__:
            print(f"{name} has no example or no types")
            failed += 1
        for tried in (hostile, threads):
            try:
                tried(name, call)
                passed += 1
            except Exception as error:  # noqa: BLE001
                print(f"{name}, {tried.__name__}: {type(error).__name__}: {error}")
                failed += 1
    print(f"{passed} passed, {failed} failed")
    return 1 if failed else 0


if __name__ == "__main__":
    sys.exit(main())
