"""The bench through its Python module, asked in words: tests/count/host.rs has the protocol. A new call is a row of CALLS, a new kind of argument an attribute of Asked."""
import concurrent.futures
import itertools
import struct
import sys

import mass_bench as bench


class Beyond(Exception):
    """What is asked cannot be said in the module's types."""


class Asked:
    """What a request takes, by its names."""

    def __init__(self, words):
        for word in words:
            name, number, value = word.partition("=")
            if number:
                setattr(self, name, int(value))
            else:
                name, _, entries = word.partition(":")
                setattr(self, name, [int(entry) for entry in entries.split(",") if entry])
        if hasattr(self, "n"):
            self.head = bench.Head(self.n, self.flag, self.p, self.m)
        if hasattr(self, "set"):
            self.restraint = {bit for bit in range(64) if self.set >> bit & 1}

    design = property(lambda self: (self.head, self.blocks))
    weighed = property(lambda self: (self.head, self.blocks, self.readings))
    job = property(lambda self: (*self.weighed, self.restraint, self.sum))
    assembled = property(lambda self: (*self.design, self.restraint, self.sum, self.readings))
    file = property(lambda self: bytes(self.bytes))
    practice = property(lambda self: bench.Practice(self.truths, self.start, self.width))

    @property
    def sheet(self):
        claimed = bench.ClaimedSpread(struct.unpack("<d", struct.pack("<Q", self.spread))[0], self.freedom)
        return bench.Sheet(self.claims, claimed if self.has_spread else None)

    @property
    def eights(self):
        if len(self.names) % 8:
            raise Beyond
        return [bytes(self.names[at : at + 8]) for at in range(0, len(self.names), 8)]

    @property
    def files(self):
        ends = list(itertools.accumulate(self.lengths))
        if (ends or [len(self.bytes)])[-1] != len(self.bytes):
            raise Beyond
        return [self.file[end - length : end] for end, length in zip(ends, self.lengths)]


# What the module hands back, as the rooms and slots of bench.h.


def words(blocks):
    return [sum(1 << bit for bit in side) for block in blocks for side in block]


def bits(*reals):
    return list(struct.unpack(f"<{len(reals)}Q", struct.pack(f"<{len(reals)}d", *reals)))


def wide(number):
    return [number >> 64, number & (1 << 64) - 1]


def numerators(values, denominator):
    """Fractions over a denominator that they must have."""
    assert all(denominator % value.denominator == 0 for value in values)
    return [int(value * denominator) for value in values]


def table(rows):
    return [list(itertools.chain.from_iterable([*row, *[0] * (50 - len(row))] for row in [*rows, *[()] * (50 - len(rows))]))]


def slots(spreading):
    found = spreading.spread
    return [*wide(spreading.q), spreading.vbeta, spreading.freedom, found.hundredths if found else 0, int(found is not None)], bits(found.real if found else 0.0)


def everything(job):
    spread, real = slots(job.spreading)
    figures = numerators(job.values, job.denominator), numerators(job.deviations, job.spreading.vbeta)
    return [words(job.blocks), *figures, [*job.parameters, job.denominator, *spread], real]


def value(found):
    whole, factor = numerators([found.value, found.factor], found.denominator)
    return [[whole, found.hundredths], [found.denominator, factor], bits(found.real, found.real_factor)]


def uncertainty(found):
    return [[found.hundredths, 1], bits(found.real)] if found else [[0, 0], bits(0.0)]


def read(job):
    return [[job.accepted_sum], [*job.head, job.blocks_at, job.readings_at, sum(1 << bit for bit in job.restraint)]]


def read_second(job, file):
    """The names are the first optional field, right behind the readings."""
    at = job.readings_at + 4 * job.head.m * job.head.n + 3 if job.names else 0
    assert b"".join(job.names) == file[at : at + 8 * len(job.names)]
    signed, answer = read(job)
    return [signed, [*answer, at]]


def text(found):
    found = found.encode("ascii") if isinstance(found, str) else found
    return [list(found), [len(found)]]


def checked(found, claims):
    return [[int(found.agrees), 0 if found.agrees else len(claims) if found.object is None else found.object]]


CALLS = {
    "bench_pairs_refusal": lambda a: bench.pairs_refusal(*a.design) or [],
    "bench_develop": lambda a: [words(bench.develop(*a.design))],
    "bench_develop_initial": lambda a: [words(bench.develop_initial(*a.design, a.number))],
    "bench_company": lambda a: table(bench.company(*a.design)),
    "bench_opposition": lambda a: table(bench.opposition(*a.design)),
    "bench_judge": lambda a: [bench.judge(*a.design)],
    "bench_judge_by_differences": lambda a: [bench.judge_by_differences(*a.design)],
    "bench_grouped": lambda a: [bench.grouped(a.count, a.v, a.p, a.blocks, a.groups)],
    "bench_group_base": lambda a: (lambda made: [words(made.blocks), [*made[:4], *made.counts]])(bench.group_base(*a.design, a.g)),
    "bench_total": lambda a: [[bench.total(*a.weighed, a.number)]],
    "bench_sum_of_squares": lambda a: [wide(bench.sum_of_squares(a.head, a.readings))],
    "bench_sum_of_squared_totals": lambda a: [wide(bench.sum_of_squared_totals(*a.weighed))],
    "bench_refusal": lambda a: bench.refusal(*a.job) or [],
    "bench_values": lambda a: [numerators(bench.values(*a.job), bench.value_of(*a.job, 0).denominator)],
    "bench_value_of": lambda a: value(bench.value_of(*a.job, a.number)),
    "bench_uncertainty_of": lambda a: uncertainty(bench.uncertainty_of(*a.job, a.number)),
    "bench_published": lambda a: [bench.published(*a.job)],
    "bench_deviations": lambda a: [numerators(bench.deviations(*a.weighed), bench.deviation_of(*a.weighed, 0).denominator)],
    "bench_deviation_of": lambda a: (lambda found: [numerators([found.value], found.denominator), [found.denominator]])(bench.deviation_of(*a.weighed, a.number)),
    "bench_q": lambda a: [wide(bench.q(*a.weighed))],
    "bench_spread": lambda a: slots(bench.spread(*a.weighed)),
    "bench_analyse": lambda a: everything(bench.analyse(*a.job)),
    "bench_field_at": lambda a: [bench.field_at(a.file, a.place, a.tag, a.length)],
    "bench_read": lambda a: read(bench.read(a.file)),
    "bench_solve": lambda a: everything(bench.solve(a.file)),
    "bench_write": lambda a: text(bench.write(*a.assembled)),
    "bench_listing": lambda a: text(bench.listing(a.file)),
    "bench_certificate": lambda a: text(bench.certificate(a.file)),
    "bench_card": lambda a: text(bench.card(a.file)),
    "bench_read_second": lambda a: read_second(bench.read_second(a.file), a.file),
    "bench_solve_second": lambda a: everything(bench.solve_second(a.file)),
    "bench_write_second": lambda a: text(bench.write_second(*a.assembled, a.eights)),
    "bench_to_second": lambda a: text(bench.to_second(a.file)),
    "bench_to_first": lambda a: text(bench.to_first(a.file)),
    "bench_listing_second": lambda a: text(bench.listing_second(a.file)),
    "bench_certificate_second": lambda a: text(bench.certificate_second(a.file)),
    "bench_card_second": lambda a: text(bench.card_second(a.file)),
    "bench_check_parts": lambda a: checked(bench.check(*a.job, a.sheet), a.claims),
    "bench_check_file": lambda a: checked(bench.check_file(a.file, a.sheet), a.claims),
    "bench_check_second": lambda a: checked(bench.check_second(a.file, a.sheet), a.claims),
    "bench_practice": lambda a: [bench.practice(*a.design, a.practice)],
    "bench_practice_file": lambda a: text(bench.practice_file(*a.design, a.practice, a.restraint)),
    "bench_pool": lambda a: slots(bench.pool(a.files)),
}


def answer(request):
    call, *taken = request.split()
    try:
        rooms = CALLS[call](Asked(taken))
        return " ".join(["accepted", *(",".join(str(entry & (1 << 64) - 1) for entry in room) for room in rooms)])
    except bench.Refusal as refusal:
        return f"refused {refusal.number} {refusal.job or 0} {refusal.place}"
    except Beyond:
        return "beyond"
    except Exception as error:  # told to the count, for which it is a difference
        return f"{type(error).__name__}: {error}"


with concurrent.futures.ThreadPoolExecutor(4) as several:
    waiting = []
    for line in sys.stdin:
        if line != "\n":
            waiting.append(line)
        elif waiting:
            print("\n".join(several.map(answer, waiting)), flush=True)
            waiting = []
