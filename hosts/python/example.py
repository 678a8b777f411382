"""Writes the job of example A, reads it, lists it, and checks two sheets of another laboratory against it. With a word, lists that job file instead."""
import pathlib
import sys

from mass_bench import ClaimedSpread, Head, Sheet, check_file, listing, read, write

if len(sys.argv) > 1:
    print(listing(pathlib.Path(sys.argv[1]).read_bytes()), end="")
    sys.exit()
# Objects 0 and 1 are restrained to 7 counts together.
file = write(Head(n=5, flag=0, p=2, m=1), [1, 4, 2, 3], {0, 1}, 7, [11, -3, 4, 1, -8])
print(f"written: {len(file)} bytes")
job = read(file)
print(f"read: n {job.head.n}, readings from byte {job.readings_at}, sum {job.accepted_sum}")
print(listing(file), end="")
for hundredths in ([-30, 730, 190, 50, 510], [-30, 730, 190, 51, 510]):
    checked = check_file(file, Sheet(hundredths, ClaimedSpread(2.23, 1)))
    print("the sheet agrees" if checked else f"the sheet differs at {'its spread' if checked.object is None else f'object {checked.object}'}")
