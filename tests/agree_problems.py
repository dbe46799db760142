"""Makes problems of one, two and several samples, of blocks, of strata, of tables and of bivariate samples from a seed, and
compares a program's ways to the report of each; `agree` runs it.

A line for each problem: 0 where both reports are the same, else 1, and what was tried. Where they differ, the file and
both reports are shown on standard error.
"""
import math
import random
import subprocess
import sys
from concurrent.futures import ThreadPoolExecutor

ONE_SAMPLE = ("rawsigned", "signedrank", "sign")
TWO_SAMPLES = ("savage", "raw", "ranksum", "ansari", "mood", "median")
SAMPLES = ("kw", "jt", "umbrella")
BLOCKS = ("friedman", "cochran")
STRATA = ("stratranksum", "strata")
TABLES = ("linear", "fisher")
BIVARIATE = ("kendall",)
TESTS = (*ONE_SAMPLE, *TWO_SAMPLES, *SAMPLES, *BLOCKS, *STRATA, *TABLES, *BIVARIATE)
# what a problem has at most, so that the slower way takes about a hundredth of a second
MOST = 30_000


def values_of(dice):
    """What makes one value after another: with many ties, with some, with hardly any and with none, of either sign."""
    digits = dice.choice([1, 2, 4, 6, 9, 17])
    point = dice.choice(["", "e-3", "e-6"])
    return lambda: f"{dice.randint(-10 ** digits, 10 ** digits)}{point}"


def sizes_within(dice, most, grow):
    """Sizes that grow one at a time, here or there, until there would be too many rearrangements or it is enough."""
    sizes = [1, 1]
    while dice.random() < 0.97:
        larger = grow(sizes)
        if math.comb(sum(larger), larger[0]) > most:
            break
        sizes = larger
    return sizes


def either(dice):
    """One size of two the greater."""
    return lambda sizes: [sizes[0] + 1, sizes[1]] if dice.random() < 0.5 else [sizes[0], sizes[1] + 1]


def one_sample(dice):
    value = values_of(dice)
    return [[value()] for _ in range(dice.randint(1, MOST.bit_length() - 1))]


def two_samples(dice):
    value = values_of(dice)
    return [[label, value()] for label, size in zip("ab", sizes_within(dice, MOST, either(dice))) for _ in range(size)]


def samples(dice):
    value = values_of(dice)
    sizes = [dice.choice([1, 2, 2, 3, 3, 4]) for _ in range(dice.randint(2, 4))]
    # without ties by half, whatever the values are
    values = [value() for _ in range(sum(sizes))]
    if dice.random() < 0.5:
        values = dice.sample(range(1000), sum(sizes))
    return [["abcd"[group], values.pop()] for group, size in enumerate(sizes) for _ in range(size)]


def blocks(dice):
    treatments = dice.randint(2, 8)
    # with many ties, with some and with hardly any
    most = dice.choice([1, 3, 9, 999])
    # from four blocks on sums are reflected where there are no ties
    rows = dice.randint(1, {2: 40, 3: 20, 4: 12, 5: 7, 6: 4}.get(treatments, 2))
    return [[dice.randint(0, most) for _ in range(treatments)] for _ in range(rows)]


def outcomes(dice):
    treatments = dice.randint(2, 8)
    # treatments that succeed as often, or less and less
    slope = dice.choice([0, 0.05, 0.1])
    rows = dice.randint(1, {2: 60, 3: 40, 4: 24, 5: 16, 6: 12, 7: 10, 8: 9}[treatments])
    return [[int(dice.random() < 0.7 - slope * j) for j in range(treatments)] for _ in range(rows)]


def strata_of_samples(dice):
    value = values_of(dice)
    rows, total = [], 1
    for stratum in range(dice.randint(1, 5)):
        sizes = sizes_within(dice, MOST // total, either(dice))
        total *= math.comb(sum(sizes), sizes[0])
        rows += [[f"s{stratum}", label, value()] for label, size in zip("ab", sizes) for _ in range(size)]
    return rows


def strata_of_tables(dice):
    return [[f"s{stratum}", *(dice.randint(0, 6) for _ in range(4))] for stratum in range(dice.randint(1, 6))]


def bivariate(dice):
    # with few values or many, on either side
    most = [dice.choice([1, 2, 4, 99]) for _ in range(2)]
    return [[dice.randint(0, side) for side in most] for _ in range(dice.randint(2, 9))]


def table(dice):
    width = dice.randint(2, 6)
    return [[dice.choice([0, 0, 0, 1, 1, 2, 3]) for _ in range(width)] for _ in range(dice.randint(2, 5))]


LAYOUTS = {
    one_sample: ONE_SAMPLE,
    two_samples: TWO_SAMPLES,
    samples: SAMPLES,
    blocks: BLOCKS[:1],
    outcomes: BLOCKS[1:],
    strata_of_samples: STRATA[:1],
    strata_of_tables: STRATA[1:],
    table: TABLES,
    bivariate: BIVARIATE,
}


def report(*words):
    """The lines of a report, without those that tell open keys; or of what was written where there is none."""
    run = subprocess.run([PROGRAM, *words], capture_output=True, timeout=60, check=False, text=True)
    lines = [line for line in run.stdout.split("\n") if not line.startswith("nodes ")]
    return [*lines, run.stderr, f"status {run.returncode}"]


def tell(place):
    """What came of the problem at a place, and what is shown of it."""
    # a seed for each, so that a problem is the same whatever was made before
    dice = random.Random(f"{SEED} {place}")
    test = TRIED[place % len(TRIED)]
    rows = next(layout for layout, tests in LAYOUTS.items() if test in tests)(dice)
    text = "".join(",".join(map(str, row)) + "\n" for row in [[f"c{i}" for i in range(len(rows[0]))], *rows])
    name = f"{place}.csv"
    words = ["--peak", str(dice.randint(1, len({row[0] for row in rows})))] if test == "umbrella" else []
    with open(name, "w", encoding="utf-8") as file:
        file.write(text)
    quick, written = report(test, name, *words), report(test, name, *words, "--nodes")
    same = quick == written and quick[-1] == "status 0"
    return f"{0 if same else 1} problem {place}, {test}", "" if same else "\n".join([text, *quick, *written])


PROGRAM, COUNT, SEED = sys.argv[1], int(sys.argv[2]), sys.argv[3]
TRIED = sys.argv[4:] or TESTS
with ThreadPoolExecutor() as pool:
    for what, difference in pool.map(tell, range(COUNT)):
        print(what)
        if difference:
            print(what, difference, sep="\n", file=sys.stderr)
