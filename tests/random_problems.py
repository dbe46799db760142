"""Makes small problems from a seed, and checks what a program says of them; `random` runs it.

A line for each check: 0 where it came right, else 1, and what was tried. What the program was asked and what it said is
shown on standard error where a check fails. Problems are small, since each is also answered by listing.
"""
import csv
import decimal
import io
import math
import random
import statistics
import subprocess
import sys
from collections import Counter
from dataclasses import dataclass, field, replace
from decimal import Decimal
from fractions import Fraction

PAIRS = ("signedrank", "sign", "rawsigned")
TWO_SAMPLES = ("ranksum", "ansari", "mood", "savage", "median", "raw")
BLOCKS = ("friedman", "page", "cochran")
STRATA = ("strata", "zelen")
SEQUENCES = ("kendall", "runs")
TESTS = (
    *PAIRS, "mcnemar", *TWO_SAMPLES, "kw", "jt", "umbrella", *BLOCKS, "fisher", "linear", *STRATA, "stratranksum",
    *SEQUENCES,
)
GROUPS = (*TWO_SAMPLES, "kw", "jt", "umbrella", "shift")
LABELS = ("x", "y", "b c", "10%", "\u00e9", "NA", "7", "total 3", "less", "a,b", 'say "no"', "two\nlines")
SEPARATORS = {"comma": ",", "semicolon": ";", "tab": "\t"}

# values have up to 18 digits on either side of the point
decimal.getcontext().prec = 60


@dataclass(frozen=True)
class Problem:
    """A test, its options by name, and the rows of its file: a value is a Decimal, a count an int, a label a text."""

    test: str
    rows: list
    options: dict = field(default_factory=dict)
    spelling: int = 0

    def asked(self, **options):
        """The problem with these options besides, or in place of its own."""
        named = {name.replace("_", "-"): value for name, value in options.items()}
        return replace(self, options={**self.options, **named})

    def without(self, option):
        return replace(self, options={name: value for name, value in self.options.items() if name != option})

    def words(self):
        return [self.test, "f.csv", *(f"--{name}={value}" for name, value in self.options.items())]

    def text(self):
        """The file; the seed `spelling` says how its numbers are written."""
        dice = random.Random(self.spelling)
        file = io.StringIO()
        separator = SEPARATORS[self.options.get("separator", "comma")]
        out = csv.writer(file, delimiter=separator, lineterminator=dice.choice(["\n", "\r\n"]))
        out.writerow([f"c{place}" for place in range(len(self.rows[0]))])
        out.writerows([spelled(cell, dice) for cell in row] for row in self.rows)
        return file.getvalue()

    def labels(self):
        """The labels in the order that the test takes them in."""
        if "order" in self.options:
            return self.options["order"].split(",")
        return list(dict.fromkeys(self.label(row) for row in self.rows))

    def label(self, row):
        """The label of a row's group, which stands behind that of its stratum."""
        return row[1] if self.test == "stratranksum" else row[0]

    def in_order(self, labels):
        """The same with its labels in this order: by the option, or where that cannot list them, by the rows."""
        if not any("," in label for label in labels):
            return self.asked(order=",".join(labels))
        return replace(self, rows=sorted(self.rows, key=lambda row: labels.index(self.label(row))))

    def shuffled(self, dice):
        return replace(self, rows=dice.sample(self.rows, len(self.rows)))

    def changed(self, change):
        """The same with each value changed."""
        rows = [[change(cell) if isinstance(cell, Decimal) else cell for cell in row] for row in self.rows]
        return replace(self, rows=rows)

    def negated(self):
        return self.changed(lambda value: -value)

    def columns(self):
        return [list(column) for column in zip(*self.rows)]

    def is_two_by_two(self):
        return len(self.rows) == len(self.rows[0]) == 2


def spelled(cell, dice):
    """A value as one of the texts that are read as this value."""
    if not isinstance(cell, Decimal):
        return cell
    plain = format(cell, "f")
    longer = plain if "." in plain else f"{plain}."
    return dice.choice([plain, plain, plain, f"{longer}0", f"{cell:+f}", f"{cell.scaleb(3):f}e-3"])


# ---- problems


def values_of(dice):
    """What makes one value after another: whole, alike, negative, with decimals, with eighteen of them, or great."""
    alike = dice.randint(-2, 2)
    base = dice.randint(-(10**15), 10**15)
    return dice.choice([
        lambda: Decimal(dice.randint(0, 3)),
        lambda: Decimal(alike),
        lambda: Decimal(dice.randint(-6, 6)),
        lambda: Decimal(dice.randint(-40, 40)).scaleb(-1),
        lambda: Decimal(base + dice.randint(-5, 5)).scaleb(-18),
        lambda: Decimal(dice.randint(-3, 3)).scaleb(16),
    ])


def ways(sizes):
    """How many ways there are to give labels to subjects, as often as these sizes say."""
    sizes = list(sizes)
    return math.factorial(sum(sizes)) // math.prod(map(math.factorial, sizes))


def pairs(test, dice):
    value = values_of(dice)
    width = dice.choice([1, 2])
    return Problem(test, [[value() for _ in range(width)] for _ in range(dice.randint(1, 9))])


def groups(test, dice):
    """Samples of sizes that have a thousand ways at most, where there are not eight of one subject each."""
    number = dice.randint(2, 8) if test in ("kw", "jt", "umbrella") else 2
    sizes = [1] * number
    grows = [place for place in range(number) if place or dice.random() < 0.7]
    while dice.random() < 0.9:
        larger = list(sizes)
        larger[dice.choice(grows)] += 1
        if ways(larger) > 1000 or sum(larger) > 12:
            break
        sizes = larger
    value = values_of(dice)
    labels = dice.sample(LABELS, number)
    rows = [[label, value()] for label, size in zip(labels, sizes) for _ in range(size)]
    problem = Problem(test, rows).shuffled(dice)
    if test == "kw" and dice.random() < 0.8:
        problem = problem.asked(scores=dice.choice(["wilcoxon", *TWO_SAMPLES[1:]]))
    if test == "umbrella":
        problem = problem.asked(peak=dice.randint(1, number))
    if test == "shift":
        problem = problem.asked(miss=dice.choice(["1/100", "1/20", "1/10", "1/5", "1/3", "1/2", "999/1000"]))
    return problem.in_order(dice.sample(labels, number)) if test != "kw" and dice.random() < 0.3 else problem


def blocks(test, dice):
    number = dice.choice([2, 2, 2, 3, 3, 4, 5, 6, 8])
    value = values_of(dice)
    cell = (lambda: dice.randint(0, 1)) if test == "cochran" else value
    rows = [[cell() for _ in range(number)]]
    while math.factorial(number) ** (len(rows) + 1) <= 3000 and dice.random() < 0.8:
        alike = dice.random() < 0.2
        rows.append([cell()] * number if alike else [cell() for _ in range(number)])
    return Problem(test, rows)


def table(test, dice):
    """A table of counts; in some tables rows and columns are left to zeros."""
    height, width = (2, 2) if test == "mcnemar" or dice.random() < 0.6 else (dice.randint(2, 5), dice.randint(2, 8))
    rows = [[0] * width for _ in range(height)]
    full = dice.random() < 0.7
    heights = dice.sample(range(height), height if full else dice.randint(1, height))
    widths = dice.sample(range(width), width if full else dice.randint(1, width))
    for _ in range(dice.randint(0, 16)):
        row, column = dice.choice(heights), dice.choice(widths)
        rows[row][column] += 1
        if ways([sum(row) for row in rows]) > 2000:
            rows[row][column] -= 1
    problem = Problem(test, rows)
    if test == "linear" and dice.random() < 0.6:
        problem = problem.asked(row_scores=scores(dice, height), column_scores=scores(dice, width))
    if test == "fisher" and problem.is_two_by_two() and dice.random() < 0.4:
        problem = problem.asked(odds=odds(dice))
    return problem


def scores(dice, number):
    return ",".join(str(dice.randint(-4, 9)) for _ in range(number))


def odds(dice):
    return f"{dice.randint(1, 6)}/{dice.randint(1, 6)}"


def strata(test, dice):
    rows = []
    total = 1
    for place in range(dice.randint(1, 5)):
        counts = [0] * 4 if dice.random() < 0.2 else [dice.randint(0, 3) for _ in range(4)]
        total *= ways([sum(counts[:2]), sum(counts[2:])])
        if total > 3000:
            break
        rows.append([f"s{place}", *counts])
    problem = Problem(test, rows)
    return problem.asked(odds=odds(dice)) if test == "strata" and dice.random() < 0.4 else problem


def strata_of_groups(test, dice):
    """Two samples in strata, of which the first has some of both, and others may have none of one."""
    value = values_of(dice)
    labels = dice.sample(LABELS, 2)
    rows = []
    total = 1
    for stratum in dice.sample(LABELS, dice.randint(1, 4)):
        sizes = [dice.randint(0 if rows else 1, 3) for _ in labels]
        total *= ways(sizes)
        if total > 3000:
            break
        rows += [[stratum, label, value()] for label, size in zip(labels, sizes) for _ in range(size)]
    problem = Problem(test, rows).shuffled(dice)
    return problem.in_order(dice.sample(labels, 2)) if dice.random() < 0.3 else problem


def bivariate(test, dice):
    first, second = values_of(dice), values_of(dice)
    rows = [[first(), second()] for _ in range(dice.randint(1, 8))]
    while ways(Counter(row[1] for row in rows).values()) > 3000:
        rows.pop()
    return Problem(test, rows)


def sequence(test, dice):
    labels = dice.sample(LABELS, 2)
    rows = [[label] for label in labels for _ in range(dice.randint(1, 6))]
    return Problem(test, rows).shuffled(dice)


def make(test, dice):
    """A problem of the test, in its layout."""
    layouts = {
        pairs: PAIRS, groups: GROUPS, blocks: BLOCKS, strata: STRATA, strata_of_groups: ["stratranksum"],
        bivariate: ["kendall"], sequence: ["runs"], table: TESTS,
    }
    layout = next(layout for layout, tests in layouts.items() if test in tests)
    problem = replace(layout(test, dice), spelling=dice.randrange(10**6))
    return problem.asked(separator=dice.choice(list(SEPARATORS))) if dice.random() < 0.3 else problem


# ---- the program


class Refused(Exception):
    """The program gave no report."""


class Report:
    """What the program wrote, by the first word of each line; it has a total, and a tail or a miss."""

    def __init__(self, text):
        self.text = text
        self.lines = text.split("\n")[:-1]
        self.words = {words[0]: words[1:] for words in (line.split(" ") for line in self.lines)}
        self.total = int(self.words["total"][0])
        # the numerators and denominators of the lines that have six decimals, and their quotients
        self.counts = {
            name: tuple(map(int, self.words[name][0].split("/")))
            for name in ("less", "greater", "two", "miss") if name in self.words
        }
        if not self.counts:
            raise ValueError("no tail")
        self.tails = {name: Fraction(*count) for name, count in self.counts.items()}
        self.spread = [tuple(map(int, line.split(" ")[1:])) for line in self.lines if line.startswith("at ")]

    def fraction(self, name):
        return Fraction(self.words[name][0])

    def without(self, *names):
        """The lines that begin with none of these words."""
        return [line for line in self.lines if line.split(" ")[0] not in names]


# what the program said to a file and words, and those that a check asked
known = {}
shown = []


def said(text, words):
    """What the program writes of a file; what was asked before is not asked again."""
    key = (text, *words)
    shown.append(key)
    if key not in known:
        with open("f.csv", "w", newline="", encoding="utf-8") as file:
            file.write(text)
        known[key] = subprocess.run([PROGRAM, *words], capture_output=True, timeout=60, check=False)
    run = known[key]
    if run.returncode != 0 or run.stderr:
        raise Refused
    return run.stdout.decode("utf-8")


def told(problem, *flags):
    return said(problem.text(), [*problem.words(), *flags])


def ask(problem, *flags, **options):
    """The report of a problem with these options besides."""
    return Report(told(problem.asked(**options), *flags))


def merged(pieces):
    """The report of the parts of a divided run."""
    return said("".join(pieces), ["merge", "f.csv"])


# ---- checks: each is true of every problem of the tests that it names

CHECKS = []


def holds_for(*tests, when=lambda problem: True):
    """Keeps a check of the problems of these tests for which `when` is true; it is given the problem and dice."""

    def keep(check):
        CHECKS.append((tests, when, check))
        return check

    return keep


def swapped(tails):
    return {{"less": "greater", "greater": "less"}.get(name, name): tail for name, tail in tails.items()}


def one_sided(tails):
    return {name: tails[name] for name in ("less", "greater")}


def has_odds(problem):
    return "odds" in problem.options


def has_no_odds(problem):
    return not has_odds(problem)


def scores_of(problem):
    """The scores of a test of groups."""
    return problem.options.get("scores", "wilcoxon") if problem.test == "kw" else problem.test


@holds_for(*TESTS)
def listing_and_the_network_give_the_same_report(problem, _):
    tails = ["all", *ask(problem).tails]
    return all(ask(problem, tail=tail).text == ask(problem, "--plain", tail=tail).text for tail in tails)


@holds_for(*TESTS)
def a_tail_alone_is_its_line_of_the_report(problem, _):
    whole = ask(problem)
    return all(ask(problem, tail=tail).lines == whole.without(*whole.tails.keys() - {tail}) for tail in whole.tails)


@holds_for(*TESTS)
def listing_and_the_network_give_the_same_distribution(problem, _):
    spread = ask(problem, "--distribution")
    return spread.text == ask(problem, "--plain", "--distribution").text and spread.without("at") == ask(problem).lines


@holds_for(*TESTS)
def open_keys_are_told_behind_the_same_report(problem, _):
    # without them another network may answer
    lines = ask(problem).lines
    return ask(problem, "--nodes").lines[:len(lines)] == lines


@holds_for(*TESTS)
def parts_in_any_order_come_to_the_report(problem, dice):
    parts = dice.randint(1, 5)
    stage = dice.choice([0, 1, 2, 3, 5, 8])
    pieces = [told(problem.asked(stage=stage, parts=parts, part=part)) for part in range(parts)]
    return merged(dice.sample(pieces, parts)) == ask(problem).text


@holds_for(*TESTS)
def the_weights_of_the_distribution_sum_to_the_numerators(problem, _):
    report = ask(problem, "--distribution")
    spread, total = report.spread, report.total
    observed = int(report.words["statistic"][0].split("/")[0])
    moment = sum(value * weight for value, weight in spread)
    own = dict(spread).get(observed)
    extreme = {
        "less": lambda value, weight: value <= observed,
        "greater": lambda value, weight: value >= observed,
        "two": lambda value, weight: abs(value * total - moment) >= abs(observed * total - moment),
    }
    if problem.test in ("fisher", "zelen"):
        # of a table of two by two a value stands for one table, of a greater one it is the weight of a table, and of
        # strata that of all tables
        two_by_two = problem.test == "fisher" and problem.is_two_by_two()
        extreme["two"] = lambda value, weight: weight <= own if two_by_two else value <= observed
    return own is not None and sum(weight for _, weight in spread) == total and all(
        sum(weight for value, weight in spread if extreme[name](value, weight)) == count
        for name, (count, _) in report.counts.items()
    )


@holds_for(*TESTS)
def numerators_are_from_one_to_the_total(problem, _):
    report = ask(problem)
    return all(1 <= count <= total == report.total for count, total in report.counts.values())


def rearrangements(problem):
    """How many there are, without odds."""
    if problem.test in GROUPS:
        return ways(Counter(row[0] for row in problem.rows).values())
    if problem.test in BLOCKS:
        return math.prod(ways(Counter(row).values()) for row in map(tuple, problem.rows))
    if problem.test in PAIRS:
        return 2 ** sum(row[-1] != (row[0] if len(row) == 2 else 0) for row in problem.rows)
    if problem.test == "mcnemar":
        return 2 ** (problem.rows[0][1] + problem.rows[1][0])
    if problem.test == "strata":
        return math.prod(ways([a + b, c + d]) for _, a, b, c, d in problem.rows)
    if problem.test == "zelen":
        # by the sum of first cells
        members = Counter([0])
        for _, a, b, c, d in problem.rows:
            cells = {x: math.comb(a + c, x) * math.comb(b + d, a + b - x) for x in range(a + min(b, c) + 1)}
            members = sum((Counter({x + m: n * k for m, k in members.items()}) for x, n in cells.items()), Counter())
        return members[sum(row[1] for row in problem.rows)]
    if problem.test == "stratranksum":
        strata = {stratum for stratum, _, _ in problem.rows}
        return math.prod(ways(Counter(g for s, g, _ in problem.rows if s == stratum).values()) for stratum in strata)
    if problem.test in SEQUENCES:
        return ways(Counter(row[-1] for row in problem.rows).values())
    return ways(map(sum, problem.rows))


@holds_for(*TESTS, "shift", when=has_no_odds)
def the_total_is_the_number_of_rearrangements(problem, _):
    return ask(problem).total == rearrangements(problem)


@holds_for(*TESTS)
def less_and_greater_share_the_observed_statistic(problem, _):
    tails = ask(problem).tails
    return "less" not in tails or tails["less"] + tails["greater"] > 1


@holds_for(*TESTS, "shift")
def six_decimals_are_the_quotient_rounded_half_up(problem, _):
    report = ask(problem)
    millionths = {name: (2 * 10**6 * part + whole) // (2 * whole) for name, (part, whole) in report.counts.items()}
    return all(report.words[name][1] == f"{n // 10**6}.{n % 10**6:06}" for name, n in millionths.items())


@holds_for(*TESTS, "shift")
def fields_picked_from_a_wider_file_have_the_same_report(problem, dice):
    width = len(problem.rows[0])
    places = dice.sample(range(width + 2), width)
    rows = [["-"] * (width + 2) for _ in problem.rows]
    for row, cells in zip(rows, problem.rows):
        for place, cell in zip(places, cells):
            row[place] = cell
    columns = ",".join(str(place + 1) for place in places)
    return ask(replace(problem, rows=rows), columns=columns).text == ask(problem).text


@holds_for(*PAIRS, *BLOCKS, *STRATA, "kendall")
def rows_in_any_order_have_the_same_report(problem, dice):
    return ask(problem.shuffled(dice)).text == ask(problem).text


@holds_for(*GROUPS, "stratranksum")
def subjects_in_any_order_have_the_same_report(problem, dice):
    if problem.test == "kw":
        # which has no option for the order of its labels
        return sorted(ask(problem.shuffled(dice)).lines) == sorted(ask(problem).lines)
    return ask(problem.shuffled(dice).in_order(problem.labels())).text == ask(problem).text


@holds_for(*TWO_SAMPLES, "jt", "stratranksum")
def labels_in_reverse_order_swap_less_and_greater(problem, _):
    return ask(problem.in_order(problem.labels()[::-1])).tails == swapped(ask(problem).tails)


@holds_for("umbrella")
def an_umbrella_in_reverse_order_has_the_same_numbers(problem, _):
    peak = len(problem.labels()) + 1 - int(problem.options["peak"])
    turned = ask(problem.in_order(problem.labels()[::-1]), peak=peak)
    return turned.without("group", "peak") == ask(problem).without("group", "peak")


@holds_for("friedman", "cochran")
def treatments_in_any_order_have_the_same_report(problem, dice):
    columns = problem.columns()
    rows = list(zip(*dice.sample(columns, len(columns))))
    return ask(replace(problem, rows=rows)).text == ask(problem).text


@holds_for("page")
def treatments_in_reverse_order_swap_less_and_greater(problem, _):
    return ask(replace(problem, rows=[row[::-1] for row in problem.rows])).tails == swapped(ask(problem).tails)


@holds_for("fisher", when=lambda problem: not problem.is_two_by_two())
def rows_and_columns_of_a_table_in_any_order_have_the_same_report(problem, dice):
    columns = problem.columns()
    moved = replace(problem, rows=list(zip(*dice.sample(columns, len(columns))))).shuffled(dice)
    return ask(moved).text == ask(problem).text


@holds_for("fisher", when=Problem.is_two_by_two)
def columns_changed_and_odds_turned_swap_less_and_greater(problem, _):
    moved = replace(problem, rows=[row[::-1] for row in problem.rows])
    if has_odds(problem):
        moved = moved.asked(odds="/".join(problem.options["odds"].split("/")[::-1]))
    return ask(moved).tails == swapped(ask(problem).tails)


@holds_for("fisher", "linear")
def a_table_turned_has_the_same_ratios(problem, _):
    turned = replace(problem, rows=problem.columns())
    if "row-scores" in problem.options:
        options = problem.options
        turned = turned.asked(row_scores=options["column-scores"], column_scores=options["row-scores"])
    return ask(turned).tails == ask(problem).tails


@holds_for("linear")
def rows_of_a_table_and_their_scores_in_any_order_have_the_same_report(problem, dice):
    whole = problem.options.get("row-scores", ",".join(str(n + 1) for n in range(len(problem.rows)))).split(",")
    moved = dice.sample(list(zip(whole, problem.rows)), len(whole))
    again = replace(problem, rows=[row for _, row in moved]).asked(row_scores=",".join(score for score, _ in moved))
    return ask(again).text == ask(problem).text


@holds_for("linear", when=lambda problem: problem.is_two_by_two() and "row-scores" not in problem.options)
def linear_of_two_by_two_is_fisher(problem, _):
    fisher = ask(replace(problem, test="fisher")).tails
    return one_sided(ask(problem).tails) == one_sided(fisher)


def same_answer(problem, changed):
    """The same report, or the same ratios where the statistic is of the values themselves."""
    if problem.test == "rawsigned" or scores_of(problem) == "raw":
        return ask(changed).tails == ask(problem).tails
    return ask(changed).text == ask(problem).text


@holds_for(*PAIRS, *GROUPS[:-1], "friedman", "page", "stratranksum", "kendall")
def values_times_a_number_have_the_same_answer(problem, dice):
    factor = dice.randint(2, 5)
    return same_answer(problem, problem.changed(lambda value: value * factor))


@holds_for(
    *PAIRS, *GROUPS[:-1], "friedman", "page", "stratranksum", "kendall", when=lambda problem: len(problem.rows[0]) > 1
)
def values_shifted_have_the_same_answer(problem, dice):
    values = [cell for row in problem.rows for cell in row if isinstance(cell, Decimal)]
    # a shift as great as the values, where others would be too wide
    near = dice.choice(values) + dice.choice(values)
    constant = near if scores_of(problem) == "raw" else Decimal(dice.randint(-(10**6), 10**6)).scaleb(-3)
    return same_answer(problem, problem.changed(lambda value: value + constant))


@holds_for("ranksum", "raw", *PAIRS, "jt", "umbrella", "page", "stratranksum")
def values_negated_swap_less_and_greater(problem, _):
    return ask(problem.negated()).tails == swapped(ask(problem).tails)


@holds_for(
    "ansari", "mood", "kw", "friedman", "kendall", when=lambda problem: scores_of(problem) not in ("savage", "median")
)
def values_negated_have_the_same_report(problem, _):
    return ask(problem.negated()).text == ask(problem).text


@holds_for("cochran")
def outcomes_changed_have_the_same_ratios(problem, _):
    return ask(replace(problem, rows=[[1 - cell for cell in row] for row in problem.rows])).tails == ask(problem).tails


@holds_for("mcnemar")
def mcnemar_is_sign_of_as_many_differences(problem, _):
    (_, up), (down, _) = problem.rows
    rows = [[Decimal(1)]] * up + [[Decimal(-1)]] * down + [[Decimal(0)]]
    return ask(Problem("sign", rows)).without("test", "rows") == ask(problem).without("test", "table")


@holds_for(*TWO_SAMPLES)
def kw_of_two_groups_is_two(problem, _):
    # its statistic is a square of the distance of the second sample's sum from the mean, and a constant
    kind = "wilcoxon" if problem.test == "ranksum" else problem.test
    kw = replace(problem.without("order"), test="kw")
    return ask(kw, scores=kind).counts["greater"] == ask(problem).counts["two"]


@holds_for("ranksum")
def jt_of_two_groups_is_ranksum(problem, _):
    return ask(replace(problem, test="jt")).counts == ask(problem).counts


@holds_for("jt")
def jt_is_the_umbrella_with_its_peak_at_the_last_label(problem, _):
    umbrella = ask(replace(problem, test="umbrella"), peak=len(problem.labels()))
    return umbrella.without("test", "peak") == ask(problem).without("test")


@holds_for("friedman", when=lambda problem: len(problem.rows[0]) == 2)
def friedman_of_two_treatments_is_two_of_page(problem, _):
    return ask(problem).tails["greater"] == ask(replace(problem, test="page")).tails["two"]


@holds_for("fisher", when=Problem.is_two_by_two)
def strata_of_one_stratum_are_fisher(problem, _):
    stratum = replace(problem, test="strata", rows=[["s", *problem.rows[0], *problem.rows[1]]])
    return one_sided(ask(stratum).tails) == one_sided(ask(problem).tails)


@holds_for("ranksum")
def stratranksum_of_one_stratum_is_ranksum(problem, _):
    stratum = replace(problem, test="stratranksum", rows=[["s", *row] for row in problem.rows])
    return ask(stratum).without("test", "strata") == ask(problem).without("test", "group")


@holds_for("stratranksum")
def a_stratum_of_one_sample_changes_no_ratio(problem, _):
    label = problem.labels()[0]
    longer = replace(problem, rows=[*problem.rows, *(["one more", label, Decimal(n)] for n in range(3))])
    return ask(longer).counts == ask(problem).counts


@holds_for(*STRATA)
def strata_of_turned_tables_have_the_same_ratios(problem, _):
    return ask(replace(problem, rows=[[s, a, c, b, d] for s, a, b, c, d in problem.rows])).tails == ask(problem).tails


@holds_for("zelen")
def columns_changed_in_all_strata_have_the_same_report(problem, _):
    return ask(replace(problem, rows=[[s, b, a, d, c] for s, a, b, c, d in problem.rows])).text == ask(problem).text


@holds_for(*STRATA)
def a_stratum_of_one_row_changes_no_ratio(problem, _):
    longer = replace(problem, rows=[*problem.rows, ["one more", 2, 1, 0, 0]])
    return ask(longer).tails == ask(problem).tails


@holds_for("jt")
def kendall_of_the_numbers_of_labels_is_jt(problem, _):
    labels = problem.labels()
    rows = [[Decimal(labels.index(label)), value] for label, value in problem.rows]
    return ask(Problem("kendall", rows)).tails == ask(problem).tails


@holds_for("kendall")
def values_changed_have_the_same_ratios(problem, _):
    turned = ask(replace(problem, rows=[row[::-1] for row in problem.rows]))
    return turned.words["statistic"] == ask(problem).words["statistic"] and turned.tails == ask(problem).tails


@holds_for("kendall")
def second_values_negated_swap_less_and_greater(problem, _):
    return ask(replace(problem, rows=[[x, -y] for x, y in problem.rows])).tails == swapped(ask(problem).tails)


@holds_for("runs")
def a_sequence_in_reverse_has_the_same_numbers(problem, _):
    return ask(replace(problem, rows=problem.rows[::-1])).without("group") == ask(problem).without("group")


@holds_for("runs")
def labels_changed_have_the_same_numbers(problem, _):
    one, other = problem.labels()
    changed = replace(problem, rows=[[other if label == one else one] for (label,) in problem.rows])
    return ask(changed).without("group") == ask(problem).without("group")


@holds_for("fisher", "strata", when=lambda problem: problem.test == "strata" or problem.is_two_by_two())
def odds_of_one_are_none(problem, _):
    problem = problem.without("odds")
    return ask(problem, odds="1/1").tails == one_sided(ask(problem).tails)


@holds_for("fisher", "strata", when=has_odds)
def odds_weigh_each_subject_of_the_first_row(problem, _):
    p, q = map(int, problem.options["odds"].split("/"))
    subjects = sum(problem.rows[0]) if problem.test == "fisher" else sum(row[1] + row[2] for row in problem.rows)
    plain = ask(problem.without("odds"), "--distribution")
    spread = [(x, weight * p**x * q ** (subjects - x)) for x, weight in plain.spread]
    return ask(problem, "--distribution").spread == spread


@holds_for("fisher", "strata", when=has_odds)
def odds_not_in_lowest_terms_have_the_same_ratios(problem, _):
    p, q = map(int, problem.options["odds"].split("/"))
    return ask(problem, odds=f"{2 * p}/{2 * q}").tails == ask(problem).tails


@holds_for(*PAIRS, *GROUPS, *BLOCKS, "stratranksum", *SEQUENCES)
def rows_with_a_missing_field_are_dropped(problem, dice):
    rows = list(problem.rows)
    number = dice.randint(0, 3)
    for _ in range(number):
        row = list(dice.choice(problem.rows))
        place = dice.randrange(len(row))
        is_label = isinstance(row[place], str)
        if not is_label and isinstance(row[0], str) and dice.random() < 0.5:
            row[0] = "no group"
        row[place] = "" if is_label else dice.choice(["", "NA"])
        rows.insert(dice.randint(0, len(rows)), row)
    report = ask(replace(problem, rows=rows), missing="drop")
    return report.words.get("dropped") == [str(number)] and report.without("dropped") == ask(problem).lines


# ---- the shift


def limits(report):
    """The lower and the upper limit, or none."""
    named = (report.words["lower"][0], report.words["upper"][0])
    return None if named == ("none", "none") else tuple(map(Fraction, named))


def differences(problem):
    first, second = problem.labels()
    values = {label: [row[1] for row in problem.rows if row[0] == label] for label in (first, second)}
    return [Fraction(late) - Fraction(early) for late in values[second] for early in values[first]]


def is_turned(report, other):
    """Whether the estimate and the limits have the other sign."""
    turned = limits(other) and tuple(-limit for limit in limits(other)[::-1])
    return report.fraction("estimate") == -other.fraction("estimate") and limits(report) == turned


@holds_for("shift")
def the_estimate_is_the_median_of_the_differences(problem, _):
    report = ask(problem)
    whole = differences(problem)
    among = all(limit in whole for limit in limits(report) or ())
    return among and report.fraction("estimate") == statistics.median(whole) and report.words["differences"] == [
        str(len(whole))
    ]


@holds_for("shift")
def limits_are_at_the_place_that_ranksum_without_ties_gives(problem, _):
    report, whole = ask(problem), sorted(differences(problem))
    untied = [[row[0], Decimal(place)] for place, row in enumerate(problem.rows)]
    ranksum = replace(problem.without("miss"), test="ranksum", rows=untied)
    spread = ask(ranksum, "--distribution").spread
    place = missed = 0
    for _, weight in spread:
        if Fraction(2 * (missed + weight), report.total) > Fraction(problem.options["miss"]):
            break
        place, missed = place + 1, missed + weight
    found = (whole[place - 1], whole[-place]) if place else None
    return report.counts["miss"] == (2 * missed, report.total) and limits(report) == found


@holds_for("shift")
def the_estimate_is_between_the_limits(problem, _):
    report = ask(problem)
    found = limits(report)
    return report.tails["miss"] == 0 if found is None else found[0] <= report.fraction("estimate") <= found[1]


@holds_for("shift")
def values_negated_turn_the_shift(problem, _):
    report, other = ask(problem.negated()), ask(problem)
    return is_turned(report, other) and report.counts == other.counts


@holds_for("shift")
def labels_in_reverse_order_turn_the_shift(problem, _):
    return is_turned(ask(problem.in_order(problem.labels()[::-1])), ask(problem))


@holds_for("shift")
def a_constant_added_to_the_second_sample_is_added_to_the_shift(problem, dice):
    constant = Decimal(dice.randint(-(10**6), 10**6)).scaleb(-3)
    second = problem.labels()[1]
    rows = [[label, value + constant if label == second else value] for label, value in problem.rows]
    report, other, more = ask(replace(problem, rows=rows)), ask(problem), Fraction(constant)
    moved = limits(other) and tuple(limit + more for limit in limits(other))
    return report.fraction("estimate") == other.fraction("estimate") + more and limits(report) == moved


@holds_for("shift")
def a_smaller_miss_has_limits_no_narrower(problem, _):
    wide, narrow = ask(problem, miss="1/200"), ask(problem)
    if limits(wide) is None:
        return True
    return limits(wide)[0] <= limits(narrow)[0] and limits(narrow)[1] <= limits(wide)[1]


@holds_for("shift")
def limits_miss_at_most_the_part_asked(problem, _):
    report = ask(problem)
    return report.tails["miss"] <= Fraction(problem.options["miss"])


# ---- all of it


def tell(place, problem, check, dice):
    """Runs a check, and tells how it came; where it fails, what the program was asked and said."""
    shown.clear()
    try:
        right = check(problem, dice)
        fault = ""
    except (Refused, subprocess.TimeoutExpired, ArithmeticError, LookupError, ValueError) as caught:
        right = False
        fault = f" ({type(caught).__name__})"
    what = f"problem {place}, {problem.test}: {check.__name__.replace('_', ' ')}{fault}"
    print(0 if right else 1, what)
    if not right:
        print(what, file=sys.stderr)
        for text, *words in shown:
            print(f"words: {words}\nfile: {text!r}", file=sys.stderr)
            # which is not there where the program did not end in time
            run = known.get((text, *words))
            if run:
                written = (run.stdout + run.stderr).decode("utf-8", "replace")
                print(f"{written}-- status {run.returncode}", file=sys.stderr)


def problems(count, seed):
    """Problems of all tests and of the shift in turn; each has a seed of its own, whatever was made before."""
    for place in range(count):
        test = (*TESTS, "shift")[place % (len(TESTS) + 1)]
        yield place, make(test, random.Random(f"{seed} {place}"))


if __name__ == "__main__":
    PROGRAM, SEED = sys.argv[1], sys.argv[3]
    for place, problem in problems(int(sys.argv[2]), SEED):
        known.clear()
        for tests, when, check in CHECKS:
            if problem.test in tests and when(problem):
                tell(place, problem, check, random.Random(f"{SEED} {place} {check.__name__}"))
