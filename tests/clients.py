"""Tries the Python client on examples; a line for each: 0 where it came right, else 1, and what was tried.

With the word `library` behind the examples it goes by the library, in this process.
"""
import csv
import decimal
import json
import os
import pathlib
import pickle
import random
import sys
import tempfile
import threading
import warnings
from fractions import Fraction

EXAMPLES = pathlib.Path(sys.argv[1])
TOP = pathlib.Path(__file__).resolve().parent.parent
sys.path.insert(0, str(TOP / "clients"))
import exact  # noqa: E402

if sys.argv[2:] == ["library"]:
    exact.library()


def rows_of(name):
    """The rows of a file below its header."""
    with open(EXAMPLES / name, newline="", encoding="utf-8") as file:
        return list(csv.reader(file))[1:]


def samples_of(name):
    samples = {}
    for label, value in rows_of(name):
        samples.setdefault(label, []).append(decimal.Decimal(value))
    return samples


def tell(right, what):
    print(0 if right else 1, what)


def refused(kind, *given, **options):
    """Whether a run is refused so."""
    try:
        exact.run(*given, **options)
    except kind as fault:
        return fault.line.startswith("refused: ") and fault.status == kind.status and has_place(str(fault))
    return False


PLACES = (TOP / "docs" / "REFUSALS.md").read_text(encoding="utf-8")


def has_place(text):
    """Whether the text of a refusal has the program's line, and then names a place of docs/REFUSALS.md."""
    place = text.rpartition("#")[2].rstrip(")")
    return f'<a id="{place}"></a>' in PLACES or "as status" in text


def numbers(rows):
    return [[float(cell) for cell in row] for row in rows]


def columns(rows):
    return list(zip(*rows))


def counts(rows):
    return [[int(cell) for cell in row] for row in rows]


runs = {
    "six": lambda: exact.run("ranksum", {"x": [1, 2, 3], "y": [4, 5, 6]}),
    "chorioamnion": lambda: exact.run("ranksum", samples_of("chorioamnion.csv")),
    "sleep": lambda: exact.run("signedrank", zip(*columns(numbers(rows_of("sleep.csv"))))),
    "depression_sign": lambda: exact.run("sign", numbers(rows_of("depression.csv"))),
    "motivation": lambda: exact.run("jt", samples_of("motivation.csv")),
    "rounding": lambda: exact.run("friedman", numbers(rows_of("rounding.csv"))),
    "tea": lambda: exact.run("fisher", counts(rows_of("tea.csv")), distribution=True),
    "tea_odds": lambda: exact.run("fisher", counts(rows_of("tea.csv")), odds=Fraction(2)),
    "satisfaction": lambda: exact.run(
        "linear", counts(rows_of("satisfaction.csv")), row_scores=[3, 10, 20, 35], column_scores=[1, 3, 4, 5]
    ),
    "rabbits": lambda: exact.run("strata", rows_of("rabbits.csv")),
    "rabbits_zelen": lambda: exact.run("zelen", rows_of("rabbits.csv")),
    "teeth": lambda: exact.run("stratranksum", rows_of("teeth.csv"), order=["VC", "OJ"]),
    "tuna": lambda: exact.run("kendall", zip(*columns(numbers(rows_of("tuna.csv"))))),
    "queue": lambda: exact.run("runs", [label for (label,) in rows_of("queue.csv")]),
    "diphtheria": lambda: exact.run("cochran", counts(rows_of("diphtheria.csv")), nodes=True),
    "mucociliary": lambda: exact.run("kw", EXAMPLES / "mucociliary.csv"),
    "drill": lambda: exact.run("drill", number=1),
}
for name, answer in runs.items():
    wanted = (EXAMPLES / f"{name}.out").read_text(encoding="utf-8").split("-- standard error")[0]
    tell(answer().text == wanted, f"Python: {name}")

found = exact.shift(samples_of("chorioamnion.csv"))
wanted = (EXAMPLES / "chorioamnion_shift.out").read_text(encoding="utf-8").split("-- standard error")[0]
tell(found.text == wanted, "Python: chorioamnion_shift")
limits = [str(found.lower), str(found.estimate), str(found.upper)]
tell(limits == ["-19/25", "-61/200", "3/20"] and found.miss == Fraction(120, 3003), "Python: limits of a shift")

six = {"x": [1, 2, 3], "y": [4, 5, 6]}
tell(exact.shift(six).lower is None and exact.shift(six).miss == 0, "Python: no limits of a shift")
turned = exact.shift(six, miss=Fraction(1, 5), order=["y", "x"])
tell(turned.lower == -4 and turned.upper == -2 and turned.sizes[0] == "group 3 y", "Python: a shift turned round")
tell(exact.shift({"x": [1, None], "y": [2]}, missing="drop").dropped == 1, "Python: a shift with missing values dropped")

# ---- fractions, alternatives, letters

for miss in (0.2, "0.2", ".20", "1/5", Fraction(1, 5), decimal.Decimal("0.2")):
    tell(exact.shift(six, miss=miss).miss == Fraction(1, 5), f"Python: miss={miss!r}")
tea = counts(rows_of("tea.csv"))
for odds in (2, 2.0, "2", "2/1", Fraction(2), decimal.Decimal(2)):
    tell(exact.run("fisher", tea, odds=odds).less == Fraction(305, 321), f"Python: odds={odds!r}")
for odds in (1 / 3, "two", "5%", -2, float("inf")):
    try:
        exact.run("fisher", tea, odds=odds)
        tell(False, f"Python: odds={odds!r}")
    except exact.Usage as fault:
        tell("value of --odds" in fault.line and '"3/2"' in str(fault), f"Python: odds={odds!r}")
# scipy 1.10: mannwhitneyu(x, y, alternative=..., method="exact"), wilcoxon(x, y), kendalltau, fisher_exact
x, y = [1.1, 2.7, 3.9, 5.2, 8.4], [2.1, 4.4, 6.3, 7.7, 9.8]
pair = list(zip(x, y))
for test, data, sides in (
    ("ranksum", {"x": x, "y": y}, (0.21031746, 0.84523810, 0.42063492)),
    ("signedrank", pair, (0.03125, 1.0, 0.0625)),
    ("signedrank", [a - 3 for a in (2.5, 3.9, 5.25, 8.4)], (0.9375, 0.125, 0.25)),
    ("kendall", pair, (1.0, 0.00833333, 0.01666667)),
    ("fisher", [[3, 1], [1, 3]], (0.98571429, 0.24285714, 0.48571429)),
):
    for side, wanted in zip(("less", "greater", "two-sided"), sides):
        found = exact.run(test, data, alternative=side).pvalue
        tell(abs(found - wanted) < 1e-8, f"Python: {test}, alternative={side!r}, {float(found)}")
tell(exact.run("ranksum", six, alternative="two.sided").two == Fraction(1, 10), "Python: R's word of both sides")
paired = exact.run("signedrank", EXAMPLES / "sleep.csv", alternative="less")
tell(paired.greater == Fraction(1, 512) and paired.less is None, "Python: the alternative of a file of pairs")
one_column = exact.run("signedrank", EXAMPLES / "darwin.csv", alternative="less")
tell(one_column.less is not None and one_column.greater is None, "Python: the alternative of a file of differences")
for words, options in (
    (["tail=", "alternative="], {"alternative": "less", "tail": "less"}),
    (["two-sided", "'left'"], {"alternative": "left"}),
):
    try:
        exact.run("ranksum", six, **options)
        tell(False, f"Python: {options}")
    except ValueError as fault:
        tell(all(word in str(fault) for word in words), f"Python: {options}")
for test, data, options in (("kw", six, {}), ("zelen", rows_of("rabbits.csv"), {}), ("fisher", tea, {"odds": 2})):
    try:
        exact.run(test, data, alternative="two-sided", **options)
        tell(False, f"Python: an alternative that {test} does not have")
    except ValueError as fault:
        tell("alternative" in str(fault), f"Python: an alternative that {test} does not have")
# R 4.2.2: kruskal.test, friedman.test without ties, cor.test, wilcox.test; Hollander and Wolfe: H 0.77
letters = {
    "kw": ({"a": [2.9, 3.0, 2.5, 2.6, 3.2], "b": [3.8, 2.7, 4.0, 2.4], "c": [2.8, 3.4, 3.7, 2.2, 2.0]}, {"H": 27 / 35}),
    "friedman": ([[1, 2, 3], [2, 1, 3], [1, 3, 2], [1, 2, 3]], {"S": 4.5}),
    "kendall": (numbers(rows_of("tuna.csv")), {"tau": 4 / 9}),
    "ranksum": ({"x": x, "y": y}, {"U": 17, "W of wilcox.test": 8}),
    "raw": (six, {}),
}
for test, (data, wanted) in letters.items():
    found = {letter: float(value) for letter, value in exact.run(test, data).letters.items()}
    tell(found == wanted, f"Python: the letters of {test}, {found}")
tell("H 27/35" in repr(exact.run("kw", letters["kw"][0])), "Python: a letter is printed")
tell(exact.run("kw", six, scores="savage").letters == {}, "Python: other scores have no letter")

# ---- names of other programs

for word, ours in (
    ("wilcoxon", ["ranksum", "signedrank"]), ("wilcox.test", ["ranksum", "signedrank"]), ("mannwhitney", ["ranksum"]),
    ("Mann-Whitney U test", ["ranksum"]), ("mannwhitneyu", ["ranksum"]), ("kruskal", ["kw"]),
    ("Kruskal-Wallis", ["kw"]),
    ("fisher_exact", ["fisher"]), ("RANKSUM", ["ranksum"]), ("jonckheere-terpstra", ["jt"]), ("spearman", ["kendall"]),
    ("cochran-mantel-haenszel", ["strata"]), ("friedmanchisquare", ["friedman"]), ("nonsense", ["kw", "fisher"]),
):
    try:
        exact.run(word, six)
        tell(False, f"Python: the name {word}")
    except exact.Usage as fault:
        tell(all(name in str(fault) for name in ours) and fault.line.endswith("TEST"), f"Python: the name {word}")
try:
    exact.run("shift", six)
    tell(False, "Python: shift is not a test")
except ValueError as fault:
    tell("exact.shift" in str(fault), "Python: shift is not a test")
elsewhere = [word for names in exact.ELSEWHERE.values() for word in names.split()]
tell(len(elsewhere) == len(set(elsewhere)) > 80, "Python: each name of other programs once")
tell(not set(elsewhere) & set(exact.LETTERS), "Python: none of them is a test")
for said in exact.ELSEWHERE:
    tell(set(said.replace(";", "").replace(",", "").split()) & set(exact.LETTERS), f"Python: a test in: {said}")
words = (TOP / "completions" / "words").read_text(encoding="utf-8").splitlines()
tests = {name for line in words if line.startswith("test ") for name in line.split()[1:]}
tell(set(exact.LETTERS) == tests | {"drill"}, "Python: a letter for each test")

# ---- numbers of many digits

dice = random.Random(1)
for kind in (1, 1e-3):
    draws = [[kind * dice.gauss(0, 1) for _ in range(15)] for _ in range(40)]
    with warnings.catch_warnings():
        warnings.simplefilter("ignore")
        found = [exact.run("signedrank", sample, tail="less").less for sample in draws]
        fine = [exact.run("signedrank", [round(10**15 * a) for a in sample], tail="less").less for sample in draws]
    tell(found == fine, f"Python: draws of a normal distribution, times {kind}")
with warnings.catch_warnings(record=True) as told:
    warnings.simplefilter("always")
    rounded = exact.run("raw", {"x": [1 / 3e5, 2], "y": [1]})
    tell(len(told) == 1 and "row 2 field 2: 3.3333333333333333e-06" in str(told[0].message), "Python: rounding is told")
    tell(told and told[0].filename == __file__, "Python: of the line that asked")
    told.clear()
    exact.run("raw", {"x": [0.012345678901234568, 1e17], "y": [1.5]})
    tell(not told, "Python: 17 digits within 18 decimals are not rounded")
for values in ([1e-19, 1], [1e-20, 2e-20]):
    tell(refused(exact.BadData, "ranksum", {"x": values, "y": [3.0]}), f"Python: {values} is not rounded away")

# ---- a file without a header

with tempfile.TemporaryDirectory() as folder:
    bare = pathlib.Path(folder) / "bare.csv"
    for text, options in (("x,1\nx,2\nx,3\ny,4\ny,5\ny,6\n", {}), ("x;1;a\nx;2;b\nx;3;c\ny;4;d\ny;NA;e\ny;5;f\ny;6;g\n",
                          {"separator": "semicolon", "columns": [1, 2], "missing": "drop"})):
        bare.write_text("\ufeff" + text, encoding="utf-8")
        try:
            exact.run("ranksum", bare, **options)
            tell(False, "Python: a first row that looks like data")
        except ValueError as fault:
            tell("'1'" in str(fault) and "header=False" in str(fault), "Python: a first row that looks like data")
        found = exact.run("ranksum", bare, header=False, **options)
        tell((found.sizes[0], found.greater) == ("group 3 x", Fraction(1, 20)), "Python: it is data")
        found = exact.run("ranksum", bare, header=True, **options)
        tell(found.sizes[0] == "group 2 x", "Python: it is a header")
    pipe = pathlib.Path(folder) / "pipe"
    os.mkfifo(pipe)
    threading.Thread(target=pipe.write_text, args=("x,1\nx,2\ny,4\ny,5\n",)).start()
    tell(exact.run("ranksum", pipe, header=False).total == 6, "Python: a pipe without a header")
    bare.write_text("2019,2020\n1,2\n3,5\n", encoding="utf-8")
    tell(exact.run("signedrank", bare, header=True).total == 4, "Python: a header of numbers")
    bare.write_text("group,value\nx,1\nx,2\ny,2.5\n", encoding="utf-8")
    tell(exact.run("ranksum", bare).total == 3 and exact.shift(bare).differences == 2, "Python: a header of words")
try:
    exact.run("ranksum", six, header=True)
    tell(False, "Python: header= without a file")
except ValueError as fault:
    tell("header=" in str(fault), "Python: header= without a file")

# ---- refusals
for status, kind in exact.REFUSALS.items() if "FAKE" in os.environ else ():
    told = refused(kind, "ranksum", [status], program=os.environ["FAKE"])
    tell(told and 2 <= status <= 7, f"Python: status {status}")
tell(refused(exact.Usage, "ranksum", six, tail="left"), "Python: refused words")
tell(refused(exact.BadData, "ranksum", {"x": [1, float("nan")], "y": [2]}), "Python: a missing value")
tell(refused(exact.TooWide, "ranksum", {"x": range(66), "y": range(65)}), "Python: too wide")
tell(refused(exact.ReadFault, "ranksum", "no such file"), "Python: a file that is not there")
tell(refused(exact.ReadFault, "ranksum", "no such file", header=False), "Python: nor without a header")
gap = {"x": [1, 2, 3, None], "y": [4, float("nan"), 5, 6]}
kept = exact.run("ranksum", gap, missing="drop")
tell(kept.dropped == 2 and kept.greater == exact.run("ranksum", six).greater, "Python: missing values dropped")
odd = 'a, "b"\nc\u00e9'
tell(exact.run("ranksum", {odd: [1], "y": [2]}).sizes[0] == 'group 1 a, "b"?c\u00e9', "Python: a label with everything")
fine = exact.run("raw", {"x": [decimal.Decimal("0.123456789012345678")], "y": [1]})
tell(str(fine.statistic) == "1", "Python: eighteen decimals")
tell(exact.run("ranksum", six, order=["y", "x"]).less == exact.run("ranksum", six).greater, "Python: another order")
for fault in (exact.BadData("refused: row 4 field 2: missing"), exact.Usage("refused: value of TEST", "wilcox")):
    again = pickle.loads(pickle.dumps(fault))
    told = [(type(one), str(one), one.line) for one in (fault, again)]
    tell(told[0] == told[1], f"Python: pickled, {fault.line}")
# every line that the rows have has a place, and every word of help
lines = set()
for row in (TOP / "tests" / "rows.txt").read_text(encoding="utf-8").splitlines():
    if row[:1] in "234567" and row[1:11] == " refused: ":
        lines.add(row[2:].removesuffix("\\n"))
for line in sorted(lines) + [f"refused: {cause}" for cause in exact.HELPS]:
    tell(has_place(str(exact.Refused(line))), f"Python: a place for {line}")
tell(len(lines) > 100, "Python: more than a hundred lines")
r_text = (TOP / "clients" / "exact.R").read_text(encoding="utf-8")
for table in (exact.HELPS, exact.ELSEWHERE):
    tell(all(f"{json.dumps(key)} = {json.dumps(text)}" in r_text for key, text in table.items()), "R: the same helps")
