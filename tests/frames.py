"""Tries what the Python client takes as data, and what it refuses; a line for each: 0 where it came right, else 1.

Frames are stand-ins that behave as those of polars and pyarrow; where pandas or polars are there, these too.
"""
import decimal
import importlib.util
import pathlib
import pickle
import sys
import warnings
from fractions import Fraction

sys.path.insert(0, str(pathlib.Path(__file__).resolve().parent.parent / "clients"))
import exact  # noqa: E402

TIMES = [1, 2, 3, 4, 5, 6]
GROUPS = ["x", "x", "x", "y", "y", "y"]
SIX = exact.run("ranksum", {"x": [1, 2, 3], "y": [4, 5, 6]}).text
BEFORE, AFTER = [1.5, 2, 4, 3], [2, 4, 7.25, 1]
PAIRS = exact.run("signedrank", zip(BEFORE, AFTER)).text


def tell(right, what):
    print(0 if right else 1, f"Python: {what}")


def refused(kind, words, *given, **options):
    """Whether a call is an error of this kind, whose text has these words."""
    try:
        exact.run(*given, **options)
    except kind as fault:
        return all(word in str(fault) for word in words)
    return False


class Frame:
    """A frame as polars has it: its rows are not what one meets when one goes through it, its columns are."""

    def __init__(self, columns):
        self._columns = columns

    @property
    def columns(self):
        return list(self._columns)

    def __getitem__(self, name):
        return self._columns[name]

    def __iter__(self):
        return iter(self._columns.values())


class Table(Frame):
    """A table as pyarrow has it: `columns` are the columns themselves."""

    @property
    def columns(self):
        return list(self._columns.values())

    @property
    def column_names(self):
        return list(self._columns)


class Lazy(Frame):
    def __getitem__(self, name):
        raise TypeError("'Lazy' object is not subscriptable")


class Twice(Frame):
    @property
    def columns(self):
        return [*self._columns, *self._columns]


class Unknown:
    """A frame of which one only knows that it is one."""

    def __dataframe__(self):
        raise NotImplementedError

    def __iter__(self):
        return iter([TIMES, TIMES])


class Rows:
    """Something that one can go through, and no more."""

    def __iter__(self):
        return iter([[1, 2], [3, 4]])


# ---- frames, mappings and records, by the names of their columns

for kind in (Frame, Table):
    rats = kind({"id": list("abcdef"), "time": TIMES, "drug": GROUPS})
    tell(exact.run("ranksum", rats, value="time", group="drug").text == SIX, f"{kind.__name__}: value and group")
    tell(exact.run("ranksum", rats, columns=["drug", "time"]).text == SIX, f"{kind.__name__}: columns by name")
    tell(exact.run("ranksum", rats, columns=[3, 2]).text == SIX, f"{kind.__name__}: columns by number")
    pair = kind({"before": BEFORE, "after": AFTER})
    tell(exact.run("signedrank", pair).text == PAIRS, f"{kind.__name__}: pairs, not turned round")
    two = kind({"a": [1, 2], "b": [2, 4]})
    square = exact.run("signedrank", [[1, 2], [2, 4]]).text
    tell(exact.run("signedrank", two).text == square, f"{kind.__name__}: two by two")
records = [{"drug": group, "time": time} for group, time in zip(GROUPS, TIMES)]
tell(exact.run("ranksum", records).text == SIX, "records")
tell(exact.run("ranksum", records, group="drug", value="time").text == SIX, "records by name")
tell(exact.run("ranksum", {"time": TIMES, "drug": GROUPS}, group="drug", value="time").text == SIX, "a mapping by name")
tell(exact.run("signedrank", {"before": BEFORE, "after": AFTER}).text == PAIRS, "a mapping of columns for pairs")
tell(exact.run("signedrank", {1: BEFORE, 2: AFTER}).text == PAIRS, "a mapping whose names are numbers")
blocks = {"a": [1, 2, 6], "b": [3, 4, 5], "c": [7, 9, 8]}
tell(exact.run("friedman", blocks).text == exact.run("friedman", zip(*blocks.values())).text, "a mapping for blocks")
wide = {"tea": [3, 1], "milk": [1, 4], "none": [0, 2]}
tell(exact.run("fisher", wide).text == exact.run("fisher", [[3, 1, 0], [1, 4, 2]]).text, "a mapping for a table")
tell(exact.run("runs", {"sex": list("MFFM")}).text == exact.run("runs", list("MFFM")).text, "a mapping for a sequence")
strata = {"dose": [1, 1, 1, 2, 2, 2], "drug": list("ababab"), "time": [3, 1, 2, 6, 5, 4]}
rows = list(zip(*strata.values()))
within = exact.run("stratranksum", rows).text
shuffled = dict(reversed(strata.items()))
picked = {"stratum": "dose", "group": "drug", "value": "time"}
tell(exact.run("stratranksum", shuffled, **picked).text == within, "strata by name")
shifted = exact.shift(Frame({"time": TIMES, "drug": GROUPS}), value="time", group="drug", miss="1/5")
tell((shifted.lower, shifted.upper) == (2, 4), "a shift by name")

# ---- what is refused, with what to give

tell(refused(TypeError, ["Lazy", "by name"], "ranksum", Lazy({"a": GROUPS, "b": TIMES})), "a frame without columns")
tell(refused(TypeError, ["Unknown", "by name"], "signedrank", Unknown()), "an unknown frame")
tell(refused(TypeError, ["Rows", "list of rows"], "signedrank", Rows()), "an unknown thing")
tell(refused(TypeError, ["set"], "runs", {"a", "b"}), "a set")
tell(refused(TypeError, ["str", "list of values"], "ranksum", {"x": "123", "y": [4]}), "a text as a sample")
tell(refused(ValueError, ["same name"], "signedrank", Twice({"a": BEFORE, "b": AFTER})), "two columns of one name")
tell(refused(ValueError, ["same length", "[3, 4]"], "signedrank", {"a": BEFORE[:3], "b": AFTER}), "unequal columns")
tell(refused(ValueError, ["'tim'", "'time'"], "ranksum", rats, value="tim", group="drug"), "a column that is not there")
tell(refused(ValueError, ["no column names"], "ranksum", [["x", 1]], value="time", group="drug"), "rows have no names")
tell(refused(ValueError, ["by number"], "ranksum", "six.csv", value="time", group="drug"), "nor has a file")
tell(refused(ValueError, ["not by both"], "ranksum", rats, value="time", columns=["drug"]), "two ways to pick")
tell(refused(ValueError, ["same names"], "ranksum", [{"g": 1, "v": 2}, {"g": 1}]), "records of other names")
tell(refused(TypeError, ["'tial'"], "ranksum", rats, tial="less"), "a misspelt option")
tell(refused(FileNotFoundError, ["program=", "EXACT"], "ranksum", [["x", 1]], program="/no/such"), "no program")

# ---- what is missing


class NAType:
    """As pandas.NA: it is not itself, nor anything else."""

    def __eq__(self, other):
        raise TypeError("boolean value of NA is ambiguous")

    __hash__ = None

    def __str__(self):
        return "<NA>"


class MaskedConstant:
    """As numpy.ma.masked, whose item is 0."""

    def item(self):
        return 0.0


class Scalar:
    """As a scalar of pyarrow."""

    def __init__(self, value):
        self._value = value

    def as_py(self):
        return self._value


for nothing in (None, float("nan"), decimal.Decimal("nan"), NAType(), MaskedConstant(), Scalar(None)):
    gap = {"x": [1, 2, nothing], "y": [4, 5, 6]}
    name = type(nothing).__name__
    tell(refused(exact.BadData, ["row 4 field 2: missing"], "ranksum", gap), f"{name} is missing")
    tell(exact.run("ranksum", gap, missing="drop").dropped == 1, f"{name} is dropped")
tell(exact.run("ranksum", {"x": map(Scalar, [1, 2, 3]), "y": [4, 5, 6]}).text == SIX, "scalars of pyarrow")

# ---- the answer

report = exact.run("ranksum", rats, value="time", group="drug", distribution=True)
tell((report.pvalue, report.statistic) == (Fraction(1, 10), 15), "the p-value of both sides")
one = exact.run("ranksum", rats, value="time", group="drug", tail="greater")
tell(one.pvalue == one.greater == Fraction(1, 20), "that of the tail that is asked")
tell(exact.run("kw", rats, value="time", group="drug").pvalue == Fraction(1, 10), "that of a test of one tail")
tea = exact.run("fisher", [[3, 1], [1, 3]], odds="2/1")
try:
    tell(tea.pvalue and False, "no p-value of both sides with odds")
except ValueError as fault:
    tell("tail" in str(fault), "no p-value of both sides with odds")
tell(exact.run("fisher", [[3, 1], [1, 3]], odds="2/1", tail="less").pvalue == tea.less, "a side with odds")
letters = "W 15 (U 9, W of wilcox.test 0)"
told = f"<exact.Report ranksum: group 3 x, group 3 y; {letters}; less 1, greater 1/20, two 1/10>"
tell(repr(report) == told, "a short repr")
tell(repr(shifted) == "<exact.Shift group 3 x, group 3 y; estimate 3; limits 2 to 4; miss 1/5>", "that of a shift")
formatted = f"{report.pvalue:.3f} {report.pvalue:.1%} {report.pvalue:>5} {report.pvalue}"
tell(formatted == "0.100 10.0%  1/10 1/10" and f"{shifted.miss:.2e}" == "2.00e-01", "fractions are formatted")
tell(isinstance(report.two, Fraction) and eval(repr(report.two)) == report.two, "they are fractions")
two = report.two
sums = [1 - two, two * 2, 2 * two, two / 3, -two, sum([two, two]), abs(two), 1 - (two + 1), round(two, 2)]
formatted = " ".join(f"{value:.3f}" for value in sums)
tell(formatted == "0.900 0.200 0.200 0.033 -0.100 0.200 0.100 -0.100 0.100", "results are formatted too")
tell(two + 0.5 == 0.6 and two**2 == Fraction(1, 100) and pickle.loads(pickle.dumps(two)) == two, "they are as others")
tell(exact.__version__ == (pathlib.Path(__file__).parent.parent / "VERSION").read_text().strip(), "the version")

# ---- the libraries of frames that are there

if importlib.util.find_spec("pandas"):
    import numpy
    import pandas

    rats = pandas.DataFrame({"time": pandas.array(TIMES, dtype="Int64"), "drug": pandas.Categorical(GROUPS)})
    tell(exact.run("ranksum", rats, value="time", group="drug").text == SIX, "pandas: value and group")
    tell(exact.run("ranksum", rats[["drug", "time"]]).text == SIX, "pandas: its columns are the fields")
    rats.loc[2, "time"] = pandas.NA
    tell(exact.run("ranksum", rats, value="time", group="drug", missing="drop").dropped == 1, "pandas: NA")
    pair = pandas.DataFrame({"before": BEFORE, "after": AFTER}, index=[9, 8, 7, 6])
    tell(exact.run("signedrank", pair).text == PAIRS, "pandas: pairs")
    tell(exact.run("signedrank", pair.to_numpy()).text == PAIRS, "numpy: pairs")
    tell(exact.run("signedrank", pair.to_records(index=False)).text == PAIRS, "numpy: records")
    differences = pair["after"] - pair["before"]
    tell(exact.run("signedrank", differences).text == PAIRS, "pandas: a column of differences")
    samples = {label: part for label, part in rats.groupby("drug", observed=True)["time"]}
    tell(exact.run("ranksum", samples, missing="drop").dropped == 1, "pandas: samples of a mapping")
    masked = {"x": numpy.ma.array([1, 2, 3], mask=[0, 0, 1]), "y": numpy.array([4, 5, 6])}
    tell(exact.run("ranksum", masked, missing="drop").dropped == 1, "numpy: masked values")
    tell(refused(ValueError, ["same name"], "signedrank", pair[["after", "after"]]), "pandas: two columns of one name")
    # the order of ordered categories, however the rows and the columns stand
    doses = pandas.Categorical(["hi", "hi", "lo", "lo", "mid", "mid"], ["lo", "mid", "hi"], ordered=True)
    steps = pandas.DataFrame({"gain": [5, 6, 1, 2, 3, 4], "dose": doses})
    for asked in ({"group": "dose", "value": "gain"}, {"columns": ["dose", "gain"]}, {"columns": [2, 1]}):
        found = exact.run("jt", steps, **asked)
        tell((found.statistic, found.two) == (12, Fraction(2, 90)), f"pandas: ordered categories, {asked}")
    tell(exact.run("jt", steps[["dose", "gain"]]).statistic == 12, "pandas: of all columns")
    tell(exact.run("jt", steps.astype({"dose": str})[["dose", "gain"]]).statistic == 4, "pandas: labels as they appear")
    # the shortest texts of numbers of numpy
    for kind in ("float32", "float16"):
        cells = numpy.array([0.001, 0.25, 7], dtype=kind)
        exactly = exact.run("raw", [["x", "0.001"], ["x", "0.25"], ["y", "7"]]).text
        for name, data in (
            ("an array", {"x": cells[:2], "y": cells[2:]}),
            ("a list", {"x": list(cells[:2]), "y": [cells[2]]}),
            ("a frame", pandas.DataFrame({"g": ["x", "x", "y"], "v": cells})),
        ):
            tell(exact.run("raw", data).text == exactly, f"numpy: {kind} in {name}")
        column = exact.run("rawsigned", pandas.Series(cells)).text
        tell(column == exact.run("rawsigned", ["0.001", "0.25", "7"]).text, f"pandas: {kind} in a column")
    fine = numpy.array([1 / 3, 0.012345678901234568, 2.5])
    tell(exact.run("rawsigned", fine).text == exact.run("rawsigned", fine.tolist()).text, "numpy: double precision")
    missed = exact.shift({"x": [1, 2, 3], "y": [4, 5, 6]}, miss=numpy.float64(0.2)).miss
    tell(missed == Fraction(1, 5), "numpy: a fraction")
    # the header that a file without one gave
    with warnings.catch_warnings(record=True) as told:
        warnings.simplefilter("always")
        exact.run("ranksum", pandas.DataFrame({"c": ["c", "t", "t"], "300": [22.5, 7, 12]}))
        tell([part.filename for part in told] == [__file__] and "'300'" in str(told[0].message), "pandas: a name")
        told.clear()
        exact.run("signedrank", pandas.DataFrame([[1, 2], [3, 5]]))
        exact.run("signedrank", pandas.DataFrame([[1, 2], [3, 5]], columns=["1", "2"]))
        exact.run("friedman", pandas.DataFrame([[1, 2], [3, 5]], columns=["2019", "2020"]))
        exact.run("ranksum", pandas.DataFrame({"c": ["c", "t"], "300": [22.5, 7]}), group="c", value="300")
        tell(not told, "pandas: names that may be numbers")
if importlib.util.find_spec("polars"):
    import polars

    rats = polars.DataFrame({"time": TIMES, "drug": GROUPS})
    tell(exact.run("ranksum", rats, value="time", group="drug").text == SIX, "polars: value and group")
    pair = polars.DataFrame({"before": BEFORE, "after": AFTER})
    tell(exact.run("signedrank", pair).text == PAIRS, "polars: pairs")
    tell(refused(TypeError, ["by name"], "signedrank", pair.lazy()), "polars: a lazy frame")
