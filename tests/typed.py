"""A use of the Python client, which `packages` has looked at by mypy --strict."""
from fractions import Fraction

import exact

report: exact.Report = exact.run("ranksum", {"x": [1, 2], "y": [3]}, tail="less", order=["x", "y"], distribution=True)
pvalue: Fraction = report.pvalue
weights: list[int] = [weight for _, weight in report.distribution]
pairs = exact.run("signedrank", [{"before": 1, "after": 2}], columns=["before", "after"], missing="drop")
umbrella = exact.run("umbrella", [["a", 1], ["b", 2]], peak=2)
letters: dict[str, Fraction] = exact.run("ranksum", "six.csv", alternative="greater", header=True).letters
ratios: list[exact.Odds] = [2, 1.5, "3/2", Fraction(3, 2)]
odds = [exact.run("fisher", [[3, 1], [1, 3]], odds=ratio, tail="less") for ratio in ratios]
found: exact.Shift = exact.shift({"x": [1], "y": [2]}, miss=0.2)
limits: tuple[Fraction | None, Fraction | None] = (found.lower, found.upper)
