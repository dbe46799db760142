"""Writes problems that are made from a seed, each to a folder of its own: python3 library_problems.py COUNT SEED FOLDER."""
import itertools
import pathlib
import sys

from random_problems import problems

count, seed, folder = int(sys.argv[1]), sys.argv[2], pathlib.Path(sys.argv[3])
# of words that are a line each
made = (made for made in problems(2 * count, seed) if "\n" not in "".join(made[1].words()))
for place, problem in itertools.islice(made, count):
    at = folder / f"random_{place}"
    at.mkdir()
    (at / "words").write_text("".join(f"{word}\n" for word in problem.words()), encoding="utf-8")
    (at / "f.csv").write_text(problem.text(), encoding="utf-8", newline="")
