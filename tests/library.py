"""Tries the library from Python on the problems of `library`; a line for each: 0 where it came right, else 1."""
import pathlib
import sys
import threading

sys.path.insert(0, str(pathlib.Path(__file__).resolve().parent.parent / "clients"))
import exact  # noqa: E402

here = exact.library()


def asked(problem):
    """The words of a problem, and the bytes of its file."""
    words = (problem / "words").read_text(encoding="utf-8").splitlines()
    files = [problem / word for word in words[1:] if (problem / word).is_file()]
    return words, files[0].read_bytes() if files else b""


def is_wanted(problem):
    status, report, line = here.answer(*asked(problem))
    return f"{report}-- standard error\n{line}-- status {status}\n".encode() == (problem / "wanted").read_bytes()


def tell(right, what):
    print(0 if right else 1, "Python, library:", what)


problems = [pathlib.Path(name) for name in sys.argv[1:]]
for problem in problems:
    tell(is_wanted(problem), problem.name)

# while one thread is in a call, which takes some seconds, the others go on
words, data = ["raw", "f.csv", "--distribution"], "g,v\n" + "".join(f"{i % 2},{1 << i}\n" for i in range(20))
call = threading.Thread(target=here.answer, args=(words, data.encode()))
call.start()
calls = 0
while call.is_alive():
    calls += here.answer(["--help"], b"")[0] == 0
tell(calls > 100, "a thread goes on while another is in a call")
right = []
threads = [
    threading.Thread(target=lambda part: right.append(all(map(is_wanted, part))), args=(problems[start::2],))
    for start in range(2)
]
for thread in threads:
    thread.start()
for thread in threads:
    thread.join()
tell(right == [True, True], "two threads at once")
try:
    here.answer(["ranksum", "a\0b"], b"")
    tell(False, "a byte 0 in a word")
except ValueError:
    tell(True, "a byte 0 in a word")
