"""Puts the page into one file that a browser opens from the disk: assemble.py MODULE.wasm PAGE.html ORIGIN.

The page is made of the sources in this folder, the module and the table of names in docs/WHICH.md. Its content security
policy lets it run its own script, identified by its checksum, and fetch nothing. ORIGIN says what it was made of.
"""
import base64
import gzip
import hashlib
import html
import json
import pathlib
import re
import sys

FOLDER = pathlib.Path(__file__).resolve().parent
SCRIPT = ("tests.js", "search.js", "table.js", "report.js", "picture.js", "helps.js", "controls.js", "page.js")
WORKER = ("engine.js", "worker.js")


def text(*names):
    return "\n".join((FOLDER / name).read_text(encoding="utf-8") for name in names)


def names_elsewhere():
    """The names of each test in other software, from the table in docs/WHICH.md."""
    page = (FOLDER.parent / "docs" / "WHICH.md").read_text(encoding="utf-8")
    table = re.search(r"^\| command \| R .*\n(?:\|.*\n)+", page, re.MULTILINE).group(0)
    rows = [re.split(r"(?<!\\)\|", line)[1:-1] for line in table.splitlines()]
    head, _, *rows = [[cell.strip().replace("`", "").replace("\\|", "|") for cell in row] for row in rows]
    return {row[0]: {where: name for where, name in zip(head[1:], row[1:]) if name != "–"} for row in rows}


def allowed(source):
    """The source expression of a policy that allows this inline source and no other."""
    return f"'sha256-{base64.b64encode(hashlib.sha256(source.encode()).digest()).decode()}'"


def page(module, origin):
    style, script = text("page.css"), text(*SCRIPT)
    policy = (
        f"default-src 'none'; script-src {allowed(script)} 'wasm-unsafe-eval'; style-src {allowed(style)}; "
        "worker-src blob:; base-uri 'none'; form-action 'none'"
    )
    parts = {
        "POLICY": policy,
        "STYLE": style,
        "ORIGIN": html.escape(origin),
        "NAMES": json.dumps(names_elsewhere(), ensure_ascii=False),
        "MODULE": base64.b64encode(gzip.compress(module, 9, mtime=0)).decode(),
        "WORKER": text(*WORKER),
        "SCRIPT": script,
    }
    return re.sub(r"\b(%s)\b(?=[<\"])" % "|".join(parts), lambda found: parts[found.group(1)], text("page.html"))


def main():
    module, to, origin = sys.argv[1:]
    pathlib.Path(to).write_text(page(pathlib.Path(module).read_bytes(), origin), encoding="utf-8", newline="\n")


main()
