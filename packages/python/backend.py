"""Builds the wheel and the source distribution of the folder that it lies in, as `pip` and `build` ask for it (PEP 517).

The wheel is for Linux on x86-64 where the folder has the program, exact/exact_program/exact, and else for any system. What
is built of the same files has the same bytes.
"""
import base64
import gzip
import hashlib
import io
import pathlib
import re
import tarfile
import zipfile

HERE = pathlib.Path(__file__).resolve().parent
PROGRAM = "exact/exact_program"


def _name_and_version():
    version = re.search(r"^Version: (.*)$", (HERE / "PKG-INFO").read_text(encoding="utf-8"), re.MULTILINE).group(1)
    return f"exact-{version}"


def _files(*folders):
    """The files below these folders, each with the path that it has here."""
    for folder in folders:
        for path in sorted((HERE / folder).rglob("*")):
            if path.is_file() and "__pycache__" not in path.parts:
                yield str(path.relative_to(HERE)), path


def _digest(data):
    return base64.urlsafe_b64encode(hashlib.sha256(data).digest()).rstrip(b"=").decode()


def build_wheel(wheel_directory, config_settings=None, metadata_directory=None):
    name = _name_and_version()
    tag = "py3-none-manylinux_2_34_x86_64" if (HERE / PROGRAM / "exact").exists() else "py3-none-any"
    purity = "true" if tag.endswith("any") else "false"
    info = f"{name}.dist-info"
    files = {to: path.read_bytes() for to, path in _files("exact")}
    files.update({f"{name}.data/data/{to}": path.read_bytes() for to, path in _files("share")})
    files[f"{info}/METADATA"] = (HERE / "PKG-INFO").read_bytes()
    for text in ("LICENSE", "THIRD_PARTY_LICENSES"):
        files[f"{info}/licenses/{text}"] = (HERE / text).read_bytes()
    files[f"{info}/WHEEL"] = f"Wheel-Version: 1.0\nGenerator: exact\nRoot-Is-Purelib: {purity}\nTag: {tag}\n".encode()
    files[f"{info}/entry_points.txt"] = b"[console_scripts]\nexact = exact:command\n"
    record = [f"{to},sha256={_digest(data)},{len(data)}" for to, data in files.items()]
    files[f"{info}/RECORD"] = "\n".join([*record, f"{info}/RECORD,,", ""]).encode()
    with zipfile.ZipFile(pathlib.Path(wheel_directory) / f"{name}-{tag}.whl", "w", zipfile.ZIP_DEFLATED) as wheel:
        for to, data in files.items():
            entry = zipfile.ZipInfo(to, (2020, 1, 1, 0, 0, 0))
            entry.external_attr = (0o100755 if to.startswith(PROGRAM) else 0o100644) << 16
            entry.compress_type = zipfile.ZIP_DEFLATED
            wheel.writestr(entry, data)
    return f"{name}-{tag}.whl"


def build_sdist(sdist_directory, config_settings=None):
    """What stands in this folder but the program."""
    name = _name_and_version()
    tar = io.BytesIO()
    with tarfile.open(fileobj=tar, mode="w", format=tarfile.PAX_FORMAT) as out:
        for to, path in [(path.name, path) for path in sorted(HERE.glob("*")) if path.is_file()] + [*_files("exact", "share")]:
            if not to.startswith(PROGRAM):
                entry = tarfile.TarInfo(f"{name}/{to}")
                entry.size, entry.mode = path.stat().st_size, 0o644
                with path.open("rb") as data:
                    out.addfile(entry, data)
    (pathlib.Path(sdist_directory) / f"{name}.tar.gz").write_bytes(gzip.compress(tar.getvalue(), mtime=0))
    return f"{name}.tar.gz"
