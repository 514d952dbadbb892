"""Makes the wheel: the package, with the program of ../release/ in it. It is a build backend (PEP
517) of the standard library alone, so that ``pip install ./python`` needs neither a network nor
another package in a clone.

``pip wheel --config-settings program=FILE ./python`` takes another program than the release's."""

from __future__ import annotations

import base64
import hashlib
import io
import re
import sys
import tarfile
import zipfile
from pathlib import Path
from typing import Any

HERE = Path(__file__).resolve().parent
RELEASE = HERE.parent / "release"
COMMAND = "[console_scripts]\nrowmatch = rowmatch.__main__:main\n"


def build_wheel(
    folder: str, config_settings: dict[str, Any] | None = None, metadata: str | None = None
) -> str:
    """Writes the wheel into a folder and gives its name."""
    chosen = (config_settings or {}).get("program")
    program = Path(chosen).read_bytes() if chosen else released_program()
    tag = f"py3-none-{platform_of(program)}"
    version = version_of((HERE / "src/rowmatch/__init__.py").read_text("utf-8"))
    about = f"rowmatch-{version}.dist-info"
    files = {
        f"rowmatch/{path.name}": path.read_bytes()
        for path in sorted((HERE / "src/rowmatch").iterdir())
        if path.is_file()
    }
    files["rowmatch/_bin/rowmatch"] = program
    files[f"{about}/METADATA"] = metadata_of(version).encode()
    files[
        f"{about}/WHEEL"
    ] = f"Wheel-Version: 1.0\nGenerator: rowmatch\nRoot-Is-Purelib: false\nTag: {tag}\n".encode()
    files[f"{about}/entry_points.txt"] = COMMAND.encode()
    files[f"{about}/RECORD"] = record_of(files, f"{about}/RECORD").encode()
    name = f"rowmatch-{version}-{tag}.whl"
    write_zip(Path(folder, name), files)
    return name


def build_sdist(folder: str, config_settings: dict[str, Any] | None = None) -> str:
    """There is no source distribution: the program can't be made from it."""
    sys.exit(
        "rowmatch: there is no sdist: the wheel is made in a clone of the repository, which has the"
        " program in release/"
    )


def released_program() -> bytes:
    """The program of the release, held to its checksums."""
    if not (RELEASE / "RELEASE").is_file() or not (RELEASE / "rowmatch.tar.xz").is_file():
        sys.exit(
            f"rowmatch: there is no program in {RELEASE}: the wheel is made in a clone of the"
            " repository, which has it there"
        )
    said = dict(
        line.split(" ", 1) for line in (RELEASE / "RELEASE").read_text("utf-8").splitlines()
    )
    packed = (RELEASE / "rowmatch.tar.xz").read_bytes()
    hold("release/rowmatch.tar.xz", packed, said["tar"])
    with tarfile.open(fileobj=io.BytesIO(packed), mode="r:xz") as tar:
        member = tar.extractfile(f"rowmatch-{said['version']}/rowmatch")
        program = member.read() if member else b""
    hold("the program in release/rowmatch.tar.xz", program, said["program"])
    return program


def hold(what: str, data: bytes, wanted: str) -> None:
    """Ends where a file isn't the one that was released."""
    found = hashlib.sha256(data).hexdigest()
    if found != wanted:
        sys.exit(
            f"rowmatch: {what} isn't that of release/RELEASE: its sha256 is {found}."
            " Check it out again (git checkout release)"
        )


def platform_of(program: bytes) -> str:
    """The tag of the systems on which a program runs, by the newest glibc that it names."""
    if program[:5] != b"\x7fELF\x02" or program[18:20] != b"\x3e\0":
        sys.exit("rowmatch: the program isn't one for Linux on x86-64")
    versions = {
        (int(major), int(minor)) for major, minor in re.findall(rb"GLIBC_(\d+)\.(\d+)", program)
    }
    major, minor = max(versions, default=(2, 17))
    return f"manylinux_{major}_{minor}_x86_64"


def version_of(code: str) -> str:
    found = re.search(r'^__version__ = "(.*)"$', code, re.M)
    assert found, "src/rowmatch/__init__.py has no __version__"
    return found[1]


def metadata_of(version: str) -> str:
    return (HERE / "METADATA").read_text("utf-8").replace("{version}", version) + (
        HERE / "README.md"
    ).read_text("utf-8")


def record_of(files: dict[str, bytes], own: str) -> str:
    """The list of a wheel's files, with their checksums (PEP 376)."""
    sums = {
        name: base64.urlsafe_b64encode(hashlib.sha256(data).digest()).rstrip(b"=").decode()
        for name, data in files.items()
    }
    return (
        "".join(f"{name},sha256={sums[name]},{len(data)}\n" for name, data in files.items())
        + f"{own},,\n"
    )


def write_zip(path: Path, files: dict[str, bytes]) -> None:
    """Writes a zip: the same bytes each time."""
    with zipfile.ZipFile(path, "w", zipfile.ZIP_DEFLATED) as wheel:
        for name, data in files.items():
            entry = zipfile.ZipInfo(name)
            entry.compress_type = zipfile.ZIP_DEFLATED
            entry.external_attr = (0o100755 if "/_bin/" in name else 0o100644) << 16
            wheel.writestr(entry, data)
