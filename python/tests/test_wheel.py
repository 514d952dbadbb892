"""The wheel that `pip install ./python` makes, and what it says where it can't."""

from __future__ import annotations

import base64
import hashlib
import importlib.util
import re
import shutil
import zipfile
from pathlib import Path

import pytest

TOP = Path(__file__).resolve().parents[2]
ELF = b"\x7fELF\x02" + bytes(13) + b"\x3e\0" + b"GLIBC_2.9\0GLIBC_2.34\0GLIBC_2.17\0GLIBC_PRIVATE\0"


@pytest.fixture
def backend(monkeypatch, tmp_path):
    """The backend over a copy of the release."""
    spec = importlib.util.spec_from_file_location("backend", TOP / "python/backend.py")
    module = importlib.util.module_from_spec(spec)
    spec.loader.exec_module(module)
    shutil.copytree(TOP / "release", tmp_path / "release")
    monkeypatch.setattr(module, "RELEASE", tmp_path / "release")
    return module


def test_the_wheel_of_the_release(backend, tmp_path):
    name = backend.build_wheel(str(tmp_path))
    first = (tmp_path / name).read_bytes()
    said = dict(line.split(" ", 1) for line in (TOP / "release/RELEASE").read_text().splitlines())
    assert re.fullmatch(r"rowmatch-[0-9.]+-py3-none-manylinux_2_\d+_x86_64\.whl", name)
    with zipfile.ZipFile(tmp_path / name) as wheel:
        files = {entry.filename: wheel.read(entry) for entry in wheel.infolist()}
        modes = {entry.filename: entry.external_attr >> 16 & 0o777 for entry in wheel.infolist()}
    assert hashlib.sha256(files["rowmatch/_bin/rowmatch"]).hexdigest() == said["program"]
    assert {name for name, mode in modes.items() if mode == 0o755} == {"rowmatch/_bin/rowmatch"}
    sources = {f"rowmatch/{path.name}" for path in (TOP / "python/src/rowmatch").glob("*.*")}
    about = {it for it in files if ".dist-info/" in it}
    assert set(files) - about - {"rowmatch/_bin/rowmatch"} == sources
    assert sorted(Path(it).name for it in about) == [
        "METADATA",
        "RECORD",
        "WHEEL",
        "entry_points.txt",
    ]
    record = next(it for it in about if it.endswith("RECORD"))
    for line in files[record].decode().splitlines():
        listed, told, size = line.rsplit(",", 2)
        if listed != record:
            digest = base64.urlsafe_b64encode(hashlib.sha256(files.pop(listed)).digest()).decode()
            assert told == f"sha256={digest.rstrip('=')}" and size.isdigit()
    assert set(files) == {record}
    assert backend.build_wheel(str(tmp_path)) == name and (tmp_path / name).read_bytes() == first


def test_a_program_of_its_own(backend, tmp_path):
    (tmp_path / "program").write_bytes(ELF)
    name = backend.build_wheel(str(tmp_path), {"program": str(tmp_path / "program")})
    assert name.endswith("-py3-none-manylinux_2_34_x86_64.whl")
    (tmp_path / "program").write_bytes(b"#!/bin/sh\n")
    with pytest.raises(SystemExit, match="isn't one for Linux on x86-64"):
        backend.build_wheel(str(tmp_path), {"program": str(tmp_path / "program")})


def test_a_release_that_was_altered(backend, tmp_path):
    packed = tmp_path / "release/rowmatch.tar.xz"
    data = bytearray(packed.read_bytes())
    data[4000] ^= 1
    packed.write_bytes(data)
    with pytest.raises(SystemExit, match="tar.xz isn't that of release/RELEASE"):
        backend.build_wheel(str(tmp_path))
    said = tmp_path / "release/RELEASE"
    shutil.copy(TOP / "release/rowmatch.tar.xz", packed)
    said.write_text(re.sub("program .*", f"program {'0' * 64}", said.read_text()))
    with pytest.raises(SystemExit, match="program in release/rowmatch.tar.xz isn't"):
        backend.build_wheel(str(tmp_path))
    assert not list(tmp_path.glob("*.whl"))


def test_no_release(backend, tmp_path):
    (tmp_path / "release/RELEASE").unlink()
    with pytest.raises(SystemExit, match="the wheel is made in a clone of the repository"):
        backend.build_wheel(str(tmp_path))
    with pytest.raises(SystemExit, match="there is no sdist"):
        backend.build_sdist(str(tmp_path))
