"""Packs the package for pip (PEP 517), by the standard library alone: its modules, the file VERSION, and what of the engine is built in
target/. pyproject.toml names it."""

import base64
import hashlib
import tarfile
import zipfile
from pathlib import Path

ROOT = Path(__file__).resolve().parent.parent
VERSION = (ROOT / "VERSION").read_text().strip()
NAME = f"lagoon-{VERSION}"
BUILT = [path for path in (ROOT / "target/lib/liblagoon.so", ROOT / "target/bin/calls", ROOT / "target/bin/run") if path.exists()]
TAG = "py3-none-linux_x86_64" if BUILT else "py3-none-any"
METADATA = f"""\
Metadata-Version: 2.1
Name: lagoon
Version: {VERSION}
Summary: Salt transport on a lagoon mesh, in whole numbers
Requires-Python: >=3.9
"""
PLAIN, PROGRAM = 0o644, 0o755


def contents():
    """Each file of the wheel: its name there, its bytes and its mode."""
    package, info = ROOT / "python" / "lagoon", f"{NAME}.dist-info"
    for path in sorted([*package.glob("*.py"), package / "py.typed", ROOT / "VERSION"]):
        yield f"lagoon/{path.name}", path.read_bytes(), PLAIN
    for path in BUILT:
        yield f"lagoon/built/{path.name}", path.read_bytes(), PROGRAM
    yield f"{info}/METADATA", METADATA.encode(), PLAIN
    yield f"{info}/WHEEL", f"Wheel-Version: 1.0\nGenerator: lagoon\nRoot-Is-Purelib: {'false' if BUILT else 'true'}\nTag: {TAG}\n".encode(), PLAIN
    yield f"{info}/entry_points.txt", b"[console_scripts]\nlagoon = lagoon.cli:main\n", PLAIN


def digest(data):
    return "sha256=" + base64.urlsafe_b64encode(hashlib.sha256(data).digest()).rstrip(b"=").decode()


def build_wheel(wheel_directory, config_settings=None, metadata_directory=None):
    name, lines = f"{NAME}-{TAG}.whl", []
    with zipfile.ZipFile(Path(wheel_directory, name), "w", zipfile.ZIP_DEFLATED) as wheel:
        def put(path, data, mode):
            entry = zipfile.ZipInfo(path)
            entry.external_attr, entry.compress_type = (0o100000 | mode) << 16, zipfile.ZIP_DEFLATED
            wheel.writestr(entry, data)
        for path, data, mode in contents():
            put(path, data, mode)
            lines.append(f"{path},{digest(data)},{len(data)}\n")
        record = f"{NAME}.dist-info/RECORD"
        put(record, "".join([*lines, f"{record},,\n"]).encode(), PLAIN)
    return name


def build_sdist(sdist_directory, config_settings=None):
    """The package without what is built."""
    name = f"{NAME}.tar.gz"
    with tarfile.open(Path(sdist_directory, name), "w:gz") as made:
        for path in ("pyproject.toml", "VERSION", "python/packing.py", "python/lagoon"):
            made.add(ROOT / path, f"{NAME}/{path}", filter=lambda entry: None if "__pycache__" in entry.name else entry)
    return name
