"""Builds the package for pip, without any other package, so that `pip install ./python` needs no network.

A wheel is a zip of the package's files and of three notes (PEP 427). A library libsfm.so that stands in leastset/ goes into it,
and then the wheel is one for this platform alone.
"""
import base64
import hashlib
import re
import sysconfig
import tarfile
import zipfile
from pathlib import Path

HERE = Path(__file__).resolve().parent
NAME = "leastset"
VERSION = re.search(r'^__version__ = "(.*)"$', (HERE / NAME / "__init__.py").read_text(encoding="utf-8"), re.M)[1]
NOTES = f"{NAME}-{VERSION}.dist-info"
METADATA = (
    f"Metadata-Version: 2.1\nName: {NAME}\nVersion: {VERSION}\nRequires-Python: >=3.8\n"
    "Summary: The sets that a sum of integer submodular functions values least, exactly and with a proof\n"
)


def files():
    """The files of the package."""
    return sorted(file for file in (HERE / NAME).iterdir() if file.suffix in (".py", ".so") or file.name == "py.typed")


def build_wheel(wheel_directory, config_settings=None, metadata_directory=None):
    pure = not any(file.suffix == ".so" for file in files())
    tag = "py3-none-" + ("any" if pure else re.sub(r"[-.]", "_", sysconfig.get_platform()))
    kind = f"Wheel-Version: 1.0\nGenerator: {NAME}\nRoot-Is-Purelib: {str(pure).lower()}\nTag: {tag}\n"
    parts = {f"{NAME}/{file.name}": file.read_bytes() for file in files()}
    parts.update({f"{NOTES}/METADATA": METADATA.encode(), f"{NOTES}/WHEEL": kind.encode()})
    record = ""
    for name, data in parts.items():
        digest = base64.urlsafe_b64encode(hashlib.sha256(data).digest()).rstrip(b"=").decode()
        record += f"{name},sha256={digest},{len(data)}\n"
    parts[f"{NOTES}/RECORD"] = f"{record}{NOTES}/RECORD,,\n".encode()
    wheel = f"{NAME}-{VERSION}-{tag}.whl"
    with zipfile.ZipFile(Path(wheel_directory, wheel), "w", zipfile.ZIP_DEFLATED) as archive:
        for name, data in parts.items():
            archive.writestr(name, data)
    return wheel


def build_sdist(sdist_directory, config_settings=None):
    base = f"{NAME}-{VERSION}"
    with tarfile.open(Path(sdist_directory, f"{base}.tar.gz"), "w:gz") as archive:
        for file in [HERE / "pyproject.toml", HERE / "backend.py", *files()]:
            archive.add(file, f"{base}/{file.relative_to(HERE)}")
    return f"{base}.tar.gz"
