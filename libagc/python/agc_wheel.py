"""Builds the packages of `agc`, as pip asks for them: a wheel of the modules and the shared library beside them, and a source
package that builds such a wheel on any machine with a C compiler.

The library is ../out/libagc.so, the proved archive's, where that is there. Else the one C99 file agc.c is compiled, by what
the environment's CC says, or cc: as it stands beside this file in a source package, or as ../out/agc.c.
"""
import base64
import hashlib
import io
import os
import shlex
import subprocess
import sysconfig
import tarfile
import tempfile
import zipfile

HERE = os.path.dirname(os.path.abspath(__file__))
MADE = (2026, 1, 1, 0, 0, 0)

# What a source package has besides this file: each name in it, and where that may be.
SOURCES = {
    "agc.py": ["agc.py"],
    "agc_library.py": ["agc_library.py"],
    "agc_wheel.py": ["agc_wheel.py"],
    "pyproject.toml": ["pyproject.toml"],
    "VERSION": ["VERSION", "../../VERSION"],
    "agc.c": ["agc.c", "../out/agc.c"],
    "agc.h": ["agc.h", "../include/agc.h"],
}


def _place_of(name):
    """Where a file of a source package is."""
    for it in SOURCES[name]:
        if os.path.exists(f"{HERE}/{it}"):
            return f"{HERE}/{it}"
    raise FileNotFoundError(f"there is no {' or '.join(SOURCES[name])}: tools/onefile builds agc.c, and a release has it")


def _bytes_of(path):
    with open(path, "rb") as file:
        return file.read()


def _version():
    return _bytes_of(_place_of("VERSION")).decode().strip()


def _metadata():
    # (the license, once its owner has named it, is a line `License-Expression: ..` here)
    return (f"Metadata-Version: 2.1\nName: agc\nVersion: {_version()}\n"
            "Summary: The job tables of the Apollo Guidance Computer, proved\nRequires-Python: >=3.8\n").encode()


def _library():
    """The shared library, as it was built, or compiled from agc.c."""
    built = f"{HERE}/../out/libagc.so"
    if os.path.exists(built):
        return _bytes_of(built)
    source, header = _place_of("agc.c"), os.path.dirname(_place_of("agc.h"))
    with tempfile.TemporaryDirectory() as room:
        compiler = shlex.split(os.environ.get("CC", "cc"))
        subprocess.run([*compiler, "-O2", "-shared", "-fPIC", f"-I{header}", "-o", f"{room}/libagc.so", source], check=True)
        return _bytes_of(f"{room}/libagc.so")


def _row(name, held):
    """The line of RECORD for a file."""
    digest = base64.urlsafe_b64encode(hashlib.sha256(held).digest()).rstrip(b"=").decode()
    return f"{name},sha256={digest},{len(held)}\n"


def build_wheel(wheel_directory, config_settings=None, metadata_directory=None):
    """Writes the wheel to that folder, and returns its name."""
    version = _version()
    tag = "py3-none-" + sysconfig.get_platform().replace("-", "_").replace(".", "_")
    about = f"agc-{version}.dist-info"
    files = {
        "agc/__init__.py": _bytes_of(_place_of("agc.py")),
        "agc/libagc.so": _library(),
        "agc/py.typed": b"",
        "agc_library.py": _bytes_of(_place_of("agc_library.py")),
        f"{about}/METADATA": _metadata(),
        f"{about}/WHEEL": f"Wheel-Version: 1.0\nGenerator: agc_wheel\nRoot-Is-Purelib: false\nTag: {tag}\n".encode(),
    }
    record = "".join(_row(*it) for it in files.items()) + f"{about}/RECORD,,\n"
    files[f"{about}/RECORD"] = record.encode()
    wheel = f"agc-{version}-{tag}.whl"
    with zipfile.ZipFile(f"{wheel_directory}/{wheel}", "w", zipfile.ZIP_DEFLATED) as packed:
        for name, held in files.items():
            entry = zipfile.ZipInfo(name, MADE)
            entry.compress_type = zipfile.ZIP_DEFLATED
            entry.external_attr = 0o644 << 16
            packed.writestr(entry, held)
    return wheel


def build_sdist(sdist_directory, config_settings=None):
    """Writes the source package to that folder, and returns its name."""
    name = f"agc-{_version()}"
    files = {it: _bytes_of(_place_of(it)) for it in SOURCES}
    with tarfile.open(f"{sdist_directory}/{name}.tar.gz", "w:gz", format=tarfile.PAX_FORMAT) as packed:
        for it, held in {"PKG-INFO": _metadata(), **files}.items():
            entry = tarfile.TarInfo(f"{name}/{it}")
            entry.size, entry.mtime, entry.mode = len(held), 1767225600, 0o644
            packed.addfile(entry, io.BytesIO(held))
    return f"{name}.tar.gz"
