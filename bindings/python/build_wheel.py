"""Builds the wheel, as PEP 517 asks a backend to, with nothing but the standard library: the module, and beside it the shared
library that `make -C bindings` built, and the compiled part of native/ where a compiler and the headers of Python are at hand. So the
wheel is one of this platform, for any Python 3.8 or later.

    pip wheel --no-deps bindings/python
    python3 bindings/python/build_wheel.py     builds the compiled part into the module, where it is used from the repository

CC is the compiler, CFLAGS its flags (-O2).
"""

import base64
import glob
import hashlib
import os
import re
import shlex
import subprocess
import sys
import sysconfig
import tempfile
import zipfile

HERE = os.path.dirname(os.path.abspath(__file__))
LIBRARY = "libfeksroum.so.0"
NATIVE = "_native.abi3.so"
#: What a file of the wheel says of its time: the first one that a zip file has, so that wheels of equal content are equal.
TIME = (1980, 1, 1, 0, 0, 0)


def _project():
    """The fields of pyproject.toml that the wheel's metadata has, as lines."""
    with open(os.path.join(HERE, "pyproject.toml")) as file:
        text = file.read()
    found = dict(re.findall(r'^([a-z-]+) = "(.*)"$', text.split("[project.scripts]")[0], re.MULTILINE))
    metadata = [f"Name: {found['name']}", f"Version: {found['version']}", f"Summary: {found['description']}"]
    metadata += [f"{field}: {value}" for field, value in (
        ("Author", re.search('authors = .* name = "(.*)" ', text)[1]),
        ("License", re.search('license = .* text = "(.*)" ', text)[1]),
        ("License-File", "LICENSE"), ("Requires-Python", found["requires-python"]), ("Description-Content-Type", "text/markdown"),
    )]
    metadata += [f"Classifier: {name}" for name in re.findall(r'^    "(.*)",$', text, re.MULTILINE)]
    with open(os.path.join(HERE, found["readme"])) as file:
        return found["name"], found["version"], [*metadata, "", file.read()]


def _scripts():
    """The commands of pyproject.toml, as a wheel names them."""
    with open(os.path.join(HERE, "pyproject.toml")) as file:
        section = file.read().split("[project.scripts]\n")[1].split("\n[")[0]
    return "[console_scripts]\n" + "".join(f"{name} = {place}\n" for name, place in re.findall(r'^([a-z-]+) = "(.*)"$', section, re.MULTILINE))


def _built():
    """Where the shared library is."""
    path = os.environ.get("FEKSROUM_LIBRARY") or os.path.join(HERE, "..", "out", LIBRARY)
    if not os.path.exists(path):
        raise FileNotFoundError(f"{path} is not there: make -C bindings builds it")
    return path


def compile_native(folder):
    """Compiles native/ into a folder, and returns the path; None where it cannot be, and the module does all in Python."""
    path, headers = os.path.join(folder, NATIVE), os.path.join(HERE, "..", "..", "include")
    compiler = shlex.split(os.environ.get("CC") or "cc") + shlex.split(os.environ.get("CFLAGS") or "-O2")
    sources = sorted(glob.glob(os.path.join(HERE, "native", "*.c")))
    words = [*compiler, "-shared", "-fPIC", f"-I{sysconfig.get_path('include')}", f"-I{headers}", "-o", path, *sources]
    try:
        subprocess.run(words, check=True, stdout=subprocess.DEVNULL, stderr=subprocess.DEVNULL)
    except (OSError, subprocess.CalledProcessError):
        return None
    return path


def _read(*path):
    with open(os.path.join(*path), "rb") as file:
        return file.read()


def _files(name, version, metadata, tag, native):
    """The paths in the wheel, and what stands there."""
    module, info = os.path.join(HERE, "feksroum"), f"{name}-{version}.dist-info"
    folders = ("", "pamqp")
    entries = sorted(
        os.path.join(folder, entry) for folder in folders for entry in os.listdir(os.path.join(module, folder))
        if entry.endswith((".py", ".pyi", ".typed")))
    files = [(f"{name}/{entry}", _read(module, entry)) for entry in entries]
    if native:
        files.append((f"{name}/{NATIVE}", _read(native)))
    files.append((f"{name}/{LIBRARY}", _read(_built())))
    files.append((f"{info}/LICENSE", _read(HERE, "..", "..", "LICENSE")))
    files.append((f"{info}/entry_points.txt", _scripts().encode()))
    files.append((f"{info}/METADATA", "\n".join(["Metadata-Version: 2.1", *metadata, ""]).encode()))
    wheel = ["Wheel-Version: 1.0", "Generator: feksroum", "Root-Is-Purelib: false", f"Tag: {tag}", ""]
    files.append((f"{info}/WHEEL", "\n".join(wheel).encode()))
    return files, f"{info}/RECORD"


def build_wheel(wheel_directory, config_settings=None, metadata_directory=None):
    """Writes the wheel into a folder, and returns its name."""
    name, version, metadata = _project()
    with tempfile.TemporaryDirectory() as folder:
        native = compile_native(folder)
        tag = ("cp38-abi3-" if native else "py3-none-") + re.sub("[-.]", "_", sysconfig.get_platform())
        files, record = _files(name, version, metadata, tag, native)
    rows = []
    path = f"{name}-{version}-{tag}.whl"
    with zipfile.ZipFile(os.path.join(wheel_directory, path), "w", zipfile.ZIP_DEFLATED) as wheel:
        for entry, data in files:
            digest = base64.urlsafe_b64encode(hashlib.sha256(data).digest()).rstrip(b"=").decode()
            rows.append(f"{entry},sha256={digest},{len(data)}\n")
            _write(wheel, entry, data)
        _write(wheel, record, "".join([*rows, f"{record},,\n"]).encode())
    return path


def _write(wheel, path, data):
    entry = zipfile.ZipInfo(path, TIME)
    entry.external_attr = 0o644 << 16
    wheel.writestr(entry, data, zipfile.ZIP_DEFLATED)


def build_sdist(sdist_directory, config_settings=None):
    """There is none: the library is built from the whole repository."""
    raise NotImplementedError("feksroum has no source distribution: build the wheel in its repository")


if __name__ == "__main__":
    if compile_native(os.path.join(HERE, "feksroum")) is None:
        sys.exit("feksroum: the compiled part was not built: no compiler, or no Python.h")
