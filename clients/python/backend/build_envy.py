"""Makes a wheel of the package, which is the files of envy/ and no compiled code."""

import base64
import hashlib
import io
import os
import re
import tarfile
import zipfile

ROOT = os.path.dirname(os.path.dirname(os.path.abspath(__file__)))
# 1980 is the first year that a zip knows: the same bytes for the same files.
WHEN = (1980, 1, 1, 0, 0, 0)


def version():
    with open(f"{ROOT}/envy/__init__.py", encoding="utf-8") as it:
        return re.search(r'^__version__ = "(.*)"$', it.read(), re.M).group(1)


def metadata():
    return f"""Metadata-Version: 2.1
Name: envy
Version: {version()}
Summary: A durable array of 64-bit words with transactions, and an ordered map, over eNVy's proved library
License: Apache-2.0
Requires-Python: >=3.8
Classifier: Operating System :: POSIX :: Linux
Classifier: Typing :: Typed
"""


def files(folder):
    """Returns what a folder holds, by names below ROOT, in order."""
    names = (name for name in os.listdir(f"{ROOT}/{folder}") if name.endswith((".py", ".typed")))
    return [f"{folder}/{name}" for name in sorted(names)]


def read(name):
    with open(f"{ROOT}/{name}", "rb") as it:
        return it.read()


def row(name, data):
    """Returns the row of RECORD that a file has."""
    sum_of = base64.urlsafe_b64encode(hashlib.sha256(data).digest()).rstrip(b"=").decode()
    return f"{name},sha256={sum_of},{len(data)}\n"


def pack(wheel_directory, contents):
    """Writes a wheel of these files, by name, and returns its name."""
    info = f"envy-{version()}.dist-info"
    wheel = "Wheel-Version: 1.0\nGenerator: build_envy\nRoot-Is-Purelib: true\nTag: py3-none-any\n"
    contents = {**contents, f"{info}/METADATA": metadata().encode(), f"{info}/WHEEL": wheel.encode()}
    record = "".join(row(name, data) for name, data in contents.items()) + f"{info}/RECORD,,\n"
    contents[f"{info}/RECORD"] = record.encode()
    name = f"envy-{version()}-py3-none-any.whl"
    with zipfile.ZipFile(f"{wheel_directory}/{name}", "w", zipfile.ZIP_DEFLATED) as it:
        for path, data in contents.items():
            about = zipfile.ZipInfo(path, WHEN)
            about.external_attr = 0o644 << 16
            it.writestr(about, data, zipfile.ZIP_DEFLATED)
    return name


def build_wheel(wheel_directory, config_settings=None, metadata_directory=None):
    return pack(wheel_directory, {name: read(name) for name in files("envy")})


def build_editable(wheel_directory, config_settings=None, metadata_directory=None):
    return pack(wheel_directory, {"envy.pth": f"{ROOT}\n".encode()})


def build_sdist(sdist_directory, config_settings=None):
    base = f"envy-{version()}"
    contents = {name: read(name) for name in ["pyproject.toml", *files("backend"), *files("envy"), *files("tests")]}
    contents["PKG-INFO"] = metadata().encode()
    with tarfile.open(f"{sdist_directory}/{base}.tar.gz", "w:gz") as it:
        for name, data in contents.items():
            about = tarfile.TarInfo(f"{base}/{name}")
            about.size = len(data)
            it.addfile(about, io.BytesIO(data))
    return f"{base}.tar.gz"
