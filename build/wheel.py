"""The module for Python as a wheel, which `pip install` takes: a zip archive of the module and of
what is said of it ("Binary distribution format" of packaging.python.org).

It has the shared library libti.so.2 next to the module, which takes it from there, so it is of the
platform that the library is built for. `make wheel` builds that first.
"""

import base64
import hashlib
import io
import os
import time
import tomllib
import zipfile

from library import SONAME
from repository import TOP, text_of

LIBRARY = os.path.join(TOP, "crates", "ti_c", "out", "lib", SONAME)
# the toolchain compiles for this platform alone
TAG = "py3-none-linux_x86_64"
FILES = ("ti/__init__.py", "ti/py.typed")
LICENCES = ("LICENSE-MIT", "LICENSE-APACHE")


def project():
    """What python/pyproject.toml says of the module."""
    return tomllib.loads(text_of("python", "pyproject.toml"))["project"]


def wheel_name(about):
    """The name of the archive's file."""
    return f"{about['name'].replace('-', '_')}-{about['version']}-{TAG}.whl"


def metadata(about):
    """What an index shows of the module."""
    said = [
        "Metadata-Version: 2.1",
        f"Name: {about['name']}",
        f"Version: {about['version']}",
        f"Summary: {about['description']}",
        f"License: {about['license']['text']}",
        f"Requires-Python: {about['requires-python']}",
        *(f"License-File: {name}" for name in LICENCES),
    ]
    return "".join(f"{line}\n" for line in said)


def record_row(name, content):
    """A file with its digest and its size, as the list of all files has it."""
    digest = base64.urlsafe_b64encode(hashlib.sha256(content).digest()).rstrip(b"=").decode()
    return f"{name},sha256={digest},{len(content)}\n"


def wheel(when, shared=LIBRARY):
    """The archive with a shared library, all of whose files have one time, in seconds."""
    about = project()
    place = f"{about['name'].replace('-', '_')}-{about['version']}.dist-info"
    files = {name: text_of("python", *name.split("/")).encode() for name in FILES}
    files |= {f"{place}/{name}": text_of(name).encode() for name in LICENCES}
    files[f"{place}/METADATA"] = metadata(about).encode()
    with open(shared, "rb") as library:
        files[f"ti/{SONAME}"] = library.read()
    files[f"{place}/WHEEL"] = f"Wheel-Version: 1.0\nGenerator: ti\nRoot-Is-Purelib: false\nTag: {TAG}\n".encode()
    rows = [record_row(name, content) for name, content in files.items()]
    files[f"{place}/RECORD"] = "".join([*rows, f"{place}/RECORD,,\n"]).encode()
    made = io.BytesIO()
    with zipfile.ZipFile(made, "w", zipfile.ZIP_DEFLATED) as packed:
        for name, content in files.items():
            member = zipfile.ZipInfo(name, time.gmtime(when)[:6])
            member.external_attr = 0o100644 << 16
            member.compress_type = zipfile.ZIP_DEFLATED
            packed.writestr(member, content)
    return made.getvalue()


def main():
    """Writes the wheel into packages/: `make wheel` runs it."""
    place = os.path.join(TOP, "packages")
    os.makedirs(place, exist_ok=True)
    path = os.path.join(place, wheel_name(project()))
    when = int(os.environ.get("SOURCE_DATE_EPOCH") or time.time())
    with open(path, "wb") as file:
        file.write(wheel(when))
    print(os.path.relpath(path))


if __name__ == "__main__":
    main()
