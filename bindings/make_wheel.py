"""Makes the wheel of the package p25 and of the shared library that `./prove library` made, for `pip install ./bindings`.

It is the build backend that pyproject.toml names, and needs nothing but Python: no network, and no other package. A source archive (sdist) has the library
too, because only the kit of Rattle can make that. An editable install (`pip install -e`) uses the files in the checkout. The tag of a wheel is that of the
library in it, and on another machine none is made. With SOURCE_DATE_EPOCH in the environment, or without it, the same files make the same archives.
"""

import base64
import gzip
import hashlib
import io
import os
import platform
import re
import struct
import tarfile
import time
import zipfile

HERE = os.path.dirname(os.path.abspath(__file__))
TOP = os.path.dirname(HERE)
SUMMARY = "The Project 25 Common Air Interface, by a proved library"


# The machines of an ELF file, and their names in tags.
MACHINES = {3: "i686", 40: "armv7l", 62: "x86_64", 183: "aarch64", 243: "riscv64"}


def read(path):
    """Returns the octets of a file."""
    with open(path, "rb") as file:
        return file.read()


def beside_or_above(name, above):
    """Returns the path of a file: in this folder, as in an unpacked source archive, or in a checkout."""
    beside = f"{HERE}/{name}"
    path = beside if os.path.isfile(beside) else f"{TOP}/{above}"
    if not os.path.isfile(path):
        raise SystemExit(f"{path} is not there: `./prove library`, at the top of a checkout, makes the library")
    return path


def version():
    """Returns the number of this release."""
    return read(beside_or_above("RELEASE", "RELEASE")).decode().split()[-1]


def library():
    """Returns the octets of the shared library."""
    return read(beside_or_above("libp25.so", "out/libp25.so"))


def modules():
    """Returns the files of the package by their paths."""
    names = sorted(it for it in os.listdir(f"{HERE}/p25") if it.endswith(".py") or it == "py.typed")
    return {f"p25/{it}": read(f"{HERE}/p25/{it}") for it in names}


def made_at():
    """Returns the time of the files of an archive, as seconds: SOURCE_DATE_EPOCH, or the first that a zip file can have."""
    return max(int(os.environ.get("SOURCE_DATE_EPOCH", 0)), 315532800)


def machine_of(octets):
    """Returns the machine of a shared library, by the head of its ELF file."""
    if octets[:4] != b"\x7fELF":
        raise SystemExit("libp25.so is no ELF file")
    number = struct.unpack_from("<H" if octets[5] == 1 else ">H", octets, 18)[0]
    return MACHINES.get(number, f"machine {number}")


def tag_of(octets, here=None):
    """Returns the tag of a wheel: that of the oldest C library with all symbols that the shared library needs, on its machine. The machine has to be this
    one."""
    machine, here = machine_of(octets), here or platform.machine()
    if machine != here:
        raise SystemExit(f"libp25.so is for {machine}, and this machine is {here}: a library for it is made by `./prove library` there")
    asked = [(int(one), int(two)) for one, two in re.findall(rb"GLIBC_(\d+)\.(\d+)", octets)]
    oldest = max([(2, 17), *asked])
    tags = ["manylinux_{}_{}_{}".format(*oldest, machine)] + [f"manylinux2014_{machine}"] * (oldest == (2, 17))
    return "py3-none-" + ".".join(tags)


def metadata():
    """Returns the text that describes the package."""
    lines = [
        "Metadata-Version: 2.1",
        "Name: p25",
        f"Version: {version()}",
        f"Summary: {SUMMARY}",
        "Author: Torvanek maintainers",
        "Author-email: maintainers@users.noreply.torvanek.example",
        "Maintainer: Torvanek maintainers",
        "Maintainer-email: maintainers@users.noreply.torvanek.example",
        "License: none given: ask the maintainers before you pass copies on",
        "Keywords: p25,project 25,apco,radio,sdr,digital voice",
        "Platform: Linux x86_64",
        "Requires-Python: >=3.8",
        "Classifier: Development Status :: 5 - Production/Stable",
        "Classifier: Intended Audience :: Telecommunications Industry",
        "Classifier: Operating System :: POSIX :: Linux",
        "Classifier: Programming Language :: Python :: 3 :: Only",
        "Classifier: Topic :: Communications :: Ham Radio",
        "Classifier: Typing :: Typed",
        "Description-Content-Type: text/markdown",
        "",
        "Recordings of digital radio traffic by Project 25 Phase 1 (TIA-102.BAAA), item by item; units built, repaired and bridged;",
        "code words, blocks and checks. The work is done by a shared library each call of which is proved to meet its contract.",
        "",
        "    import p25",
        '    for item in p25.items(open("call.bin", "rb").read()):',
        "        print(item.place, item.kind, item.text)",
        "",
    ]
    return "\n".join(lines).encode()


def write_wheel(folder, tag, files):
    """Writes a wheel of these files into the folder, and returns its name."""
    name = f"p25-{version()}"
    made_by = f"Wheel-Version: 1.0\nGenerator: make_wheel\nRoot-Is-Purelib: false\nTag: {tag}\n"
    files = {**files, f"{name}.dist-info/METADATA": metadata(), f"{name}.dist-info/WHEEL": made_by.encode()}
    listed = ""
    for path, octets in files.items():
        sum_text = base64.urlsafe_b64encode(hashlib.sha256(octets).digest()).decode().rstrip("=")
        listed += f"{path},sha256={sum_text},{len(octets)}\n"
    record = f"{name}.dist-info/RECORD"
    files[record] = f"{listed}{record},,\n".encode()
    with zipfile.ZipFile(f"{folder}/{name}-{tag}.whl", "w", zipfile.ZIP_DEFLATED) as wheel:
        for path, octets in files.items():
            entry = zipfile.ZipInfo(path, time.gmtime(made_at())[:6])
            entry.compress_type, entry.external_attr = zipfile.ZIP_DEFLATED, 0o100644 << 16
            wheel.writestr(entry, octets)
    return f"{name}-{tag}.whl"


def build_wheel(wheel_directory, config_settings=None, metadata_directory=None):
    """Writes the wheel into the folder, and returns its name, for pip."""
    octets = library()
    return write_wheel(wheel_directory, tag_of(octets), {**modules(), "p25/libp25.so": octets})


def build_editable(wheel_directory, config_settings=None, metadata_directory=None):
    """Writes a wheel that leads to the files of this folder, and returns its name. The library is then that of out/ in the checkout."""
    return write_wheel(wheel_directory, tag_of(library()), {"p25.pth": f"{HERE}\n".encode()})


def build_sdist(sdist_directory, config_settings=None):
    """Writes the source archive into the folder, with the library in it, and returns its name."""
    name = f"p25-{version()}"
    files = {**modules(), "libp25.so": library(), "PKG-INFO": metadata(), "RELEASE": read(beside_or_above("RELEASE", "RELEASE"))}
    for it in ("make_wheel.py", "pyproject.toml"):
        files[it] = read(f"{HERE}/{it}")
    held = io.BytesIO()
    with tarfile.open(fileobj=held, mode="w", format=tarfile.PAX_FORMAT) as archive:
        for path, octets in files.items():
            entry = tarfile.TarInfo(f"{name}/{path}")
            entry.size, entry.mode, entry.mtime = len(octets), 0o644, made_at()
            archive.addfile(entry, io.BytesIO(octets))
    with open(f"{sdist_directory}/{name}.tar.gz", "wb") as file:
        file.write(gzip.compress(held.getvalue(), mtime=made_at()))
    return f"{name}.tar.gz"
