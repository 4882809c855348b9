"""Makes the wheel of felter. It uses only Python's own library, so it needs no network:

    pip install ./python                    if c/build was run, or FELTER_DIR names the folder of libfelter.so
    python3 python/build_wheel.py DIR       writes the wheel into a folder, and prints its name
    python3 python/build_wheel.py --extension DIR    makes only the extension

pip calls build_wheel, which pyproject.toml names (the interface of PEP 517). The wheel has the shared library. If there
are a compiler and Python's headers, the wheel also has the extension in C. Without the extension, calls go through
ctypes, which takes about ten times as long. One extension fits each CPython from 3.8 on. If RING_RUN, RING_SHOW and
RING_CHECK are set, they name programs, which the wheel then has as the commands ring-run, ring-show and ring-check.

The tag of the wheel names the oldest C library of GNU with which all its files run, by the versions of their symbols. If
this machine has another C library, the wheel is for this machine alone.
"""

import base64
import hashlib
import os
import pathlib
import re
import shlex
import shutil
import subprocess
import sys
import sysconfig
import tempfile
import zipfile

HERE = pathlib.Path(__file__).resolve().parent


def project(key):
    """A text of pyproject.toml. (tomllib is there from Python 3.11 on.)"""
    return re.search(r'^%s = "(.*)"$' % key, (HERE / "pyproject.toml").read_text(), re.M).group(1)


def listed(key):
    """The texts of a list of pyproject.toml."""
    return re.search(r"^%s = \[(.*?)\]$" % key, (HERE / "pyproject.toml").read_text(), re.M | re.S).group(1)


def library():
    folder = os.environ.get("FELTER_DIR")
    folders = [pathlib.Path(folder)] if folder else [HERE / "felter", HERE.parent / "c" / "out"]
    for it in folders:
        if (it / "libfelter.so").is_file():
            return it / "libfelter.so"
    raise SystemExit(
        "felter: there is no libfelter.so in %s. Run c/build first, or let FELTER_DIR name its folder."
        % " or ".join(map(str, folders))
    )


def build_extension(folder):
    """Makes the extension in a folder, and returns its name, or None, and says why, if it cannot be made."""
    words = shlex.split(os.environ.get("CC") or "cc")
    include = pathlib.Path(sysconfig.get_path("include"))
    if sys.implementation.name != "cpython" or sysconfig.get_config_var("Py_GIL_DISABLED"):
        return without("this Python has no global interpreter lock as CPython has")
    if not shutil.which(words[0]):
        return without("there is no " + words[0])
    if not (include / "Python.h").is_file():
        return without("there is no %s" % (include / "Python.h"))
    name = "_fast.abi3.so"
    words += ["-std=c11", "-O2", "-fPIC", "-shared", "-fvisibility=hidden", "-fno-plt", "-Wall", "-Wextra"]
    words += ["-DPy_LIMITED_API=0x03080000"]
    words += ["-I" + str(include), "-o", os.path.join(folder, name), *map(str, sorted((HERE / "fast").glob("*.c")))]
    done = subprocess.run(words, stdout=subprocess.PIPE, stderr=subprocess.STDOUT, universal_newlines=True)
    return name if done.returncode == 0 else without(done.stdout)


def without(why):
    print("felter: the extension in C is not made: %s" % why, file=sys.stderr)


def tags(files):
    """The platforms on which the wheel runs that has these files."""
    if not hasattr(os, "confstr") or "CS_GNU_LIBC_VERSION" not in os.confstr_names:
        return ["linux_x86_64"]
    asked = [it for data in files.values() if data[:4] == b"\x7fELF" for it in re.findall(rb"GLIBC_2\.(\d+)", data)]
    least = max([17, *map(int, asked)])
    return ["manylinux_2_%d_x86_64" % least, *(["manylinux2014_x86_64"] if least == 17 else [])]


def programs():
    """The programs that the environment names, by the names of the commands."""
    named = {it: os.environ.get(it.upper().replace("-", "_")) for it in ("ring-run", "ring-show", "ring-check")}
    return {name: pathlib.Path(path).read_bytes() for name, path in named.items() if path}


def metadata():
    """The wheel's METADATA, whose text is the README of the package."""
    fields = [
        ("Metadata-Version", "2.1"),
        ("Name", "felter"),
        ("Version", project("version")),
        ("Summary", project("description")),
        ("License", "Apache-2.0"),
        ("License-File", "LICENSE"),
        ("Requires-Python", project("requires-python")),
        ("Description-Content-Type", "text/markdown"),
        ("Keywords", ",".join(re.findall(r'"([^"]*)"', listed("keywords")))),
        *(("Classifier", it) for it in re.findall(r'"([^"]*)"', listed("classifiers"))),
    ]
    head = "".join("%s: %s\n" % it for it in fields)
    return (head + "\n" + (HERE / "README.md").read_text()).encode()


def contents(info):
    """The files of the wheel, by their names in it."""
    package = [it for it in sorted((HERE / "felter").glob("*.py")) if it.is_file()] + [HERE / "felter" / "py.typed"]
    files = {"felter/" + it.name: it.read_bytes() for it in package}
    files["felter/libfelter.so"] = library().read_bytes()
    with tempfile.TemporaryDirectory() as room:
        name = build_extension(room)
        if name:
            files["felter/" + name] = pathlib.Path(room, name).read_bytes()
    files.update((info[: -len("dist-info")] + "data/scripts/" + name, data) for name, data in programs().items())
    for it in HERE / "LICENSE", HERE.parent / "LICENSE":
        if it.is_file():
            files[info + "/LICENSE"] = it.read_bytes()
    files[info + "/METADATA"] = metadata()
    return files


def build_wheel(wheel_directory, config_settings=None, metadata_directory=None):
    """Writes the wheel, and returns its name."""
    info = "felter-%s.dist-info" % project("version")
    files = contents(info)
    platforms = tags(files)
    files[info + "/WHEEL"] = (
        "Wheel-Version: 1.0\nGenerator: felter\nRoot-Is-Purelib: false\n"
        + "".join("Tag: py3-none-%s\n" % it for it in platforms)
    ).encode()
    name = "felter-%s-py3-none-%s.whl" % (project("version"), ".".join(platforms))
    lines = []
    with zipfile.ZipFile(os.path.join(wheel_directory, name), "w", zipfile.ZIP_DEFLATED) as wheel:
        for path, data in files.items():
            digest = base64.urlsafe_b64encode(hashlib.sha256(data).digest()).rstrip(b"=").decode()
            lines.append("%s,sha256=%s,%d\n" % (path, digest, len(data)))
            add(wheel, path, data)
        record = info + "/RECORD"
        add(wheel, record, "".join(lines) + record + ",,\n")
    return name


def add(wheel, path, data):
    """Adds a file, of a fixed time, so that the same files make the same wheel."""
    entry = zipfile.ZipInfo(path, (2020, 1, 1, 0, 0, 0))
    entry.external_attr = (0o100755 if "/scripts/" in path else 0o100644) << 16
    entry.compress_type = zipfile.ZIP_DEFLATED
    wheel.writestr(entry, data)


def build_sdist(sdist_directory, config_settings=None):
    raise NotImplementedError("felter is installed from a wheel or from the repository")


if __name__ == "__main__":
    its = sys.argv[1:]
    if len(its) == 2 and its[0] == "--extension":
        sys.exit(0 if build_extension(its[1]) else 1)
    if len(its) != 1 or its[0].startswith("-"):
        print(__doc__.strip())
        sys.exit(0 if its in (["-h"], ["--help"]) else 2)
    print(build_wheel(its[0]))
