"""Tests whether the tag of a wheel is right for what is linked: tag.py WHEEL VERSION. What objdump says of each library
and program in the wheel is compared with the name of the wheel. The wheel must be one of this version."""

import os
import re
import subprocess
import sys
import tempfile
import zipfile

wheel, version = sys.argv[1:]
tag = re.search(r"-py3-none-(.*)\.whl$", os.path.basename(wheel)).group(1)
least = int(re.search(r"manylinux_2_(\d+)_x86_64", tag).group(1))
wanted, linked = 17, 0
with tempfile.TemporaryDirectory() as room:
    with zipfile.ZipFile(wheel) as archive:
        archive.extractall(room)
        told = archive.read("felter-%s.dist-info/WHEEL" % version).decode()
        tags = re.findall(r"^Tag: py3-none-(\S+)$", told, re.M)
    assert ".".join(tags) == tag, "the name and WHEEL do not agree: %s, %s" % (tag, tags)
    for folder, _, names in os.walk(room):
        for name in names:
            path = os.path.join(folder, name)
            with open(path, "rb") as file:
                if file.read(4) != b"\x7fELF":
                    continue
            said = subprocess.run(["objdump", "-T", path], stdout=subprocess.PIPE, check=True).stdout.decode()
            wanted = max([wanted, *map(int, re.findall(r"\bGLIBC_2\.(\d+)", said))])
            assert "GLIBC_PRIVATE" not in said and "GLIBC_ABI" not in said, path
            needed = subprocess.run(["objdump", "-p", path], stdout=subprocess.PIPE, check=True).stdout.decode()
            for it in re.findall(r"NEEDED\s+(\S+)", needed):
                assert it in ("libc.so.6", "libm.so.6", "libpthread.so.0", "ld-linux-x86-64.so.2"), "%s needs %s" % (path, it)
            linked += 1
assert linked >= 2 and least == wanted, "%d files ask for 2.%d, and the tag says 2.%d" % (linked, wanted, least)
print("the tag is right")
