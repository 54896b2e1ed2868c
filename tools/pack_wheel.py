"""Writes the wheel of the Python package: pack_wheel.py PACKAGE VERSION FOLDER

PACKAGE is the folder mysql_params that bindings/build made, with the extension module. A wheel is a zip. Each time in it is
SOURCE_DATE_EPOCH, and the entries stand in one order, so that one package gives the same bytes. FOLDER holds PROVENANCE, which
goes in too.

The tag says that the module is of CPython's stable interface from 3.9 on. A build of Python without the GIL has no such
interface, so pip refuses the wheel there.
"""

import base64
import hashlib
import os
import pathlib
import re
import subprocess
import sys
import time
import zipfile

TREE = pathlib.Path(__file__).resolve().parent.parent
# A zip has no time before 1980.
FIRST_TIME = 315532800
MODULE = "_native.abi3.so"


def platform(module):
    """The platform's tag: by the newest version of glibc that the module asks for."""
    names = subprocess.run(["objdump", "-T", str(module)], capture_output=True, text=True, check=True).stdout
    versions = [tuple(map(int, found)) for found in re.findall(r"GLIBC_(\d+)\.(\d+)", names)]
    newest = max(versions, default=(2, 5))
    return f"manylinux_{newest[0]}_{newest[1]}_x86_64"


def metadata(version):
    return f"""Metadata-Version: 2.1
Name: mysql-params
Version: {version}
Summary: values bound into MySQL queries, over a proved archive
License: MIT OR Apache-2.0
Requires-Python: >=3.9
Classifier: Typing :: Typed
Classifier: Operating System :: POSIX :: Linux
Description-Content-Type: text/markdown

{(TREE / "packages/python.md").read_text()}"""


def digest(data):
    return "sha256=" + base64.urlsafe_b64encode(hashlib.sha256(data).digest()).rstrip(b"=").decode()


def files_of(package, version, tag, folder):
    """What the wheel holds, by path, without the record of it."""
    files = {f"mysql_params/{path.name}": path.read_bytes() for path in package.iterdir() if path.is_file()}
    info = f"mysql_params-{version}.dist-info"
    files[f"{info}/METADATA"] = metadata(version).encode()
    files[f"{info}/WHEEL"] = f"Wheel-Version: 1.0\nGenerator: tools/pack\nRoot-Is-Purelib: false\nTag: {tag}\n".encode()
    for name in ("LICENSE-MIT", "LICENSE-APACHE"):
        files[f"{info}/licenses/{name}"] = (TREE / name).read_bytes()
    files[f"{info}/PROVENANCE"] = (folder / "PROVENANCE").read_bytes()
    return files, f"{info}/RECORD"


def main(package, version, folder):
    tag = f"cp39-abi3-{platform(package / MODULE)}"
    files, record = files_of(package, version, tag, folder)
    lines = [f"{name},{digest(data)},{len(data)}\n" for name, data in sorted(files.items())]
    files[record] = "".join([*lines, f"{record},,\n"]).encode()
    moment = time.gmtime(max(int(os.environ["SOURCE_DATE_EPOCH"]), FIRST_TIME))[:6]
    with zipfile.ZipFile(folder / f"mysql_params-{version}-{tag}.whl", "w") as wheel:
        for name in sorted(files, key=lambda name: (name == record, name)):
            entry = zipfile.ZipInfo(name, moment)
            entry.compress_type = zipfile.ZIP_DEFLATED
            entry.create_system = 3
            entry.external_attr = (0o100755 if name.endswith(".so") else 0o100644) << 16
            wheel.writestr(entry, files[name], compresslevel=9)


main(pathlib.Path(sys.argv[1]), sys.argv[2], pathlib.Path(sys.argv[3]))
