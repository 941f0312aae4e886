#!/usr/bin/env python3
"""Makes a wheel of the package with the library in it: see build.sh.

    python3 wheel.py LIBRARY FOLDER

It takes the names and the version of pyproject.toml, and prints the wheel's path. The same files make the same bytes.
"""
import base64
import hashlib
import os
import re
import subprocess
import sys
import zipfile
from pathlib import Path

HERE = Path(__file__).resolve().parent
# No wheel for an older C library is asked for: manylinux_2_17 is that of 2012.
OLDEST = (2, 17)


def setting(name):
    """A setting of pyproject.toml, which is a text in quotes."""
    text = (HERE / "pyproject.toml").read_text(encoding="utf-8")
    return re.search(rf'^{re.escape(name)} = "([^"]*)"', text, re.M)[1]


def tag_of(library):
    """The tag of the oldest C library that the library runs with."""
    symbols = subprocess.run(["objdump", "-T", library], check=True, capture_output=True, text=True).stdout
    found = [tuple(map(int, it.split("."))) for it in re.findall(r"GLIBC_([0-9.]+)", symbols)]
    major, minor = max([it[:2] for it in found] + [OLDEST])
    return f"py3-none-manylinux_{major}_{minor}_x86_64"


def main():
    if len(sys.argv) != 3:
        sys.exit(__doc__)
    library, folder = sys.argv[1:]
    name, version, tag = setting("name").replace("-", "_"), setting("version"), tag_of(library)
    about = f"{name}-{version}.dist-info"
    files = {f"paseto/{path.name}": path.read_bytes() for path in (HERE / "src/paseto").iterdir() if path.suffix == ".py" or path.name == "py.typed"}
    files["paseto/libpaseto.so"] = Path(library).read_bytes()
    readme = (HERE / "README.md").read_text(encoding="utf-8")
    files[f"{about}/METADATA"] = (
        f"Metadata-Version: 2.1\nName: {setting('name')}\nVersion: {version}\nSummary: {setting('description')}\n"
        f"License: MIT\nRequires-Python: {setting('requires-python')}\nClassifier: Typing :: Typed\n"
        f"Classifier: Operating System :: POSIX :: Linux\nDescription-Content-Type: text/markdown\n\n{readme}"
    ).encode()
    files[f"{about}/WHEEL"] = f"Wheel-Version: 1.0\nGenerator: bindings/python/wheel.py\nRoot-Is-Purelib: false\nTag: {tag}\n".encode()
    files[f"{about}/LICENSE"] = (HERE.parent.parent / "LICENSE").read_bytes()
    rows = []
    for path, content in sorted(files.items()):
        digest = base64.urlsafe_b64encode(hashlib.sha256(content).digest()).rstrip(b"=").decode()
        rows.append(f"{path},sha256={digest},{len(content)}\n")
    files[f"{about}/RECORD"] = "".join([*rows, f"{about}/RECORD,,\n"]).encode()
    os.makedirs(folder, exist_ok=True)
    wheel = f"{folder}/{name}-{version}-{tag}.whl"
    with zipfile.ZipFile(wheel, "w", zipfile.ZIP_DEFLATED) as made:
        for path, content in sorted(files.items()):
            entry = zipfile.ZipInfo(path, (1980, 1, 1, 0, 0, 0))
            entry.compress_type, entry.external_attr = zipfile.ZIP_DEFLATED, 0o644 << 16
            made.writestr(entry, content)
    print(wheel)


if __name__ == "__main__":
    main()
