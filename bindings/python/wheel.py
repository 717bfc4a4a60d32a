#!/usr/bin/env python3
"""Writes a wheel of the package, with no tool beside Python:

    wheel.py LIBRARY EXTENSION PAGES VERSION TAG OUTDIR

LIBRARY is libpokhvizi.so for the machine that TAG names, as manylinux_2_17_x86_64; EXTENSION is the _yaml.abi3.so of
build_extension.sh for it, or `-` where there is none. PAGES is the folder of its LICENSE, NOTICES and PROOF. Times are
SOURCE_DATE_EPOCH's, so two runs write the same bytes."""
import base64
import hashlib
import os
import sys
import time
import zipfile
from pathlib import Path

METADATA = """\
Metadata-Version: 2.1
Name: pokhvizi
Version: {version}
Summary: PyYAML's loaders over a proved parser
License: MIT
License-File: LICENSE
License-File: NOTICES
License-File: LICENSE.libyaml
Requires-Python: >=3.8
Requires-Dist: PyYAML>=5.1
Classifier: License :: OSI Approved :: MIT License
Classifier: Operating System :: POSIX :: Linux
Classifier: Typing :: Typed
Description-Content-Type: text/markdown

{readme}"""
HERE = Path(__file__).resolve().parent


def checksum(data):
    return "sha256=" + base64.urlsafe_b64encode(hashlib.sha256(data).digest()).rstrip(b"=").decode()


def metadata(version):
    return METADATA.format(version=version, readme=(HERE / "README.md").read_text())


def package_files(library, extension):
    """The files of the package, by their names in the wheel."""
    parts = [path for path in (HERE / "src" / "pokhvizi").iterdir() if path.suffix in (".py", ".pyi") or path.name == "py.typed"]
    files = {f"pokhvizi/{path.name}": path.read_bytes() for path in parts}
    files["pokhvizi/libpokhvizi.so"] = Path(library).read_bytes()
    if extension != "-":
        files["pokhvizi/_yaml.abi3.so"] = Path(extension).read_bytes()
    return files


def main(library, extension, pages, version, tag, out):
    info = f"pokhvizi-{version}.dist-info"
    files = package_files(library, extension)
    python = "py3-none" if extension == "-" else "cp38-abi3"
    for page in ("LICENSE", "NOTICES", "PROOF"):
        files[f"{info}/{page}"] = (Path(pages) / page).read_bytes()
    files[f"{info}/LICENSE.libyaml"] = (HERE / "LICENSE.libyaml").read_bytes()
    files[f"{info}/METADATA"] = metadata(version).encode()
    tags = "".join(f"Tag: {python}-{one}\n" for one in tag.split("."))
    files[f"{info}/WHEEL"] = f"Wheel-Version: 1.0\nGenerator: wheel.py\nRoot-Is-Purelib: false\n{tags}".encode()
    record = "".join(f"{name},{checksum(data)},{len(data)}\n" for name, data in sorted(files.items()))
    files[f"{info}/RECORD"] = (record + f"{info}/RECORD,,\n").encode()
    date = time.gmtime(int(os.environ["SOURCE_DATE_EPOCH"]))[:6]
    made = f"pokhvizi-{version}-{python}-{tag}.whl"
    with zipfile.ZipFile(Path(out) / made, "w", zipfile.ZIP_DEFLATED) as wheel:
        for name, data in sorted(files.items(), key=lambda item: (info in item[0], item[0])):
            entry = zipfile.ZipInfo(name, date)
            entry.compress_type, entry.create_system = zipfile.ZIP_DEFLATED, 3
            entry.external_attr = (0o100755 if name.endswith(".so") else 0o100644) << 16
            wheel.writestr(entry, data)
    return made


if __name__ == "__main__":
    if len(sys.argv) != 7:
        sys.exit(__doc__)
    main(*sys.argv[1:])
