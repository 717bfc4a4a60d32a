"""Makes a wheel of a clone, for pip, without the prover's kit, and an archive of sources that makes the same:

    pip install ./bindings/python
    python3 -m build --sdist bindings/python

build_plain.sh makes the library, of the proved source text by cargo and rustc; build_extension.sh makes the
extension. For Linux; needs what these two need, and nothing of Python's beside pip. The wheel is for this
machine's Python, from 3.8 on, and for its libraries: if the C compiler finds no libyaml.a, libyaml's shared
library is needed at run time."""
import gzip
import io
import os
import re
import subprocess
import sys
import sysconfig
import tarfile
import tempfile
import time
from pathlib import Path

import wheel

HERE = Path(__file__).resolve().parent
TOP = HERE.parents[1]
PROOF = """\
libpokhvizi.so and the library in _yaml.abi3.so are compiled by rustc. What is proved is their source text
(crates/), where a run of `rt ci` over it has passed; this build proves nothing, and trusts Rust's compiler.
{commit}"""
NOTICES = "No code of others is in the library. _yaml.abi3.so may have libyaml's: LICENSE.libyaml.\n"


def run(*words, **environment):
    words = [str(word) for word in words]
    subprocess.run(words, check=True, cwd=TOP, env={**os.environ, **environment}, stdout=sys.stderr)


def output(*words):
    """What a command prints, or nothing if there is no such command or it fails."""
    try:
        done = subprocess.run(words, check=False, cwd=TOP, stdout=subprocess.PIPE, stderr=subprocess.DEVNULL, universal_newlines=True)
    except FileNotFoundError:
        return ""
    return done.stdout.strip()


def has_static_libyaml():
    return os.path.isabs(output(os.environ.get("CC", "gcc"), "-print-file-name=libyaml.a"))


def build_wheel(wheel_directory, config_settings=None, metadata_directory=None):
    with tempfile.TemporaryDirectory() as work:
        run("sh", "scripts/build_plain.sh", work)
        environment = {} if has_static_libyaml() else {"LIBYAML": "-lyaml"}
        environment["PYTHON_INCLUDE"] = sysconfig.get_path("include")
        run("sh", "bindings/python/build_extension.sh", work, **environment)
        commit = output("git", "log", "-1", "--format=Commit %H.")
        proof = PROOF.format(commit=commit + "\n" if commit else "")
        pages = {"LICENSE": (TOP / "LICENSE").read_text(), "NOTICES": NOTICES, "PROOF": proof}
        for name, text in pages.items():
            Path(work, name).write_text(text)
        os.environ.setdefault("SOURCE_DATE_EPOCH", str(date_of()))
        tag = sysconfig.get_platform().replace("-", "_").replace(".", "_")
        built = Path(work, "libpokhvizi.so"), Path(work, "_yaml.abi3.so")
        return wheel.main(*built, work, version_of(), tag, wheel_directory)


def version_of():
    return (TOP / "VERSION").read_text().strip()


def date_of():
    """The time of what is made: that of the last commit, or now."""
    return int(os.environ.get("SOURCE_DATE_EPOCH") or output("git", "log", "-1", "--format=%ct") or time.time())


def source_files():
    """What a build reads, by its place in a clone: the crate `pokhvizi` without the lists of its tests, and the bindings."""
    include = re.findall(r'^    "/(.*)",$', (TOP / "Cargo.toml").read_text(), re.MULTILINE)
    crate = [place for place in include if not place.startswith("crates/vectors_")]
    others = ["Cargo.toml", "VERSION", "bindings/c", "bindings/python", "examples/yaml.c", "scripts/build_plain.sh"]
    others += ["scripts/parts/header_names.sh", "scripts/parts/link_c.sh"]
    for place in crate + others:
        path = TOP / place
        yield from [path] if path.is_file() else (file for file in path.glob("**/*") if file.is_file())


def is_source(path):
    """Whether a build reads this, and not a test its data."""
    is_made = {"build", "out", "target", "__pycache__", "Cargo.lock"} & set(path.relative_to(TOP).parts)
    return not is_made and not path.is_relative_to(TOP / "bindings/plain/tests/data")


def build_sdist(sdist_directory, config_settings=None):
    """Writes an archive of these files, whose pyproject.toml names this module."""
    root, date = f"pokhvizi-{version_of()}", date_of()
    files = {path.relative_to(TOP).as_posix(): path for path in source_files() if is_source(path)}
    texts = {name: path.read_bytes() for name, path in files.items()}
    project = (HERE / "pyproject.toml").read_text()
    texts["pyproject.toml"] = project.replace('backend-path = ["."]', 'backend-path = ["bindings/python"]').encode()
    texts["PKG-INFO"] = wheel.metadata(version_of()).encode()
    packed = io.BytesIO()
    with tarfile.open(fileobj=packed, mode="w", format=tarfile.USTAR_FORMAT) as archive:
        for name, text in sorted(texts.items()):
            entry = tarfile.TarInfo(f"{root}/{name}")
            entry.size, entry.mtime = len(text), date
            entry.mode = 0o755 if name in files and os.access(files[name], os.X_OK) else 0o644
            archive.addfile(entry, io.BytesIO(text))
    archive = Path(sdist_directory, f"{root}.tar.gz")
    archive.write_bytes(gzip.compress(packed.getvalue(), 9, mtime=date))
    return archive.name
