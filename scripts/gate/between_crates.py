#!/usr/bin/env python3
"""Fails if a crate

- is listed on another's line of crates.txt, and no file of that one names it;
- names a proof of another crate of the repository that isn't in its `proofs/exported`, or, in `specs/`, any proof of the
  repository;
- has something in `proofs/exported` that no other crate names.

    python3 scripts/gate/between_crates.py

Run by check.sh.
"""
import re
import sys
from pathlib import Path

TOP = Path(__file__).resolve().parents[2]
sys.path.insert(0, str(TOP / "scripts/parts"))
from sources import CRATES  # noqa: E402
from usage import no_words  # noqa: E402

PROOF = re.compile(r"(?:Rattle\.)?\b(\w+)(?:\.|::)proofs(?:\.|::)((?:exported(?:\.|::))?\w+)")


def texts():
    """Each file of code, definitions and proofs: its crate, its folder, its path and its text."""
    for path in sorted(path for suffix in ("rt", "antt") for path in TOP.glob(f"crates/*/*/**/*.{suffix}")):
        crate, room = path.relative_to(TOP / "crates").parts[:2]
        if crate in CRATES and room != "out":
            yield crate, room, path, path.read_text()


def main():
    wrong, used, words = [], set(), {crate: set() for crate in CRATES}
    for crate, room, path, text in texts():
        words[crate].update(re.findall(r"\w+", re.sub(r"^\s*(//|--).*$", "", text, flags=re.M)))
        for owner, module in PROOF.findall(text) if room in ("src", "specs", "proofs") else ():
            module = module.replace("::", ".")
            used |= {(owner, module)} - {(crate, module)}
            if owner in CRATES and (room == "specs" or owner != crate and not module.startswith("exported.")):
                wrong.append(f"{path.relative_to(TOP)} names {module} of the proofs of {owner}")
    unused = ((crate, name) for crate in CRATES for name in CRATES[crate] if name not in words[crate])
    wrong += [f"crates.txt: {crate} lists {name}, which it does not use" for crate, name in unused]
    for path in sorted(TOP.glob("crates/*/proofs/exported/*.antt")):
        if (path.parts[-4], "exported." + path.stem) not in used:
            wrong.append(f"{path.relative_to(TOP)} is named by no other crate")
    sys.exit("\n".join(wrong) or 0)


if __name__ == "__main__":
    no_words(__file__)
    main()
