#!/usr/bin/env python3
"""Checks that each source of a crate is as `rt fmt` writes it: formatted.py RT. `rt ci` refuses one that isn't, but only after the crate's proof."""
from __future__ import annotations

import pathlib
import shutil
import subprocess
import sys

sys.path.insert(0, str(pathlib.Path(__file__).resolve().parents[1]))
from lib.calls import need_toolchain
from lib.checks import report
from lib.sources import ROOT


def main() -> None:
    if len(sys.argv) != 2:
        sys.exit(__doc__)
    need_toolchain(sys.argv[1])
    rattle = pathlib.Path(shutil.which(sys.argv[1]) or "").resolve().with_name("rattle")
    files = [path for part in ("src", "specs", "proofs") for path in sorted((ROOT / "crates").glob(f"*/{part}/**/*")) if path.suffix in (".rt", ".antt")]
    checked = subprocess.run([rattle, "fmt", "--check", *files], stdout=subprocess.PIPE, stderr=subprocess.STDOUT, text=True, errors="replace")
    wrong = checked.stdout.splitlines() or ["rattle fmt failed"]
    report(wrong if checked.returncode else [], f"{len(files)} sources are as rt fmt writes them")


if __name__ == "__main__":
    main()
