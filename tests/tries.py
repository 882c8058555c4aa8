"""Checks of a crate with other texts in place of its own, as `rt must-fail` makes them. Of what such a check says `rt` prints one line, and
keeps no more, so tests/refused, tests/costs and tests/slowest ask the toolchain's own functions for all of it.
"""
import importlib.machinery
import importlib.util
import subprocess
import sys
import tempfile
from pathlib import Path

from edits import ROOT


def toolchain():
    """The command `rt` as a module."""
    sys.dont_write_bytecode = True
    page = subprocess.run(["rt", "doc"], check=True, capture_output=True, text=True).stdout
    loader = importlib.machinery.SourceFileLoader("rt", str(Path(page.strip()).parent / "bin/rt"))
    made = importlib.util.module_from_spec(importlib.util.spec_from_loader("rt", loader))
    loader.exec_module(made)
    made.rtlib.guarded()  # it sets a signal's handler, which only the main thread may
    return made


RT = toolchain()


def crate_of(name):
    """A crate, as the toolchain knows it."""
    return RT.rtlib.Crate(str(ROOT / "crates" / name), str(ROOT), {})


def every_crate():
    """The crates of crates.txt, lowest first."""
    return sorted(RT.rtlib.crates_below(str(ROOT)), key=lambda crate: len(crate.below()))


def proved(name):
    """Proves a crate and all below it, where that is not done, and says whether it is now."""
    return subprocess.run(["rt", "check"], cwd=ROOT / "crates" / name, capture_output=True).returncode == 0


def check(crate, texts=None, kept=None):
    """What a check says of the crate with these texts, over the work that is kept in a folder, or from nothing."""
    return RT.checked(crate, texts or {}, ["--jobs", "1"], kept and str(kept)).stdout


def tried(edit):
    """What a check says of a crate with a file of edits, begun with what the crate's own check kept."""
    crate = crate_of(edit.parent.parent.name)
    texts, why = RT.read_edit(str(edit), crate.folder)
    if why:
        raise SystemExit(f"{edit}: {why}")
    with tempfile.TemporaryDirectory() as room:
        RT.linked(f"{crate.folder}/out/incremental", f"{room}/kept")
        return check(crate, texts, f"{room}/kept")
