"""Where the toolchain lies, and programs that it builds."""
import os
import shutil
import subprocess
import sys
from pathlib import Path

TOP = Path(__file__).resolve().parent.parent.parent


def kit():
    """The toolchain's folder: that of the page which it names."""
    return Path(subprocess.run(["rt", "doc"], capture_output=True, text=True, check=True).stdout.strip()).parent


def check_name():
    """The check that runs, as it is called."""
    return f"checks/{Path(sys.argv[0]).name}"


def named_rt():
    """The toolchain's command: rt, unless RT names another one. Where it isn't there the check ends in one line."""
    rt = os.environ.get("RT", "rt")
    if not shutil.which(rt):
        sys.exit(f"{check_name()}: no toolchain: there is no {rt}")
    return rt


def built(crate):
    """A crate's program, which is proved and built where it isn't there."""
    folder = TOP / "crates" / crate
    program = folder / "out" / crate
    if not program.exists():
        rt = named_rt()
        ended = subprocess.run([rt, "run"], cwd=folder, capture_output=True, text=True)
        if ended.returncode or not program.exists():
            sys.exit(f"{check_name()}: {rt} run built no program:\n{(ended.stdout + ended.stderr)[-4000:]}")
    return program
