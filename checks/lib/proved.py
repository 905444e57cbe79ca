"""What a whole `rt ci` has just proved, for checks that hand it to the toolchain's compiler: `rt` itself would prove all libraries
once more, since `rt ci` keeps none for other commands. Nothing here can see whether a file was edited since."""
import sys
from pathlib import Path

from toolchain import check_name, kit

TOP = Path(__file__).resolve().parent.parent.parent


def uses():
    """Which libraries each crate uses, by crates.txt."""
    found = {}
    for line in (TOP / "crates.txt").read_text().splitlines():
        name, colon, libraries = line.partition("#")[0].partition(":")
        if colon:
            found[name.split()[0]] = libraries.split()
    return found


def below(names, used):
    """The repository's libraries among these and below them, each behind those that it uses."""
    found = []
    for it in names:
        if it in used:
            found += [more for more in [*below(used[it], used), it] if more not in found]
    return found


def rlib(name):
    """Where the library lies that `rt ci` made."""
    return TOP / f"crates/{name}/out/rlib/{name}.rlib"


def over(names):
    """The compiler's flags for a crate that names these libraries. It ends the check where one isn't there."""
    used, tools = uses(), kit()
    libraries = below(names, used)
    if lacking := [name for name in libraries if not (rlib(name) / "format").exists()]:
        sys.exit(f"{check_name()}: run `rt ci` first: there is no library of {', '.join(lacking)}")
    flags = []
    for name in ["std", *names]:
        flags += ["--extern", f"{name}={rlib(name) if name in used else tools / f'rlibs/{name}.rlib'}"]
    for folder in [tools / "rlibs", *(rlib(name).parent for name in libraries)]:
        flags += ["-L", f"dependency={folder}"]
    flags += ["--antt-project", tools / "rattle/logic/antt-project.json", "--logic-built", tools / "logic_built"]
    return [str(flag) for flag in flags]
