"""The kit's prover, called over libraries that are built already: what tools/library, tests/edits, tests/free and tests/ratchet share.

`rt check` and `rt lib` prove the libraries below a crate themselves, if no earlier one of these commands did, since nothing says that
what `rt ci` left in crates/*/out is of the files as they stand. In .ci/run it is: there `rt ci` has just proved all of them, and nothing
has changed since. So .ci/run sets GATE_PROVED, and then the prover is called over those libraries."""
import os
import pathlib
import subprocess

root = pathlib.Path(__file__).resolve().parent.parent


def crates(top=root):
    """The crates of crates.txt in order: of each name the words before the colon, and those behind it."""
    lines = (top / "crates.txt").read_text(encoding="utf-8").splitlines()
    rows = [line.partition(":") for line in lines if line[:1] not in ("", "#")]
    return {head.split()[0]: (head.split(), rest.split()) for head, _, rest in rows}


def library(name, top=root):
    """Where a crate's library is built."""
    return top / "crates" / name / "out" / "rlib" / f"{name}.rlib"


def lacking(crate, top=root):
    """The libraries below a crate that are not built."""
    known = crates(top)
    return [name for name in known[crate][1] if name in known and not (library(name, top) / "format").is_file()]


def after_ci():
    """Whether `rt ci` has just proved the files as they stand."""
    return "GATE_PROVED" in os.environ


def place():
    """The folder of the kit."""
    return pathlib.Path(subprocess.run(["rt", "doc"], capture_output=True, text=True, check=True).stdout.strip()).parent


def words(crate, folder, top=root):
    """What the prover is told of a crate whose files stand in a folder: its name and root file, the libraries that it names, and where
    those below them are."""
    kit, known = place(), crates(top)
    head, names = known[crate]
    said = ["--crate-name", crate, "src/main.rt" if (folder / "src" / "main.rt").is_file() else "src/lib.rt"]
    for name in ["std", *names]:
        made = library(name, top) if name in known else kit / "rlibs" / f"{name}.rlib"
        said += ["--extern", f"{name}={made}", "-L", f"dependency={made.parent}"]
    said += ["--antt-project", f"{kit}/rattle/logic/antt-project.json", "--logic-built", f"{kit}/logic_built"]
    return said + (["--crate-type", "staticlib"] if "staticlib" in head else [])


def rattle(verb, crate, folder, *flags, top=root):
    """Has the prover check or build a crate whose files stand in a folder, from nothing; gives its status and what it said."""
    command = [place() / "bin" / "rattle", verb, *words(crate, folder, top), *flags]
    done = subprocess.run(command, cwd=folder, stdin=subprocess.DEVNULL, stdout=subprocess.PIPE, stderr=subprocess.STDOUT, text=True, errors="replace")
    return done.returncode, done.stdout
