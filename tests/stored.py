"""What tests/asking, tests/explaining, tests/checking and tests/importing share: their options, which cases are run, and the count."""
import argparse
import os
import pathlib
import signal
import subprocess
import sys
import tempfile

root = pathlib.Path(__file__).resolve().parent.parent


def printed_by(program, policy, given, words=()):
    """What the program prints in a folder with this policy, or with none, started with these words, which are bytes."""
    with tempfile.TemporaryDirectory() as folder:
        if policy is not None:
            (pathlib.Path(folder) / "policy.txt").write_bytes(policy)
        return subprocess.run([os.fsencode(program), *words], cwd=folder, input=given, capture_output=True, timeout=60).stdout


def main(name, kind, cases, about):
    """Runs the program of this name on the cases (name, policy, input, expected, words of the command ..), all or those of the names
    given."""
    options = argparse.ArgumentParser(description=about, formatter_class=argparse.RawDescriptionHelpFormatter)
    options.add_argument("names", metavar="NAME", nargs="*", help="run the cases of these names only, and show differences whole")
    options.add_argument("--list", action="store_true", help="print the names of the cases and run none")
    options.add_argument("--program", type=pathlib.Path, default=root / "crates" / name / "out" / name, help=f"instead of crates/{name}/out/{name}")
    given = options.parse_args()
    if given.list:
        # `--list | head` ends quietly.
        signal.signal(signal.SIGPIPE, signal.SIG_DFL)
        print("\n".join(case[0] for case in cases))
        return 0
    unknown = [wanted for wanted in given.names if wanted not in (case[0] for case in cases)]
    if unknown:
        print(f"{name}: no case is called {unknown[0]!r}; --list prints the names")
        return 1
    if not given.program.is_file():
        print(f"{name}: no program {given.program.name}: first run `rt run </dev/null` in crates/{name}")
        return 1
    run = [case for case in cases if not given.names or case[0] in given.names]
    wrong = 0
    for case, policy, text, expected, *words in run:
        printed = printed_by(given.program.resolve(), policy, text, words)
        if printed != expected:
            wrong += 1
            most = None if given.names else 300
            print(f"{case}: expected {expected[:most]!r}, printed {printed[:most]!r}")
    print(f"{name}: {len(run) - wrong} of {len(run)} {kind} as expected")
    return 1 if wrong else 0
