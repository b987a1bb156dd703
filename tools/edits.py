"""Blunders and the must-fail edits that are written from them: what tools/blunders, tools/edit and tests/edits share.

A blunder is a file crates/CRATE/blunders/LABEL.edit: comments that say the fact which it breaks, then `file:`, `old:` and `new:`
lines as in an edit of rt. Trying an edit takes a check of its crate, so blunders in different functions share one. A function's proof
knows the others by their contracts alone, and functions that call one another have one proof and count as one. But the prover does
not search for the proof of a function while one that it calls is not proved, so a blunder can wait for another one's; tests/edits
tries such a blunder by itself. A blunder outside every body (in specs/, a contract, a constant, a type) is an edit by itself, and so
is one that says `alone: WHY`."""
import collections
import hashlib
import pathlib
import re
import shutil
import subprocess
import tempfile

import kit

root = pathlib.Path(__file__).resolve().parent.parent
ITEM = re.compile(r"^(?:pub(?:\(crate\))? )?(?:extern \"C\" )?(fn|const|struct|enum|impl|trait|type)\b\W*(\w+)", re.MULTILINE)
CYCLE = re.compile(r"#\[cycle\((\w+)\)\]\n(?:#\[[^\n]*\n)*\Z")
# What a check of a crate reads of it.
PARTS = ("src", "specs", "proofs")

# A function of src/: its file, the folder of its proof below proofs/, its path below the crate, as the prover writes it, and its lines.
Function = collections.namedtuple("Function", "file folder path first last")


class Blunder:
    """One blunder: its crate, its label, its sentence, why it stands alone (or nothing), and its replacements (file, old, new)."""

    def __init__(self, crate, path, text=None):
        self.crate, self.label, self.alone, self.pairs = crate, path.stem, "", []
        self.text = path.read_text(encoding="utf-8") if text is None else text
        said, file, old = [], None, None
        for line in self.text.splitlines():
            if line.startswith("#"):
                said.append(line[1:].strip())
            elif line.startswith("alone: "):
                self.alone = line[7:]
            elif line.startswith("file: "):
                file = line[6:]
            elif line.startswith("old: "):
                old = line[5:]
            elif line.startswith("new:"):
                self.pairs.append((file, old, line[4:].removeprefix(" ")))
        self.said = " ".join(said)
        self.functions = {function_of(crate, file, old) for file, old, _ in self.pairs}

    def folders(self):
        """The folders of the proofs in whose functions it stands."""
        return {function.folder for function in self.functions - {None}}

    def shares(self):
        """Whether it may share an edit with others: each replacement stands in the body of a function."""
        return not self.alone and None not in self.functions

    def replacements(self):
        """Its lines of an edit, without what only the tools read."""
        return "".join(line + "\n" for line in self.text.splitlines() if line.startswith(("file: ", "old: ", "new:")))

    def faults(self):
        """What is wrong with the file itself."""
        if not self.said:
            yield "has no comment that says which fact it breaks"
        if not self.pairs:
            yield "replaces nothing"
        for file, old, new in self.pairs:
            if old == new:
                yield f"replaces `{old.strip()}` by itself"
        yield from misfits(self.crate, [self])


def misfits(crate, group):
    """Which of these blunders' replacements rt can't apply: it applies each to what the earlier ones made."""
    texts, wrong = {}, []
    for blunder in group:
        for file, old, new in blunder.pairs:
            path = root / "crates" / crate / file
            if file not in texts:
                texts[file] = path.read_text(encoding="utf-8") if path.is_file() else ""
            count = texts[file].count(old)
            if count != 1:
                wrong.append(f"`{old.strip()}` stands {count} times in {file}")
            else:
                texts[file] = texts[file].replace(old, new)
    return wrong


def function_of(crate, file, old):
    """The function of src/ in whose body a text stands; None outside every body."""
    path = root / "crates" / crate / file
    if not file.startswith("src/") or not path.is_file():
        return None
    text = path.read_text(encoding="utf-8")
    start = text.find(old)
    items = [*ITEM.finditer(text)]
    at = sum(item.start() < start + len(old) for item in items) - 1
    # a body begins with the first line that ends in an opening bracket; before it stands the contract
    if at < 0 or items[at][1] != "fn" or not re.search(r"\{$", text[items[at].start() : start], re.MULTILINE):
        return None
    module = "" if path.stem in ("lib", "main") else path.stem + "/"
    name, begins = items[at][2], items[at].start()
    cycle = CYCLE.search(text[:begins])
    folder = f"+{cycle[1]}" if cycle else name
    if (root / "crates" / crate / "proofs" / f"{module}+{name}").is_dir():
        folder = f"+{name}"
    ends = items[at + 1].start() if at + 1 < len(items) else len(text)
    return Function(file, module + folder, (module + name).replace("/", "::"), text.count("\n", 0, begins) + 1, text.count("\n", 0, ends))


def crates():
    """The crates of crates.txt in order: the name of each, and the crates that its line names."""
    lines = (root / "crates.txt").read_text(encoding="utf-8").splitlines()
    return [(head.split()[0], rest.split()) for head, _, rest in (line.partition(":") for line in lines if line[:1] not in ("", "#"))]


def blunders(crate):
    """A crate's blunders, by label."""
    return [Blunder(crate, path) for path in sorted((root / "crates" / crate / "blunders").glob("*.edit"))]


def edits(crate):
    """A crate's must-fail edits: the name of each, and its blunders. Each goes into the first edit where its functions are free."""
    shared, single = [], []
    for blunder in blunders(crate):
        if not blunder.shares():
            single.append([blunder])
            continue
        free = (group for group in shared if not any(other.folders() & blunder.folders() for other in group))
        group = next(free, None)
        if group is None:
            shared.append([blunder])
        else:
            group.append(blunder)
    several = [group for group in shared if len(group) > 1]
    single += [group for group in shared if len(group) == 1]
    names = ["together" if i == 0 else f"together_{i + 1}" for i in range(len(several))]
    return list(zip(names, several)) + sorted((group[0].label, group) for group in single)


def edit_text(crate, group):
    """The edit of these blunders, as rt reads it."""
    head = f"# Written by tools/blunders from crates/{crate}/blunders.\n"
    return head + "".join(f"# {b.label}: {b.said}\n{b.replacements()}" for b in group)


def rt(folder, *words):
    """Runs rt in a folder; gives its status and what it said."""
    done = subprocess.run(["rt", *words], cwd=folder, stdout=subprocess.PIPE, stderr=subprocess.STDOUT, text=True, errors="replace")
    return done.returncode, done.stdout


def prove(crate):
    """Proves a crate as it stands, so that a check with an edit begins with what that one kept; gives rt's status and what it said."""
    return (0, "") if kit.after_ci() else rt(root / "crates" / crate, "check")


def edited(folder, group):
    """Writes these blunders into a crate whose files stand in a folder."""
    for file, old, new in (pair for blunder in group for pair in blunder.pairs):
        path = folder / file
        path.write_text(path.read_text(encoding="utf-8").replace(old, new), encoding="utf-8")


def copied(crate, folder):
    """Copies what a check of a crate reads of it."""
    for part in PARTS:
        if (root / "crates" / crate / part).is_dir():
            shutil.copytree(root / "crates" / crate / part, folder / part)


def over_libraries(crate, group):
    """As try_edit, over the libraries that `rt ci` has just proved. Of blunders in bodies only those functions are checked, and what they
    call."""
    bodies = [] if any(None in blunder.functions for blunder in group) else sorted({f.path for blunder in group for f in blunder.functions})
    with tempfile.TemporaryDirectory(prefix="edit-") as folder:
        room = pathlib.Path(folder)
        copied(crate, room)
        edited(room, group)
        return kit.rattle("check", crate, room, "--jobs", "1", *(word for path in bodies for word in ("--only", path)))


def try_edit(crate, label, group):
    """Has the prover check a crate with these blunders, in a repository of its own with the crate and those below it. Gives rt's status
    and all that it said. What is known of the same files is kept in target/edits."""
    if kit.after_ci() and not kit.lacking(crate):
        return over_libraries(crate, group)
    known = dict(crates())
    below = [name for name in known if name in known[crate]] + [crate]
    with tempfile.TemporaryDirectory(prefix="edit-") as folder:
        room = pathlib.Path(folder)
        (room / "crates.txt").write_text("".join(f"{name}: {' '.join(known[name])}\n" for name in below), encoding="utf-8")
        for name in below:
            copied(name, room / "crates" / name)
        if (root / "HANDLES").is_file():
            shutil.copy(root / "HANDLES", room)
        edited(room / "crates" / crate, group)
        read = hashlib.sha256(rt(root, "version")[1].encode())
        for path in sorted(path for path in room.rglob("*") if path.is_file()):
            read.update(f"{path.relative_to(room)}\n".encode() + path.read_bytes())
        log = root / "target" / "edits" / crate / f"{label}.log"
        if log.is_file():
            head, _, said = log.read_text(encoding="utf-8", errors="replace").partition("\n")
            if head.partition(" ")[0] == read.hexdigest():
                return int(head.partition(" ")[2]), said
        status, said = rt(room / "crates" / crate, "check")
        # 0 and 1 are verdicts; another status says only that there is none
        if status in (0, 1):
            log.parent.mkdir(parents=True, exist_ok=True)
            log.write_text(f"{read.hexdigest()} {status}\n{said}", encoding="utf-8")
        return status, said
