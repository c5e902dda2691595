#!/usr/bin/env python3
"""Plants one bug at a time and sees what the prover says: tools/planted.py [CRATE ...], by default all of tools/planted.

Each file tools/planted/CRATE/NAME.edit changes the meaning of the code: a file, and texts that stand in it once, each with the text
that takes its place. The edit is made in a copy of the repository. First the crate itself is proved with it; where that
succeeds, every crate above it, with programs and tests. A bug that all of them let pass is one that no contract rules out.
The status is 0 if none survived.
"""
import pathlib
import re
import shutil
import subprocess
import sys
import tempfile

TOP = pathlib.Path(__file__).resolve().parent.parent
PLANTED = TOP / "tools" / "planted"


def dependencies(top):
    """What each crate knows, as crates.txt says it."""
    known = {}
    for line in (top / "crates.txt").read_text().splitlines():
        if ":" in line and not line.startswith("#"):
            name, rest = line.split(":", 1)
            known[name.strip()] = rest.split()
    return known


def above(crate, known):
    """The crates that use a crate, at any distance, in the order of crates.txt."""
    found = {crate}
    while True:
        more = {name for name, uses in known.items() if found & set(uses)} - found
        if not more:
            return [name for name in known if name in found and name != crate]
        found |= more


def copied():
    """A copy of the repository without the edits of the gate. Checks there begin with what checks here have kept."""
    copy = pathlib.Path(tempfile.mkdtemp(prefix="planted"))
    shutil.copy(TOP / "crates.txt", copy)
    shutil.copytree(TOP / "crates", copy / "crates", ignore=shutil.ignore_patterns("must-fail", "out"))
    return copy


def run(copy, *words):
    done = subprocess.run(["rt", *words], cwd=copy, capture_output=True, text=True)
    return done.returncode, done.stdout + done.stderr


def tried(copy, crate, edits):
    """What the prover says of each edit of a crate, in the crate itself."""
    folder = copy / "crates" / crate / "must-fail"
    folder.mkdir()
    for edit in edits:
        shutil.copy(edit, folder)
    _, said = run(copy, "must-fail", crate)
    shutil.rmtree(folder)
    verdicts = dict(re.findall(rf"^rt: must-fail {crate}/(\w+)\.edit: (.*)$", said, re.M))
    return {edit: verdicts.get(edit.stem, "BAD EDIT: rt did not come to it") for edit in edits}


def fields(edit, name):
    return re.findall(rf"^{name}: ?(.*)$", edit.read_text(), re.M)


def refused_above(copy, crate, edit, known):
    """The first crate above that is refused with the edit, or whose program or tests fail; None if there is none."""
    path = copy / "crates" / crate / fields(edit, "file")[0]
    kept = path.read_text()
    text = kept
    for old, new in zip(fields(edit, "old"), fields(edit, "new")):
        text = text.replace(old, new, 1)
    path.write_text(text)
    status, said = run(copy, "ci", *above(crate, known))
    path.write_text(kept)
    if status == 0:
        return None
    found = re.search(r"^rt: FAILED: (\w+)", said, re.M)
    return found.group(1) if found else "above"


def main():
    known = dependencies(TOP)
    crates = sys.argv[1:] or sorted(path.name for path in PLANTED.iterdir())
    copy = copied()
    refused = higher = 0
    survived = []
    try:
        for crate in crates:
            for edit, verdict in tried(copy, crate, sorted((PLANTED / crate).glob("*.edit"))).items():
                name = f"{crate}/{edit.stem}"
                if verdict.startswith("refused"):
                    refused += 1
                elif verdict.startswith("NOT REFUSED"):
                    place = refused_above(copy, crate, edit, known)
                    verdict = f"proved in its crate, refused in {place}" if place else "SURVIVED"
                    higher += bool(place)
                if not verdict.startswith(("refused", "proved")):
                    survived.append(name)
                print(f"planted: {name}: {verdict}", flush=True)
    finally:
        shutil.rmtree(copy)
    print(f"planted: {refused + higher + len(survived)} bugs, {refused} refused in their crate, {higher} in a crate above, {len(survived)} not refused")
    return 1 if survived else 0


if __name__ == "__main__":
    sys.exit(main())
