#!/usr/bin/env python3
"""readme.py [README]: does what README.md shows, in a clean copy of the repository where the kit is not to be had.

A block that starts with `#include` is the file that the next command compiles. In any other block a line after `$ ` is a command, and the
lines up to the next one are what it prints, whole; a command without such lines may print what it likes. `make` and `make run` are tried too.
The test also has to find fault with altered copies of the page.
"""
import os
import pathlib
import re
import shutil
import subprocess
import sys
import tempfile

ROOT = pathlib.Path(__file__).resolve().parent.parent

# Copies of the page that are wrong in one place: what is replaced, and by what.
ALTERED = [
    ("rows 3 left 0", "rows 3 left 1"),
    ("-Iinclude build/libsenyolanda.a", "build/libsenyolanda.a"),
    ("PKG_CONFIG_PATH=", "PKG_CONFIG_PASS="),
]


def copied_to(place):
    """The files that a clone would have, as they stand here."""
    listed = subprocess.run(["git", "ls-files", "-z", "--cached", "--others", "--exclude-standard"], cwd=ROOT, capture_output=True)
    if listed.returncode == 0:
        for name in listed.stdout.decode().split("\0"):
            if name and (ROOT / name).is_file():
                (place / name).parent.mkdir(parents=True, exist_ok=True)
                shutil.copy2(ROOT / name, place / name)
    else:
        shutil.copytree(ROOT, place, dirs_exist_ok=True, ignore=shutil.ignore_patterns("build", "out"))


def blocks_of(page):
    """The indented blocks, without their indentation."""
    for block in re.findall(r"(?:^    .*\n(?:\n(?=    ))?)+", page, re.MULTILINE):
        yield re.sub(r"^    ", "", block, flags=re.MULTILINE)


def session_of(page):
    """Each command with what it prints, or None where the page does not say; a file as its text, with its name for a command."""
    for block in blocks_of(page):
        if block.startswith("#include"):
            yield "first.c", block
        elif block.startswith("$ "):
            for command, printed in re.findall(r"^\$ (.*)\n((?:(?!\$ ).*\n)*)", block, re.MULTILINE):
                yield command, printed or None


def without_the_kit(path):
    return os.pathsep.join(place for place in path.split(os.pathsep) if not (pathlib.Path(place) / "rt").exists())


def fault_of(page):
    """What the page gets wrong first, or None; and how many commands were tried."""
    tried = 0
    with tempfile.TemporaryDirectory() as room:
        clone, home = pathlib.Path(room, "clone"), pathlib.Path(room, "home")
        clone.mkdir()
        home.mkdir()
        copied_to(clone)
        kept = {**os.environ, "HOME": str(home), "PATH": without_the_kit(os.environ["PATH"])}
        for name in ("PKG_CONFIG_PATH", "LD_LIBRARY_PATH", "MAKEFLAGS", "MAKELEVEL", "MFLAGS"):
            kept.pop(name, None)
        for command, wanted in session_of(page):
            if command == "first.c":
                (clone / command).write_text(wanted)
                continue
            # what a command exports holds for those after it
            run = subprocess.run(["sh", "-c", f"{command}\nstatus=$?; env -0 >'{room}/kept'; exit $status"],
                                 cwd=clone, env=kept, capture_output=True, text=True)
            tried += 1
            if run.returncode != 0:
                return f"'{command}' ends with {run.returncode}: {run.stderr.strip()}", tried
            if wanted is not None and run.stdout != wanted:
                return f"'{command}' prints\n{run.stdout}and not\n{wanted}", tried
            kept = dict(line.split("=", 1) for line in pathlib.Path(room, "kept").read_text().split("\0") if "=" in line)
    return None, tried


def main():
    page = pathlib.Path(sys.argv[1] if len(sys.argv) > 1 else ROOT / "README.md").read_text()
    faults = []
    fault, tried = fault_of(page)
    if fault:
        faults.append(fault)
    if tried < 6:
        faults.append(f"only {tried} commands stand on the page")
    for old, new in ALTERED:
        if old not in page:
            faults.append(f"no copy can be altered at: {old}")
        elif not fault_of(page.replace(old, new))[0]:
            faults.append(f"an altered copy passed: {old}")
    for fault in faults:
        print(f"readme: {fault}", file=sys.stderr)
    if not faults:
        print(f"readme: {tried} commands of README.md do what it says, in a clean copy without the kit; {len(ALTERED)} altered copies were found out")
    return bool(faults)


if __name__ == "__main__":
    sys.exit(main())
