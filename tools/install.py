#!/usr/bin/env python3
"""Installs the programs that are built, with their manual pages, the schema and the examples; `make install` calls it.

usage: tools/install.py [--destdir DIR] PREFIX
       tools/install.py --record

Of overlay and of inspect the proved program, crates/NAME/out/NAME, is taken where it is there, and else the unproved one,
out/NAME-unproved. To DIR/PREFIX come bin/NAME, bin/NAME.made, share/man/man1/NAME.1, and in share/overlay the schema and the
examples. Without overlay nothing is installed; without inspect only overlay.

bin/NAME.made has a line each: the commit, the kit, `proved` or `not proved`, and the sum of the program. tools/build_unproved.py
writes it beside an unproved program, and `make prove` by --record beside the proved ones. Where no such file is there, or its sum
is of another program, the same is asked of the files: the commit is that of the present sources if none is newer than the program,
the kit is that of the path, and the program is proved if the kit says so by what it left beside it (what a second compiler made, or
a stamp with its sum). What is not found so is `not known`, and `not proved`.

Needs Python 3.8, and git for the commit. Ends with status 1 where overlay is not built or a file cannot be written.
"""
import argparse
import os
import shutil
import subprocess
import sys

sys.dont_write_bytecode = True
from build_unproved import PROGRAMS, TOP, commit, record, sum_of, unproved

UNKNOWN = "not known"


def proved(name):
    """Where the program of this name stands when the gate built it."""
    return os.path.join(TOP, "crates", name, "out", name)


def built(name):
    """The program of this name that is taken, if one is built."""
    return next((it for it in (proved(name), unproved(name)) if os.path.isfile(it)), None)


def sources():
    """Each file that a program is made from."""
    yield os.path.join(TOP, "crates.txt")
    for crate in os.listdir(os.path.join(TOP, "crates")):
        for part in ("src", "specs", "proofs"):
            for folder, _, names in os.walk(os.path.join(TOP, "crates", crate, part)):
                yield from (os.path.join(folder, name) for name in names)


def commit_of(program):
    """The present commit, where no source is newer than the program."""
    when = os.path.getmtime(program)
    return UNKNOWN if any(os.path.getmtime(it) > when for it in sources()) else commit()


def kit_of_path():
    rt = shutil.which("rt")
    said = subprocess.run([rt, "version"], capture_output=True, text=True, check=False) if rt else None
    return said.stdout.strip() if said and said.returncode == 0 else UNKNOWN


def is_proved(program):
    """Whether the kit left beside a program what it leaves of proved ones alone."""
    if program not in map(proved, PROGRAMS):
        return False
    if os.path.isfile(f"{program}.by-rattle"):
        return True
    try:
        with open(f"{program}.stamp", encoding="utf-8") as it:
            return it.read().endswith(sum_of(program))
    except OSError:
        return False


def has_record(program):
    try:
        with open(f"{program}.made", encoding="utf-8") as it:
            return f"sha256 {sum_of(program)}" in it.read().splitlines()
    except OSError:
        return False


def with_record(program):
    """Sees that a program has its record beside it."""
    if not has_record(program):
        record(program, commit_of(program), kit_of_path(), "proved" if is_proved(program) else "not proved")


def put(source, folder, name=None, mode=0o644):
    os.makedirs(folder, exist_ok=True)
    to = os.path.join(folder, name or os.path.basename(source))
    shutil.copyfile(source, f"{to}.new")
    os.chmod(f"{to}.new", mode)
    os.replace(f"{to}.new", to)
    print(to)


def install_program(name, top):
    program = built(name)
    put(program, f"{top}/bin", name, 0o755)
    put(f"{program}.made", f"{top}/bin", f"{name}.made")
    put(os.path.join(TOP, "docs", f"{name}.1"), f"{top}/share/man/man1")
    with open(f"{program}.made", encoding="utf-8") as it:
        print(it.read(), end="")


def install(names, top):
    put(os.path.join(TOP, "docs", "overlay.schema.json"), f"{top}/share/overlay")
    examples = os.path.join(TOP, "examples")
    for name in sorted(os.listdir(examples)):
        put(os.path.join(examples, name), f"{top}/share/overlay/examples")
    for name in names:
        install_program(name, top)


def main():
    parser = argparse.ArgumentParser(usage=argparse.SUPPRESS, description=__doc__,
                                     formatter_class=argparse.RawDescriptionHelpFormatter)
    parser.add_argument("--destdir", default="")
    parser.add_argument("--record", action="store_true")
    parser.add_argument("prefix", nargs="?")
    options = parser.parse_args()
    if options.record == bool(options.prefix):
        parser.error("either a prefix or --record is wanted")
    names = [it for it in PROGRAMS if (os.path.isfile(proved(it)) if options.record else built(it))]
    if PROGRAMS[0] not in names:
        print("install.py: no program is built: run `make`, or `make prove`", file=sys.stderr)
        return 1
    try:
        for name in names:
            with_record(built(name))
        if not options.record:
            install(names, os.path.abspath(options.destdir + os.path.abspath(options.prefix)))
    except OSError as fault:
        print(f"install.py: {fault.filename}: {fault.strerror}", file=sys.stderr)
        return 1
    return 0


if __name__ == "__main__":
    sys.exit(main())
