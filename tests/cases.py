#!/usr/bin/env python3
"""Runs a built program on cases, and prints how many agree: cases.py PROGRAM CASES [NAMES]

CASES is a file of lines, each an object with `name`, `words`, `input`, `output` (what is written, exactly) and `status` (the
exit status), as `tests/scale.jsonl` is; or a folder, in which a case is four files: NAME.args (the words, parted by blanks),
NAME.in, NAME.out and NAME.status. With NAMES only cases whose name contains one of them are run. Needs Python 3.8. Ends with
status 1 where a case differs.
"""
import json
import pathlib
import subprocess
import sys

SECONDS = 120


def cases_of(path):
    """The cases of a file or of a folder."""
    if path.is_file():
        return [json.loads(line) for line in path.read_text(encoding="utf-8").splitlines()]
    return [
        {
            "name": case.stem,
            "words": case.read_text().split(),
            "input": case.with_suffix(".in").read_bytes(),
            "output": case.with_suffix(".out").read_bytes(),
            "status": int(case.with_suffix(".status").read_text()),
        }
        for case in sorted(path.glob("*.args"))
    ]


def octets(value):
    return value.encode() if isinstance(value, str) else value


def differs(program, case):
    """Returns what differs in a case, or an empty text."""
    words, taken, wanted = case["words"], octets(case["input"]), octets(case["output"])
    try:
        ran = subprocess.run([program, *words], input=taken, stdout=subprocess.PIPE, stderr=subprocess.DEVNULL, timeout=SECONDS)
    except subprocess.TimeoutExpired:
        return f"no answer in {SECONDS} seconds"
    if ran.returncode != case["status"]:
        return f"status {ran.returncode} in place of {case['status']}"
    if ran.stdout != wanted:
        got, want = ran.stdout.splitlines(), wanted.splitlines()
        place = next((i for i, (a, b) in enumerate(zip(got, want)) if a != b), min(len(got), len(want)))
        return f"line {place + 1}: {got[place:place + 1]} in place of {want[place:place + 1]}"
    return ""


def main(program, path, *names):
    cases = cases_of(pathlib.Path(path))
    cases = [it for it in cases if not names or any(name in it["name"] for name in names)]
    agree = 0
    for case in cases:
        said = differs(program, case)
        agree += not said
        if said:
            print(f"{case['name']}: {said}")
    print(f"{agree} of {len(cases)} cases agree")
    return 0 if cases and agree == len(cases) else 1


if __name__ == "__main__":
    if len(sys.argv) < 3:
        sys.exit(__doc__)
    sys.exit(main(*sys.argv[1:]))
