#!/usr/bin/env python3
"""Makes each allocation of a run fail, one in each run, and says how the runs ended.

Runs the built program on the shipped examples of `compile`, `reach` and `decode`, on messages of which it tells in several
pieces, and of `run` on a network that settles with a chain of services, alone and with a trace of each packet and each node
shown behind it. A run in which an allocation fails has to end with
status 9 and to write a front of the text, or else as the run in which none fails. The failing allocation is made by a library
that is loaded before the C library, and that counts them; it is compiled by `cc` to a temporary folder. A run is stopped after
60 seconds, and has then ended otherwise.

usage: tests/allocations.py PROGRAM

PROGRAM is the built `overlay`. Needs Python 3.8, and a C compiler with the C library of GNU. Ends with status 1 where a run
ended otherwise.
"""
import json
import os
import subprocess
import sys
import tempfile
from concurrent.futures import ThreadPoolExecutor

EXAMPLES = os.path.join(os.path.dirname(os.path.dirname(os.path.abspath(__file__))), "examples")
RUNS = [("compile", "one.json"), ("reach", "reach.json"), ("decode", "update.hex"), ("reach", "one.json"), ("decode", "one.json")]
MESSAGES = "decode", "20,000 messages"  # the text of the second half is gathered when that of the first is written
KEEPALIVE = b"ffffffffffffffffffffffffffffffff001304\n"
SETTLING = "run", "reach.json and settle"  # its configuration has chains
SHOWN = "run", "reach.json, settle, its packets traced and its nodes shown"
WORKERS = 4  # runs at a time
SECONDS = 60  # after which a run is stopped

LIBRARY = """
#include <errno.h>
#include <stdio.h>
#include <stdlib.h>
extern void *__libc_malloc(size_t);
extern void *__libc_calloc(size_t, size_t);
extern void *__libc_realloc(void *, size_t);
extern void *__libc_memalign(size_t, size_t);
static long made;
static int fails(void) {
    const char *number = getenv("FAILING");
    return number && ++made == atol(number);
}
void *malloc(size_t size) {
    if (fails()) { errno = ENOMEM; return NULL; }
    return __libc_malloc(size);
}
void *calloc(size_t count, size_t size) {
    if (fails()) { errno = ENOMEM; return NULL; }
    return __libc_calloc(count, size);
}
void *realloc(void *old, size_t size) {
    if (fails()) { errno = ENOMEM; return NULL; }
    return __libc_realloc(old, size);
}
void *aligned_alloc(size_t alignment, size_t size) {
    if (fails()) { errno = ENOMEM; return NULL; }
    return __libc_memalign(alignment, size);
}
int posix_memalign(void **place, size_t alignment, size_t size) {
    void *block = fails() ? NULL : __libc_memalign(alignment, size);
    if (!block) return ENOMEM;
    *place = block;
    return 0;
}
__attribute__((destructor)) static void tell(void) {
    const char *place = getenv("COUNTED");
    if (!place) return;
    long count = made;
    FILE *file = fopen(place, "w");
    fprintf(file, "%ld", count);
    fclose(file);
}
"""


def compiled(folder):
    """The library's path."""
    path = os.path.join(folder, "failing.so")
    subprocess.run(["cc", "-shared", "-fPIC", "-x", "c", "-", "-o", path], input=LIBRARY, text=True, check=True)
    return path


def text_of(name):
    """The input of a run."""
    if name == MESSAGES[1]:
        return KEEPALIVE * 20_000
    if name in (SETTLING[1], SHOWN[1]):
        with open(os.path.join(EXAMPLES, "reach.json"), encoding="utf-8") as file:
            document = json.load(file)
        traces = [{"trace": packet} for packet in document.pop("packets")]
        topology = document["topology"]
        shows = [{"show": node["name"]} for node in topology["controllers"] + topology["nodes"]]
        events = ["settle"] if name == SETTLING[1] else ["settle", *traces, *shows]
        return json.dumps({**document, "events": events}).encode()
    with open(os.path.join(EXAMPLES, name), "rb") as file:
        return file.read()


def ended(library, program, word, text, number, more=()):
    """The status of a run whose allocation of this number fails, none where it was stopped, and what it wrote."""
    environment = {"LD_PRELOAD": library, "FAILING": str(number), **dict(more)}
    try:
        run = subprocess.run([program, word], input=text, capture_output=True, env=environment, timeout=SECONDS)
    except subprocess.TimeoutExpired:
        return None, b""
    return run.returncode, run.stdout


def is_cut(end, whole):
    """Whether a run wanted memory and wrote a front of the text of the whole run."""
    return end[0] == 9 and whole[1].startswith(end[1])


def counted(folder, library, program, word, text):
    """How a run ends in which no allocation fails, and how many it makes."""
    place = os.path.join(folder, "counted")
    whole = ended(library, program, word, text, 0, {"COUNTED": place}.items())
    if whole[0] is None:
        sys.exit(f"{word}: the run in which none fails was stopped after {SECONDS} seconds")
    with open(place, encoding="ascii") as file:
        return whole, int(file.read())


def tries(folder, library, program, word, name):
    """Whether each run, of whose allocations one fails, ends as it has to."""
    text = text_of(name)
    whole, count = counted(folder, library, program, word, text)
    with ThreadPoolExecutor(WORKERS) as workers:
        ends = list(workers.map(lambda number: ended(library, program, word, text, number), range(1, count + 1)))
    refused = sum(is_cut(end, whole) for end in ends)
    others = [end for end in ends if end != whole and not is_cut(end, whole)]
    print(f"{word} {name}: {count} allocations, {refused} runs with status 9, {len(others)} that ended otherwise")
    return refused > 0 and not others


def main():
    if len(sys.argv) != 2:
        sys.exit(__doc__)
    program = os.path.abspath(sys.argv[1])
    with tempfile.TemporaryDirectory() as folder:
        library = compiled(folder)
        good = [tries(folder, library, program, word, name) for word, name in [*RUNS, MESSAGES, SETTLING, SHOWN]]
    sys.exit(0 if all(good) else 1)


if __name__ == "__main__":
    main()
