#!/usr/bin/env python3
"""Refuses each growth of memory of PROGRAM in turn, and looks whether it ends as it says that it does then: with code 5,
nothing on standard output and one fixed line on standard error. A small C library, compiled into a temporary folder, stands
before the allocator of the C library: it counts the calls of malloc, calloc and realloc, and refuses the Nth, or each from
the Nth on. Where only one is refused, the program may ask for less and go on; then it has to end as if none had been."""
import argparse
import os
import subprocess
import sys
import tempfile

LIBRARY = r"""
#define _GNU_SOURCE
#include <dlfcn.h>
#include <errno.h>
#include <stddef.h>
#include <stdlib.h>
#include <unistd.h>

static long calls, refused, only;
static void *(*real_malloc)(size_t), *(*real_calloc)(size_t, size_t), *(*real_realloc)(void *, size_t);

__attribute__((constructor)) static void begin(void) {
    const char *number = getenv("REFUSED_CALL");
    real_malloc = dlsym(RTLD_NEXT, "malloc");
    real_calloc = dlsym(RTLD_NEXT, "calloc");
    real_realloc = dlsym(RTLD_NEXT, "realloc");
    refused = number ? atol(number) : 0;
    only = getenv("REFUSED_ONCE") != NULL;
    calls = 0;
}

/* whether this call is to be refused; a byte on the pipe tells that one was */
static int refuses(void) {
    if (!refused || ++calls < refused || (only && calls > refused))
        return 0;
    ssize_t told = write(atoi(getenv("REFUSED_PIPE")), "r", 1);
    (void)told;
    errno = ENOMEM;
    return 1;
}

void *malloc(size_t size) {
    if (!real_malloc)
        real_malloc = dlsym(RTLD_NEXT, "malloc");
    return refuses() ? NULL : real_malloc(size);
}

void *calloc(size_t count, size_t size) {
    if (!real_calloc)
        return NULL;
    return refuses() ? NULL : real_calloc(count, size);
}

void *realloc(void *block, size_t size) {
    if (!real_realloc)
        real_realloc = dlsym(RTLD_NEXT, "realloc");
    return refuses() ? NULL : real_realloc(block, size);
}
"""

FIRST = "sfm 1\nground a b\nweight a:-3 b:2\ncut 4 a b\nend\n"

FIRST_ANSWER = (
    "answer 1\nminimum -1\nleast a b\ngreatest a b\nslope -1/2 a b\nat 0/1\nbase 1 -3 2\nbase 2 3 -3\n"
    "at -1/2\nbase 1 -6 4\nbase 2 5 -5\nend\n"
)

EVERY_KIND = """sfm 2
ground a b c d
weight a:-3 b:2 c:-1 d:0
cut 4 a b
need c d
cover 3 a b c
concave 2 3 : b d
table 0 1 1 1 : a c
rank 2 uniform 1 : a b
rank 1 laminar : a b c ; 2 a b c ; 1 a b
rank 2 graphic : a=u-v b=v-w c=u-w
rank 1 transversal : c=s,t d=t
rank 1 graphic : a=u-v*3 b=v-w c=u-w*2
end
"""

MEMORY_LINE = b"sfm: out of memory\n"


def compiled(folder):
    source, library = os.path.join(folder, "refuse.c"), os.path.join(folder, "refuse.so")
    with open(source, "w", encoding="ascii") as file:
        file.write(LIBRARY)
    subprocess.run(["cc", "-O1", "-shared", "-fPIC", "-o", library, source, "-ldl"], check=True)
    return library


def refused_run(library, command, number, once, seconds):
    """Runs the command with that call refused, or with each from it on. Tells whether there was one, and how the run ended."""
    told, tell = os.pipe()
    environment = {**os.environ, "LD_PRELOAD": library, "REFUSED_CALL": str(number), "REFUSED_PIPE": str(tell)}
    if once:
        environment["REFUSED_ONCE"] = "1"
    try:
        ended = subprocess.run(command, env=environment, pass_fds=[tell], capture_output=True, timeout=seconds, check=False)
    finally:
        os.close(tell)
    with os.fdopen(told, "rb") as pipe:
        return bool(pipe.read()), (ended.returncode, ended.stdout, ended.stderr)


def try_each(library, command, step, once, seconds):
    """Refuses every `step`-th call until there are no more. Counts the runs that ended out of memory and those that went
    on, and lists those that ended otherwise."""
    due = subprocess.run(command, capture_output=True, timeout=seconds, check=True)
    number, wanting, went_on, wrong = 1, 0, 0, []
    while True:
        was_refused, ended = refused_run(library, command, number, once, seconds)
        if ended == (5, b"", MEMORY_LINE) and was_refused:
            wanting += 1
        elif ended == (0, due.stdout, b"") and once and was_refused:
            went_on += 1
        elif ended != (0, due.stdout, b"") or was_refused:
            wrong.append((number, ended[0], ended[2]))
        if not was_refused:
            return number, wanting, went_on, wrong
        number += step


def main():
    parser = argparse.ArgumentParser(description=__doc__)
    parser.add_argument("program", help="the built program, as crates/sfm/out/sfm")
    parser.add_argument("--step", type=int, default=100, help="which calls of the demonstration are refused (every 100th)")
    parser.add_argument("--seconds", type=float, default=120, help="the most time of one run")
    arguments = parser.parse_args()
    with tempfile.TemporaryDirectory() as folder:
        library = compiled(folder)

        def kept(name, text):
            path = os.path.join(folder, name)
            with open(path, "w", encoding="ascii") as file:
                file.write(text)
            return path

        first = kept("first.sfm", FIRST)
        every = kept("every.sfm", EVERY_KIND)
        answer = kept("first.answer", FIRST_ANSWER)
        program = os.path.abspath(arguments.program)
        cases = [
            ("solve, two elements", [program, "solve", first], 1),
            ("solve, every kind", [program, "solve", every], 1),
            ("check, two elements", [program, "check", first, answer], 1),
            ("demo 0", [program, "demo", "0"], arguments.step),
        ]
        print(f"{'run':<22}{'refused':>12}{'first with none':>17}{'out of memory':>15}{'went on':>9}{'wrong':>7}")
        failed = False
        for name, command, step in cases:
            for once in (False, True):
                last, wanting, went_on, wrong = try_each(library, command, step, once, arguments.seconds)
                kind = "one" if once else "from one on"
                print(f"{name:<22}{kind:>12}{last:>17}{wanting:>15}{went_on:>9}{len(wrong):>7}", flush=True)
                for number, code, line in wrong[:5]:
                    print(f"    call {number}: code {code}, standard error {line!r}")
                failed = failed or bool(wrong)
    sys.exit(1 if failed else 0)


if __name__ == "__main__":
    main()
