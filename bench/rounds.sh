#!/usr/bin/env bash
# Times `put` and `get` of 64 MiB and of one byte on 4 and on 10 folders by two builds of the program, in turn, and prints a table of
# the ratios: rounds.sh BEFORE AFTER [TURNS [MILLISECONDS]]. With MILLISECONDS each opening of an object waits so long, as if its
# cloud were far away. TMPDIR says on which disk the folders stand. bench/README.md says what it means.
set -eu
if [ $# -lt 2 ]; then
    echo "usage: rounds.sh BEFORE AFTER [TURNS [MILLISECONDS]]" >&2
    exit 2
fi
scratch=$(mktemp -d)
trap 'rm -rf "$scratch"' EXIT

# A library that is loaded before the C library: each path with "/cloud" in it opens so many milliseconds later.
build_waits() {
    cc -shared -fPIC -O2 "-DMILLISECONDS=$1" -x c - -o "$scratch/waits.so" -ldl <<'C'
#define _GNU_SOURCE
#include <dlfcn.h>
#include <fcntl.h>
#include <stdarg.h>
#include <string.h>
#include <time.h>

static void wait_for(const char *path) {
    struct timespec rest = {MILLISECONDS / 1000, MILLISECONDS % 1000 * 1000000L};
    if (strstr(path, "/cloud"))
        while (nanosleep(&rest, &rest) != 0) {}
}

#define READ_MODE                              \
    mode_t mode = 0;                           \
    if (flags & O_CREAT) {                     \
        va_list rest;                          \
        va_start(rest, flags);                 \
        mode = va_arg(rest, mode_t);           \
        va_end(rest);                          \
    }

int open(const char *path, int flags, ...) {
    int (*next)(const char *, int, ...) = dlsym(RTLD_NEXT, "open");
    READ_MODE
    wait_for(path);
    return next(path, flags, mode);
}

int openat(int folder, const char *path, int flags, ...) {
    int (*next)(int, const char *, int, ...) = dlsym(RTLD_NEXT, "openat");
    READ_MODE
    wait_for(path);
    return next(folder, path, flags, mode);
}
C
}

waits=
if [ -n "${4:-}" ]; then
    if command -v cc >/dev/null; then
        build_waits "$4"
        waits=$scratch/waits.so
        echo "Each opening of an object waits $4 ms."
    else
        echo "cc isn't there: nothing waits"
    fi
fi
PYTHONPATH=$(dirname "$0") python3 - "$(realpath "$1")" "$(realpath "$2")" "$scratch" "${3:-5}" "$waits" <<'PYTHON'
import os, shutil, subprocess, sys, time

from turns import least_of_turns

before, after, scratch, runs, waits = sys.argv[1], sys.argv[2], sys.argv[3], int(sys.argv[4]), sys.argv[5]
programs = {"before": before, "after": after}
surroundings = {**os.environ, "LD_PRELOAD": waits} if waits else None
sizes = {"64 MiB": 1 << 26, "one byte": 1}
contents = {title: os.urandom(size) for title, size in sizes.items()}
rows = [(command, title, width) for width in (4, 10) for title in sizes for command in ("put", "put over it", "get")]


def folders_of(build, width):
    return [f"{scratch}/{build}{width}/cloud{number}" for number in range(width)]


def prepare():
    """Each build has empty folders of its own, and what earlier runs wrote is on the disk."""
    for build in programs:
        for width in (4, 10):
            shutil.rmtree(f"{scratch}/{build}{width}", ignore_errors=True)
            for folder in folders_of(build, width):
                os.makedirs(folder)
    os.sync()


def run(build, command, title, width):
    """How many seconds a command takes. What a get gives must be what was put."""
    name = title.replace(" ", "-")
    words = [programs[build], ",".join(folders_of(build, width)), command.split()[0], name]
    start = time.perf_counter()
    ended = subprocess.run(words, input=b"" if command == "get" else contents[title], stdout=subprocess.PIPE, env=surroundings)
    seconds = time.perf_counter() - start
    if ended.returncode != 0:
        sys.exit(f"{build}: {command} of {title} on {width} folders ended with status {ended.returncode}")
    if command == "get" and ended.stdout != contents[title]:
        sys.exit(f"{build}: get of {title} on {width} folders gave other bytes")
    return seconds


def rows_of(number):
    """Each row by both builds, which begin in turn."""
    builds = list(programs) if number % 2 == 0 else list(programs)[::-1]
    return [(build, *row) for row in rows for build in builds]


least = least_of_turns(runs, rows_of, prepare, lambda row: run(*row))
print(f"The least of {runs} runs in turn, on {os.cpu_count()} processors.\n")
print("| Command | Of | Folders | Before | After | After / before |")
print("|---|---|---|---|---|---|")
for row in rows:
    command, title, width = row
    old, new = least[("before", *row)], least[("after", *row)]
    print(f"| {command} | {title} | {width} | {old * 1000:.1f} ms | {new * 1000:.1f} ms | {new / old:.2f} |")
PYTHON
