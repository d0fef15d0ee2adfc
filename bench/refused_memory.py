#!/usr/bin/env python3
"""Refuses each allocation of a run in turn: of `run` and `prove` on a text, of `check` and `convert` on the bundle of it, and of
`work`.

usage: bench/refused_memory.py PROGRAM

A run whose allocation was refused ends with status 7 and nothing written, or goes on with less and writes what the run with
ample memory writes, with its status. Each is run by one worker and by four. The allocator of the C library is wrapped by a
library that is compiled here (`cc`) and loaded before it.
"""
import os
import subprocess
import sys
import tempfile

TEXT = r"""id : name_type.
exp : type.
var : id -> exp.
app : (exp, exp) -> exp.
lam : id\exp -> exp.
pred subst(exp, id, exp, exp).
subst(var(X), X, E, E).
subst(var(Y), X, E, var(Y)) :- X # Y.
subst(app(M,N), X, E, app(M2,N2)) :- subst(M,X,E,M2), subst(N,X,E,N2).
subst(lam(y\M), X, E, lam(y\M2)) :- y # X, y # E, subst(M,X,E,M2).
?- subst(lam(b\app(var(a),var(b))), a, var(b), R).
"""
WRAPPED = r"""
#define _GNU_SOURCE
#include <dlfcn.h>
#include <errno.h>
#include <stdatomic.h>
#include <fcntl.h>
#include <stddef.h>
#include <stdlib.h>
#include <sys/mman.h>

/* The count lies in a file, since the program ends without any destructor. */
static atomic_long *count;
static long wanted;
__attribute__((constructor)) static void begin(void) {
    const char *text = getenv("REFUSED");
    int file = open(getenv("COUNTED"), O_RDWR);
    wanted = text ? atol(text) : 0;
    count = mmap(NULL, sizeof *count, PROT_READ | PROT_WRITE, MAP_SHARED, file, 0);
}
static long refused(void) {
    return count && atomic_fetch_add(count, 1) + 1 == wanted;
}
void *malloc(size_t size) {
    static void *(*plain)(size_t);
    if (!plain) plain = dlsym(RTLD_NEXT, "malloc");
    return refused() ? NULL : plain(size);
}
void *realloc(void *old, size_t size) {
    static void *(*plain)(void *, size_t);
    if (!plain) plain = dlsym(RTLD_NEXT, "realloc");
    return refused() ? NULL : plain(old, size);
}
void *aligned_alloc(size_t alignment, size_t size) {
    static void *(*plain)(size_t, size_t);
    if (!plain) plain = dlsym(RTLD_NEXT, "aligned_alloc");
    return refused() ? NULL : plain(alignment, size);
}
int posix_memalign(void **out, size_t alignment, size_t size) {
    static int (*plain)(void **, size_t, size_t);
    if (!plain) plain = dlsym(RTLD_NEXT, "posix_memalign");
    return refused() ? ENOMEM : plain(out, alignment, size);
}
"""


def run(program, words, given, library, refused, counted):
    """The status and the output of a run of which one allocation is refused, or none; the count of them lies in a file."""
    with open(counted, "wb") as file:
        file.write(bytes(8))
    env = dict(os.environ, LD_PRELOAD=library, REFUSED=str(refused), COUNTED=counted)
    done = subprocess.run([program, *words], input=given, env=env, capture_output=True, check=False)
    return done.returncode, done.stdout


def try_each(program, words, given, library, folder):
    """Refuses each allocation in turn. Gives the output with ample memory, and how many runs went wrong."""
    counted = f"{folder}/counted"
    whole = run(program, words, given, library, 0, counted)
    with open(counted, "rb") as file:
        count = int.from_bytes(file.read(), sys.byteorder)
    wrong, refused = 0, 0
    for number in range(1, count + 1):
        got = run(program, words, given, library, number, counted)
        if got == (7, b""):
            refused += 1
        elif got != whole:
            wrong += 1
            print(f"{' '.join(words)}: allocation {number} refused: status {got[0]}, {got[1][:60]!r}")
    print(f"{' '.join(words)}: {count} allocations, {refused} times status 7, {wrong} times wrong", flush=True)
    return whole[1], wrong


def main():
    program = os.path.realpath(sys.argv[1])
    wrong = 0
    with tempfile.TemporaryDirectory() as folder:
        source, library = f"{folder}/wrapped.c", f"{folder}/wrapped.so"
        with open(source, "w", encoding="ascii") as file:
            file.write(WRAPPED)
        subprocess.run(["cc", "-shared", "-fPIC", "-O1", "-o", library, source, "-ldl"], check=True)
        for workers in ("1", "4"):
            words = ["--depth", "5", "--workers", workers]
            wrong += try_each(program, ["run", *words], TEXT.encode(), library, folder)[1]
            bundle, more = try_each(program, ["prove", *words], TEXT.encode(), library, folder)
            wrong += more
            wrong += try_each(program, ["work", "--seed", "2", "--size", "3", "--workers", workers], b"", library, folder)[1]
        wrong += try_each(program, ["check"], bundle, library, folder)[1]
        for version in ("1", "2"):
            wrong += try_each(program, ["convert", "--to", version], bundle, library, folder)[1]
    sys.exit(1 if wrong else 0)


main()
