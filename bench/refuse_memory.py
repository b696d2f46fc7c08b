#!/usr/bin/env python3
"""Refuses each request for memory of `shenrun` in turn, and each thread, and judges what it answers.

usage: refuse_memory.py [WORD]

A library that gcc builds and the loader puts before the C library counts the requests of a run, and refuses one of them. So each case is
run once with ample memory, and then once for each of its requests. A refused request has to end in status 7 with the line `out of
memory` and nothing else; one that was made to start a thread may, and a thread that is not started has to, end in status 0 with the
same bytes. Before the program is called, memory for the words of the command line may be refused: status 9, and nothing is written.
What a run got it has to have given back when it ends, but for a block of each thread, which the C library keeps for the next one. With a word, only
cases whose words have it. It needs the proved program and gcc, and ends with 1 where a run is judged otherwise. No test runs it.
"""
import collections
import mmap
import os
import struct
import subprocess
import sys
import tempfile

sys.dont_write_bytecode = True
sys.path.insert(0, os.path.join(os.path.dirname(os.path.dirname(os.path.abspath(__file__))), "check"))
from cases import program  # pylint: disable=wrong-import-position

# The counts lie in a file that both sides map, so that they are there however the process ends.
LIBRARY = r"""
#define _GNU_SOURCE
#include <dlfcn.h>
#include <errno.h>
#include <fcntl.h>
#include <pthread.h>
#include <stdlib.h>
#include <sys/mman.h>
#include <unistd.h>

struct counts { long refuse, refuse_thread, requests, threads, made, freed, refused, for_thread; };
static struct counts none, *counts = &none;
static __thread int starting;
extern void *__libc_malloc(size_t), *__libc_calloc(size_t, size_t), *__libc_realloc(void *, size_t), *__libc_memalign(size_t, size_t);
extern void __libc_free(void *);

__attribute__((constructor)) static void begin(void) {
    int file = open(getenv("REFUSE_COUNTS"), O_RDWR);
    void *at = file < 0 ? MAP_FAILED : mmap(0, sizeof none, PROT_READ | PROT_WRITE, MAP_SHARED, file, 0);
    if (at == MAP_FAILED) _exit(99);
    close(file);
    counts = at;
}
static int refuses(void) {
    if (counts == &none || __atomic_add_fetch(&counts->requests, 1, __ATOMIC_SEQ_CST) != counts->refuse) return 0;
    counts->refused++;
    counts->for_thread = starting;
    errno = ENOMEM;
    return 1;
}
static void *given(void *to) {
    if (to) __atomic_add_fetch(&counts->made, 1, __ATOMIC_SEQ_CST);
    return to;
}
void *malloc(size_t size) { return refuses() ? 0 : given(__libc_malloc(size)); }
void *calloc(size_t count, size_t size) { return refuses() ? 0 : given(__libc_calloc(count, size)); }
void *memalign(size_t align, size_t size) { return refuses() ? 0 : given(__libc_memalign(align, size)); }
void *aligned_alloc(size_t align, size_t size) { return memalign(align, size); }
int posix_memalign(void **to, size_t align, size_t size) {
    void *at = memalign(align, size);
    if (!at) return ENOMEM;
    *to = at;
    return 0;
}
void *realloc(void *from, size_t size) {
    if (refuses()) return 0;
    void *to = __libc_realloc(from, size);
    return from ? to : given(to);
}
void free(void *from) {
    if (from) __atomic_add_fetch(&counts->freed, 1, __ATOMIC_SEQ_CST);
    __libc_free(from);
}
int pthread_create(pthread_t *thread, const pthread_attr_t *how, void *(*does)(void *), void *with) {
    static int (*real)(pthread_t *, const pthread_attr_t *, void *(*)(void *), void *);
    if (__atomic_add_fetch(&counts->threads, 1, __ATOMIC_SEQ_CST) == counts->refuse_thread) {
        counts->refused++;
        counts->for_thread = 1;
        return EAGAIN;
    }
    if (!real) real = dlsym(RTLD_NEXT, "pthread_create");
    starting = 1;
    int said = real(thread, how, does, with);
    starting = 0;
    return said;
}
"""
FIELDS = "refuse refuse_thread requests threads made freed refused for_thread".split()
SECONDS = 60

SMALL = "shen 1\nheap 4 64 0\nthreads 1 0\n1 new 1 1 1\n1 set 0 3 1\n1 get 2 0 3\n"
RACE = (
    "shen 1\nheap 8 64 0\nthreads 2 0\n1 new 1 0 1\n1 set 0 0 1\n1 new 2 16 16\n1 new 2 16 16\n1 drop 1\n1 drop 2\n1 gc\n1 get 1 0 0\n"
    "1 rd 1 0\n2 get 1 0 0\n2 wr 1 0 77\n! 1=7 3@EC 1@HX 2=2 1=9\n"
)


def eight():
    """A trace of eight threads and two helpers, each with a field of its own, whose replies are the same in any order. By its schedule
    the control marks, evacuates, updates and ends a cycle, which it reaches each place of."""
    lines = ["shen 1", "heap 32 64 1", "threads 8 2"]
    for thread in range(1, 9):
        calls = ["new 1 0 1", f"wr 1 0 {thread}", f"set 0 {thread} 1", "new 2 16 16", "new 2 16 16", "drop 2", "drop 1", "gc"]
        calls += [f"get 1 0 {thread}", "rd 1 0"]
        lines += [f"{thread} {it}" for it in calls]
    items = [f"{it}=7" for it in range(1, 9)] + ["1=8", "11@MC", "11@P1", "11@EC", "11@UC", "11@P3", "11@I0"]
    return "\n".join([*lines, "! " + " ".join(items)]) + "\n"


class Refusals:
    """Runs of the program with the library before the C library."""

    def __init__(self, room):
        source, self.library, self.counts = (os.path.join(room, it) for it in ("refuse.c", "refuse.so", "counts"))
        with open(source, "w", encoding="utf-8") as file:
            file.write(LIBRARY)
        subprocess.run(["gcc", "-O1", "-shared", "-fPIC", "-o", self.library, source, "-ldl", "-lpthread"], check=True)

    def run(self, words, text, refuse=0, refuse_thread=0):
        """The status, the bytes written, and the counts."""
        with open(self.counts, "w+b") as file:
            file.write(struct.pack("8q", refuse, refuse_thread, *[0] * 6).ljust(mmap.PAGESIZE, b"\0"))
            file.flush()
            asked = {**os.environ, "LD_PRELOAD": self.library, "REFUSE_COUNTS": self.counts}
            ran = subprocess.run([program("shenrun"), *words], input=text.encode(), capture_output=True, env=asked, timeout=SECONDS, check=False)
            file.seek(0)
            counts = dict(zip(FIELDS, struct.unpack("8q", file.read(64))))
        return ran.returncode, ran.stdout, counts


def judged(ample, refused, before):
    """What a refused run has answered: a kind, or None where it may not be. The requests up to `before` are made for the words."""
    (status, written, counts), (_, answer, whole) = refused, ample
    if counts["refused"] != 1:
        return "not come to" if (status, written) == (0, answer) else None
    if counts["made"] - counts["freed"] > counts["threads"]:
        return None
    # Memory for a thread is asked for in `pthread_create`, and before it, where it is not called then.
    if (status, written) == (0, answer) and (counts["for_thread"] or counts["threads"] < whole["threads"]):
        return "a thread: ok"
    if (status, written) == (7, b"out of memory\n"):
        return "no memory"
    return "the words: 9" if (status, written) == (9, b"") and counts["refuse"] <= before else None


def requests_for_words(refusals, words):
    """How many requests a run makes before it has its words: those of words that are refused at once."""
    status, _, counts = refusals.run([*words, "x"], "")
    return counts["requests"] if status == 2 else 0


def tried(refusals, words, text):
    """Refuses each request of a run, and each of its threads; the failures."""
    ample = refusals.run(words, text)
    if ample[0]:
        return [f"with ample memory the status is {ample[0]}: {ample[1][:80]!r}"]
    before, seen, failed = requests_for_words(refusals, words), collections.Counter(), []
    requests, threads = ample[2]["requests"], ample[2]["threads"]
    for kind, number in [("refuse", it) for it in range(1, requests + 1)] + [("refuse_thread", it) for it in range(1, threads + 1)]:
        refused = refusals.run(words, text, **{kind: number})
        said = judged(ample, refused, before)
        seen[said] += 1
        if not said or (kind == "refuse_thread" and said != "a thread: ok"):
            failed.append(f"{kind} {number}: status {refused[0]}, {refused[1][:60]!r}, {refused[2]}")
    told = ", ".join(f"{it} {seen[it]}" for it in sorted(seen, key=str))
    kept = ample[2]["made"] - ample[2]["freed"]
    print(f"{' '.join(words)}: {requests} requests, {threads} threads, {kept} kept; {told}", flush=True)
    return failed


def main():
    if not program("shenrun"):
        print("refuse_memory.py: there is no proved program yet: rt ci makes it", file=sys.stderr)
        return 2
    all_failed = 0
    with tempfile.TemporaryDirectory() as room:
        refusals = Refusals(room)
        pair = RACE + "answer\n" + refusals.run(["replay", "--history"], RACE)[1].decode()
        cases = [
            ("replay", SMALL), ("run", SMALL), ("replay", RACE), ("replay", eight()), ("run", eight()), ("run --workers 3", eight()),
            ("replay --steps 100000", RACE), ("replay --history", eight()), ("replay --steps 100000 --history", RACE), ("check", pair),
            ("churn 7 20", ""), ("queue 5", ""),
        ]
        for words, text in cases:
            if len(sys.argv) > 1 and sys.argv[1] not in words.split():
                continue
            for why in tried(refusals, words.split(), text):
                print(f"FAILED {words}: {why}")
                all_failed += 1
    return 1 if all_failed else 0


sys.exit(main())
