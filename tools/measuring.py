"""What bench/ and .ci/growths share: the built program, the least time of some runs, a script of many turns, crates that are proved beside
the repository's, and libraries that stand in for the C library's allocator and threads."""
from __future__ import annotations

import os
import shutil
import subprocess
import sys
import time
from typing import Dict, Iterable, List, NamedTuple, Sequence, Set

HOME = os.path.dirname(os.path.dirname(os.path.realpath(__file__)))
PROGRAM = os.path.join(HOME, "crates", "hwp", "out", "hwp")
CPUS, PAGES = 4, 40

# Counts the program's calls for memory, and refuses the one with the number in REFUSED. Where none is refused, it tells at the program's
# end how many there were, and the most memory that the program had, in KiB.
ALLOCATOR = r"""
#include <fcntl.h>
#include <stdio.h>
#include <stdlib.h>
#include <string.h>
#include <unistd.h>
extern long syscall(long, ...);
extern void *__libc_malloc(unsigned long);
extern void *__libc_realloc(void *, unsigned long);
static unsigned long count;
static long refused = -1;
static int is_refused(void) {
  if (refused < 0) {
    const char *number = getenv("REFUSED");
    refused = number ? atol(number) : 0;
  }
  return (long)__sync_add_and_fetch(&count, 1) == refused;
}
void *malloc(unsigned long size) { return is_refused() ? 0 : __libc_malloc(size); }
void *realloc(void *at, unsigned long size) { return is_refused() ? 0 : __libc_realloc(at, size); }
__attribute__((destructor)) static void tell(void) {
  static int told;
  unsigned long calls = count;
  if (told++ || refused > 0) return;
  char status[4096], text[64];
  int file = open("/proc/self/status", O_RDONLY);
  long length = file < 0 ? 0 : read(file, status, sizeof status - 1);
  status[length < 0 ? 0 : length] = 0;
  char *line = strstr(status, "VmHWM:");
  int size = snprintf(text, sizeof text, "%lu %ld\n", calls, line ? atol(line + 6) : 0);
  if (write(2, text, size) < 0) return;
}
void _exit(int status) { tell(); for (;;) syscall(231, status); }
"""

# Tells at the program's end how many microseconds lay between the first thread's making and the last one's end.
TIMER = """
#define _GNU_SOURCE
#include <dlfcn.h>
#include <pthread.h>
#include <stdio.h>
#include <sys/syscall.h>
#include <time.h>
#include <unistd.h>
static long first, last;
static long now(void) {
  struct timespec at;
  clock_gettime(CLOCK_MONOTONIC, &at);
  return at.tv_sec * 1000000L + at.tv_nsec / 1000;
}
int pthread_create(pthread_t *thread, const pthread_attr_t *how, void *(*what)(void *), void *with) {
  int (*real)(pthread_t *, const pthread_attr_t *, void *(*)(void *), void *) = dlsym(RTLD_NEXT, "pthread_create");
  if (!first) first = now();
  return real(thread, how, what, with);
}
int pthread_join(pthread_t thread, void **result) {
  int (*real)(pthread_t, void **) = dlsym(RTLD_NEXT, "pthread_join");
  int ended = real(thread, result);
  last = now();
  return ended;
}
void _exit(int status) {
  dprintf(2, "%ld", last - first);
  for (;;) syscall(SYS_exit_group, status);
}
"""


class Told(NamedTuple):
    """What the allocator tells: how often memory was asked for, and the most that there was, in bytes."""

    calls: int
    memory: int


def library(room: str, name: str, text: str, *options: str) -> str:
    """A C library, built in a folder."""
    compiler = shutil.which("cc") or shutil.which("clang")
    if not compiler:
        sys.exit("no C compiler is found: what happens inside the program can't be measured")
    source, path = os.path.join(room, f"{name}.c"), os.path.join(room, f"{name}.so")
    with open(source, "w", encoding="utf-8") as out:
        out.write(text)
    subprocess.run([compiler, "-shared", "-fPIC", "-fno-builtin", "-w", "-o", path, source, *options], check=True)
    return path


def allocator(room: str) -> str:
    """The allocator that counts and refuses, built in a folder."""
    return library(room, "allocator", ALLOCATOR)


def timer(room: str) -> str:
    """The timer of threads, built in a folder. What it runs under is held to some processors by taskset."""
    if not shutil.which("taskset"):
        sys.exit("taskset (Debian's package util-linux) is needed")
    return library(room, "timer", TIMER, "-ldl")


def threads_milliseconds(words: Sequence[str], text: bytes, processors: int, timing: str) -> float:
    """The time of the threads of one run on so many processors of this machine, under that timer."""
    ran = subprocess.run(["taskset", "-c", f"0-{processors - 1}", "env", f"LD_PRELOAD={timing}", *words], input=text,
                         stdout=subprocess.DEVNULL, stderr=subprocess.PIPE, check=True)
    return int(ran.stderr) / 1000


def under(allocating: str, refused: int = 0) -> Dict[str, str]:
    """The environment in which a program has that allocator, and the call with this number is refused; with 0 none is."""
    return {**os.environ, "LD_PRELOAD": allocating, "REFUSED": str(refused)}


def told(error: str) -> Told:
    """What the allocator told on standard error, behind all else."""
    calls, memory = error.split()[-2:]
    return Told(int(calls), int(memory) * 1024)


def calls(words: Sequence[str], text: bytes, allocating: str) -> int:
    """How often a program asks for memory."""
    ran = subprocess.run(list(words), input=text, capture_output=True, check=True, env=under(allocating))
    return told(ran.stderr.decode()).calls


def seconds(words: Sequence[str], text: bytes = b"") -> float:
    """The time of one run, which must end with status 0."""
    start = time.perf_counter()
    ran = subprocess.run(list(words), input=text, capture_output=True, check=False)
    taken = time.perf_counter() - start
    if ran.returncode:
        sys.exit(f"{' '.join(words)}: status {ran.returncode}: {ran.stderr.decode(errors='replace').strip()}")
    return taken


def least_seconds(runs: int, words: Sequence[str], text: bytes = b"") -> float:
    """The least time of some runs."""
    return min(seconds(words, text) for _ in range(runs))


def turns_script(commands: int, words: int) -> bytes:
    """Stores and loads of four threads, each on ten pages of its own, and words of single turns."""
    lines = ["hwp 1", f"cpus {CPUS}", f"frames {PAGES + 8}"]
    lines += [f"proc {c}" for c in range(CPUS)]
    lines += [f"thread {c} {c} {c} handler" for c in range(CPUS)]
    lines += [f"page {q} anon" for q in range(PAGES)]
    lines += [f"trans {v} {v % CPUS} {v}" for v in range(PAGES)]
    for c in range(CPUS):
        lines.append(f"cpu {c}")
        for n in range(commands // CPUS):
            slot, line = n % (PAGES // CPUS) * CPUS + c, n % 64
            lines.append(f"store {c} {slot} {line} {n}" if n % 2 == 0 else f"load {c} {slot} {line}")
    if words:
        lines.append("schedule " + " ".join(str(n % CPUS) for n in range(words)))
    return ("\n".join([*lines, "end"]) + "\n").encode()


def below(uses: Dict[str, List[str]], names: Iterable[str]) -> Set[str]:
    """The crates of the repository that these stand on, and these."""
    found: Set[str] = set()
    rest = list(names)
    while rest:
        name = rest.pop()
        if name in uses and name not in found:
            found.add(name)
            rest += uses[name]
    return found


def prove_beside(room: str, name: str, uses: Sequence[str]) -> str:
    """Has a crate proved and built that stands in the room's folder crates/NAME already and is no part of the repository, with the crates
    that it uses in a copy. Gives its program."""
    with open(os.path.join(HOME, "crates.txt"), encoding="utf-8") as file:
        lines = file.read().splitlines()
    kept = below({crate: rest.split() for crate, _, rest in (line.partition(":") for line in lines)}, uses)
    for crate in kept:
        shutil.copytree(f"{HOME}/crates/{crate}", f"{room}/crates/{crate}", ignore=shutil.ignore_patterns("out", "must-fail"))
    with open(f"{room}/crates.txt", "w", encoding="utf-8") as out:
        out.write("\n".join([*(line for line in lines if line.partition(":")[0] in kept), f"{name}: {' '.join(uses)}"]) + "\n")
    os.mkdir(f"{room}/.git")
    shutil.copyfile(f"{HOME}/HANDLES", f"{room}/HANDLES")
    ran = subprocess.run(["rt", "ci"], cwd=room, capture_output=True, text=True, check=False)
    if ran.returncode:
        sys.exit(ran.stdout[-2000:] + ran.stderr[-2000:])
    return f"{room}/crates/{name}/out/{name}"
