#!/usr/bin/env python3
"""refused.py PROGRAM [INPUT]: each request for memory, each read and each write of a run is refused in turn.
refused.py PROGRAM INPUT -- WORD..: the same of a program that is called with these words.
refused.py PROGRAM --sessions: the same of each session of tests/refused, by its name.
refused.py CASES --case TITLE: each request for memory of one case is refused in turn.
refused.py PROGRAM --requests: counts the requests for memory of the first load in frame 900 of a recursion.

INPUT is the standard input (the stored run, crates/ompback/stdin, if not given). A small library is compiled with cc and
loaded before the C library; it refuses the N-th call of one kind. Of each such run three things are wanted: that it ends,
that it ends with status 3 and the right fault on standard error (or as the whole run does, where nothing was lost), and
that what it wrote is a beginning of what the whole run writes.
CASES is the program of all cases, crates/gate/out/gate, and TITLE that of a section of its data/cases.txt. Each of its
runs ends as the whole run does, or out of memory: an answer that changes in place of that is wrong.
With --requests the library refuses nothing: it counts the requests between two answers. More than 20 of them are wrong.
The last line counts the runs; the status is 1 where one of them is wrong.
It needs Python 3 with its standard library, and cc.
"""
import itertools, os, subprocess, sys, tempfile

SHIM = r"""
#define _GNU_SOURCE
#include <dlfcn.h>
#include <errno.h>
#include <fcntl.h>
#include <stddef.h>
#include <stdio.h>
#include <stdlib.h>
#include <unistd.h>
#include <sys/types.h>
static long requests;
static int refused(const char *name, long *count) {
    const char *which = getenv(name);
    if (!which || ++*count != atol(which)) return 0;
    close(open(getenv("REFUSED"), O_WRONLY | O_CREAT, 0600));
    return 1;
}
void *malloc(size_t size) {
    static void *(*real)(size_t); static long count;
    if (!real) real = dlsym(RTLD_NEXT, "malloc");
    requests++;
    if (refused("REFUSE_MEMORY", &count)) { errno = ENOMEM; return NULL; }
    return real(size);
}
void *realloc(void *old, size_t size) {
    static void *(*real)(void *, size_t); static long count;
    if (!real) real = dlsym(RTLD_NEXT, "realloc");
    requests++;
    if (refused("REFUSE_GROWTH", &count)) { errno = ENOMEM; return NULL; }
    return real(old, size);
}
ssize_t read(int fd, void *to, size_t size) {
    static ssize_t (*real)(int, void *, size_t); static long count;
    if (!real) real = dlsym(RTLD_NEXT, "read");
    if (fd == 0 && refused("REFUSE_READ", &count)) { errno = EIO; return -1; }
    return real(fd, to, size);
}
ssize_t write(int fd, const void *from, size_t size) {
    static ssize_t (*real)(int, const void *, size_t); static long count;
    if (!real) real = dlsym(RTLD_NEXT, "write");
    if (fd == 1 && refused("REFUSE_WRITE", &count)) { errno = EIO; return -1; }
    if (fd == 1 && getenv("REQUESTS")) {
        char line[32];
        int length = snprintf(line, sizeof line, "%ld\n", requests);
        int to = open(getenv("REQUESTS"), O_WRONLY | O_CREAT | O_APPEND, 0600);
        if (real(to, line, length) != length) abort();
        close(to);
    }
    return real(fd, from, size);
}
"""
FAULTS = {"REFUSE_MEMORY": b"H5\n", "REFUSE_GROWTH": b"H5\n", "REFUSE_READ": b"H3\n", "REFUSE_WRITE": b"H4\n"}
# The frame of f(n) has the number n: 2 steps lead into the first, and 8 from each to the next, whose first step loads n.
RECURSION = b"int f(int n){ if (n < 2000) return f(n + 1); return n; }\nint main(void){ f(1); }\n%%\n"
INTO_FRAME_900 = 2 + 899 * 8
MOST_REQUESTS = 20
# The second is of the input; the third of the thread, which can't be made then.
OUT_OF_MEMORY = (b"Error: memory allocation failed\n", b"Error: out of memory\n", b"Error: operation would block\n")


def run(command, text, environment):
    done = subprocess.run(command, input=text, capture_output=True, env=environment, timeout=60)
    return done.returncode, done.stdout, done.stderr


def broken_off(command, text, kind, folder):
    """What a command answers where the first call of a kind is refused, where the second is, and so on to the last."""
    mark = os.path.join(folder, "refused")
    environment = {"LD_PRELOAD": os.path.join(folder, "refuse.so"), "REFUSED": mark}
    for number in itertools.count(1):
        got = run(command, text, environment | {kind: str(number)})
        if not os.path.exists(mark):
            return
        os.remove(mark)
        yield number, got


def compile_shim(folder):
    source = os.path.join(folder, "refuse.c")
    with open(source, "w") as f:
        f.write(SHIM)
    subprocess.run(["cc", "-O1", "-shared", "-fPIC", "-o", os.path.join(folder, "refuse.so"), source, "-ldl"], check=True)


def count_runs(command, text, kinds, is_right):
    """Runs a command with each call of these kinds refused in turn, and gives 1 where one run is wrong."""
    whole = run(command, text, {})
    runs = wrong = 0
    with tempfile.TemporaryDirectory() as folder:
        compile_shim(folder)
        for kind in kinds:
            total = lost = 0
            for number, got in broken_off(command, text, kind, folder):
                total += 1
                lost += got != whole
                if not is_right(kind, whole, got):
                    wrong += 1
                    print(f"{kind} {number}: status {got[0]}, fault {got[2]!r}, output {got[1][-60:]!r}")
            print(f"{kind}: {total} runs, {lost} of them broken off")
            runs += total
    print(f"{runs} runs, {wrong} wrong")
    return 1 if wrong or not runs else 0


def ends_well(kind, whole, got):
    """Whether a run of the program answers the fault of this kind behind a beginning of the whole output, or all of it."""
    return got == whole or (got[0] == 3 and got[2] == FAULTS[kind] and whole[1].startswith(got[1]))


def is_judged_or_wants_memory(_kind, whole, got):
    """Whether a case is judged as it is otherwise, or ends out of memory before it is."""
    return got == whole or (whole[0] == 0 and got[:2] == (1, b"") and got[2] in OUT_OF_MEMORY)


def count_requests(program):
    """Counts what the first load in frame 900 asks for, with its command and its answer; gives 1 where that is too much."""
    ran, stepped = b"ran %d limit\n" % INTO_FRAME_900, b"#%d worker 0 line 1\n" % (INTO_FRAME_900 + 1)
    with tempfile.TemporaryDirectory() as folder:
        compile_shim(folder)
        told = os.path.join(folder, "requests")
        environment = {"LD_PRELOAD": os.path.join(folder, "refuse.so"), "REQUESTS": told}
        with subprocess.Popen([program], stdin=subprocess.PIPE, stdout=subprocess.PIPE, env=environment) as child:
            child.stdin.write(RECURSION + b"run %d\n" % INTO_FRAME_900)
            child.stdin.flush()
            # The answers to all lines of one read are written together, so the step is sent behind the first answer.
            answers = [child.stdout.readline(), *child.communicate(b"step 0\n", timeout=60)[:1]]
        with open(told) as f:
            counts = [int(line) for line in f]
    is_right = (child.returncode, answers, len(counts)) == (0, [ran, stepped], 2)
    requests = counts[1] - counts[0] if is_right else None
    wrong = not is_right or requests > MOST_REQUESTS
    print(f"{requests} requests of the first load in frame 900, {int(wrong)} wrong")
    return int(wrong)


def count_sessions(program, folder):
    """Runs each session of a folder with each call refused in turn, and gives 1 where one run is wrong."""
    wrong = 0
    for name in sorted(os.listdir(folder)):
        print(f"{name}:")
        with open(os.path.join(folder, name), "rb") as f:
            wrong |= count_runs([program], f.read(), FAULTS, ends_well)
    return wrong


def case_of(program, title):
    """The input of the section of a title, which may stand behind a word."""
    with open(os.path.join(os.path.dirname(program), "../data/cases.txt"), "rb") as f:
        sections = f.read().split(b"\n== ")[1:]
    for section in sections:
        head, _, _ = section.partition(b"\n")
        if (b" " + head).endswith(b" " + title.encode()):
            return b"\n== " + section
    sys.exit(f"no section {title!r}")


def main():
    words = [os.path.abspath(sys.argv[1])] + sys.argv[2:] if len(sys.argv) > 1 else []
    if len(words) == 3 and words[1] == "--case":
        case = case_of(words[0], words[2])
        sys.exit(count_runs([words[0], "cases"], case, ["REFUSE_MEMORY", "REFUSE_GROWTH"], is_judged_or_wants_memory))
    if len(words) == 2 and words[1] == "--requests":
        sys.exit(count_requests(words[0]))
    here = os.path.dirname(os.path.abspath(__file__))
    if len(words) == 2 and words[1] == "--sessions":
        sys.exit(count_sessions(words[0], os.path.join(here, "refused")))
    called = []
    if "--" in words:
        at = words.index("--")
        words, called = words[:at], words[at + 1 :]
    if len(words) not in (1, 2):
        sys.exit(__doc__)
    with open(words[1] if len(words) == 2 else os.path.join(here, "../crates/ompback/stdin"), "rb") as f:
        text = f.read()
    sys.exit(count_runs([words[0], *called], text, FAULTS, ends_well))


if __name__ == "__main__":
    main()
