#!/usr/bin/env python3
"""hostile.py PROGRAM [LAB]: files, streams and words that are not as they should be, with the status and the texts that are wanted.

PROGRAM is the debugger, LAB the program `omplab` beside it, which is tried too where it is given. Each row says what is tried;
the last line counts the rows, and the status is 1 where one of them is wrong.
It needs Python 3 with its standard library alone.
"""
import os, resource, subprocess, sys, tempfile

SOURCE = b"int x; int main(void){ x = 1; }\n"
# Where it runs alone it meets a fault.
FAULTY = b"int main(void){ int x; return x; }\n"
# Where it runs alone nothing is bad, so a hunt tries seeds.
RACY = b"#include <stdio.h>\nint x; int main(void){\n#pragma omp parallel\nx = x + 1;\nprintf(\"%d\\n\", x); }\n"
FULL = "/dev/full"
# So much memory suffices for an input of any length, in kB.
MOST_KB = 20_000
ZEROS = bytes(1_000_000)


def run(command, text=b"", **how):
    done = subprocess.run(command, input=text, stdout=how.pop("stdout", subprocess.PIPE), stderr=subprocess.PIPE, timeout=60, **how)
    return done.returncode, done.stdout, done.stderr


def with_closed_output(command, text):
    """A run whose standard output is a pipe that nobody reads."""
    read, write = os.pipe()
    os.close(read)
    try:
        return run(command, text, stdout=write)
    finally:
        os.close(write)


def with_closed_input(command):
    """A run whose standard input cannot be read: it is a folder."""
    folder = os.open("/", os.O_RDONLY)
    try:
        done = subprocess.run(command, stdin=folder, capture_output=True, timeout=60)
        return done.returncode, done.stdout, done.stderr
    finally:
        os.close(folder)


def fed(command, blocks=(), tail=b""):
    """A run whose standard input is these blocks and then a tail; whether it made do with the memory that suffices is told last.

    What the kernel tells of a run counts this script's own memory too, as far as the run began with it: less than suffices.
    """
    process = subprocess.Popen(command, stdin=subprocess.PIPE, stdout=subprocess.PIPE, stderr=subprocess.PIPE)
    try:
        for block in [*blocks, tail]:
            process.stdin.write(block)
        process.stdin.close()
    except BrokenPipeError:
        pass
    _, ended, used = os.wait4(process.pid, 0)
    process.returncode = os.WEXITSTATUS(ended) if os.WIFEXITED(ended) else -os.WTERMSIG(ended)
    return process.returncode, process.stdout.read(), process.stderr.read(), used.ru_maxrss <= MOST_KB


def cut_off(got, length):
    """What came, with a beginning of the output in place of all of it."""
    status, output, fault = got
    return status, output[:length], fault


def of_version(name, program):
    """Rows of the version, and of words that only look like a call for it."""
    yield f"{name}: the version", (0, f"{name} 0.9.0\n".encode(), b""), run([program, "--version"])
    yield f"{name}: the version, and a pipe that nobody reads", (3, None, b"H4\n"), with_closed_output([program, "--version"], b"")
    with open(FULL, "wb") as full:
        yield f"{name}: the version, and a disk that is full", (3, None, b"H4\n"), run([program, "--version"], stdout=full)
    for words in ["-V"], ["--version", "--version"], ["--version=1"], ["--threads", "2", "--version"]:
        yield f"{name}: {' '.join(words)}", (2, b"", None), run([program, *words])


def of_debugger(program, folder):
    """Rows of what is tried with the debugger, what is wanted, and what came."""
    good = os.path.join(folder, "good.c")
    cut = os.path.join(folder, "cut.c")
    latin = os.path.join(folder, "latin.c")
    with open(good, "wb") as f:
        f.write(SOURCE)
    with open(cut, "wb") as f:
        f.write(SOURCE[:25])
    with open(latin, "wb") as f:
        f.write(b"int main(void){ } /* \xe9 */\nint \xe9;\n")
    yield "a pipe that nobody reads", (3, None, b"H4\n"), with_closed_output([program, good], b"step 0\n")
    yield "a pipe that nobody reads, and a refused source", (3, None, b"H4\n"), with_closed_output([program, cut], b"")
    with open(FULL, "wb") as full:
        yield "a disk that is full", (3, None, b"H4\n"), run([program, good], b"step 0\n", stdout=full)
    yield "an input that cannot be read", (3, b"", b"H3\n"), with_closed_input([program, good])
    yield "a folder as FILE", (3, b"", b"H3\n"), run([program, folder])
    yield "a file that is not there", (3, b"", b"H3\n"), run([program, os.path.join(folder, "none.c")])
    yield "a file that ends in the middle of a line", (1, b"refused S3 line 1 column 26\n", b""), run([program, cut], b"step 0\n")
    yield "commands that end in the middle of a line", (0, b"#1 worker 0 line 1\n", b""), run([program, good], b"step 0")
    yield "commands that end in the middle of a word", (0, b"H1 unknown command\n", b""), run([program, good], b"ste")
    yield "a source with a byte that is no text, behind a comment with one", (1, b"refused S2 line 2 column 5\n", b""), run([program, latin])
    yield "a command with bytes that are no text", (0, b"H1 unknown command\n", b""), run([program, good], b"st\xff\xfe 0\n")
    yield "a command with a byte 0", (0, b"H2 bad argument\n", b""), run([program, good], b"step 0\0\n")
    yield "a line of a million bytes", (0, b"H2 bad argument\nx = 0\n", b""), run([program, good], b"x" * 1_000_000 + b"\nprint x\n")
    yield "a source of 4 GB", (1, b"refused S2 line 1 column 1\n", b"", True), fed([program], [ZEROS] * 4000, b"\n")
    yield "a source of 4 GB, and a mark and commands after it", (1, b"refused S2 line 1 column 1\n", b"", True), fed([program], [ZEROS] * 4000, b"\n%%\nstep 0\n")
    large = os.path.join(folder, "large.c")
    with open(large, "wb") as f:
        f.truncate(4_000_000_000)
    yield "a FILE of 4 GB", (1, b"refused S2 line 1 column 1\n", b"", True), fed([program, large])
    yield "a line of 1 GB", (0, b"H2 bad argument\nx = 0\n", b"", True), fed([program, good], [ZEROS] * 1000, b"\nprint x\n")
    yield "a word of the command line that is no text", (2, b"", None), run([program.encode(), b"\xff\xfe.c"])
    yield "an option that is no text", (2, b"", None), run([program.encode(), b"--threads=\xff"])
    yield "an empty word of the command line", (3, b"", b"H3\n"), run([program, ""])
    yield from of_version("ompback", program)


def of_lab(lab, folder):
    """Rows of what is tried with omplab."""
    good = os.path.join(folder, "good.c")
    cut = os.path.join(folder, "cut.c")
    faulty = os.path.join(folder, "faulty.c")
    with open(faulty, "wb") as f:
        f.write(FAULTY)
    none = os.path.join(folder, "none.c")
    no_file = f"H3 {none}: no such file\n".encode()
    racy = os.path.join(folder, "racy.c")
    with open(racy, "wb") as f:
        f.write(RACY)
    yield "omplab: no subcommand", (2, b"", None), run([lab])
    yield "omplab: a subcommand that there is not", (2, b"", None), run([lab, "look"])
    yield "omplab check: a file that is not there", (3, b"", no_file), run([lab, "check", none])
    yield "omplab check: a folder", (3, b"", f"H3 {folder}: a read failed\n".encode()), run([lab, "check", folder])
    yield "omplab check: 33 workers", (2, b"", None), run([lab, "check", "--threads", "33", good])
    yield "omplab check: a pipe that nobody reads", (3, None, b"H4\n"), with_closed_output([lab, "check", good], b"")
    yield "omplab notes: a pipe that nobody reads", (3, None, b"H4\n"), with_closed_output([lab, "notes", good], b"#1 worker 0 line 1\n")
    yield "omplab notes: an input that cannot be read", (3, b"", b"H3\n"), with_closed_input([lab, "notes", good])
    yield "omplab script: an input that cannot be read", (3, b"", b"H3\n"), with_closed_input([lab, "script", good])
    yield "omplab draw: an input that cannot be read", (3, b"", b"H3\n"), with_closed_input([lab, "draw", good])
    yield "omplab hunt: a file that is not there", (3, b"", no_file), run([lab, "hunt", none])
    yield "omplab hunt: no seed", (2, b"", None), run([lab, "hunt", "--seeds", "0", good])
    yield "omplab hunt: a fault", (1, None, b""), run([lab, "hunt", faulty])
    yield "omplab hunt: a race, and a standard error that is no terminal", (1, None, b""), run([lab, "hunt", racy])
    yield from of_version("omplab", lab)
    for word in "hunt", "script", "draw":
        yield f"omplab {word}: a pipe that nobody reads", (3, None, b"H4\n"), with_closed_output([lab, word, racy], b"step 0\n")
        with open(FULL, "wb") as full:
            yield f"omplab {word}: a disk that is full", (3, None, b"H4\n"), run([lab, word, racy], b"step 0\n", stdout=full)
    for word in "script", "draw":
        yield f"omplab {word}: a refused source", (5, b"", None), run([lab, word, cut], b"step 0\n")
    yield "omplab hunt: a refused source", (5, b"", None), run([lab, "hunt", cut])
    yield "omplab notes: a refused source", (5, b"blocked B5 | ", None), cut_off(run([lab, "notes", cut], b"blocked B5\n"), 13)


def is_wanted(wanted, got):
    return all(one is None or one == other for one, other in zip(wanted, got))


def main():
    if len(sys.argv) not in (2, 3):
        sys.exit(__doc__)
    programs = [os.path.abspath(it) for it in sys.argv[1:]]
    resource.setrlimit(resource.RLIMIT_CORE, (0, 0))
    rows = wrong = 0
    with tempfile.TemporaryDirectory() as folder:
        for tried, program in zip((of_debugger, of_lab), programs):
            for what, wanted, got in tried(program, folder):
                rows += 1
                good = is_wanted(wanted, got)
                wrong += not good
                print(f"{'right' if good else 'WRONG'}: {what}" + ("" if good else f": wanted {wanted}, got {got}"))
    print(f"{rows} rows, {wrong} wrong")
    sys.exit(1 if wrong else 0)


if __name__ == "__main__":
    main()
