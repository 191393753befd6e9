"""What the checks of the built programs share: where they are, how they run, and what their answers say."""
import concurrent.futures
import contextlib
import os
import pathlib
import re
import subprocess
import sys
import tempfile
import typing

TESTS = pathlib.Path(__file__).resolve().parent
TOP = TESTS.parent
CASES = TOP / "crates" / "pd_cases" / "data" / "cases"
# What `rt ci` leaves. The first keeps its moves from run to run; the second runs a folder of cases with both runners.
BENCH = TOP / "crates" / "pdbench" / "out" / "pdbench"
BOTH = TOP / "crates" / "pd_cases" / "out" / "pd_cases"
LAB = TOP / "crates" / "pdlab" / "out" / "pdlab"
# No run of a program in these checks takes a few seconds; so many say that it hangs.
HANGS = 120


class Wrong(Exception):
    """What a program did is not what docs/FORMATS.md or docs/LAB.md says."""


class Answer(typing.NamedTuple):
    status: int
    out: bytes
    err: bytes

    def shown(self):
        return f"status {self.status}, error {self.err[:80]!r}, output {self.out[:80]!r} ({len(self.out)} bytes)"


def unnamed(picture):
    """A picture without the names of its files, which `pdlab draw` alone knows."""
    return re.sub(rb'<text class="head end"[^\n]*\n', b"", picture)


@contextlib.contextmanager
def room():
    """A folder for a check's files, gone afterwards."""
    with tempfile.TemporaryDirectory(prefix="pdbench-") as folder:
        yield pathlib.Path(folder)


def programs(words, usual=(BENCH, BOTH)):
    """The usual programs, or those that the command line names in their place; stops where one isn't there."""
    found = [pathlib.Path(word).resolve() for word in words] or usual
    for program in found:
        if not os.access(program, os.X_OK):
            sys.exit(f"no program {program}: `rt ci`, or `tools/build` with its name, builds it")
    return found


def run(program, words, environment=None, **streams):
    """Runs a program to its end."""
    streams = {"stdout": subprocess.PIPE, **streams}
    done = subprocess.run([program, *words], stdin=subprocess.DEVNULL, stderr=subprocess.PIPE, timeout=HANGS,
                          env={**os.environ, **(environment or {})}, **streams)
    return Answer(done.returncode, done.stdout or b"", done.stderr)


def shim(folder):
    """Builds the library that makes single calls fail, and answers the environment that puts it before a program."""
    library = folder / "shim.so"
    subprocess.run(["cc", "-O1", "-shared", "-fPIC", "-o", library, TESTS / "shim.c", "-ldl"], check=True)
    return {"LD_PRELOAD": str(library)}


def written(folder, name, lines):
    """Writes a file of lines, and answers its path."""
    path = folder / name
    path.write_text("".join(f"{line}\n" for line in lines))
    return path


def lines_of(path):
    """The lines of an edit script that are answered."""
    return [line for line in path.read_text().splitlines() if line.strip(" ") and not line.startswith("#")]


def replies(text):
    """Parts the text of a session into a reply for each line, and the line with the counts last."""
    found = []
    for line in text.decode("ascii").splitlines():
        if line == "ok" or line.startswith(("refused ", "= ", "done ")):
            found.append([line])
        elif found:
            found[-1].append(line)
        else:
            raise Wrong(f"the text begins with {line!r}")
    return found


def in_parallel(job, items):
    """Does a job for each item, as many at once as there are processors, and answers what comes out, in order."""
    with concurrent.futures.ThreadPoolExecutor(len(os.sched_getaffinity(0))) as pool:
        yield from pool.map(job, items)
