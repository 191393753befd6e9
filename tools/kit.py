"""The functions by which `rt ci` proves a crate and tries a planted error, for scripts that do a part of what it does."""
import importlib.machinery
import importlib.util
import pathlib
import shutil
import sys


def once(found, key):
    """The same function, which works out once what it answers for a key."""
    answers = {}

    def answer(crate):
        of = key(crate)
        if of not in answers:
            answers[of] = found(crate)
        return answers[of]

    return answer


def loaded():
    """The kit's `rt` as a module, in which a crate's sum, and what is below it, are worked out once.

    `rt` works them out along each path that leads to a crate: from pd_desk down there are 27,000.
    """
    folder = pathlib.Path(shutil.which("rt")).resolve().parent
    sys.path.insert(0, str(folder))
    loader = importlib.machinery.SourceFileLoader("rt", str(folder / "rt"))
    found = importlib.util.module_from_spec(importlib.util.spec_from_loader("rt", loader))
    loader.exec_module(found)
    crate = found.rtlib.Crate
    crate.stamp = once(crate.stamp, lambda it: it.folder)
    # A crate is asked for what is below it while it is made, too.
    crate.below = once(crate.below, lambda it: (it, len(it.deps)))
    return found


def kit(top):
    """These functions, for the crates below a folder: as under `rt ci`, a crate's proof reads the statements of the libraries below."""
    found = loaded()
    found.rtlib.stop, found.rtlib.Crate, found.Crate.cuts_libraries = found.stop, found.Crate, True
    found.Crate.allowed = found.handles_of(str(top))
    return found
