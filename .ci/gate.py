#!/usr/bin/env python3
"""Is `rt ci`, with each crate's stamp worked out once, the lowest crate checked by several processors, edits tried at
the functions that they name, and the static library built; where the kit's rt is made otherwise, just `rt ci`.

To be run at the top of the repository.
"""
import contextlib
import copy
import hashlib
import os
import re
import signal
import subprocess
import sys
import tempfile

sys.dont_write_bytecode = True

import kit


# Beside the lowest crate, on which all others stand, nothing can be proved, so that other lanes would be idle: its most
# jobs, by memory.
ALONE = {"iofd_words": 4}


def checks_some_by_several_lanes(rt):
    """Has each of these crates checked by as many jobs as there are lanes, up to its most.

    Each other check has one job (.ci/run says why).
    """
    by_one = rt.Crate.ci

    def ci(crate, flags, tests):
        lanes = os.environ.get("RT_JOBS", "")
        if lanes.isdigit() and not tests and crate.name in ALONE:
            status = by_one(crate, ["--jobs", str(min(int(lanes), ALONE[crate.name]))], tests)
            if status != -signal.SIGKILL:
                return status
        return by_one(crate, flags, tests)

    rt.Crate.ci = ci


def functions_of(edit):
    """The functions that a must-fail edit names in lines `# only: PATH`, one of whose contracts refuses it."""
    with open(edit, encoding="utf-8", errors="replace") as lines:
        return [line.removeprefix("# only:").strip() for line in lines if line.startswith("# only:")]


def as_library(crate):
    """The crate, checked as one on which others may stand.

    Half of a static library's check is what it links; of a function and its contract nothing is asked there.
    """
    library = copy.copy(crate)
    library.is_static = False
    return library


def tries_edits_at_their_functions(rt):
    """Has each edit that names functions tried by a check of these alone.

    They are refused there for just what refuses them in a check of the whole crate, which proves all other functions
    beside. An edit that isn't refused so is tried as rt tries one that names none: that is the verdict then. What comes
    of such a try is kept under a name of its own, by which nobody takes it for a check of the whole crate, nor what
    other code than this told for what this would tell.
    """
    by_whole, check = rt.must_fail, rt.checked

    def must_fail(crate, edit, flags, kept=None):
        only = [word for path in functions_of(edit) for word in ("--only", path)]
        if only:
            tried = by_whole(as_library(crate), edit, [*flags, *only], kept)
            if tried[0] == rt.REFUSED:
                return tried
        return by_whole(crate, edit, flags, kept)

    def checked(crate, texts, flags, kept):
        ran = check(crate, texts, flags, kept)
        # A check of some functions gives no verdict of the crate. That one of them isn't proved is all that is asked.
        last = ran.stdout.rstrip("\n").rpartition("\n")[2]
        count = re.fullmatch(r"only=(\d+) proved=(\d+)", last)
        if ran.returncode == 1 and count and int(count[2]) < int(count[1]):
            ran.stdout += "logic=not-proved\n"
        return ran

    by_name = rt.add_edits

    def add_edits(tasks, crate, edits, first, waits, is_well, kept, *others, **named):
        return by_name(tasks, crate, edits, first, waits, is_well, Named(kept), *others, **named)

    rt.must_fail, rt.checked, rt.add_edits = must_fail, checked, add_edits


class Named:
    """What earlier runs passed, with other names for edits that are tried at functions."""

    def __init__(self, kept):
        self.kept = kept
        with open(__file__, "rb") as code:
            self.code = hashlib.sha256(code.read()).hexdigest()

    def of_edit(self, edit, stamp):
        return self.kept.of_edit(edit, (stamp, self.code) if functions_of(edit) else stamp)

    def __getattr__(self, name):
        return getattr(self.kept, name)


class Renumbered:
    """What the tasks of a run gave, for an edit that is tried as its crate's only one."""

    def __init__(self, given, number):
        self.given, self.number = given, number

    def place(self, key):
        return (*key[:2], self.number) if key[1:] == ("edits", 0) else key

    def __getitem__(self, key):
        return self.given[self.place(key)]

    def get(self, key, default=None):
        return self.given.get(self.place(key), default)


def begins_no_edit_with_its_crate(rt):
    """Has several edits of one crate, each of which names its functions, tried as a single one is: from nothing.

    Else rt first proves the crate once more, to try each edit over that, and this takes longer than the edits do.
    """
    together = rt.add_edits

    def add_edits(tasks, crate, edits, *others, **named):
        if len(edits) < 2 or not all(map(functions_of, edits)):
            return together(tasks, crate, edits, *others, **named)
        alone = []
        for edit in edits:
            own = {}
            alone.append((own, *together(own, crate, [edit], *others, **named)))
        if any(list(own) != [(crate.name, "edits", 0)] for own, _, _ in alone):
            # A kit that tries a single edit in other steps.
            return together(tasks, crate, edits, *others, **named)
        for number, (own, _, _) in enumerate(alone):
            [(*before, work)] = own.values()
            begin = lambda given, jobs, work=work, number=number: work(Renumbered(given, number), jobs)
            tasks[crate.name, "edits", number] = (*before, begin)

        def results(given):
            return [found for number, (_, come, _) in enumerate(alone) for found in come(Renumbered(given, number))]

        def known():
            told = [known() for _, _, known in alone]
            return {number: found[0] for number, found in enumerate(told) if found}

        return results, known

    rt.add_edits = add_edits


def builds_static_libraries(rt):
    """Has `rt ci` build a static library from the check by which it proves it, as it builds programs.

    It only checks one otherwise, and `rt lib` behind it would prove the crate once more. The check is the same, and its
    word is the verdict: where the library can't be built from it, none is left, and .ci/library.py builds one.
    """
    only_checked = rt.Crate.ci

    def ci(crate, flags, tests):
        if tests or not crate.is_static:
            return only_checked(crate, flags, tests)
        library = f"{crate.folder}/out/lib{crate.name}.a"
        with contextlib.suppress(FileNotFoundError):
            os.remove(library)
        words = crate.words(flags, keeps=False)
        with tempfile.TemporaryDirectory(prefix="rt-proved-") as room:
            checked = f"{room}/checked"
            status = crate.prove(["check", *words, "-o", checked])
            if status == 0:
                build(rt, crate, words, checked, library)
        return status

    rt.Crate.ci = ci


def build(rt, crate, words, checked, library):
    """Builds the library of what the check proved."""
    for flag in ("--logic-built", "--jobs"):
        at = words.index(flag)
        words = [*words[:at], *words[at + 2 :]]
    words += ["--crate-checked", checked, "--toolchain", f"{rt.KIT}/toolchain", "--backend", "llvm"]
    command = [*rt.rtlib.guarded(), rt.rtlib.RATTLE, "build", *words, "-o", library]
    how = {"stdin": subprocess.DEVNULL, "stdout": crate.out, "stderr": subprocess.STDOUT}
    if subprocess.run(command, cwd=crate.folder, **how).returncode != 0:
        with contextlib.suppress(FileNotFoundError):
            os.remove(library)


def main():
    try:
        rt = kit.command()
        checks_some_by_several_lanes(rt)
        tries_edits_at_their_functions(rt)
        begins_no_edit_with_its_crate(rt)
        builds_static_libraries(rt)
    except Exception:
        os.execvp("rt", ["rt", "ci"])
    return rt.main(["ci"])


if __name__ == "__main__":
    sys.exit(main())
