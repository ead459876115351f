"""The kit's command rt, as a module whose crates work out their stamps once.

A stamp is a sum of all that a crate is made from, those of all crates below it among them, and rt works each out anew
wherever it is asked for: along every path of crates.txt, of which the crates at the top have ten thousands. With some
kits that takes as long as the proofs. Here each is kept, which holds as long as nobody edits the sources meanwhile; so
a kit whose `rt ci` asks by stamps whether somebody did wouldn't find out.
"""
import importlib.machinery
import importlib.util
import os
import shutil
import sys


def loaded(path, name):
    """The module in this file, whose name needn't end in .py."""
    loader = importlib.machinery.SourceFileLoader(name, path)
    module = importlib.util.module_from_spec(importlib.util.spec_from_loader(name, loader))
    sys.modules[name] = module
    loader.exec_module(module)
    return module


def remembered(function):
    """The function of a crate, worked out once for each."""
    known = {}

    def answer(crate):
        if crate.folder not in known:
            known[crate.folder] = function(crate)
        return known[crate.folder]

    return answer


def command():
    """The module of rt, whose main takes the words behind `rt`."""
    rt = loaded(os.path.realpath(shutil.which("rt")), "rt_main")
    rt.rtlib.Crate.stamp = remembered(rt.rtlib.Crate.stamp)
    assert callable(rt.main)
    return rt
