"""The toolchain's command `rt` and the library that it loads, as modules: they know how a crate is checked and built."""

import functools
import importlib.machinery
import itertools
import os
import shutil
import sys
import tempfile
import time
import types

sys.dont_write_bytecode = True


def load(name, file):
    module = types.ModuleType(name)
    module.__file__ = file
    sys.modules[name] = module
    importlib.machinery.SourceFileLoader(name, file).exec_module(module)
    return module


command = load("rt_command", f"{os.path.dirname(os.path.realpath(shutil.which('rt')))}/rt")
library = command.rtlib
# it goes through every path between two crates, of which there are millions
library.Crate.below = functools.cache(library.Crate.below)

ROOT = os.path.dirname(os.path.dirname(os.path.realpath(__file__)))


def crates():
    """The repository's crates by name, lowest first."""
    return {crate.name: crate for crate in library.crates_below(ROOT)}


def in_lanes(tasks):
    """Runs tasks side by side, as many as processors and memory hold, and returns what each gave by its key.

    A task has the keys of the tasks that it waits for, its size in lines, the memory that it takes in bytes, and a call that gets what
    was given so far and how many processors it may use.
    """
    # (its first call sets a signal's handler, which the main thread alone may do)
    library.guarded()
    return command.in_lanes(tasks)


def build(wanted):
    """Proves and builds these libraries, lowest first, those side by side that don't stand on each other, and returns whether all are proved."""
    names = {crate.name for crate in wanted}
    count, numbers = sum(not crate.is_built() for crate in wanted), itertools.count(1)

    def library_of(crate):
        def made(given, processors):
            if not all(given[it.name] for it in crate.below() if it.name in names):
                return False
            return crate.is_built() or build_one(crate, processors, lambda: f"{next(numbers)} of {count}, ")

        return made

    tasks = {it.name: ([dep.name for dep in it.below() if dep.name in names], it.count(rb"\n"), command.need(it), library_of(it)) for it in wanted}
    return all(in_lanes(tasks).values())


def build_one(crate, processors, which=lambda: ""):
    """Proves and builds a library over those below it, and leaves it where `rt` looks for it. `which` says which of many it is, once it is done."""
    folder, stamp, began = os.path.dirname(crate.rlib), crate.stamp(), time.time()
    shutil.rmtree(folder, ignore_errors=True)
    os.makedirs(folder)
    with tempfile.TemporaryFile("w+", errors="replace") as crate.out:
        words = crate.words(["--jobs", str(processors)], keeps=False)
        status = crate.call(library.RATTLE, "build", *words, "-o", crate.rlib)
        crate.out.seek(0)
        said = crate.out.read()
    if status == 0 and stamp == crate.stamp():
        with open(f"{folder}/stamp", "w", encoding="utf-8") as it:
            it.write(stamp)
    print(f"{which()}{crate.name}: {'proved' if status == 0 else 'NOT PROVED'} in {time.time() - began:.0f} s\n{said if status else ''}", end="", flush=True)
    return status == 0
