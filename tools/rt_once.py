#!/usr/bin/env python3
"""Runs rt with these words, as it is best in a room (rooms.py).

usage: rt_once.py WORD..    as rt WORD..

Each crate's texts are summed up once. Before it builds a library rt sums up its texts and those of the libraries that
it names, and of each of these again those that it names, along every way through crates.txt: for m2c_main that is
reading some crate's texts 2,700 times, which takes minutes. In a room nobody changes a text meanwhile.

And libraries hold their statements, without proofs, as where `rt verdict` and `rt ci` prove a crate over them: then the
checker doesn't read all that was proved below, over and over. Such a library is proved in one go, with nothing kept of
a part, and fits only the libraries that it was built over.

And nothing looks for contracts that no call can meet, which the gate does: it changes no verdict, and takes one of
sixteen seconds.

Where the kit's rt isn't as this expects it, it runs as it is.
"""
import importlib.machinery
import importlib.util
import os
import shutil
import sys


def loaded(path):
    """The program rt as a module, whose main isn't called."""
    loader = importlib.machinery.SourceFileLoader("rt_of_the_kit", path)
    module = importlib.util.module_from_spec(importlib.util.spec_from_loader(loader.name, loader))
    sys.modules[loader.name] = module
    loader.exec_module(module)
    return module


def sum_once(crate):
    """Has a crate of rt keep its sum, by its folder."""
    summed, sums = crate.stamp, {}

    def stamp(self):
        if self.folder not in sums:
            sums[self.folder] = summed(self)
        return sums[self.folder]

    crate.stamp = stamp


def cut_libraries(crate):
    """Has a crate of rt build a library of its statements, and take one that stands there for such a one."""
    built = crate.build_rlib

    def build_rlib(self, flags, anew):
        if not anew and self.is_built():
            return 0
        self.cuts_libraries = True
        status = built(self, flags, anew=True)
        if not status:
            with open(f"{os.path.dirname(self.rlib)}/stamp", "w", encoding="utf-8") as file:
                file.write(self.stamp())
        return status

    crate.build_rlib = build_rlib


def leave_contracts(rtlib):
    """Has rt not look for contracts that no call can meet: it asks the help whether there is such a flag."""
    told = rtlib.help_of
    rtlib.help_of = lambda verb: told(verb).replace("--empty-contracts", "")


def main():
    path, words = os.path.realpath(shutil.which("rt")), sys.argv[1:]
    sys.dont_write_bytecode = True
    try:
        rt = loaded(path)
        sum_once(rt.rtlib.Crate)
        cut_libraries(rt.rtlib.Crate)
        leave_contracts(rt.rtlib)
        run = rt.main
    except (AttributeError, OSError, SyntaxError):
        os.execv(path, ["rt", *words])
    return run(words)


if __name__ == "__main__":
    sys.exit(main())
