#!/usr/bin/env python3
"""The toolchain's `rt`, with the sum of each crate's text taken once in a run: `once.py check ps_serve`, `once.py test NAME`, `once.py lib NAME`.

`rt` takes the sum of a crate anew for each way that leads down to it through crates.txt, so a check of a crate that stands high begins late.
No source may change while it runs. It is no gate: `rt ci` judges.
"""

import importlib.machinery
import importlib.util
import os
import shutil
import sys

RT = os.path.realpath(shutil.which("rt") or "/opt/rattle/bin/rt")


def load(path, name):
    """Returns the toolchain's `rt` as a module."""
    loader = importlib.machinery.SourceFileLoader(name, path)
    spec = importlib.util.spec_from_loader(name, loader)
    made = importlib.util.module_from_spec(spec)
    sys.modules[name] = made
    loader.exec_module(made)
    return made


def main():
    rt = load(RT, "rtmain")
    crate = rt.rtlib.Crate
    stamp_of, below_of = crate.stamp, crate.below
    stamps, below = {}, {}

    def stamp(self):
        if self.folder not in stamps:
            stamps[self.folder] = stamp_of(self)
        return stamps[self.folder]

    def below_it(self):
        if id(self) not in below:
            below[id(self)] = self, below_of(self)
        return list(below[id(self)][1])

    for kind in {crate, rt.Crate}:
        kind.stamp, kind.below = stamp, below_it
    sys.argv[0] = RT
    return rt.main(sys.argv[1:])


if __name__ == "__main__":
    sys.exit(main())
