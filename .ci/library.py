#!/usr/bin/env python3
"""Builds the static library of crates/iommufd_c over the libraries that `rt ci` has just proved in this clone.

It proves the crate once more, so it is for a kit with which .ci/gate.py can't build the library of the gate's own
check. `rt ci` leaves each library in crates/NAME/out/rlib without the stamp by which `rt lib` knows what it was made
from, so that `rt lib` alone would prove all of them once more. This writes the stamps, and then is `rt lib`. One that
stood there before `rt ci` is put back by it with its own stamp, which stays. To be run at the top of the repository
right after `rt ci`, and never after an edit.
"""
import os
import sys

sys.dont_write_bytecode = True

import kit


def main():
    rt = kit.command()
    for crate in rt.rtlib.crates_below(os.getcwd()):
        stamp = f"{crate.folder}/out/rlib/stamp"
        if os.path.isdir(crate.rlib) and not os.path.exists(stamp):
            with open(stamp, "w", encoding="utf-8") as file:
                file.write(crate.stamp())
    os.chdir("crates/iommufd_c")
    return rt.main(["lib"])


if __name__ == "__main__":
    sys.exit(main())
