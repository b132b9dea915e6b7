"""Which program the checks run."""
import functools
import os
import pathlib
import sys

TOP = pathlib.Path(__file__).resolve().parent.parent
sys.path.insert(0, str(TOP / "tools"))

import built


@functools.cache
def program(named=None):
    """Returns the path of the program: the one that is named, or OCELOT in the environment, or the one that was proved
    and built of the sources as they stand now. Ends where there is none. It gets the stack that the launcher asks for."""
    built.give_stack()
    named = named or os.environ.get("OCELOT")
    if named and not os.access(named, os.X_OK):
        sys.exit(f"{named} is no program")
    if not named and not built.PROVED.is_current():
        sys.exit("no program of these sources is built: call ./ocelot first, or set OCELOT to a program (tools/unproved.py --fast OUT builds one without proofs)")
    return os.path.abspath(named or built.PROVED.path)
