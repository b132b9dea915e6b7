"""Which program the scripts here call: that of OCELOT in the environment, or ./ocelot."""
import functools
import os
import pathlib
import subprocess
import sys

TOP = pathlib.Path(__file__).resolve().parent.parent


@functools.cache
def ocelot():
    """Returns the path of the program. ./ocelot is called once before, since it may build for long first: then what it
    says of that is seen. Ends as it does where it can't be built."""
    if "OCELOT" in os.environ:
        return os.path.abspath(os.environ["OCELOT"])
    first = subprocess.run([TOP / "ocelot", "regions", TOP / "examples/first/first.oc"], stdin=subprocess.DEVNULL, stdout=subprocess.DEVNULL)
    if first.returncode:
        sys.exit(first.returncode)
    return str(TOP / "ocelot")
