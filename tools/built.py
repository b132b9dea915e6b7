"""Programs that were built, each with a stamp beside it that says of what."""
import contextlib
import hashlib
import os
import pathlib
import resource
import shutil
import signal

import sources

STACK = 64 << 20


class Built:
    """A place for a program, and its stamp."""

    def __init__(self, path):
        self.path = pathlib.Path(path)
        self.stamp = self.path.with_name(self.path.name + ".sum")

    def stamp_of(self, checksum):
        """Returns what the stamp says of this program, made of sources with this checksum."""
        return f"{checksum}\n{hashlib.sha256(self.path.read_bytes()).hexdigest()}\n"

    def is_current(self):
        """Says whether the program was built of the sources as they stand now, and is still that program."""
        try:
            return os.access(self.path, os.X_OK) and self.stamp.read_text() == self.stamp_of(sources.checksum())
        except OSError:
            return False

    def put(self, program, checksum):
        """Puts a program here that was made of sources with this checksum."""
        self.path.parent.mkdir(parents=True, exist_ok=True)
        made = self.path.with_name(self.path.name + ".new")
        shutil.copy(program, made)
        os.replace(made, self.path)
        self.stamp.write_text(self.stamp_of(checksum))


PROVED = Built(sources.TOP / "crates/ocelot/out/ocelot")
# Nothing of these is proved: one with run-time checks, and a fast one.
UNPROVED = Built(sources.TOP / "out/unproved/ocelot")
UNPROVED_FAST = Built(sources.TOP / "out/unproved/fast")


def give_stack():
    """Asks for the stack that the deepest expressions need: 7 MiB, which may be more than is left of the usual 8."""
    soft, hard = resource.getrlimit(resource.RLIMIT_STACK)
    wanted = STACK if hard == resource.RLIM_INFINITY else min(STACK, hard)
    if soft != resource.RLIM_INFINITY and soft < wanted:
        with contextlib.suppress(OSError, ValueError):
            resource.setrlimit(resource.RLIMIT_STACK, (wanted, hard))


def become(program, words):
    """Runs a program in the place of this one, with the signals as they were."""
    give_stack()
    for ignored in (signal.SIGPIPE, signal.SIGXFSZ):
        signal.signal(ignored, signal.SIG_DFL)
    os.execv(program, [program, *words])
