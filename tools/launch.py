"""What both launchers do: they answer words at once where they can, and build the program where it isn't current."""
import contextlib
import fcntl
import os
import shutil
import signal
import subprocess
import sys

import built
import sources
import words

# No status of the program: there is no answer.
NO_ANSWER = 70


class Failed(Exception):
    """A program could not be built; with the last lines of what was said."""


def write(*lines):
    """Writes lines on standard error, whatever becomes of it."""
    with contextlib.suppress(OSError):
        os.write(2, b"".join(os.fsencode(f"{line}\n") for line in lines))


def answer_at_once(asked):
    """Ends where no program is needed to answer."""
    if answer := words.answer(asked):
        status, line = answer
        if line is not None:
            write(f"ocelot: {line}")
        sys.exit(status)


def look_for_kit():
    """Says where this machine's kit isn't the one with which everything was proved, and ends this where there is none."""
    if shutil.which("rt") is None:
        raise Failed(f"there is no command rt here: it comes with the kit {(sources.TOP / 'KIT').read_text().strip()}")
    subprocess.run([sources.TOP / "checks/kit"], stdin=subprocess.DEVNULL, stdout=2)


@contextlib.contextmanager
def in_turn(script, say):
    """Waits while another call of this script builds."""
    with open(script, "rb") as file:
        try:
            fcntl.flock(file, fcntl.LOCK_EX | fcntl.LOCK_NB)
        except BlockingIOError:
            say("waiting for another call that builds the program")
            fcntl.flock(file, fcntl.LOCK_EX)
        yield


def make(script, place, build, say):
    """Builds the program unless another call has meanwhile, and ends with 70 where it can't be built."""
    try:
        with in_turn(script, say):
            if not place.is_current():
                look_for_kit()
                build(place, say)
    except KeyboardInterrupt:
        sys.exit(128 + signal.SIGINT)
    except (Failed, OSError) as fault:
        write(*(fault.args if isinstance(fault, Failed) else [fault]))
        say("the program could not be built, so nothing was run")
        sys.exit(NO_ANSWER)


def prepare(script, place, build, say):
    """Returns the words of this call, once there is a current program at a place. Ends where no program is needed."""
    asked = sys.argv[1:]
    for number in (signal.SIGTERM, signal.SIGHUP):
        signal.signal(number, lambda number, _: sys.exit(128 + number))
    if asked == ["--help"]:
        print(words.table(), end="")
        sys.exit(0)
    if not place.is_current():
        answer_at_once(asked)
        make(script, place, build, say)
    return asked


def run_for(seconds, program, asked, say):
    """Runs a program with run-time checks, and returns its status, or 70 where it gives no answer."""
    built.give_stack()
    started = subprocess.Popen([program, *asked], env={**os.environ, "ASAN_OPTIONS": "abort_on_error=1:detect_leaks=0"})
    try:
        status = started.wait(seconds)
    except subprocess.TimeoutExpired:
        say(f"no answer in {seconds} seconds")
        return NO_ANSWER
    except KeyboardInterrupt:
        return 128 + signal.SIGINT
    finally:
        started.kill()
    if status in (-signal.SIGILL, -signal.SIGTRAP, -signal.SIGABRT):
        say("no answer: a run-time check stopped the program")
        return NO_ANSWER
    return status if status >= 0 else 128 - status
