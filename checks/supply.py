#!/usr/bin/env python3
"""Tries examples/supply.py, which makes power files and sensor files: supply.py

What it makes of the trace and the log of examples/harvest must be the files there, which were worked out by hand, and
the program must take them; and each kind of bad row or word below must get its line and no file. Prints what differs;
ends with 1 where something does. The program is that of OCELOT in the environment, or else the built one.
"""
import pathlib
import subprocess
import sys
import tempfile

sys.dont_write_bytecode = True

from program import TOP, program

HARVEST = TOP / "examples/harvest"
TRACE, LOG = "seconds,volts\n", "seconds,sensor,value\n"
POWER, SENSORS = ["power", "file", "3", "2", "1000"], ["sensors", "file", "1000"]
MADE = [
    (TRACE + "0,3\n1,3\n", POWER, "on,off\n1000,0\n"),
    (TRACE + "2,1\n3,5\n3.5,1\n4,1\n", POWER, "on,off\n500,500\n"),
    ("\ufeff" + TRACE.replace("\n", "\r\n") + " 0 , 3.0 \r\n\r\n1.5,2\r\n", POWER, "on,off\n1500,0\n"),
    (TRACE + "0,3\n0.0004,1\n0.0008,3\n0.0012,1\n0.0016,1\n", POWER, "on,off\n0,0\n1,0\n"),
    (TRACE + "0,3\n1e3,3\n", ["power", "file", "3", "3", "7"], "on,off\n7000,0\n"),
    (LOG, SENSORS, "time,sensor,value\n"),
    (LOG + "0,a,1.5\n0,b,-1.5\n0,a,2.4\n", SENSORS, "time,sensor,value\n0,a,2\n0,b,-2\n"),
    (LOG + "1,a,21474.83647\n", [*SENSORS, "--scale", "100000"], "time,sensor,value\n1000,a,2147483647\n"),
    (LOG + "1,a,1\n2,b,2\n3,a,3\n", [*SENSORS, "--from", "2"], "time,sensor,value\n0,a,1\n0,b,2\n1000,a,3\n"),
]
REFUSED = [
    ("seconds,volt\n", POWER, "supply: file: the first row isn't seconds,volts"),
    ("", POWER, "supply: file: the first row isn't seconds,volts"),
    (TRACE + "0,2.9\n", POWER, "supply: file: the voltage never reaches 3"),
    (TRACE + "0,3,4\n", POWER, "supply: file: row 2 hasn't 2 fields"),
    (TRACE + "0,3\n1,three\n", POWER, "supply: file: row 3: 'three' is no number"),
    (TRACE + "0,nan\n", POWER, "supply: file: row 2: 'nan' is no number"),
    (TRACE + "1,3\n0,3\n", POWER, "supply: file: the time of row 3 goes back"),
    (TRACE + "-1,3\n", POWER, "supply: file: the time of row 2 goes back"),
    (TRACE + "0,3\n9223372036854775.808,3\n", POWER, "supply: the sum of all times isn't below 2^63"),
    (TRACE + "0,3\n", ["power", "file", "2", "3", "1000"], "supply: the device loses power below OFF, which is at most ON"),
    (TRACE + "0,3\n", ["power", "nothing", "3", "2", "1000"], "supply: nothing: No such file or directory"),
    (LOG + "0,a,21474836.475\n", [*SENSORS, "--scale", "100"], "supply: 2.14748e+07 times 100 has no room in 32 bits"),
]
WRONG = [[], ["power"], ["power", "file", "3", "2", "0"], ["power", "file", "x", "2", "1"], [*SENSORS, "--scale", "0"]]


def answer(words, folder):
    """Returns the status and both outputs of the script."""
    done = subprocess.run([TOP / "examples/supply.py", *words], cwd=folder, stdin=subprocess.DEVNULL, capture_output=True, encoding="utf-8", timeout=60)
    return done.returncode, done.stdout, done.stderr


def faults_of_harvest():
    """Yields where the example's files aren't what is made, or aren't taken."""
    made = [("power.csv", ["power", "trace.csv", "3.0", "2.0", "1000"]), ("sensors.csv", ["sensors", "log.csv", "1000", "--scale", "10", "--from", "0.5"])]
    for name, words in made:
        status, out, _ = answer(words, HARVEST)
        if (status, out) != (0, (HARVEST / name).read_text()):
            yield f"{name}: status {status}, {out!r}"
    if answer(made[0][1], HARVEST)[2] != "supply: tick 0 is at 0.5 seconds\n":
        yield "tick 0 is elsewhere"
    status = subprocess.run([program(), "run", "harvest.oc", "sensors.csv", "power.csv"], cwd=HARVEST, capture_output=True).returncode
    if status not in (0, 9):
        yield f"the program takes the files with status {status}"


def faults_of_rows(folder):
    """Yields the rows and words that are answered otherwise than they must be."""
    for text, words, wanted in [*MADE, *REFUSED]:
        pathlib.Path(folder, "file").write_bytes(text.encode())
        status, out, err = answer(words, folder)
        expected = (0, wanted) if wanted.endswith("\n") else (1, wanted + "\n")
        if (status, err if status else out) != expected or (status and out):
            yield f"{text!r} {words}: status {status} {out!r} {err!r}"
    for words in WRONG:
        status, out, err = answer(words, folder)
        if status != 2 or out or "Traceback" in err:
            yield f"{words}: status {status} {err!r}"
    if answer(["--help"], folder)[0] or answer(["power", "--help"], folder)[0]:
        yield "--help fails"


def main():
    with tempfile.TemporaryDirectory() as folder:
        told = [*faults_of_harvest(), *faults_of_rows(folder)]
    print(*told, f"supply: {2 + len(MADE) + len(REFUSED)} files, {len(told)} faults", sep="\n")
    return 1 if told else 0


if __name__ == "__main__":
    sys.exit(main())
