#!/usr/bin/env python3
"""Makes a power file of a voltage trace, and a sensor file of a log of readings.

A trace has rows seconds,volts, and a log rows seconds,sensor,value, both with a header; numbers are decimal, times never
go back, and what a row says holds up to the next one. The device starts where the voltage reaches ON, and loses power
where it is below OFF. Tick 0 is where it starts first, which a line on standard error says in seconds; the sensor file
gets that by --from. STEPS is how many steps the device takes in a second of power.
"""
import argparse
import csv
import decimal
import fractions
import sys

LARGEST, WORD = 2**63, 2**31


class Fault(Exception):
    """Says why there is no file."""


def number(text):
    """Returns a decimal number, exactly."""
    try:
        return fractions.Fraction(decimal.Decimal(text.strip()))
    except (decimal.InvalidOperation, ValueError, OverflowError):
        raise Fault(f"{text!r} is no number") from None


def rows_of(path, header):
    """Returns the rows of a file with this header, each with its time first."""
    try:
        with open(path, newline="", encoding="utf-8-sig") as file:
            found, *rows = [[field.strip() for field in row] for row in csv.reader(file) if row] or [None]
    except (OSError, UnicodeDecodeError, csv.Error) as fault:
        raise Fault(f"{path}: {getattr(fault, 'strerror', None) or 'no CSV file'}") from None
    if found != header.split(","):
        raise Fault(f"{path}: the first row isn't {header}")
    last, times = None, []
    for place, row in enumerate(rows, 2):
        if len(row) != len(found):
            raise Fault(f"{path}: row {place} hasn't {len(found)} fields")
        try:
            times.append((number(row[0]), *row[1:-1], number(row[-1])))
        except Fault as fault:
            raise Fault(f"{path}: row {place}: {fault}") from None
        if times[-1][0] < 0 or (last is not None and times[-1][0] < last):
            raise Fault(f"{path}: the time of row {place} goes back")
        last = times[-1][0]
    return times


def periods(trace, on, off):
    """Returns for each period when it begins, when it is over, and when power is back or the trace is over."""
    found, begin, end = [], None, None
    for time, volts in trace:
        if begin is None and volts >= on:
            if end is not None:
                found.append((*end, time))
            begin = time
        elif begin is not None and volts < off:
            begin, end = None, (begin, time)
    if begin is not None:
        found.append((begin, trace[-1][0], trace[-1][0]))
    elif end is not None:
        found.append((*end, trace[-1][0]))
    return found


def ticks(seconds, steps):
    """Returns how many ticks are over after so many seconds."""
    return seconds * steps // 1


def power(asked):
    """Returns the lines of a power file, and says where tick 0 is."""
    if asked.off > asked.on:
        raise Fault("the device loses power below OFF, which is at most ON")
    found = periods(rows_of(asked.trace, "seconds,volts"), asked.on, asked.off)
    if not found:
        raise Fault(f"{asked.trace}: the voltage never reaches {float(asked.on):g}")
    start = found[0][0]
    marks = [[ticks(time - start, asked.steps) for time in period] for period in found]
    if marks[-1][2] >= LARGEST:
        raise Fault("the sum of all times isn't below 2^63")
    print(f"supply: tick 0 is at {decimal.Decimal(start.numerator) / start.denominator} seconds", file=sys.stderr)
    return ["on,off", *(f"{end - begin},{back - end}" for begin, end, back in marks)]


def word(value, scale):
    """Returns a reading as a number of the language, halves away from zero."""
    scaled = abs(value) * scale
    found = (scaled + fractions.Fraction(1, 2)) // 1 * (1 if value >= 0 else -1)
    if not -WORD <= found < WORD:
        raise Fault(f"{float(value):g} times {scale} has no room in 32 bits")
    return found


def sensors(asked):
    """Returns the lines of a sensor file; of what each sensor showed before tick 0 the last row stays."""
    before, lines = {}, []
    for time, sensor, value in rows_of(asked.log, "seconds,sensor,value"):
        shown = f"{sensor},{word(value, asked.scale)}"
        if time <= asked.first:
            before[sensor] = f"0,{shown}"
        else:
            lines.append(f"{ticks(time - asked.first, asked.steps)},{shown}")
    return ["time,sensor,value", *before.values(), *lines]


def whole(text):
    """Returns a number of steps or a scale, which is 1 or more."""
    if not (text.isascii() and text.isdigit() and int(text) > 0):
        raise argparse.ArgumentTypeError(f"{text!r} is no whole number from 1 on")
    return int(text)


def decimal_number(text):
    try:
        return number(text)
    except Fault as fault:
        raise argparse.ArgumentTypeError(str(fault)) from None


def words():
    parser = argparse.ArgumentParser(description=__doc__, formatter_class=argparse.RawDescriptionHelpFormatter)
    kinds = parser.add_subparsers(required=True, metavar="power|sensors")
    one = kinds.add_parser("power", help="prints the power file of a trace: power TRACE ON OFF STEPS")
    one.set_defaults(lines=power)
    one.add_argument("trace", metavar="TRACE")
    one.add_argument("on", metavar="ON", type=decimal_number)
    one.add_argument("off", metavar="OFF", type=decimal_number)
    one.add_argument("steps", metavar="STEPS", type=whole)
    two = kinds.add_parser("sensors", help="prints the sensor file of a log: sensors LOG STEPS [--scale N] [--from SECONDS]")
    two.set_defaults(lines=sensors)
    two.add_argument("log", metavar="LOG")
    two.add_argument("steps", metavar="STEPS", type=whole)
    two.add_argument("--scale", type=whole, default=1, metavar="N", help="what a value is multiplied by before it is rounded: 10 for tenths (1)")
    two.add_argument("--from", type=decimal_number, default=fractions.Fraction(0), metavar="SECONDS", dest="first", help="the time of tick 0 (0)")
    return parser.parse_args()


def main():
    asked = words()
    try:
        print(*asked.lines(asked), sep="\n")
    except Fault as fault:
        sys.exit(f"supply: {fault}")


if __name__ == "__main__":
    main()
