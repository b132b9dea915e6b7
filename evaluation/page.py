#!/usr/bin/env python3
"""Writes the page of the evaluation and its drawings: page.py [--compare]

Fills page.template with tables and numbers from summary.csv and applications.csv, which measure.py wrote, and writes
README.md, exposure.svg and overhead.svg beside this script. With --compare it writes nothing and says which of them
differ from that, and whether the README of the repository has the first table as it is here; it ends with 1 where
something differs.
"""
import argparse
import pathlib
import sys

sys.dont_write_bytecode = True

import drawings
import pagetables
from pagetables import more, signed

HERE = pathlib.Path(__file__).resolve().parent


def between(shares):
    """Returns the least and the greatest of some shares, in words."""
    low, high = f"{100 * min(shares):.0f}", f"{100 * max(shares):.0f}"
    return f"{low} %" if low == high else f"{low} to {high} %"


def times(ratios):
    low, high = (f"{ratio:.0f}" if ratio >= 10 else f"{ratio:.1f}" for ratio in (min(ratios), max(ratios)))
    return f"{low} to {high} times"


def listed(words):
    """Returns words as a list."""
    *most, last = words
    return f"{', '.join(most)} and {last}" if most else last


def outside(results):
    """Says how many of the outages that do harm lie outside of inferred regions."""
    harm = "".join(letter for fact in results.facts for letter in fact["strip"] if letter not in "nN")
    out = sum(letter.islower() for letter in harm)
    if out:
        return f"Of {len(harm)} that did harm {out} lie outside of inferred regions."
    return f"All {len(harm)} that did harm lie in inferred regions."


def foretold(results):
    """Says how many outages did what was worked out."""
    as_said, tried = (sum(fact[key] for fact in results.facts) for key in ("foretold", "tried"))
    if as_said == tried:
        return "Each of the outages that were tried did just that."
    return f"{as_said:,} of the outages that were tried did just that; behind the others the run goes another way, since its sensors change."


def inside(results):
    """Says which share of the steps in inferred regions an outage does harm at."""
    shares = {}
    for fact in results.facts:
        within = [letter for letter in fact["strip"] if letter.isupper()]
        shares[fact["app"]] = sum(letter != "N" for letter in within) / max(1, len(within))
    said = ", ".join(f"{100 * share:.0f} % in `{app}`" for app, share in shares.items())
    rest = "the rest are waits and work before the first reading or behind the last one"
    return f"Of the steps in inferred regions an outage does harm behind {said}: {rest}."


def turns(results):
    """Says in which applications turns aren't enough."""
    refused = [f"`{fact['app']}`" for fact in results.facts if fact["check_turns"] != "safe"]
    by_hand = [row for row in results.sums if row["version"] == "turns"]
    broken = {app: sum(row["broken"] for row in by_hand if row["app"] == app) for app in results.apps}
    total = sum(broken.values())
    if not total:
        return "Turns break nothing here."
    where = listed([f"`{app}`" for app in results.apps if broken[app]])
    why = f"readings are taken outside of the main loop there too, and `check` refuses {listed(refused)}"
    return f"Turns by hand break in {total} runs, of {where}: {why}."


def cheaper(results):
    """Says where a turn as one region costs less than the inferred regions."""
    costs = [(app, *(more(results.of(app, version, 0, "none")) for version in ("ocelot", "turns"))) for app in results.apps]
    found = [f"`{app}` ({signed(small)} against {signed(turn)})" for app, small, turn in costs if turn < small - 0.0005]
    if not found:
        return "Here they cost as much as whole turns at most."
    return f"The inferred ones cost more than each turn as one region in {listed(found)}."


def numbers(results):
    """Returns the numbers of the prose."""
    tight = [results.of(app, "plain", 1, "radio tight", "light tight") for app in results.apps]
    one = [results.of(app, "plain", 1, "one") for app in results.apps]
    facts = results.facts
    return {
        "tried": f"{sum(fact['tried'] for fact in facts):,}",
        "tight": between([row["broken"] / row["runs"] for row in tight]), "exposed": between([row["broken"] / row["runs"] for row in one]),
        "stacks": max(fact["stack"] for fact in facts), "slack": times([fact["safe"] / fact["least_ocelot"] for fact in facts]),
        "carries": times([fact["carries"] / fact["least_ocelot"] for fact in facts]),
        "suffice": times([fact["suffice"] / fact["periods"] for fact in facts]),
        "periods": times([(fact["total"] + 1) / fact["periods"] for fact in facts]),
    }  # fmt: skip


def page(results, template):
    """Returns the page."""
    filled = {
        "plainest": pagetables.plainest(results), "breaks": pagetables.breaks(results), "judged": pagetables.judged(results),
        "continuous": pagetables.continuous(results), "harvest_tight": pagetables.harvested(results, "tight"),
        "harvest_roomy": pagetables.harvested(results, "roomy"), "bounds": pagetables.bounds(results), "written": pagetables.written(results),
        "code": pagetables.code(results), "filtered": pagetables.filtered(results, "tire"),
        "outside": outside(results), "foretold": foretold(results),
        "inside": inside(results), "turns": turns(results), "cheaper": cheaper(results),
    }  # fmt: skip
    return template.format(**filled, **numbers(results))


def made(results):
    """Returns what is written, by the names of the files."""
    template = (HERE / "page.template").read_text()
    return {"README.md": page(results, template), "exposure.svg": drawings.exposure(results), "overhead.svg": drawings.overhead(results)}


def differing(results):
    """Yields what differs from what is made of the results."""
    for name, text in made(results).items():
        if not (HERE / name).exists() or (HERE / name).read_text() != text:
            yield f"evaluation/{name}"
    if pagetables.plainest(results) not in (HERE.parent / "README.md").read_text():
        yield "the table of README.md"


def main():
    parser = argparse.ArgumentParser(description="Writes the page of the evaluation and its drawings.")
    parser.add_argument("--compare", action="store_true", help="write nothing, and say what differs")
    results = pagetables.Results(HERE)
    if parser.parse_args().compare:
        found = list(differing(results))
        print("\n".join([f"{one}: differs" for one in found] or ["page: all as the summary has it"]))
        return 1 if found else 0
    for name, text in made(results).items():
        (HERE / name).write_text(text)
    return 0


if __name__ == "__main__":
    sys.exit(main())
