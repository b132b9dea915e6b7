"""The tables of the page, from summary.csv and applications.csv."""
import collections
import csv
import math

from runs import VERSIONS

SUPPLIES = ("radio tight", "radio roomy", "light tight", "light roomy")


def read(path):
    """Returns the rows of a file, with numbers where there are numbers."""
    with path.open(newline="") as file:
        return [{key: int(value) if value.lstrip("-").isdigit() else value for key, value in row.items()} for row in csv.DictReader(file)]


class Results:
    """What was measured: sums of runs, and what is known of each application."""

    def __init__(self, folder):
        self.sums, self.facts = read(folder / "summary.csv"), read(folder / "applications.csv")
        self.apps = [row["app"] for row in self.facts]
        self.by = collections.defaultdict(list)
        for row in self.sums:
            self.by[row["app"], row["version"], row["probes"], row["family"]].append(row)

    def of(self, app, version, probes, *families):
        """Returns the sum over all runs of an application and version under some families of supplies."""
        return added([row for family in families for row in self.by[app, version, probes, family]])


def added(rows):
    """Returns the sums of rows; the greatest of what is oldest and widest."""
    total = collections.Counter()
    for row in rows:
        for key, value in row.items():
            if key in ("oldest", "widest"):
                total[key] = max(total[key], value)
            elif key not in ("app", "version", "probes", "family", "length"):
                total[key] += value
    return total


def table(heads, rows):
    lines = ["| " + " | ".join(heads) + " |", "|" + "---|" * len(heads)]
    return "\n".join(lines + ["| " + " | ".join(map(str, row)) + " |" for row in rows])


def percent(part, whole):
    if not whole:
        return "-"
    share = 100 * part / whole
    return f"{share:.0f} %" if share >= 10 or share == 0 or share < 0.05 else f"{share:.1f} %"


def more(row):
    """Returns the steps that runs took for each instruction of the plain program over the same readings, less one."""
    return row["on"] / row["instructions"] - 1 if row["instructions"] else math.nan


def signed(share):
    return "-" if math.isnan(share) else f"{100 * share:.1f} %"


def plainest(results):
    """For each application: where power may fail without harm, what breaks without regions and with them, and the price."""
    heads = [
        "application", "steps of a run", "behind which power may fail without harm",
        "runs that break, plain", "with regions", "steps more for regions",
    ]  # fmt: skip
    rows = []
    for fact in results.facts:
        plain, regions = (results.of(fact["app"], version, 1, *SUPPLIES) for version in ("plain", "ocelot"))
        harmless = f"{fact['harmless']} ({percent(fact['harmless'], fact['steps'])})"
        broken = [percent(row["broken"], row["runs"]) for row in (plain, regions)]
        rows.append([fact["app"], fact["steps"], harmless, *broken, signed(more(results.of(fact["app"], "ocelot", 0, "none")))])
    return table(heads, rows)


def breaks(results):
    """The shares of runs that break an annotation, of stale uses and of split sets."""
    rows = []
    for app in results.apps:
        one = results.of(app, "plain", 1, "one")
        row = [app, percent(one["broken"], one["runs"])]
        for family in (*SUPPLIES, "constant"):
            found = results.of(app, "plain", 1, family)
            row.append(f"{percent(found['broken'], found['runs'])} ({found['outages'] / max(1, found['runs']):.0f})")
        plain, regions = (results.of(app, version, 1, *SUPPLIES) for version in ("plain", "ocelot"))
        row += [percent(plain["stale"], plain["uses"]), percent(plain["split"], plain["sets"])]
        rows.append(row + [f"{found['oldest']}/{found['widest']}" for found in (plain, regions)])
    heads = [
        "application", "one outage, at each step", *(f"{family} (outages)" for family in SUPPLIES), "constant periods",
        "stale uses", "split sets", "oldest/widest, plain", "oldest/widest, regions",
    ]  # fmt: skip
    return table(heads, rows)


def judged(results):
    """What the judge and `audit` say of each version."""
    rows = []
    for version in VERSIONS:
        judged_runs = added([row for row in results.sums if row["version"] == version and row["probes"]])
        everything = added([row for row in results.sums if row["version"] == version])
        audits = f"{everything['honest']} of {everything['audits']}" if everything["audits"] else "-"
        rows.append([version, *(judged_runs[key] for key in "runs broken stale uses split sets torn".split()), audits])
    heads = ["version", "runs", "that break", "stale uses", "of", "split sets", "of", "outages in regions that count", "audits: honest"]
    return table(heads, rows)


def continuous(results):
    """What regions cost while power lasts."""
    rows = []
    for app in results.apps:
        costs = [signed(more(results.of(app, version, 0, "none"))) for version in VERSIONS[1:]]
        rows.append([app, *costs, signed(more(results.of(app, "ocelot", 1, "none")))])
    return table(["application", "ocelot", "turns", "whole", "ocelot with probes"], rows)


def harvested(results, charge):
    """What regions cost on harvested power, over both sources of it; '-' where less than half of the runs end."""
    rows = []
    for app in results.apps:
        found = {version: results.of(app, version, 0, f"radio {charge}", f"light {charge}") for version in VERSIONS}
        row = [app, f"{found['plain']['outages'] / max(1, found['plain']['runs']):.1f}"]
        for version, sums in found.items():
            share = "" if sums["ended"] == sums["runs"] else f" ({percent(sums['ended'], sums['runs'])})"
            row.append((signed(more(sums)) if ends(sums) else "-") + share)
        for what in ("time", "again", "lost"):
            row.append(" / ".join(column(found[version], found["plain"], what) for version in VERSIONS[1:]))
        rows.append(row)
    heads = [
        "application", "outages, plain", *(f"steps: {version}" for version in VERSIONS),
        "time by plain's", "steps in broken attempts", "outputs of these a run",
    ]  # fmt: skip
    return table(heads, rows)


def ends(sums):
    """Says whether all runs end, as only then sums over them can be compared."""
    return 0 < sums["ended"] == sums["runs"]


def column(sums, plain, what):
    if not ends(sums):
        return "-"
    if what == "time":
        return f"{sums['ticks'] / plain['ticks']:.2f}" if ends(plain) else "-"
    return percent(sums["attempts"], sums["on"]) if what == "again" else f"{sums['lost'] / sums['runs']:.2f}"


def pairs(text):
    """Returns the numbers of a text like '1:18 2:40'."""
    return [tuple(map(int, one.split(":"))) for one in str(text).split()]


def bounds(results):
    """How tight the printed numbers are."""
    rows = []
    for fact in results.facts:
        longest = dict(pairs(fact["longest"]))
        budgets = ", ".join(f"{steps} ({longest.get(region, 'never outermost')})" for region, steps in pairs(fact["budgets"]))
        rows.append([
            fact["app"], fact["stack"], budgets, f"{fact['total']} ({fact['most']})",
            fact["safe"], f"{fact['carries']} ({fact['least_ocelot']})", f"{fact['suffice']} ({fact['periods']})",
            fact["least_plain"], fact["least_turns"], fact["least_whole"],
        ])  # fmt: skip
    heads = [
        "application", "stack words", "budgets (longest attempt)", "`total` (most instructions)", "`safe`",
        "`least` (least period found)", "periods of `safe` steps that suffice (most taken)", "least period found: plain", "turns", "whole",
    ]  # fmt: skip
    return table(heads, rows)


def written(results):
    """What was written."""
    rows = []
    for fact in results.facts:
        checks = " / ".join(fact[f"check_{what}"] for what in ("regions", "turns", "plain"))
        sizes = [fact[key] for key in "app lines annotations regions region_lines".split()]
        rows.append([*sizes, 2 * fact["blocks"], fact["reasons"], fact["logged"], checks])
    heads = [
        "application", "lines", "annotations", "regions", "lines in them", "braces by hand", "reasons", "words logged",
        "`check` of these blocks / of turns / of none",
    ]  # fmt: skip
    return table(heads, rows)


def code(results):
    rows = []
    for fact in results.facts:
        sizes = fact["code_plain"], fact["code_ocelot"] - fact["code_plain"], fact["code_probes"] - fact["code_ocelot"]
        rows.append([fact["app"], fact["functions"], fact["lines"], *sizes])
    return table(["application", "functions", "lines", "instructions", "more for regions", "more for probes"], rows)


def filtered(results, app):
    """By the length of periods: how many runs of an application end, how many sets count, and attempts broken off."""
    rows = []
    for row, plain in zip(results.by[app, "ocelot", 1, "constant"], results.by[app, "plain", 1, "constant"]):
        if row["ended"] + plain["ended"]:
            rows.append([row["length"], f"{row['ended']} of {row['runs']}", row["sets"], plain["sets"], row["aborts"]])
    return table(["steps in a period", "runs that end", "sets that count", "the same, plain", "attempts broken off"], rows)
