"""What is known of an application besides its runs: what was written, how tight its numbers are, how many of its steps are exposed."""
import subprocess

import judge
import runs
import world
from blocks import regions_of, with_blocks
from imagefile import Image
from runs import ANNOTATION, VERSIONS, asked

STILL = 5  # sensor files in which each sensor shows one value
FIRST = 5  # lengths of the first period, for each length of the others


def by_hand(source):
    """Returns a source with a block around each turn of the outermost loops `for` of main."""
    start = source.index("fn main")
    text, depth, ends = source[:start], 0, []
    for at in range(start, len(source)):
        one = source[at]
        depth += (one == "{") - (one == "}")
        head = source[source.rfind("\n", 0, at) + 1 : at]
        if one == "{" and depth == 2 and head.strip().startswith("for "):
            text += "{ atomic {"
            ends.append(depth)
        elif one == "}" and ends and ends[-1] == depth + 1:
            text += "} }"
            ends.pop()
        else:
            text += one
    return text


def checked(app, text):
    """Says whether `check` finds blocks sufficient."""
    file = app.folder / "hand.oc"
    file.write_text(text)
    return "safe" if asked("check", file).stdout == b"safe\n" else "no"


def ends(app, version, length):
    """Says whether all runs end that are tried with periods of a length."""
    for first in sorted({1 + k * length // FIRST for k in range(FIRST)} | {length}):
        power = app.power([(first, world.APART)] + [(length, world.APART)] * app.enough(length))
        for place in range(STILL):
            if asked("exec", app.file(version, True), app.folder / f"still-{place}", power).returncode:
                return False
    return True


def least(app, version):
    """Returns the least length from which on periods of that length end all runs that were tried.

    The sensors stay at one value each, so that an attempt that was broken off isn't shorter by luck the next time.
    """
    low, high = 1, app.safe if version in ("plain", "ocelot") else 2 * app.total
    while low < high:
        middle = (low + high) // 2
        low, high = (low, middle) if ends(app, version, middle) else (middle + 1, high)
    above = [length for length in range(low, low + 8) if not ends(app, version, length)]
    return max(above) + 1 if above else low


def bounds(app, scale):
    """Yields for each version the least period that was found."""
    for place in range(STILL):
        (app.folder / f"still-{place}").write_text(world.still_file(app.name, place))
    yield {"app": app.name} | {f"least_{version}": least(app, version) for version in VERSIONS}


def suffice(app):
    """Returns what examples/periods.py says: from which length on a period carries a run, and how many of `safe` steps suffice."""
    script = runs.HERE.parent / "examples" / "periods.py"
    said = subprocess.run([script, app.path, str(app.safe)], check=True, stdout=subprocess.PIPE, text=True).stdout
    numbers = dict(line.rsplit(" ", 1) for line in said.splitlines())
    return {"carries": int(numbers["least"]), "suffice": int(numbers["periods that suffice"])}


def periods_used(app, scale):
    """Returns how many periods of `safe` steps a run took at most."""
    power = app.power([(app.safe, world.APART)] * min(app.total + 1, 20_000))
    done = [asked("exec", app.file("ocelot", True), app.sensors(seed), power) for seed in range(scale.sensors)]
    assert all(one.returncode == 0 for one in done)
    return 1 + max(one.stdout.count(b" off ") for one in done)


def most_instructions(app, scale):
    """Returns the most instructions of a run without outages, those of regions and probes among them."""
    return max(runs.marked(app, "ocelot", seed).executed for seed in range(scale.sensors))


def exposed(app):
    """Returns how many steps the plain program takes over one file, and behind how many of them an outage does no harm."""
    whole, spans = runs.run(app, "plain", True, "none", 0, 0, world.steady())
    behind = whole.on - 1
    return {"steps": behind, "harmless": behind - len(judge.harmful(spans))}


def written(app):
    """What was written, in lines."""
    code = [line for line in app.source.splitlines() if line.strip() and not line.strip().startswith("//")]
    blocks = with_blocks(app.source, regions_of(app.path))
    fields = [tuple(map(int, region[5].split(".."))) for region in app.regions]
    return {
        "lines": len(code), "functions": app.source.count("fn "), "annotations": len(ANNOTATION.findall(app.source)),
        "regions": len(app.regions), "region_lines": sum(last - first + 1 for first, last in fields),
        "blocks": blocks.count("atomic {"), "reasons": "; ".join(app.reasons),
        "check_regions": checked(app, blocks), "check_turns": checked(app, by_hand(app.source)), "check_plain": checked(app, app.source),
    }  # fmt: skip


def effort(app, scale):
    """Yields what was written, what `regions` prints, and what runs come to."""
    sizes = {version: len(app.image(version, False).code) for version in ("plain", "ocelot")}
    yield {
        "app": app.name, **written(app), **exposed(app), "stack": app.stack, "total": app.total, "safe": app.safe,
        "budgets": " ".join(f"{region[1]}:{region[-1]}" for region in app.regions),
        "logged": sum(int(region[7]) for region in app.regions),
        "code_plain": sizes["plain"], "code_ocelot": sizes["ocelot"], "code_probes": len(Image(app.data).code),
        **suffice(app), "periods": periods_used(app, scale), "most": most_instructions(app, scale),
    }  # fmt: skip
