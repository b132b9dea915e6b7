#!/usr/bin/env python3
"""Prints a source, or an honest report of it with up to N bytes: reports.py KIND [N]; reports.py alone lists the kinds."""
import itertools
import sys


def attempts():
    """attempts of a region, of which four in five are aborted"""
    yield """sensor s;
port r;
nv sum: i32 = 0;
nv count: i32 = 0;
fn main() {
    for i in 0..65535 {
        let x = sense(s);
        Fresh(x);
        sum = sum + x;
        count = count + 1;
        emit(r, x);
    }
}
"""
    for turn in itertools.count():
        for x in range(4):
            yield from ("enter 1", f"sense s {x}", "use 4", "done 4", "abort 1", "off 7")
        yield from ("enter 1", f"sense s {turn}", "use 4", "done 4", "use 6", f"emit r {turn}", "done 6", "commit 1")


def sums():
    """sums of all samples so far, with an outage behind each hundredth"""
    yield """sensor s;
port r;
fn main() {
    let mut sum = 0;
    for i in 0..65535 {
        for j in 0..100 {
            let x = sense(s);
            sum = sum + x;
            emit(r, sum);
        }
    }
}
"""
    for count in itertools.count(1):
        yield from ("sense s 1", f"emit r {count}")
        if count % 100 == 0:
            yield "off 7"


def silent():
    """the end of a run of 150 million silent turns"""
    yield "fn main() { for i in 0..5000 { for j in 0..30000 { } } }\n"
    yield "end"


def waits():
    """aborted attempts of a region with 60,000 silent turns before its first output"""
    yield """sensor s;
port r;
fn main() {
    let a = sense(s);
    Fresh(a);
    for i in 0..60000 { }
    emit(r, a);
}
"""
    while True:
        yield from ("enter 1", "sense s 0", "use 4", "abort 1", "off 1")


def passes():
    """regions with 64 silent turns each"""
    yield """sensor s;
port r;
fn main() {
    for h in 0..50 {
        for i in 0..60000 {
            let a = sense(s);
            Fresh(a);
            for j in 0..64 { }
            emit(r, a);
        }
    }
}
"""
    while True:
        yield from ("enter 1", "sense s 0", "use 6", "emit r 0", "done 6", "commit 1")


def tags():
    """tags of statements behind 8,000 others"""
    others = "".join(f"x = {k % 10}; " for k in range(7999))
    yield f"""fn g() {{ let mut x = 0; {others}}}
fn main() {{
    for i in 0..65000 {{
        for j in 0..1000 {{
            let a = 1;
            Consistent(a, 1);
            Consistent(a, 1);
        }}
    }}
}}
"""
    while True:
        yield from ("tag 8004", "tag 8005")


def outputs():
    """outputs with 240 names in scope"""
    nonvolatile = "".join(f"nv n{k}: i32 = 0;\n" for k in range(64))
    lets = "".join(f"    let v{k} = {k};\n" for k in range(180))
    yield f"""port r;
{nonvolatile}fn main() {{
{lets}    for i in 0..60000 {{
        for j in 0..1000 {{
            let a = 1;
            let b = 2;
            let c = 3;
            emit(r, a);
        }}
    }}
}}
"""
    while True:
        yield "emit r 1"


KINDS = [attempts, sums, silent, waits, passes, tags, outputs]


def main():
    if len(sys.argv) not in (2, 3):
        sys.exit("\n".join([__doc__.strip(), *(f"    {kind.__name__}: {kind.__doc__}" for kind in KINDS)]))
    told = {kind.__name__: kind for kind in KINDS}[sys.argv[1]]()
    source = next(told)
    if len(sys.argv) == 2:
        print(source, end="")
        return
    room = int(sys.argv[2])
    for tick, what in enumerate(told, 1):
        line = f"{tick} {what}\n"
        room -= len(line)
        if room < 0:
            break
        sys.stdout.write(line)


if __name__ == "__main__":
    main()
