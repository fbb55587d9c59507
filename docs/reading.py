#!/usr/bin/env python3
"""Prints docs/READING.md: the definition files in the order of crates.txt and of each specs/Lib.antt, with their lengths, and how many of
them a reader of the headline's contracts has to believe. `docs/reading.py | diff - docs/READING.md` prints nothing where the page is up to
date."""
import functools
import glob
import os
import re

os.chdir(os.path.join(os.path.dirname(os.path.abspath(__file__)), ".."))

HEAD = """# The definitions to believe

A contract says no more than the definitions that it cites. They are the `.antt` files in each crate's `specs/`: here are all of them, in the order of [crates.txt](../crates.txt) and of each crate's `specs/Lib.antt`. What stands in `proofs/` need not be believed: the checker reads it.

This page is printed by [reading.py](reading.py): `docs/reading.py > docs/READING.md`.

## How much for which promise

The definitions that a contract names, those that these name, and so on, each with its comment; and how long the files are in which they stand. Beside them one has to read the types in `src/` that a contract names, with what they show of themselves to contracts (`ghost`), and to believe the toolchain's statements of std.
"""

# What is promised, and the calls whose contracts say so: a pattern for the crate, and the function.
PROMISES = [
    ("two endpoints over any links: each has heard a prefix of what the other said, each message once and in order, and keeps what is not acknowledged",
     [("ra_model", "pair")]),
    ("the same of a world of two endpoints in memory", [("ra_world", "run_world"), ("ra_world", "World::apply")]),
    ("the same of each client and its session at the server, in every run", [("ra_grand_laws", "both_ends")]),
    ("nothing is taken back in a run", [("ra_run_laws", "rising")]),
    ("each call settles at most once, by its own answer or cancel", [("ra_grand_laws", "settling")]),
    ("whatever others do, a client and its session are what they are alone", [("ra_isolation_laws", "isolation")]),
    ("what a grand world in memory does is such a run", [("ra_grand", "run_grand"), ("ra_grand", "GrandWorld::apply"), ("ra_run_laws", "accepted")]),
    ("the bytes, calls of the hub, jobs and end of one served connection", [("ra_link", "serve_link")]),
    ("what each command prints, and its status", [("ra_commands", "run_plain")]),
]

USE = re.compile(r"^\s*(?:ghost )?use Rattle\.(\w+)\.specs\.(\w+)(?:\.\w+)*?(?:\.\{(.*)\}| as (\w+))?;?\s*$", re.M)
HEADER = re.compile(r"(?:abbrev |unfoldable |pub |record |data )+(?!mod )(\w+)")
CONSTRUCTOR = re.compile(r"^  (\w+) : ")
CRATES = [line.split(":")[0] for line in open("crates.txt") if line.strip() and not line.startswith("#")]


def spec(crate, name):
    path = f"crates/{crate}/specs/{name}.antt"
    return path if os.path.exists(path) else None


def lines(path):
    return len(open(path).read().splitlines())


def about(path):
    """The first sentence of the comment that a file begins with."""
    words = []
    for line in open(path):
        if not line.startswith("-- "):
            break
        words.append(line[3:].strip())
    text = " ".join(words)
    return re.split(r"(?<=\.) ", text)[0]


def modules(crate):
    lib = f"crates/{crate}/specs/Lib.antt"
    return re.findall(r"^pub mod (\w+)", open(lib).read(), re.M) if os.path.exists(lib) else []


def contract(crate, call):
    """Where the public function is, and its contract: from its name to its body."""
    owner, _, name = call.rpartition("::")
    for path in sorted(glob.glob(f"crates/{crate}/src/**/*.rt", recursive=True)):
        source = open(path).read()
        found = re.search(rf"^impl {owner} .*?^( *)(pub fn {name}\b.*?)^\1\{{" if owner else rf"^( *)(pub fn {name}\b.*?)^\1\{{", source, re.M | re.S)
        if found:
            return source, found.group(2)
    return None


def words(text):
    """The names in a text, and those behind an alias with it."""
    return set(re.findall(r"\w+\.\w+|[^\W\d]\w*", re.sub(r"--.*", "", text)))


def imports(text):
    """Where the imported names of a text come from: a name alone, or behind an alias."""
    names, aliases = {}, {}
    for crate, file, listed, alias in USE.findall(text):
        if path := spec(crate, file):
            aliases.update({alias: path} if alias else {})
            names.update({name.split(" as ")[-1]: (path, name.split(" as ")[0]) for name in re.split(r", *", listed)})
    return names, aliases


@functools.cache
def blocks(path):
    """The definitions of a file: the lines of each, with the comment above it, by its name and by the names of its constructors."""
    text = [line for line in open(path).read().split("\n") if not line.startswith(("use ", "-- ----"))]
    heads = [n for n, line in enumerate(text) if HEADER.match(line)]
    starts = [next(m + 1 for m in range(n - 1, -2, -1) if m < 0 or not text[m].startswith("--")) for n in heads] + [len(text)]
    found = {}
    for n, start, end in zip(heads, starts, starts[1:]):
        block = tuple(line for line in text[start:end] if line)
        found.update({name: block for line in block for name in CONSTRUCTOR.findall(line)} if " data " in " " + text[n] else {})
        found[HEADER.match(text[n]).group(1)] = block
    return found


def reached(calls):
    """The definitions that the contracts of these calls reach: by file, the lines of each."""
    todo, places, seen = [], [], {}
    for pattern, name in calls:
        found = [(crate, contract(crate, name)) for crate in CRATES if re.fullmatch(pattern, crate)]
        found = [(crate, at) for crate, at in found if at]
        if len(found) != 1:
            raise SystemExit(f"{name}: in {[crate for crate, _ in found]}, where one crate has to have it")
        crate, (source, text) = found[0]
        places.append(f"`{crate}`'s `{name}`")
        todo.append((None, source, text))
    while todo:
        path, source, text = todo.pop()
        names, aliases = imports(source)
        for word in words(text):
            first, _, name = word.partition(".")
            target, name = (aliases[first], name) if first in aliases else names.get(first, (path, first))
            block = blocks(target).get(name) if target else None
            if block and block not in seen.setdefault(target, set()):
                seen[target].add(block)
                todo.append((target, open(target).read(), "\n".join(block)))
    return places, {path: sum(map(len, found)) for path, found in seen.items() if found}


def by_crate(files):
    counts = {crate: sum(n for path, n in files.items() if path.startswith(f"crates/{crate}/")) for crate in CRATES}
    return ", ".join(f"{crate} {n:,}" for crate, n in counts.items() if n)


print(HEAD)
print("| promise | contract | lines of definitions | of these in |\n|---|---|---|---|")
for promise, calls in PROMISES:
    places, files = reached(calls)
    print(f"| {promise} | {', '.join(places)} | {sum(files.values()):,}, in {len(files)} files of {sum(map(lines, files)):,} | {by_crate(files)} |")
for crate in CRATES:
    if modules(crate):
        print(f"\n## {crate}\n")
    for name in modules(crate):
        path = spec(crate, name)
        print(f"- [{name}](../{path}) ({lines(path)} lines): {about(path)}")
