#!/usr/bin/env python3
"""Checks README.md and docs/*.md against the repository, prints what is missing, and ends with status 1 where something is."""
import glob
import os
import re
import subprocess
import sys
from collections import defaultdict

os.chdir(os.path.join(os.path.dirname(os.path.abspath(__file__)), ".."))

CRATES = [line.split(":")[0] for line in open("crates.txt") if line.strip() and not line.startswith("#")]
SOURCES = {path: open(path).read() for path in glob.glob("crates/*/src/**/*.rt", recursive=True)}
DEFINITIONS = [open(path).read() for path in glob.glob("crates/*/specs/*.antt") + glob.glob("bench/*")]
WORDS = set(re.findall(r"\w+", " ".join(list(SOURCES.values()) + DEFINITIONS + CRATES)))
missing = []


def crate_of(path):
    return path.split("/")[1]


# ---- what the sources have: for each crate and function its clauses, by the type and by the module in which it stands
clauses = defaultdict(set)
types = defaultdict(set)
for path, source in SOURCES.items():
    module, owner, function = os.path.basename(path)[:-3], None, None
    for line in source.split("\n"):
        if found := re.match(r"(?:pub )?(?:impl|trait)\b(?:<.*?>)? ?(?:\w+(?:<.*?>)? for )?(\w+)", line):
            owner = found.group(1)
        if found := re.match(r"(?:pub(?:\(crate\))? )?(?:struct|enum|trait) (\w+)", line):
            types[found.group(1)].add(path)
        if line.startswith("}"):
            owner = function = None
        if found := re.match(r"\s*(?:pub(?:\(crate\))? )?(?:fn|const) (\w+)", line):
            function = found.group(1)
            for name in (None, owner, module):
                clauses[crate_of(path), name, function]
        elif re.match(r"\s*\{\}?$", line):
            function = None
        for clause in re.findall(r"ensures (\w+) \{", line) if function else []:
            for name in (None, owner, module):
                clauses[crate_of(path), name, function].add(clause)


def find(call, crate=None):
    """The clauses of a call, as `Type::method`, `module::function`, `crate::module::function` or `function`; None where it is nowhere."""
    parts = re.sub(r"<.*?>", "", call).removesuffix("()").split("::")
    if parts[0] in CRATES:
        crate, parts = parts[0], parts[1:]
    name, owner = parts[-1], parts[-2] if len(parts) > 1 else None
    found = [c for (k, o, f), c in clauses.items() if (o, f) == (owner, name) and (crate is None or k == crate)]
    if found:
        return set.union(*found)
    inside = [path for path in types[owner or name] if crate is None or crate_of(path) == crate]
    return set() if any(re.search(rf"\b{name}\b", SOURCES[path]) for path in inside) else None


def check_word(where, word):
    """A crate, a path of a file, or a call in back quotes."""
    if "NAME" in word:
        return
    if re.fullmatch(r"ra_\w+", word):
        if word not in CRATES:
            missing.append(f"{where}: no crate {word}")
    elif re.fullmatch(r"[\w.*/-]+", word) and (re.match(r"(crates|docs|bench|ra_\w+)/", word) or re.search(r"\w\.(rt|antt|md|sh|py|rs|grand|txt)$", word)):
        folders = ("", "docs/", "crates/", "crates/*/", "crates/*/src/", "crates/*/specs/")
        if not any(glob.glob(folder + word + ending) for folder in folders for ending in ("", ".antt", ".rt")):
            missing.append(f"{where}: no file {word}")
    elif re.fullmatch(r"\w+(<.*>)?(::\w+(<.*>)?)+(\(\))?", word) and not word.startswith("std::"):
        if find(word) is None:
            missing.append(f"{where}: no {word}")
    elif re.fullmatch(r"[a-z]+(_[a-z]+)+", word) and word not in WORDS:
        missing.append(f"{where}: {word} is nowhere in the sources")


EDITS = set(glob.glob("crates/*/must-fail/*.edit"))
tried = set()


def check_index(where, line):
    """A row of INDEX.md: behind the name of a crate stand its definitions, its files and its edits, each in back quotes."""
    crate = None
    for name, word in re.findall(r"\b(ra_\w+|\w+_tests)\b|`([^`]+)`", line):
        crate = name or crate
        if name and name not in CRATES:
            missing.append(f"{where}: no crate {name}")
        edit = f"crates/{crate}/must-fail/{word}.edit"
        if edit in EDITS:
            tried.add(edit)
        elif word and crate and not any(os.path.exists(f"crates/{crate}/{it}") for it in (f"specs/{word}.antt", f"src/{word}", f"src/{word}.rt")):
            missing.append(f"{where}: {crate} has no {word}")


# ---- the pages, and the clauses that PROVED.md names of each call
named = defaultdict(set)
for page in ["README.md"] + sorted(glob.glob("docs/*.md")):
    code = crate = None
    for number, line in enumerate(open(page), 1):
        where = f"{page}:{number}"
        if line.startswith("```"):
            code = not code
        if code or line.startswith("    "):
            continue
        for target in re.findall(r"\]\(([^)#]+)[^)]*\)", line):
            if "://" not in target and not os.path.exists(os.path.join(os.path.dirname(page), target)):
                missing.append(f"{where}: no file {target}")
        if page == "docs/INDEX.md" and line.startswith("| "):
            check_index(where, line)
            continue
        for word in re.findall(r"`([^`]+)`", line):
            check_word(where, word)
        if page == "docs/PROVED.md" and line.startswith("#"):
            crate = line.strip("# \n").split(",")[0]
        cells = line.split(" | ")
        for part in cells[1].split(";") if crate in CRATES and len(cells) > 1 else []:
            calls, _, names = part.partition("`:")
            for call in re.findall(r"`([^`]+)", calls):
                named[page, crate, call] |= set(re.findall(r"`([^`]+)`", names))

for (page, crate, call), names in named.items():
    has = find(call, crate)
    if has is None:
        missing.append(f"{page}: no {call} in {crate}")
    else:
        missing += [f"{page}: {call} of {crate} has no clause {name}" for name in names - has]
        missing += [f"{page}: no row names the clause {name} of {call} of {crate}" for name in has - names]

missing += [f"docs/INDEX.md: no row names {edit}" for edit in sorted(EDITS - tried)]

for made, by in (("docs/READING.md", "docs/reading.py"), ("docs/CALLING.md", "docs/calling.py")):
    if subprocess.run([by], capture_output=True, text=True).stdout != open(made).read():
        missing.append(f"{made}: not what {by} prints")

# ---- each crate has its place
headings = set(re.findall(r"\w+", " ".join(re.findall(r"(?m)^#+ (.*)", open("docs/PROVED.md").read()))))
rows = set(re.findall(r"`(\w+)`", " ".join(re.findall(r"(?m)^\| (.*?) \|", open("docs/ARCHITECTURE.md").read()))))
for name in CRATES:
    if name not in headings:
        missing.append(f"docs/PROVED.md: no heading for {name}")
    if name not in rows:
        missing.append(f"docs/ARCHITECTURE.md: no row for {name}")

print("\n".join(missing) if missing else "nothing is missing")
sys.exit(1 if missing else 0)
