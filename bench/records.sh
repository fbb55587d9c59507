#!/bin/bash
# Files of records, beside python's module sqlite3 and Debian's program sqlite3, where there is one:
# - appends a second to a file, one commit and one sync each, and those of the module with the journal mode WAL and full syncs;
# - the time of an append behind 1,000 and behind 100,000 records, and of an audit of 100,000;
# - how long the file and its log are while no keeper has copied the log back, and after one has;
# - what sqlite3 reads in the file: its check of the whole file, and its rows beside those of the audit;
# - what the audit answers to files that are none of records: each has to be refused, and to stay as it was (a log without a page may lie
#   beside it then).
# It ends with a status other than 0 where an answer is wrong. Give it a folder on the disk that is to be measured.
set -eu
top=$(cd "$(dirname "$0")/.." && pwd)
(cd "$top/crates/records_bench" && rt run >/dev/null 2>&1)
work=$(mktemp -d "${1:-/tmp}/records.XXXXXX")
trap 'rm -rf "$work"' EXIT

python3 - "$top/crates/records_bench/out/records_bench" "$work" <<'PYTHON'
import hashlib, os, re, shutil, sqlite3, subprocess, sys, time

program, work = sys.argv[1:]
program = shutil.copy(program, os.path.join(work, "program"))
TABLE = "CREATE TABLE IF NOT EXISTS kept (n INTEGER PRIMARY KEY, kind INTEGER NOT NULL, token TEXT NOT NULL, epoch INTEGER NOT NULL, moment INTEGER NOT NULL) STRICT"
INSERT = "INSERT INTO kept (n, kind, token, epoch, moment) VALUES (?1, ?2, ?3, ?4, ?5)"
TOKEN = "0123456789abcdef0123456789abcdef"

def place(name):
    return os.path.join(work, name)

def run(*words, as_nobody=False):
    front = ["setpriv", "--reuid=65534", "--regid=65534", "--clear-groups"] if as_nobody and os.geteuid() == 0 else []
    return subprocess.run([*front, program, *map(str, words)], capture_output=True)

def append(name, count):
    """The microseconds of reading the records that are there, and of adding so many."""
    said = run("append", place(name), count)
    found = re.fullmatch(rb"before=(\d+) added=(\d+) read_us=(\d+) added_us=(\d+)\n", said.stdout)
    if not found or int(found[2]) != count:
        sys.exit("%s: not all were added: %r" % (name, said))
    return int(found[3]), int(found[4])

def forget(name):
    for left in os.listdir(work):
        if left.startswith(name):
            os.remove(place(left))

def sizes(name):
    return ", ".join("%s %d bytes" % (left, os.path.getsize(place(left))) for left in sorted(os.listdir(work)) if left.startswith(name))

print("load average %.1f %.1f %.1f, %d cores" % (*os.getloadavg(), os.cpu_count()))

# ---- appends a second

def theirs(name, count):
    db = sqlite3.connect(place(name), isolation_level=None)
    db.execute("PRAGMA journal_mode=WAL")
    db.execute("PRAGMA synchronous=FULL")
    db.execute(TABLE)
    start = time.perf_counter()
    for n in range(1, count + 1):
        db.execute(INSERT, (n, 1, TOKEN, n, n))
    took = time.perf_counter() - start
    db.close()
    return took

COUNT = 5000
ours, module = [], []
for _ in range(9):
    forget("ours")
    forget("module")
    ours.append(append("ours", COUNT)[1] / 1e6)
    module.append(theirs("module", COUNT))
print("%d appends, the median of nine in turn: %.0f a second; python's module %.0f a second" % (COUNT, COUNT / sorted(ours)[4], COUNT / sorted(module)[4]))

# ---- behind few and many records

forget("few")
append("few", 1000)
few = min(append("few", 200)[1] for _ in range(12)) / 200
forget("many")
append("many", 100000)
many = min(append("many", 200)[1] for _ in range(12)) / 200
print("an append behind some 1,000 records: %.1f us; behind some 100,000: %.1f us" % (few, many))

start = time.perf_counter()
said = run("audit", place("many"))
took = time.perf_counter() - start
lines = said.stdout.splitlines()
if said.returncode != 0 or lines[-1] != b"end records=%d" % (len(lines) - 1) or len(lines) < 100001:
    sys.exit("the audit is wrong: %r" % said.returncode)
print("an audit of %d records: %.0f ms" % (len(lines) - 1, took * 1000))

# ---- the log

print("dropped: " + sizes("many"))
if run("close", place("many")).stdout != b"closed=true\n":
    sys.exit("not closed")
print("closed: " + sizes("many"))
if run("audit", place("many")).stdout.splitlines() != lines:
    sys.exit("the audit of the closed file differs")

# ---- what others read

def rows_of(audit):
    kinds = {b"management": 1, b"host": 2}
    rows = []
    for line in audit[:-1]:
        n, kind, token, epoch, moment = line.split(b" ")
        rows.append((int(n), kinds[kind], token.decode(), int(epoch), int(moment)))
    return rows

for state in ("closed", "dropped"):
    if state == "dropped":
        append("many", 10)
        lines = run("audit", place("many")).stdout.splitlines()
    copy = place("copy")
    forget("copy")
    for left in os.listdir(work):
        if left.startswith("many"):
            shutil.copy(place(left), copy + left[len("many"):])
    db = sqlite3.connect(copy)
    if db.execute("PRAGMA integrity_check").fetchall() != [("ok",)]:
        sys.exit("python's module finds the file damaged")
    if db.execute("SELECT n, kind, token, epoch, moment FROM kept ORDER BY n").fetchall() != rows_of(lines):
        sys.exit("python's module reads other rows")
    db.close()
    print("%s: python's module (SQLite %s) finds the file ok, and the rows of the audit" % (state, sqlite3.sqlite_version))
    if shutil.which("sqlite3"):
        said = subprocess.run(["sqlite3", copy, "PRAGMA integrity_check; SELECT count(*), max(n), sum(epoch) FROM kept;"], capture_output=True, text=True)
        rows = rows_of(lines)
        if said.stdout != "ok\n%d|%d|%d\n" % (len(rows), rows[-1][0], sum(row[3] for row in rows)):
            sys.exit("sqlite3 reads something else: %r" % said)
        print("%s: sqlite3 finds the file ok, and as many rows" % state)

# ---- what is refused

def made(name, *rows, table=TABLE):
    db = sqlite3.connect(place(name), isolation_level=None)
    db.execute(table)
    for row in rows:
        db.execute("INSERT INTO kept VALUES (%s)" % ", ".join("?" * len(row)), row)
    db.close()

def state_of(name):
    state = {}
    for left in sorted(os.listdir(work)):
        if left.startswith(name):
            it = place(left)
            state[left] = "folder" if os.path.isdir(it) else hashlib.sha256(open(it, "rb").read()).hexdigest()
    return state

def refuses(what, name, as_nobody=False):
    """It is refused, and stays as it was; where it had no log, one without a page may lie beside it then."""
    before = state_of(name)
    said = run("audit", place(name), as_nobody=as_nobody)
    if (said.returncode, said.stdout) != (10, b"refused: records\n"):
        sys.exit("%s: status %d, %r" % (what, said.returncode, said.stdout[:200]))
    after = state_of(name)
    log = name + "-wal"
    is_new = log in after and log not in before
    if is_new and os.path.getsize(place(log)) < 512:
        del after[log]
    if after != before:
        sys.exit("%s: changed: %r, before %r" % (what, after, before))
    print("refused, and as it was: %s%s" % (what, ", beside a new log without a page" if is_new else ""))

with open(place("text"), "w") as file:
    file.write("no database\n" * 1000)
refuses("a file that is no database", "text")
os.mkdir(place("folder"))
refuses("a folder", "folder")
made("shut", (1, 1, "t1", 1, 0))
os.chmod(place("shut"), 0)
os.chmod(work, 0o755)
refuses("a file without rights", "shut", as_nobody=True)
made("turn", (1, 1, "t1", 1, 0), (3, 1, "t2", 1, 0))
refuses("a row out of turn", "turn")
made("kind", (1, 3, "t1", 1, 0))
refuses("a kind that is none", "kind")
made("token", (1, 1, "t" * 257, 1, 0))
refuses("a token of 257 bytes", "token")
made("epoch", (1, 1, "t1", -1, 0))
refuses("an epoch below 0", "epoch")
made("moment", (1, 1, "t1", 1, 2 ** 53))
refuses("a moment of 2^53", "moment")
made("more", (1, 1, "t1", 1, 0))
sqlite3.connect(place("more")).executescript("CREATE TABLE other (a INTEGER)").connection.close()
refuses("a second table", "more")
made("other", table="CREATE TABLE kept (n INTEGER PRIMARY KEY)")
refuses("another table of that name", "other")

made("good", (1, 1, "t" * 256, 1, 2 ** 53 - 1), (2, 2, "t" * 256, 1, 0))
said = run("audit", place("good"))
if said.returncode != 0 or said.stdout.splitlines()[-1] != b"end records=2":
    sys.exit("a table of SQLite's own is not read: %r" % said)
print("read: two records of SQLite's own, with tokens of 256 bytes")
PYTHON
