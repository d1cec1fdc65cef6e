"""Tries `maxsurvey --file` on real files, beside Python's own sqlite3.

usage: python3 tests/survey_file.py MAXDETECT MAXSURVEY      (the built programs)

Catalogues are made by `maxdetect detect` of `examples/star_field.py`. What is tried: a second process lists what a
first one added; Python's sqlite3 opens the file, finds it sound, and decodes each blob to the cells of the catalogue;
two processes add to one file at once; a process is killed at many moments of a series of adds; a table `source` of
another form stays as it is; what else may stand in the database; and files that can't be used give status 6. Only
Python's own library is needed. Exit status 1 where an answer differs.
"""
import os
import pathlib
import shutil
import signal
import sqlite3
import struct
import subprocess
import sys
import tempfile
import time

TOP = pathlib.Path(__file__).resolve().parent.parent
sys.path.insert(0, str(TOP / "scripts"))
from columns import listed  # noqa: E402

BLOCK = 2880
# A row in a catalogue, and in a survey.
COLUMNS = listed("CATALOGUE")
ROW = struct.Struct(">" + "".join({"J": "i", "K": "q"}[column.form] for column in COLUMNS))
CELLS = struct.Struct(f">{len(COLUMNS)}q")
SCHEMA = "CREATE TABLE IF NOT EXISTS source (field TEXT NOT NULL PRIMARY KEY, cells BLOB NOT NULL) STRICT"
KILLS, EACH = 20, 8
# What another program may have put into the database: with each of the first the program works, and with none of the
# others.
TAKEN = """
    CREATE INDEX i ON source (field)
    CREATE UNIQUE INDEX i ON source (field DESC, cells)
    CREATE INDEX i ON source (field COLLATE NOCASE)
    CREATE TABLE t (a CHECK (a > 0), b DEFAULT (datetime('now')), c AS (a + 1) STORED)
    CREATE TABLE t (a INTEGER PRIMARY KEY AUTOINCREMENT)
    CREATE TABLE t (a PRIMARY KEY) WITHOUT ROWID
    CREATE TABLE t (a, b); CREATE INDEX i ON t (a) WHERE b > 1; CREATE INDEX j ON t (a + b)
    CREATE TABLE t (a TEXT); CREATE TRIGGER r AFTER INSERT ON t BEGIN INSERT INTO source VALUES (new.a, x''); END
    CREATE VIEW v AS SELECT count(*) FROM source AS a LEFT JOIN source AS b USING (field) GROUP BY field ORDER BY 1
    CREATE TABLE t (a REFERENCES source (field))
    PRAGMA journal_mode = WAL
    ANALYZE
"""
STRANGE = """
    CREATE INDEX i ON source (field) WHERE field > 'M'
    CREATE INDEX i ON source (length(cells))
    CREATE TRIGGER r AFTER INSERT ON source BEGIN SELECT 1; END
    CREATE VIEW v AS SELECT field FROM source; CREATE TRIGGER r INSTEAD OF INSERT ON v BEGIN SELECT 1; END
    CREATE VIEW v AS SELECT row_number() OVER (ORDER BY field) FROM source
    CREATE VIEW v AS VALUES (1), (2)
    CREATE VIEW v AS SELECT count(*) FILTER (WHERE field > 'M') FROM source
    CREATE VIEW v AS SELECT * FROM source AS one FULL JOIN source AS other USING (field)
    CREATE VIEW v AS SELECT * FROM json_each('[1]')
    CREATE TABLE t (a REFERENCES source (field)); INSERT INTO t VALUES ('NONE')
"""
# What stands in front of the table: whether the program works then.
BEFORE = {
    **{f"PRAGMA page_size = {size}": True for size in (512, 1024, 8192, 32768, 65536)},
    "PRAGMA auto_vacuum = FULL": False,
    "PRAGMA auto_vacuum = INCREMENTAL": False,
    "PRAGMA encoding = 'UTF-16le'": False,
}


class Wrong(Exception):
    """An answer that isn't the one that was wanted."""


def want(what, got, wanted):
    if got != wanted:
        raise Wrong(f"{what}: {got!r}, not {wanted!r}")


# ---- catalogues


def detect(maxdetect, size, seed):
    """The catalogue of a star field."""
    field = subprocess.run(
        [sys.executable, TOP / "examples" / "star_field.py", str(size), str(size), str(seed)],
        stdout=subprocess.PIPE,
        check=True,
    )
    words = ["detect", "--threshold", "60", "--min-area", "5", "--mesh", "64", "--connect", "8"]
    return subprocess.run([maxdetect, *words], input=field.stdout, stdout=subprocess.PIPE, check=True).stdout


def header_end(data, start):
    """The place behind the header that starts here, and its cards' values by keyword."""
    cards, place = {}, start
    while data[place : place + 80].rstrip() != b"END":
        card = data[place : place + 80].decode("ascii")
        cards.setdefault(card[:8].strip(), card[10:].split("/")[0].strip())
        place += 80
    return start + -(-(place + 80 - start) // BLOCK) * BLOCK, cards


def catalogue_rows(data):
    """The rows of the catalogue, which is HDU 2."""
    place, cards = 0, {}
    for _ in range(2):
        place, cards = header_end(data, place)
        size = abs(int(cards["BITPIX"])) // 8 if int(cards["NAXIS"]) else 0
        for axis in range(int(cards["NAXIS"])):
            size *= int(cards[f"NAXIS{axis + 1}"])
        place += -(-size // BLOCK) * BLOCK
    place, cards = header_end(data, place)
    return [ROW.unpack_from(data, place + ROW.size * row) for row in range(int(cards["NAXIS2"]))]


def line(field, data):
    """What `list` prints of the field."""
    rows = catalogue_rows(data)
    return f"{field} {len(rows)} {sum(row[4] for row in rows)}\n"


# ---- the program and the file


def survey(maxsurvey, words, data=b"", **more):
    """Status, output and notes."""
    done = subprocess.run([maxsurvey, *words], input=data, stdout=subprocess.PIPE, stderr=subprocess.PIPE, **more)
    return done.returncode, done.stdout.decode("ascii"), done.stderr.decode("ascii")


def records(path):
    """The rows of each field, as Python's sqlite3 reads them, from a file that it finds sound."""
    base = sqlite3.connect(path)
    try:
        want("integrity_check", base.execute("PRAGMA integrity_check").fetchall(), [("ok",)])
        found = {}
        for field, blob in base.execute("SELECT field, cells FROM source ORDER BY field"):
            found[field] = list(CELLS.iter_unpack(blob))
        return found
    finally:
        base.close()


def copy_of(path):
    """The file and its log under another name, for a reader that may change them."""
    other = path.with_name("copy-" + path.name)
    for end in ("", "-wal"):
        if pathlib.Path(str(path) + end).exists():
            shutil.copyfile(str(path) + end, str(other) + end)
    return other


# ---- what is tried


def found_again(maxsurvey, folder, catalogues):
    path = folder / "again.db"
    a, b = catalogues[:2]
    want("add", survey(maxsurvey, ["--file", path, "add", "A", "add", "B"], a + b), (0, "", ""))
    listed = line("A", a) + line("B", b)
    want("list", survey(maxsurvey, ["--file", path, "list"]), (0, listed, ""))
    want("Python's sqlite3", records(path), {"A": catalogue_rows(a), "B": catalogue_rows(b)})
    want("list afterwards", survey(maxsurvey, ["--file", path, "list"]), (0, listed, ""))
    want("replace and drop", survey(maxsurvey, ["--file", path, "add", "A", "drop", "B"], b), (0, "", ""))
    want("Python's sqlite3", records(path), {"A": catalogue_rows(b)})
    alone = folder / "alone.db"
    shutil.copyfile(path, alone)
    want("the file without its log", records(alone), {"A": catalogue_rows(b)})


def written_by_python(maxsurvey, folder, catalogues):
    path = folder / "python.db"
    rows = catalogue_rows(catalogues[0])
    blob = b"".join(CELLS.pack(*row) for row in rows)
    base = sqlite3.connect(path)
    base.execute(SCHEMA)
    base.execute("INSERT INTO source VALUES ('A', ?)", (blob,))
    base.commit()
    want("list", survey(maxsurvey, ["--file", path, "list"]), (0, line("A", catalogues[0]), ""))
    short, misnumbered = blob[:-8], blob[CELLS.size :] + blob[: CELLS.size]
    for bad in (short, blob[:-1], misnumbered, b"\0" * CELLS.size):
        base.execute("UPDATE source SET cells = ?", (bad,))
        base.commit()
        want("a foreign row", survey(maxsurvey, ["--file", path, "list"]), (6, "", "keeper fault\n"))
    base.execute("UPDATE source SET cells = ?, field = 'no field'", (blob,))
    base.commit()
    want("a foreign name", survey(maxsurvey, ["--file", path, "list"]), (6, "", "keeper fault\n"))
    base.close()


def another_table(maxsurvey, folder, catalogues):
    """A table of the name in another form is a fault, and keeps its rows; the program's own goes on after VACUUM, which
    writes its text anew."""
    forms = {
        "plain.db": "field TEXT, cells BLOB)",
        "nocase.db": "field TEXT NOT NULL PRIMARY KEY COLLATE NOCASE, cells BLOB NOT NULL) STRICT",
    }
    for name, form in forms.items():
        path = folder / name
        base = sqlite3.connect(path)
        base.execute(f"CREATE TABLE source ({form}")
        base.execute("INSERT INTO source VALUES ('A', x'')")
        base.commit()
        for words in (["drop", "A"], ["add", "a"], ["list"], ["brightest", "1"]):
            want(
                f"{words} over {name}",
                survey(maxsurvey, ["--file", path, *words], catalogues[0]),
                (6, "", "keeper fault\n"),
            )
        want("its rows", base.execute("SELECT field, cells FROM source").fetchall(), [("A", b"")])
        base.close()
    path = folder / "vacuumed.db"
    want("add", survey(maxsurvey, ["--file", path, "add", "A"], catalogues[0]), (0, "", ""))
    base = sqlite3.connect(path, isolation_level=None)
    base.execute("VACUUM")
    base.close()
    want("after VACUUM", survey(maxsurvey, ["--file", path, "list"]), (0, line("A", catalogues[0]), ""))


def made_with(path, before, behind):
    """A file of Python's sqlite3 with a field A without rows, and statements before and behind its table."""
    path.unlink(missing_ok=True)
    base = sqlite3.connect(path, isolation_level=None)
    base.executescript(f"{before}; {SCHEMA}; INSERT INTO source VALUES ('A', x''); {behind}")
    base.close()


def what_else_stands_there(maxsurvey, folder, catalogues):
    """With some things beside the table the program works, and with others it does nothing."""
    path, count = folder / "else.db", 0
    cases = [("", line, True) for line in TAKEN.strip().splitlines()] + [
        ("", line, False) for line in STRANGE.strip().splitlines()
    ]
    for before, behind, is_taken in cases + [(line, "", is_taken) for line, is_taken in BEFORE.items()]:
        try:
            made_with(path, before, behind)
        except sqlite3.Error:
            # An older library than the statement.
            continue
        answers = [
            survey(maxsurvey, ["--file", path, *words], catalogues[0])[0]
            for words in (["add", "B"], ["add", "A"], ["list"], ["drop", "A"])
        ]
        want(f"beside {before or behind.strip()}", answers, [0] * 4 if is_taken else [6] * 4)
        want("its fields", sorted(records(path)), ["B"] if is_taken else ["A"])
        count += 1
    return f"{count} databases"


def foreign_keys(maxsurvey, folder, catalogues):
    """Rows of another table that refer to a field keep it, or go with it; a new catalogue of the field leaves them."""
    path, fault = folder / "keys.db", (6, "", "keeper fault\n")
    for clause, answer, rows in (
        ("", fault, [("A",)]),
        ("ON DELETE CASCADE", (0, "", ""), []),
        ("ON DELETE SET NULL", (0, "", ""), [(None,)]),
    ):
        made_with(path, "", f"CREATE TABLE t (a TEXT REFERENCES source (field) {clause}); INSERT INTO t VALUES ('A')")
        want("add", survey(maxsurvey, ["--file", path, "add", "A"], catalogues[0]), (0, "", ""))
        for words, said, left in (
            (["list"], (0, line("A", catalogues[0]), ""), [("A",)]),
            (["drop", "A"], answer, rows),
        ):
            want(f"{words} {clause}", survey(maxsurvey, ["--file", path, *words]), said)
            base = sqlite3.connect(path)
            want(f"the rows {clause}", base.execute("SELECT a FROM t").fetchall(), left)
            base.close()


def at_once(maxsurvey, folder, catalogues):
    """Each add of two processes is there in the end, or was answered as a fault."""
    path, data = folder / "two.db", catalogues[0]
    added, faults = set(), 0
    for turn in range(10):
        names = [f"T{turn}-{who}" for who in "ab"]
        both = [
            subprocess.Popen(
                [maxsurvey, "--file", path, "add", name],
                stdin=subprocess.PIPE,
                stdout=subprocess.PIPE,
                stderr=subprocess.PIPE,
            )
            for name in names
        ]
        for process in both:
            process.stdin.write(data)
        for process in both:
            process.stdin.close()
        for process, name in zip(both, names):
            notes = process.stderr.read()
            status = process.wait()
            if (status, notes) == (0, b""):
                added.add(name)
            else:
                want("the other process", (status, notes), (6, b"keeper fault\n"))
                faults += 1
            process.stdout.close()
            process.stderr.close()
    want("two processes", records(path), {name: catalogue_rows(data) for name in added})
    return f"{len(added)} adds, {faults} faults"


def killed(maxsurvey, folder, catalogues):
    """Each field that is there is whole, and each add that was answered is there."""
    path = folder / "killed.db"
    wanted, kept = {f"F{number:03}": catalogues[number % len(catalogues)] for number in range(EACH * KILLS)}, set()
    begun, ended = time.monotonic(), 0
    words = [word for field in list(wanted)[:EACH] for word in ("add", field, "list")]
    want(
        "undisturbed",
        survey(maxsurvey, ["--file", folder / "timed.db", *words], b"".join(list(wanted.values())[:EACH]))[0],
        0,
    )
    long = time.monotonic() - begun
    for turn in range(KILLS):
        # one process adds several fields, and prints the list after each: a field in a list is answered
        fields = list(wanted)[EACH * turn : EACH * (turn + 1)]
        words = [word for field in fields for word in ("add", field, "list")]
        (folder / "input").write_bytes(b"".join(wanted[field] for field in fields))
        with open(folder / "input", "rb") as source:
            process = subprocess.Popen([maxsurvey, "--file", path, *words], stdin=source, stdout=subprocess.PIPE)
        time.sleep(2 * long * turn / KILLS)
        process.send_signal(signal.SIGKILL)
        output = process.stdout.read().decode("ascii")
        process.stdout.close()
        ended += process.wait() == -signal.SIGKILL
        lines = output.split("\n")[:-1]
        answered = {text.split()[0] for text in lines}
        status, listed, notes = survey(maxsurvey, ["--file", path, "list"])
        want("after a kill", (status, notes), (0, ""))
        there = {text.split()[0]: text + "\n" for text in listed.splitlines()}
        for field, text in there.items():
            want("a field after a kill", text, line(field, wanted[field]))
        if not (answered | kept) <= set(there):
            raise Wrong(f"an add that was answered is gone: {sorted((answered | kept) - set(there))}")
        kept = set(there)
    want("Python's sqlite3", records(copy_of(path)), {field: catalogue_rows(wanted[field]) for field in kept})
    return f"{ended} of {KILLS} processes ended by the signal, {len(kept)} fields kept"


def refused(maxsurvey, folder, catalogues):
    """Files that can't be used."""
    fault = (6, "", "keeper fault\n")
    text = folder / "text.db"
    text.write_text("This is no database, however long it may be.\n" * 200, encoding="ascii")
    before = text.read_bytes()
    want("no database", survey(maxsurvey, ["--file", text, "add", "A"], catalogues[0]), fault)
    want("its bytes", text.read_bytes(), before)
    want("no folder", survey(maxsurvey, ["--file", folder / "none" / "s.db", "list"]), fault)
    want("a folder", survey(maxsurvey, ["--file", folder, "list"]), fault)
    want("no name", survey(maxsurvey, ["--file", "", "list"]), fault)
    want("no path", survey(maxsurvey, ["--file"]), (1, "", "usage: word 2\n"))
    want("no command", survey(maxsurvey, ["--file", folder / "unused.db"]), (1, "", "usage: word 3\n"))
    want("no file is made", (folder / "unused.db").exists(), False)
    want(
        "a field of that name",
        survey(maxsurvey, ["add", "--file", "list"], catalogues[0]),
        (0, line("--file", catalogues[0]), ""),
    )


def read_only(maxsurvey, folder, catalogues):
    """A file that can't be written, where this user can be kept from it."""
    path = folder / "read_only.db"
    want("add", survey(maxsurvey, ["--file", path, "add", "A"], catalogues[0]), (0, "", ""))
    before = records(copy_of(path))
    inner = folder / "inner"
    inner.mkdir()
    shutil.copyfile(path, inner / "s.db")
    os.chmod(inner / "s.db", 0o444)
    os.chmod(inner, 0o555)
    more = {}
    if os.geteuid() == 0:
        os.chmod(folder, 0o755)
        more = {"user": 65534, "group": 65534, "extra_groups": []}
    try:
        want(
            "can't be written",
            survey(maxsurvey, ["--file", inner / "s.db", "add", "B"], catalogues[1], **more),
            (6, "", "keeper fault\n"),
        )
    except PermissionError:
        return "skipped: that user can't run the program"
    finally:
        os.chmod(inner, 0o755)
    want("its tables", records(inner / "s.db"), before)
    return "done"


def full_disk(maxsurvey, folder, catalogues):
    """A disk with no room, where this user may mount one."""
    disk = folder / "disk"
    disk.mkdir()
    if (
        subprocess.run(["mount", "-t", "tmpfs", "-o", "size=1m", "tmpfs", disk], stderr=subprocess.DEVNULL).returncode
        != 0
    ):
        return "skipped: it wants a user who may mount"
    try:
        path, kept = disk / "s.db", {}
        for number in range(2000):
            field, data = f"D{number:04}", catalogues[number % len(catalogues)]
            answer = survey(maxsurvey, ["--file", path, "add", field], data)
            if answer != (0, "", ""):
                break
            kept[field] = data
        want("a full disk", answer, (6, "", "keeper fault\n"))
        # beside the full disk, where there is room for what a reader writes
        for end in ("", "-wal"):
            if pathlib.Path(str(path) + end).exists():
                shutil.copyfile(str(path) + end, str(folder / "full.db") + end)
        want("what it kept", records(folder / "full.db"), {field: catalogue_rows(data) for field, data in kept.items()})
    finally:
        subprocess.run(["umount", disk], check=True)
    return f"{len(kept)} fields kept"


def main():
    if len(sys.argv) != 3:
        print(__doc__, file=sys.stderr)
        return 2
    maxdetect, maxsurvey = (pathlib.Path(word).resolve() for word in sys.argv[1:])
    with tempfile.TemporaryDirectory() as name:
        folder = pathlib.Path(name)
        catalogues = [detect(maxdetect, 128, seed) for seed in range(4)]
        print("catalogues of", ", ".join(str(len(catalogue_rows(data))) for data in catalogues), "rows")
        try:
            for trial in (
                found_again,
                written_by_python,
                another_table,
                what_else_stands_there,
                foreign_keys,
                at_once,
                killed,
                refused,
                read_only,
                full_disk,
            ):
                print(f"{trial.__name__}:", trial(maxsurvey, folder, catalogues) or "done", flush=True)
        except Wrong as wrong:
            print(f"{trial.__name__}: {wrong}")
            return 1
    return 0


if __name__ == "__main__":
    sys.exit(main())
