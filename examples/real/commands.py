"""Runs the commands of sedvokt on a database, and compares what they print with known rows."""

import json
import os
import random
import shutil
import subprocess

# The last bytes of a table.
MAGIC = bytes.fromhex("57fb808b247547db")


def digits(data):
    return data.hex() or "-"


def text(data):
    """Bytes as `--text` prints a key."""
    return "".join(chr(it) if 32 < it < 127 and it != 92 else f"\\x{it:02x}" for it in data) or '""'


def plain(member):
    """The bytes of a member that `--utf8 --json` prints."""
    return bytes.fromhex(member["hex"]) if isinstance(member, dict) else member.encode()


def number_at(data, place):
    """The varint at a place, and the place after it."""
    number = shift = 0
    while data[place] >= 128:
        number |= (data[place] & 127) << shift
        place, shift = place + 1, shift + 7
    return number | data[place] << shift, place + 1


def entries(block):
    """The keys and values of a block, without its trailer."""
    end = len(block) - 4 * int.from_bytes(block[-4:], "little") - 4
    place, key, found = 0, b"", []
    while place < end:
        shared, place = number_at(block, place)
        rest, place = number_at(block, place)
        size, place = number_at(block, place)
        key = key[:shared] + block[place : place + rest]
        place += rest + size
        found.append((key, block[place - size : place]))
    return found


def block_at(table, handle):
    """The block that a handle names."""
    start, place = number_at(handle, 0)
    return table[start : start + number_at(handle, place)[0]]


def data_blocks(table):
    """The data blocks of a table."""
    footer = table[-48:]
    _, place = number_at(footer, 0)
    _, place = number_at(footer, place)
    return [block_at(table, handle) for _, handle in entries(block_at(table, footer[place:]))]


def bytes_of(path):
    with open(path, "rb") as file:
        return file.read()


def files_of(folder):
    """All files of a folder by their names, but for the lock's and what LevelDB tells people."""
    names = [it for it in sorted(os.listdir(folder)) if not it.startswith(("LOCK", "LOG"))]
    return {it: bytes_of(f"{folder}/{it}") for it in names}


class Commands:
    """The program, how many commands it ran, and what was not as it should be."""

    def __init__(self, program, room):
        self.program, self.room = program, room
        self.runs, self.faults, self.used = 0, [], set()

    def wrong(self, what):
        self.faults.append(what)
        print(f"  WRONG: {what}", flush=True)

    def same(self, what, got, wanted):
        if got != wanted:
            self.wrong(f"{what}: {str(got)[:300]}, not {str(wanted)[:300]}")

    def data(self, *words, given=b""):
        """What a command prints. It has to end with status 0."""
        self.runs += 1
        self.used.add(words[0])
        done = subprocess.run([self.program, *words], input=given, capture_output=True)
        if done.returncode:
            self.wrong(f"{' '.join(words)}: status {done.returncode}, {done.stderr.decode()}")
        return done.stdout

    def lines(self, *words, given=b""):
        return self.data(*words, given=given).decode().splitlines()

    def objects(self, *words):
        return [json.loads(it) for it in self.lines(*words, "--json")]

    def rows(self, folder):
        """The keys and values of a database, as `scan` prints them."""
        pairs = (it.split(" ") for it in self.lines("scan", folder))
        return {bytes.fromhex(key.strip("-")): bytes.fromhex(it.strip("-")) for key, it in pairs}

    def copy(self, folder, name):
        """A copy of a folder under another name."""
        to = f"{self.room}/{name}"
        shutil.rmtree(to, ignore_errors=True)
        return shutil.copytree(folder, to)

    def all_on(self, folder, rows):
        """All commands, on copies where they change something."""
        files = self.look(folder)
        self.tables(folder, files)
        self.scans(folder, rows)
        self.gets(folder, rows)
        self.blocks(folder)
        self.backup(folder, rows)
        level = min(it["level"] for it in files)
        self.apart(folder, level)
        self.parts(folder, level, rows)

    def look(self, folder):
        """The files of a database, after the commands that tell of all of it."""
        (version,) = self.objects("manifest", folder)
        files = version["files"]
        lines = self.lines("manifest", folder, "--text")
        self.same("files", len([it for it in lines if it.startswith("file ")]), len(files))
        (found,) = self.objects("verify", folder)
        self.same("verify", (found["files"], found["logs"]), (len(files), 0))
        line = f"lawful: {len(files)} files, {found['entries']} entries"
        self.same("verify", self.lines("verify", folder), [line])
        self.same("faults", self.lines("verify", folder, "--all-faults"), ["faults: 0"])
        levels = self.objects("stats", folder)[0]["levels"]
        self.same("stats", sum(it["entries"] for it in levels), found["entries"])
        self.same("stats", sum(it["bytes"] for it in levels), sum(it["size"] for it in files))
        self.same("stats", self.lines("stats", folder)[-2], "logs: 0, 0 bytes")
        return files

    def tables(self, folder, files):
        """Each table of the version by itself. LevelDB may have left others, cut off."""
        for it in files:
            paths = [f"{folder}/{it['number']:06}.{end}" for end in ("ldb", "sst")]
            (path,) = filter(os.path.exists, paths)
            count = len(self.lines("dump", path))
            found = self.objects("verify", "--table", path)
            self.same(path, found, [{"entries": count, "valid": True}])

    def scans(self, folder, rows):
        keys = sorted(rows)
        low, high = len(keys) // 3, 2 * len(keys) // 3
        begin = keys[low][:2]
        for words, wanted in [
            ([], keys),
            (["--no-verify"], keys),
            (["--limit", "7"], keys[:7]),
            (["--from", digits(keys[low]), "--to", digits(keys[high])], keys[low:high]),
            (["--prefix", digits(begin)], [it for it in keys if it.startswith(begin)]),
        ]:
            lines = [f"{digits(it)} {digits(rows[it])}" for it in wanted]
            self.same(f"scan {words}", self.lines("scan", folder, *words), lines)
            alone = [digits(it) for it in wanted]
            self.same(f"scan {words} --keys", self.lines("scan", folder, "--keys", *words), alone)
            count = self.lines("scan", folder, "--count", *words)
            self.same(f"scan {words} --count", count, [str(len(wanted))])
        found = self.objects("scan", folder, "--utf8")
        pairs = {plain(it["key"]): plain(it["value"]) for it in found}
        self.same("scan --utf8 --json", pairs, rows)

    def gets(self, folder, rows):
        keys = random.Random(1).sample(sorted(rows), min(5, len(rows)))
        for key in keys:
            value = rows[key]
            self.same("get", self.lines("get", folder, digits(key)), [digits(value)])
            self.same("get --raw", self.data("get", folder, text(key), "--text", "--raw"), value)
            self.same("get", self.lines("get", folder, digits(key), "--no-verify"), [digits(value)])
            self.history(folder, key, value)
        absent = max(rows) + b"\0"
        self.same("get", self.lines("get", folder, digits(absent)), ["none"])
        given = "".join(f"{digits(it)}\n" for it in [*rows, absent]).encode()
        wanted = [f"{digits(it)} {digits(rows[it])}" for it in rows] + [f"{digits(absent)} none"]
        self.same("get --stdin", self.lines("get", folder, "--stdin", given=given), wanted)

    def history(self, folder, key, value):
        """All entries of a key: the first one is read now, and each at its own sequence."""
        found = self.objects("history", folder, digits(key))
        self.same("history", found[0]["value"], digits(value))
        self.same("history", len(self.lines("history", folder, digits(key))), len(found))
        for it in found[:3]:
            line = self.lines("get", folder, digits(key), "--at", str(it["sequence"]))
            self.same("get --at", line, ["none" if it["value"] is None else it["value"]])

    def blocks(self, folder):
        """The first two data blocks of a table, merged into one."""
        tables = [it for name, it in files_of(folder).items() if name.endswith((".ldb", ".sst"))]
        whole = [it for it in tables if it.endswith(MAGIC)]
        found = [it for it in map(data_blocks, whole) if len(it) > 1]
        if not found:
            return
        paths = [f"{self.room}/{it}" for it in ("A", "B", "OUT")]
        for path, block in zip(paths, found[0]):
            with open(path, "wb") as file:
                file.write(block)
        first, second = map(entries, found[0][:2])
        # A user key, without the eight bytes of its sequence.
        at = digits(second[0][0][:-8])
        lines = self.lines("blocks", *paths[:2], "--at", at, paths[2])
        merged = bytes_of(paths[2])
        count = len(first) + len(second)
        self.same("blocks", lines, [f"{count} entries, {len(merged)} bytes"])
        self.same("blocks", entries(merged), first + second)

    def room_for(self, name):
        """An empty folder."""
        to = f"{self.room}/{name}"
        shutil.rmtree(to, ignore_errors=True)
        os.mkdir(to)
        return to

    def backup(self, folder, rows):
        """The files that a copy needs are a whole database."""
        to = self.room_for("backup")
        for name in self.lines("files", folder):
            shutil.copy(f"{folder}/{name}", to)
        self.same("files", self.rows(to), rows)

    def parts(self, folder, level, rows):
        """The parts of a level, each compacted by itself, are installed in turn."""
        database, which = self.copy(folder, "parts"), ["--level", str(level)]
        lines = self.lines("job", database, *which, "--parts")
        first = self.objects("manifest", database)[0]["next"] + 1000
        outcomes = []
        for part in sorted({int(it.split()[1]) for it in lines}):
            outcomes.append(self.room_for(f"part{part}"))
            number = ["--first-number", str(first + 1000 * part)]
            out = ["--part", str(part), "--out", outcomes[-1], *number]
            self.lines("compact", database, *which, *out)
        for outcome in outcomes:
            self.lines("install", database, outcome)
        left = [it for it in self.objects("manifest", database)[0]["files"] if it["level"] == level]
        self.same("parts", (left, self.rows(database)), ([], rows))

    def apart(self, folder, level):
        """One compaction here, and elsewhere with just the files that it needs: the same bytes."""
        here, elsewhere = self.copy(folder, "here"), self.copy(folder, "elsewhere")
        cleaned, job = self.copy(folder, "cleaned"), self.room_for("job")
        outcome, which = self.room_for("outcome"), ["--level", str(level)]
        for name in self.lines("job", folder, *which):
            shutil.copy(f"{folder}/{name}", job)
        self.lines("compact", job, *which, "--no-verify", "--out", outcome)
        lines = self.lines("compact", here, *which, "--workers", "1", "--ranges", "1")
        self.same("install", self.lines("install", elsewhere, outcome), lines)
        self.same("install", files_of(elsewhere) == files_of(here), True)
        self.lines("compact", cleaned, *which, "--clean")
        shown = self.lines("clean", here, "--dry-run")
        wanted = [it.replace("removable", "removed") for it in shown]
        self.same("clean", self.lines("clean", here), wanted)
        self.same("clean", files_of(cleaned) == files_of(here), True)
