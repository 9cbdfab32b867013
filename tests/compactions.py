#!/usr/bin/env python3
"""Whole compactions by the calls for C: worked rows, a folder of LevelDB's, and random ones.

    tests/compactions.py rows PROGRAM [COUNT]
        each worked row, at 1, 3 and 8 ranges and threads, or at one of these
    tests/compactions.py refused PROGRAM LIBRARY
        the same rows, with each request for memory refused in turn by LIBRARY (tests/refuse.c)
    tests/compactions.py random N SEED PROGRAM SEDVOKT
        N random ones, from this seed on: the bytes that `SEDVOKT compact --out` gives

PROGRAM is tests/compaction.c or .cc, built over the archive. Prints each difference, then how many
there were of each. Other scripts call the functions.
"""

import glob
import importlib.machinery
import importlib.util
import os
import random
import re
import shutil
import subprocess
import sys
import tempfile

TOP = os.path.join(os.path.dirname(os.path.realpath(__file__)), "..")
DATA = os.path.join(TOP, "tests", "data")
BYTEWISE, SHORTLEX = 1, 2
LAST = (1 << 64) - 1


def module(path):
    """A script of the repository, as a module."""
    loader = importlib.machinery.SourceFileLoader("rows", os.path.join(TOP, path))
    made = importlib.util.module_from_spec(importlib.util.spec_from_loader("rows", loader))
    loader.exec_module(made)
    return made


sys.dont_write_bytecode = True
rows = module("scripts/rows")

# The same remainder, a byte at a time.
STEPS = []
for byte in range(256):
    for _ in range(8):
        byte = (byte >> 1) ^ (0x82F63B78 if byte & 1 else 0)
    STEPS.append(byte)


def crc32c(data):
    crc = 0xFFFFFFFF
    for it in data:
        crc = (crc >> 8) ^ STEPS[(crc ^ it) & 255]
    return crc ^ 0xFFFFFFFF


rows.crc32c = crc32c


class Edit:
    """The fields of version edits, one after the other."""

    def __init__(self):
        self.numbers, self.deleted, self.files = {}, [], []

    def read(self, data):
        at = 0

        def varint():
            nonlocal at
            number = shift = 0
            while True:
                number |= (data[at] & 127) << shift
                at, shift = at + 1, shift + 7
                if data[at - 1] < 128:
                    return number

        def text():
            nonlocal at
            size = varint()
            at += size
            return data[at - size : at]

        while at < len(data):
            tag = varint()
            if tag == 1:
                text()
            elif tag in (2, 3, 4, 9):
                self.numbers[tag] = varint()
            elif tag == 5:
                varint()
                text()
            elif tag == 6:
                self.deleted.append((varint(), varint()))
            else:
                assert tag == 7, tag
                self.files.append((varint(), varint(), varint(), text(), text()))
        return self


def version_of(folder):
    """All edits of a folder's manifest. Its records lie whole in the first block."""
    with open(f"{folder}/CURRENT", encoding="utf-8") as it:
        name = it.read().strip()
    with open(f"{folder}/{name}", "rb") as it:
        data = it.read()
    edit, at = Edit(), 0
    while at + 7 < len(data):
        size = int.from_bytes(data[at + 4 : at + 6], "little")
        edit.read(data[at + 7 : at + 7 + size])
        at += 7 + size
    edit.files = [it for it in edit.files if it[:2] not in edit.deleted]
    return edit


class Asked:
    """What one compaction is asked for, as a text for PROGRAM."""

    def __init__(self, **options):
        self.order, self.level, self.snapshots, self.last = BYTEWISE, 0, [], 0
        self.oldest, self.first, self.log, self.previous = None, 0, 3, 0
        self.block, self.file, self.files, self.inputs = 4096, 2097152, [], {}
        self.closed, self.boundaries = False, []
        self.__dict__.update(options)

    def text(self):
        lines = [f"order {self.order}", f"level {self.level}", f"last {self.last}",
                 f"options {self.block} 16 {self.file}",
                 f"numbers {self.first} {self.log} {self.previous}"]
        if self.oldest is not None:
            lines.append(f"oldest {self.oldest}")
        else:
            lines.append(" ".join(map(str, ["snapshots", len(self.snapshots), *self.snapshots])))
        for level, number, size, smallest, largest in self.files:
            path = self.inputs.get((level, number))
            name = "file" if path is None else "input"
            lines.append(f"{name} {level} {number} {size} {smallest.hex()} {largest.hex()} "
                         f"{path or ''}".rstrip())
        lines += [f"boundary {it.hex() or '-'}" for it in self.boundaries]
        return "\n".join([*lines, *(["closed"] if self.closed else [])]) + "\n"


def made(program, asked, ranges, threads, env=None):
    """What PROGRAM prints, and the files that it wrote."""
    with tempfile.TemporaryDirectory() as folder:
        with open(f"{folder}/request", "w", encoding="utf-8") as it:
            it.write(asked.text())
        os.mkdir(f"{folder}/out")
        words = [program, f"{folder}/request", f"{folder}/out", str(ranges), str(threads)]
        done = subprocess.run(words, capture_output=True, text=True, errors="replace", env=env)
        files = {it: read(f"{folder}/out/{it}") for it in os.listdir(f"{folder}/out")}
    if done.returncode or done.stderr:
        return f"status {done.returncode}: {done.stderr[:2000]}", files
    return done.stdout.strip(), files


def read(path):
    with open(path, "rb") as it:
        return it.read()


# Worked rows


FOLDER = os.path.join(TOP, "crates", "compaction_tests", "src", "compact_tests")
CONSTANT = re.compile(r'const (\w+): &\[u8\] =\s*b"((?:[^"\\]|\\.)*)"', re.S)


def names_in(text):
    return re.findall(r"\w+", text)


class Worked:
    """The rows of the tests of `compact`, with what has to come of each, worked by hand."""

    def __init__(self):
        source = read(f"{FOLDER}/rows.rt").decode()
        both = read(f"{FOLDER}/tables.rt").decode() + source
        self.bytes = {name: rows.from_rust(text) for name, text in CONSTANT.findall(both)}
        self.numbers = {name: int(it.replace("_", "")) for name, it in
                        re.findall(r"const (\w+): u64 = ([\d_]+);", source)}
        self.bases = {name: self.fields(it) for name, it in
                      re.findall(r"const (\w+): Row = Row \{\n(.*?)\n\};", source, re.S)}
        self.all = [self.whole(self.fields(it)) for it in
                    re.findall(r"^    Row \{\n(.*?)\n    \},", source, re.S | re.M)]
        faults = read(os.path.join(TOP, "crates", "coding", "src", "fault.rt")).decode()
        self.codes = dict(re.findall(r"FaultName::(\w+) => (\d+)", faults))

    def fields(self, text):
        """The fields of a row, and that of the row that it begins with."""
        fields = dict(re.findall(r"^ +(\w+): (.*?),\n", text + "\n", re.M))
        base = re.search(r"\.\.(\w+)", text)
        return {**fields, **({"base": base[1]} if base else {})}

    def whole(self, fields):
        base = fields.pop("base", None)
        return {**(self.whole(dict(self.bases[base])) if base else {}), **fields}

    def number(self, text):
        text = text.strip()
        return LAST if text == "u64::MAX" else self.numbers.get(text) or int(text.replace("_", ""))

    def asked(self, row, folder):
        """The request of a row; its tables are put into the folder."""
        files = Edit().read(self.bytes.get(row["files"], b"")).files
        level, asked_level = self.number(row["from"]), self.number(row["level"])
        names = [it for it in names_in(row["tables"]) if it in self.bytes]
        taken = [it for it in files if it[0] == level][: len(names)]
        inputs = {}
        for it, name in zip(taken, names):
            inputs[it[:2]] = f"{folder}/{name}"
            with open(inputs[it[:2]], "wb") as table:
                table.write(self.bytes[name])
        kind, numbers = re.match(r"Snapshots::(\w+)\(&?\[?(.*?)\]?\)", row["snapshots"]).groups()
        numbers = [self.number(it) for it in numbers.split(",") if it.strip()]
        return Asked(level=asked_level, files=files, inputs=inputs,
                     oldest=numbers[0] if kind == "From" else None,
                     snapshots=numbers if kind == "Listed" else [],
                     last=self.number(row["last_sequence"]),
                     first=self.number(row["first_number"]),
                     block=self.number(row["block_size"]), file=self.number(row["file_size"]))

    def answer(self, row):
        """The line that has to come and the files, of which EDIT may be missing; or None if the
        row is about what a host does itself."""
        refused = re.match(r"Answer::Refused\(FaultName::(\w+), (?:Some\((\d+)\)|None)",
                           row["answer"])
        if refused:
            if refused[1] == "Workers":
                return None
            place = f", input {refused[2]}" if refused[2] else ""
            return f"refused: {self.codes[refused[1]]}{place}", {}
        tables, edit = re.match(r"Answer::Tables\(&\[(.*)\], (.*)\)$", row["answer"]).groups()
        files = {f"{int(number):06}.ldb": self.bytes[name]
                 for number, name in re.findall(r"\((\d+), (\w+)\)", tables)}
        if edit in self.bytes:
            files["EDIT"] = self.bytes[edit]
        return f"{len(files) - ('EDIT' in files)} outputs", files


def worked():
    """Each request, its name, and what has to come of it."""
    all_rows = Worked()
    folder = tempfile.mkdtemp()
    try:
        for at, row in enumerate(all_rows.all):
            os.mkdir(f"{folder}/{at}")
            answer = all_rows.answer(row)
            if answer is not None:
                yield row["name"].strip('"'), all_rows.asked(row, f"{folder}/{at}"), *answer
    finally:
        shutil.rmtree(folder)
    yield from of_mixed()


def of_mixed():
    """Level 0 of a folder of LevelDB's: the tables that were computed of it by the rules."""
    folder = f"{DATA}/folders/mixed"
    version = version_of(folder)
    inputs = {it[:2]: f"{folder}/{it[1]:06}.ldb" for it in version.files}
    for name, more in (("compacted", {}), ("listed", {"snapshots": [900, 1151]}),
                       ("from", {"oldest": 900})):
        asked = Asked(files=sorted(version.files, key=lambda it: (it[0], it[1])), inputs=inputs,
                      last=version.numbers[4], first=28, log=version.numbers[2], closed=True,
                       **more)
        yield f"mixed, {name}", asked, "1 outputs", {"000028.ldb": read(f"{folder}.{name}.ldb")}


# Boundaries that rise, some of them user keys of the rows.
LETTERS = {1: [], 3: [b"c", b"f"], 8: [b"a", b"b", b"bb", b"f", b"g", b"u", b"v"]}


def is_answer(given, files, line, wanted):
    """Whether an answer is this one."""
    told = {name: it for name, it in files.items() if name != "EDIT" or "EDIT" in wanted}
    return (given == line or given.startswith(f"{line} of ")) and told == wanted


def each_row(program, counts, told=print):
    """Runs each row at so many ranges and threads, by boundaries of ours and by the library's. How
    many runs there were, and how many were right."""
    runs = right = 0
    for name, asked, line, wanted in worked():
        for count in counts:
            for asked.boundaries in (LETTERS[count], []):
                given, files = made(program, asked, count, count)
                runs += 1
                if is_answer(given, files, line, wanted):
                    right += 1
                else:
                    told(f"{name}, {count} ranges: {given}, {sorted(files)}, not {line}")
    return runs, right


# Refused requests for memory


def each_refused(program, library, told=print):
    """Runs each row at 3 ranges without threads, and refuses it one request after the other. How
    many were refused, and in how many of these runs the answer was right, or 99."""
    refused = right = 0
    with tempfile.TemporaryDirectory() as folder:
        note = f"{folder}/refused"
        for name, asked, line, wanted in worked():
            for asked.boundaries in (LETTERS[3], []):
                at = 1
                while True:
                    env = {**os.environ, "REFUSE": f"memory {at}", "REFUSED": note,
                           "LD_PRELOAD": library}
                    given, files = made(program, asked, 3, 0, env)
                    if not os.path.exists(note):
                        break
                    os.remove(note)
                    refused += 1
                    if re.fullmatch(r"refused: 99(, input \d+)?", given) and set(files) <= {"EDIT"}:
                        right += 1
                    elif is_answer(given, files, line, wanted):
                        right += 1
                    else:
                        told(f"{name}, request {at}: {given}, {sorted(files)}")
                    at += 1
                if not is_answer(given, files, line, wanted):
                    told(f"{name}, nothing refused: {given}, {sorted(files)}, not {line}")
    return refused, right


# Random compactions


def key_of(entry, order):
    """By what internal keys rise."""
    key = entry[0]
    user = key[:-8]
    first = (len(user), user) if order == SHORTLEX else user
    return first, -int.from_bytes(key[-8:], "little")


def user_keys(some):
    """A few user keys, short ones and such as begin alike."""
    letters = some.choice([b"ab", b"abcdefgh", bytes([0, 1, 97, 254, 255])])
    keys = {b""} if some.random() < 0.2 else set()
    prefix = bytes(some.choices(letters, k=some.choice([0, 0, 3, 20])))
    while len(keys) < some.choice([1, 5, 30, 60]):
        keys.add(prefix + bytes(some.choices(letters, k=some.randrange(7))))
        if some.random() < 0.05:
            break
    return sorted(keys)


def history(some, keys):
    """The entries of each user key, the newest first."""
    entries = {key: [] for key in keys}
    last = some.randrange(1, 200)
    for at in range(last, 0, -1):
        key = some.choice(keys)
        kind = some.choice([0, 1, 1])
        value = bytes(some.choices(range(256), k=some.choice([0, 1, 5, 40]))) if kind else b""
        entries[key].append((key + (at << 8 | kind).to_bytes(8, "little"), value))
    return entries, last


def spread(some, entries, order):
    """These in tables of the levels, what is newer above: a list of levels and tables."""
    runs = some.randrange(1, 5)
    places = [(0, at) for at in range(runs)] + [(level, 0) for level in range(1, 5)]
    dealt = {it: [] for it in places}
    for versions in entries.values():
        ends = sorted(some.randrange(len(versions) + 1) for _ in places[1:])
        for it, begin, end in zip(places, [0, *ends], [*ends, len(versions)]):
            dealt[it] += versions[begin:end]
    tables = []
    for (level, run), some_entries in dealt.items():
        some_entries.sort(key=lambda it: key_of(it, order))
        if level == 0:
            tables += [(level, run, some_entries)] if some_entries else []
            continue
        while some_entries:
            count = some.randrange(1, len(some_entries) + 1)
            # A user key's entries stay in one file.
            while count < len(some_entries) and some_entries[count][0][:-8] == \
                    some_entries[count - 1][0][:-8]:
                count += 1
            tables.append((level, run, some_entries[:count]))
            some_entries = some_entries[count:]
    return tables


def database(some, folder):
    """Makes a random database. Its files, its order, and its last sequence."""
    order = some.choice([BYTEWISE, BYTEWISE, BYTEWISE, SHORTLEX])
    keys = user_keys(some)
    entries, last = history(some, keys)
    tables = spread(some, entries, order)
    files, number = [], 10
    # Of level 0 the newer file has the higher number, and comes last in the version.
    tables.sort(key=lambda it: (it[0], -it[1]))
    for level, _, table in tables:
        number += some.randrange(1, 3)
        blocks = rows.data_blocks(table, some.choice([1, 40, 200, 4096]), 16)
        data = rows.table(blocks, order == BYTEWISE)
        with open(f"{folder}/{number:06}.ldb", "wb") as it:
            it.write(data)
        files.append((level, number, len(data), table[0][0], table[-1][0]))
    name = {BYTEWISE: "leveldb.BytewiseComparator", SHORTLEX: "subcompaction.ShortlexComparator"}
    edit = rows.edit(f"comparator {name[order]}, log 3, previous 0, next {number + 2}, last {last}")
    for level, number, size, smallest, largest in files:
        edit += b"\x07" + b"".join(map(rows.varint, (level, number, size)))
        edit += rows.with_length(smallest) + rows.with_length(largest)
    with open(f"{folder}/MANIFEST-000005", "wb") as it:
        it.write(rows.log([edit]))
    with open(f"{folder}/CURRENT", "w", encoding="utf-8") as it:
        it.write("MANIFEST-000005\n")
    return files, order, last


def one_random(some, program, sedvokt, room):
    """Compacts a random database both ways. None if nothing is compacted; else what differs."""
    folder, out = f"{room}/db", f"{room}/out"
    os.mkdir(folder)
    files, order, last = database(some, folder)
    level = some.choice(sorted({it[0] for it in files}))
    block, file = some.choice([1, 30, 300, 4096]), some.choice([1, 60, 700, 2097152])
    snapshots = sorted(some.sample(range(last + 1), k=min(last, some.randrange(4))))
    oldest = some.randrange(last + 3) if some.random() < 0.3 else None
    words = [sedvokt, "-q", "compact", folder, "--level", str(level), "--out", out,
             "--block-size", str(block), "--file-size", str(file)]
    if oldest is not None:
        words += ["--snapshot", str(oldest)]
    elif snapshots:
        words += ["--snapshots", ",".join(map(str, snapshots))]
    done = subprocess.run(words, capture_output=True, text=True, errors="replace")
    if done.returncode:
        return f"the program: {done.stderr}"
    if not os.path.exists(f"{out}/EDIT"):
        return None
    wanted = {it: read(f"{out}/{it}") for it in os.listdir(out)}
    edit = Edit().read(wanted["EDIT"])
    inputs = {it: f"{folder}/{it[1]:06}.ldb" for it in edit.deleted}
    asked = Asked(order=order, level=level, files=files, inputs=inputs, last=last, oldest=oldest,
                  snapshots=snapshots, block=block, file=file, closed=True,
                  first=edit.numbers[3] - len(edit.files))
    if some.random() < 0.5:
        keys = {it[:-8] + bytes(some.choices(b"ab", k=some.randrange(2)))
                for file in files for it in file[3:] if some.random() < 0.7}
        asked.boundaries = sorted(keys, key=lambda it: (len(it), it) if order == SHORTLEX else it)
    count = some.choice([1, 2, 3, 8])
    given, files_made = made(program, asked, count, some.choice([0, count]))
    if files_made != wanted:
        return f"{given}, {sorted(files_made)}, not {sorted(wanted)}"
    return ""


def each_random(count, seed, program, sedvokt, told=print):
    """Makes so many. How many compactions there were, and how many gave the same bytes."""
    done = same = 0
    at = seed
    while done < count:
        memory = "/dev/shm" if os.path.isdir("/dev/shm") else None
        with tempfile.TemporaryDirectory(dir=memory) as it:
            answer = one_random(random.Random(at), program, sedvokt, it)
        if answer is not None:
            done += 1
            same += answer == ""
            if answer:
                told(f"seed {at}: {answer}")
            if done % 500 == 0 and done < count:
                told(f"{same} of {done} so far")
        at += 1
    return done, same


def main(words):
    # A run of hours tells what differs at once.
    sys.stdout.reconfigure(line_buffering=True)
    if len(words) in (2, 3) and words[0] == "rows":
        runs, right = each_row(os.path.abspath(words[1]), [*map(int, words[2:])] or LETTERS)
        print(f"{right} of {runs} runs of rows are right")
        return 0 if runs == right else 1
    if len(words) == 3 and words[0] == "refused":
        refused, right = each_refused(*map(os.path.abspath, words[1:]))
        print(f"{refused} requests were refused: {right} answers are right or 99")
        return 0 if refused == right > 0 else 1
    if len(words) == 5 and words[0] == "random":
        paths = map(os.path.abspath, words[3:])
        done, same = each_random(int(words[1]), int(words[2]), *paths)
        print(f"{same} of {done} random compactions gave the same bytes")
        return 0 if done == same else 1
    print(__doc__.strip(), file=sys.stderr)
    return 2


if __name__ == "__main__":
    sys.exit(main(sys.argv[1:]))
