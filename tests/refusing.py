"""Runs the program while the library of refuse.c refuses it something: by each number in turn,
until a run in which nothing was refused. `refuser` of tests/words builds the library."""

import itertools
import os
import re
import select
import shutil
import subprocess

ASIDE = os.environ["aside"]
DATA = os.environ["data"]
NOTE = f"{ASIDE}/refused"

# How many faults are told.
MOST = 5

# From this request for memory on, commands differ: before, the program makes its command line.
FIRST = 100

# The second line of a refusal for memory, as a text and as JSON; and of one for a failed call.
MEMORY = re.compile(
    r"sedvokt: .+: there is not enough memory to hold all that is read; "
    r"give the program more of it|\{.*\"refused\":\"Memory\".*\}|"
    # The lines of what is done by then.
    r"sedvokt: .+: the (new version is installed|step is installed|outcome is written), "
    r"but its lines could not be written([;,] .+)?"
)
DEVICE = re.compile(r"sedvokt: .+")

# What is told in place of the logs.
INSTEAD = re.compile(r"sedvokt: .*: its files cannot be listed; there may be logs with writes")

TIME = re.compile(r"\b\d+ ms$", re.MULTILINE)
PROGRESS = re.compile(r"\r[^\r\n]*\x1b\[K")


def told_at(terminal, work):
    """What a program writes to a terminal until it ends. The terminal's other end has to be open:
    if the program's is the last one, the system may lose what was written right before it ends."""
    waiting = select.poll()
    waiting.register(terminal, select.POLLIN)
    told = b""
    is_over = False
    while not is_over:
        is_over = work.poll() is not None
        while waiting.poll(0 if is_over else 1):
            told += os.read(terminal, 65536)
    return told


def run(words, env, is_terminal):
    """Runs the program: its status and what it wrote. With `is_terminal` its standard error is one,
    where work takes long."""
    err = subprocess.PIPE
    if is_terminal:
        ours, err = os.openpty()
        env["HASTE"] = "1"
    work = subprocess.Popen(
        ["sedvokt", *words], stdin=subprocess.DEVNULL, stdout=subprocess.PIPE, stderr=err, env=env
    )
    if not is_terminal:
        out, told = work.communicate()
        return work.returncode, out, told
    told = told_at(ours, work)
    os.close(ours)
    os.close(err)
    out = work.communicate()[0]
    return work.returncode, out, told.replace(b"\r\n", b"\n")


class End:
    """How a run ended: its status and lines, and the name of what was refused, if something was. A
    line of progress counts as no line."""

    failed = 0

    def __init__(self, words, order=None, is_terminal=False):
        env = dict(os.environ, LD_PRELOAD=f"{ASIDE}/refuse.so")
        if order:
            env.update(REFUSE=order, REFUSED=NOTE)
        self.words = words
        self.order = order
        self.status, out, err = run(words, env, is_terminal)
        self.out = out.decode()
        err = err.decode()
        self.progress = len(PROGRESS.findall(err))
        self.err = TIME.sub("N ms", PROGRESS.sub("", err)).splitlines()
        self.refused = None
        if os.path.exists(NOTE):
            with open(NOTE, encoding="ascii") as it:
                self.refused = it.read().strip()
            os.remove(NOTE)

    def fail(self, text):
        """Tells what is wrong, of the first few runs."""
        End.failed += 1
        if End.failed > MOST:
            return
        print(f"{' '.join(self.words)}: {self.order} ({self.refused}): {text}")
        print(f"  status {self.status}; {self.out!r}; {self.err!r}")


def each(kind, words, begin, look, is_terminal=False, first=1):
    """Runs the program with each number from the first on, `begin` before each run and `look` after
    it. The answer is how many times something was refused."""
    for number in itertools.count(first):
        begin()
        end = End(words, f"{kind} {number}", is_terminal)
        look(end)
        if end.refused is None:
            if number == first:
                end.fail("nothing was refused")
            return number - first


def are_among(lines, whole):
    """Whether lines are some of others, in their order, or stand in place of one."""
    rest = iter(whole)
    return all(INSTEAD.fullmatch(it) or it in rest for it in lines)


def test(end, whole, name, second, partly=False, some=False):
    """Tests a run that was refused, or did all the same: `whole` is a run to which nothing was
    refused. With `partly`, lines may have been printed before the refusal; with `some`, lines may
    be left out if it was not refused."""
    is_refused = any(it.startswith("refused: ") for it in end.err)
    if end.status == whole.status and not is_refused:
        are_some = some and are_among(end.out.splitlines(), whole.out.splitlines())
        if not (are_some or end.out == whole.out) or not are_among(end.err, whole.err):
            end.fail("not what it says if nothing is refused")
        return
    status = 3 if name == "Device" else 1
    first = f"refused: {name}"
    notes, lines = end.err, []
    if first in end.err:
        place = end.err.index(first)
        notes, lines = end.err[:place], end.err[place:]
    if end.status != status or lines[:1] != [first] or len(lines) > 2:
        end.fail(f"not refused as {name}")
    elif len(lines) == 2 and not second.fullmatch(lines[1]):
        end.fail("other words")
    elif not are_among(notes, whole.err):
        end.fail("other notes")
    elif end.out and not (partly and whole.out.startswith(end.out)):
        end.fail("lines were printed")


def files_of(name):
    """The files of a folder, by their names."""
    files = {}
    for it in os.listdir(name):
        with open(f"{name}/{it}", "rb") as file:
            files[it] = file.read()
    return files


class Change:
    """A command that changes the copy `db` of a folder, and what it leaves if nothing is
    refused."""

    def __init__(self, folder, words):
        self.folder = folder
        self.words = words
        self.is_whole = False
        self.begin()
        self.start = files_of("db")
        self.whole = End(words)
        self.is_whole = False
        self.left = files_of("db")
        if self.whole.status != 0:
            self.whole.fail("refused")

    def begin(self):
        """Makes the copy anew, if it was changed."""
        if self.is_whole:
            return
        shutil.rmtree("db", ignore_errors=True)
        shutil.copytree(self.folder, "db")
        for it in os.listdir("db"):
            os.chmod(f"db/{it}", 0o644)
        self.is_whole = True

    def look(self, end, some=False):
        """Tests what a run leaves, and that a second one does the rest. If all is as it was, the
        first run to which nothing is refused is that one. With `some`, not all need be done."""
        files = files_of("db")
        # It may be left if a call on it failed.
        if end.refused != "memory" and files.get("LOCK-wal") == b"":
            os.remove("db/LOCK-wal")
            del files["LOCK-wal"]
        if end.status != 0 and files == self.start:
            return
        self.is_whole = False
        if end.status == 0 and not some and files != self.left:
            end.fail("other files than if nothing is refused")
        for name in self.start:
            if not self.is_known(name, files.get(name)):
                end.fail(f"another {name}")
        is_done = self.is_done(files)
        again = End(self.words)
        if not self.is_right(again, is_done):
            again.fail(f"the second run, after {end.order}")
        if files_of("db") != self.left:
            end.fail("other files after a second run")

    def is_known(self, name, file):
        """Whether a file is as it was or as it is to be."""
        return file in (self.start[name], self.left.get(name))

    def is_done(self, files):
        """Whether nothing is left to do."""
        return files == self.left

    def is_right(self, again, is_done):
        """Whether a second run does the rest."""
        lines = self.whole.out.splitlines()
        return again.status == 0 and (is_done or are_among(again.out.splitlines(), lines))


class Compaction(Change):
    """A compaction of a level, or of all. Of several steps some may be done."""

    # What a second run is told if the first one was done.
    again = "refused: NoInput"

    def is_known(self, name, file):
        is_step = "--all" in self.words and name == "CURRENT"
        return is_step or super().is_known(name, file)

    def is_done(self, files):
        name = files["CURRENT"].decode().strip()
        if files[name] != self.left[name]:
            print(f"{name} is another version")
        return files["CURRENT"] == self.left["CURRENT"]

    def is_right(self, again, is_done):
        if is_done and "--all" not in self.words:
            return again.status == 1 and again.err[:1] == [self.again]
        return super().is_right(again, False)


class Installation(Compaction):
    """An outcome, installed in `db`."""

    again = "refused: Apply"


class Outcome(Change):
    """A compaction of `db`, which it only reads, into the folder `out`."""

    def __init__(self, folder, words):
        super().__init__(folder, words)
        self.outcome = files_of("out")

    def begin(self):
        super().begin()
        shutil.rmtree("out", ignore_errors=True)

    def look(self, end, some=False):
        left = files_of("out") if os.path.exists("out") else {}
        if end.status == 0 and left != self.outcome:
            end.fail("another outcome")
        # The edit, if it hasn't got its name yet.
        if "EDIT.dbtmp" in left and "EDIT" not in left:
            left["EDIT"] = left.pop("EDIT.dbtmp")
        if end.refused == "memory" and not left.items() <= self.outcome.items():
            end.fail("another file")
        if files_of("db") != self.start:
            end.fail("the database is changed")
        self.begin()
        again = End(self.words)
        if (again.status, again.out) != (0, self.whole.out) or files_of("out") != self.outcome:
            again.fail(f"the second run, after {end.order}")


def count(text):
    """Adds a line to those that tests/run prints of the case."""
    with open(f"{ASIDE}/counts", "a", encoding="ascii") as it:
        it.write(f"{text}\n")
