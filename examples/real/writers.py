"""The writers: each makes databases with its own software, reads them, and goes on with them.

Of each, `make` answers folders of closed databases, without compression and with nothing that is
only in a log. `rows` are the keys and values that the writer itself reads, of a copy. `go_on` opens
the databases after a compaction, tests them as the writer can, and writes more.
"""

import importlib.util
import os
import random
import shutil
import socket
import subprocess


def ran(*words, **more):
    """What a program of a writer prints."""
    return subprocess.run(words, check=True, capture_output=True, text=True, **more).stdout.strip()


def version_of(package):
    """The version of a package, without Debian's own part."""
    return ran("dpkg-query", "-W", "-f", "${Version}", package).split("-")[0]


class Plyvel:
    """LevelDB itself, by Python: a database without a filter and one with."""

    name = "plyvel"
    packages = ["python3-plyvel"]
    bits = {"plain": 0, "filtered": 10}

    def __init__(self, room):
        self.room = room

    @staticmethod
    def is_there():
        return importlib.util.find_spec("plyvel") is not None

    def opened(self, folder, **more):
        import plyvel

        filtered = {"bloom_filter_bits": 10} if "filtered" in folder else {}
        more = {"write_buffer_size": 1 << 16, "max_file_size": 1 << 16, **filtered, **more}
        return plyvel.DB(folder, compression=None, **more)

    def settle(self, folder):
        self.opened(folder).close()

    def put(self, folder, seed, count):
        chance = random.Random(seed)
        database = self.opened(folder, create_if_missing=True)
        for _ in range(count):
            key = b"%06d" % chance.randrange(8000)
            if chance.random() < 0.2:
                database.delete(key)
            else:
                database.put(key, chance.randbytes(chance.randrange(60)))
        database.close()
        self.settle(folder)

    def make(self):
        folders = [f"{self.room}/{it}" for it in self.bits]
        for it in folders:
            self.put(it, 1, 30000)
        return folders

    def rows(self, folder):
        database = self.opened(folder)
        found = dict(database)
        database.close()
        return found

    def go_on(self, folders):
        for it in folders:
            self.put(it, 2, 5000)
        return "the same keys; it wrote on"


class Goleveldb:
    """LevelDB in Go."""

    name = "goleveldb"
    packages = ["golang-github-syndtr-goleveldb-dev", "golang-go"]
    source = "/usr/share/gocode/src/github.com/syndtr/goleveldb"

    def __init__(self, room):
        self.room, self.program = room, f"{room}/goleveldb"

    @classmethod
    def is_there(cls):
        return bool(shutil.which("go")) and os.path.isdir(cls.source)

    def make(self):
        there = {**os.environ, "GO111MODULE": "off", "GOPATH": "/usr/share/gocode"}
        there["GOCACHE"] = f"{self.room}/cache"
        source = os.path.join(os.path.dirname(os.path.realpath(__file__)), "goleveldb.go")
        ran("go", "build", "-o", self.program, source, env=there)
        ran(self.program, "make", f"{self.room}/db")
        self.settle(f"{self.room}/db")
        return [f"{self.room}/db"]

    def settle(self, folder):
        ran(self.program, "settle", folder)

    def rows(self, folder):
        lines = ran(self.program, "rows", folder).splitlines()
        return dict(map(bytes.fromhex, it.split(" ")) for it in lines)

    def go_on(self, folders):
        ran(self.program, "more", *folders)
        self.settle(*folders)
        return "the same keys; it wrote on"


def free_port():
    with socket.socket() as it:
        it.bind(("127.0.0.1", 0))
        return it.getsockname()[1]


class Litecoin(Plyvel):
    """Litecoin Core on a chain of its own. What its databases hold, LevelDB reads by plyvel."""

    name = "litecoin"
    packages = ["litecoind", "python3-plyvel"]
    folders = ["chainstate", "blocks/index", "indexes/txindex", "indexes/blockfilter/basic/db"]

    def __init__(self, room):
        self.room = room
        self.words = [f"-datadir={room}", "-regtest", f"-rpcport={free_port()}"]

    @staticmethod
    def is_there():
        return all([*map(shutil.which, ("litecoind", "litecoin-cli")), Plyvel.is_there()])

    def opened(self, folder, **more):
        import plyvel

        return plyvel.DB(folder, compression=None, bloom_filter_bits=10, **more)

    def call(self, *words):
        return ran("litecoin-cli", *self.words, "-rpcwait", *words)

    def running(self, work):
        """Starts it, does some work with it, and stops it."""
        off = ["-listen=0", "-dnsseed=0", "-connect=0", "-printtoconsole=0", "-fallbackfee=0.001"]
        index = ["-txindex=1", "-blockfilterindex=1", "-disablewallet=0"]
        node = subprocess.Popen(["litecoind", *self.words, *off, *index])
        try:
            return work()
        finally:
            self.call("stop")
            node.wait()

    def mine(self, count):
        for _ in range(count):
            for _ in range(3):
                self.call("sendtoaddress", self.call("getnewaddress"), "0.1")
            self.call("generatetoaddress", "1", self.call("getnewaddress"))

    def state(self):
        """What it tells of its coins, of each index, and of some transaction."""
        coins = self.call("gettxoutsetinfo")
        block = self.call("getblockhash", "150")
        sent = self.call("getblock", block).split('"tx": [')[1].split('"')[1]
        found = [self.call("getrawtransaction", sent), self.call("getblockfilter", block)]
        return [line for line in coins.splitlines() if "disk_size" not in line] + found

    def begin(self):
        self.call("createwallet", "w")
        self.call("generatetoaddress", "120", self.call("getnewaddress"))
        self.mine(60)
        return self.state()

    def make(self):
        self.before = self.running(self.begin)
        found = [f"{self.room}/regtest/{it}" for it in self.folders]
        for it in found:
            self.settle(it)
        return found

    def later(self):
        if self.state() != self.before:
            raise ValueError("its coins or indexes are others")
        self.call("verifychain", "4", "0")
        self.call("loadwallet", "w")
        self.mine(10)
        return self.call("getblockcount")

    def go_on(self, folders):
        height = self.running(self.later)
        for it in folders:
            self.settle(it)
        return f"the same coins and indexes; it mined on to block {height}"


class Ceph(Plyvel):
    """A monitor of ceph, alone. What its database holds, LevelDB reads by plyvel."""

    name = "ceph"
    packages = ["ceph-mon", "ceph-common", "python3-plyvel"]

    def __init__(self, room):
        self.room, self.store = room, f"{room}/mon/store.db"
        self.settings = [f"--conf={room}/ceph.conf"]

    @staticmethod
    def is_there():
        return all([*map(shutil.which, ("ceph-mon", "ceph")), Plyvel.is_there()])

    def opened(self, folder, **more):
        import plyvel

        return plyvel.DB(folder, compression=None, **more)

    def call(self, *words):
        return ran("ceph", *self.settings, "--connect-timeout=60", "config-key", *words)

    def running(self, work):
        """Starts it, does some work with it, and stops it."""
        user = ["--setuser=root", "--setgroup=root"]
        node = subprocess.Popen(
            ["ceph-mon", *self.settings, "-i", "a", "-f", *user], stderr=subprocess.DEVNULL
        )
        try:
            return work()
        finally:
            node.terminate()
            node.wait()
            self.settle(self.store)

    def put(self, first):
        for it in range(first, first + 12):
            self.call("set", f"key/{it % 20}", f"{it} of ceph " * it)
        return self.call("dump")

    def make(self):
        os.mkdir(f"{self.room}/mon")
        with open(f"{self.room}/ceph.conf", "w") as file:
            file.write(
                "[global]\nfsid = 6d0f8b1c-0f0f-4f0f-8f0f-0123456789ab\n"
                "auth_cluster_required = none\nauth_service_required = none\n"
                "auth_client_required = none\nmon_initial_members = a\n"
                f"mon_host = 127.0.0.1:{free_port()}\nmon_data = {self.room}/mon\n"
                f"run_dir = {self.room}\nlog_file = {self.room}/log\n"
                "mon_keyvaluedb = leveldb\nleveldb_compression = false\n"
            )
        ran("ceph-mon", *self.settings, "--mkfs", "-i", "a", "--setuser=root", "--setgroup=root")
        for first in (10, 20, 30):
            self.before = self.running(lambda: self.put(first))
        return [self.store]

    def later(self):
        if self.call("dump") != self.before:
            raise ValueError("its keys are others")
        self.put(40)

    def go_on(self, folders):
        self.running(self.later)
        return "the same keys; it wrote on"


WRITERS = [Plyvel, Goleveldb, Litecoin, Ceph]
