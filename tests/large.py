"""Large databases for cases, made by the rules of scripts/rows: longer logs, and checksums by a
table. `peak` is how many MiB a command takes."""

import importlib.machinery
import importlib.util
import os
import resource
import struct
import subprocess
import sys

sys.dont_write_bytecode = True
TOP = os.path.join(os.path.dirname(os.path.realpath(__file__)), "..")
loader = importlib.machinery.SourceFileLoader("rows", os.path.join(TOP, "scripts", "rows"))
rows = importlib.util.module_from_spec(importlib.util.spec_from_loader("rows", loader))
loader.exec_module(rows)

BLOCK = 32768
STEPS = []
for step in range(256):
    for _ in range(8):
        step = (step >> 1) ^ (0x82F63B78 if step & 1 else 0)
    STEPS.append(step)


def crc32c(data):
    """The checksum that rows.crc32c computes bit by bit."""
    crc = 0xFFFFFFFF
    for byte in data:
        crc = (crc >> 8) ^ STEPS[(crc ^ byte) & 255]
    return crc ^ 0xFFFFFFFF


rows.crc32c = crc32c


def log(records):
    """A log of any length, in blocks of 32,768 bytes."""
    out = bytearray()
    for record in records:
        begins, rest = True, record
        while begins or rest:
            left = BLOCK - len(out) % BLOCK
            if left < 7:
                out += bytes(left)
                left = BLOCK
            part, rest = rest[: left - 7], rest[left - 7 :]
            kind = {(True, True): 1, (True, False): 2, (False, False): 3, (False, True): 4}[
                begins, not rest
            ]
            data = bytes([kind]) + part
            out += rows.masked_crc(data) + struct.pack("<H", len(part)) + data
            begins = False
    return bytes(out)


def write_manifest(folder, records):
    """Makes a folder's CURRENT and manifest 5."""
    os.makedirs(folder, exist_ok=True)
    with open(f"{folder}/MANIFEST-000005", "wb") as file:
        file.write(log(records))
    with open(f"{folder}/CURRENT", "w", encoding="ascii") as file:
        file.write("MANIFEST-000005\n")


def peak(words):
    """Runs a command, and answers how many MiB it took at most, or this program before it."""
    subprocess.run(words, check=False)
    return resource.getrusage(resource.RUSAGE_CHILDREN).ru_maxrss >> 10


if __name__ == "__main__":
    # large.py MIB WORDS..: says if a command takes as many MiB or more.
    taken = peak(sys.argv[2:])
    if taken >= int(sys.argv[1]):
        print(f"it took {taken} MiB")
