#!/usr/bin/env python3
"""What checking and opening stores costs, in instructions by callgrind.

    bench/stores.py          (after tools/run textcheck, tools/run inspect and tools/run pack; wants valgrind)

A bundle of 1,024 records whose paths are long and differ only at their ends, in the 65,536 bytes that `inspect` takes: what `inspect` spends on it
beyond an empty bundle, which is one check and one opening (an opening checks too). And a book of 1,024 members in 1 MiB: what `pack` spends on it (a
check, an opening, the writing of the bundle) beside one reading of the same text by `textcheck`.
"""
import os
import re
import subprocess
import sys
import tempfile

ROOT = os.path.dirname(os.path.dirname(os.path.abspath(__file__)))
EMPTY = b"CAP\x00\x01\x00\x00"


def built(program):
    return os.path.join(ROOT, "crates", program, "out", program)


def bundle(count):
    records = []
    for n in range(count):
        path = f"/redfish/v1/Systems/System.Embedded.1/Interfaces/{n:04d}{n:04d}".encode()
        records.append(bytes([len(path)]) + path + bytes(4))
    return EMPTY[:5] + count.to_bytes(2, "big") + b"".join(records)


def book(count, size):
    body = '{"@odata.type":"#Port.v1_0_0.Port","Id":"%s"}'
    room = size // count - len(body) - 24
    members = [f'"/ports/{n:06d}":' + body % ("x" * room) for n in range(count)]
    return ("{" + ",".join(members) + "}").encode()


def instructions(program, files):
    with tempfile.TemporaryDirectory() as folder:
        for name, data in files.items():
            with open(os.path.join(folder, name), "wb") as out:
                out.write(data)
        done = subprocess.run(["valgrind", "--tool=callgrind", "--callgrind-out-file=/dev/null", built(program)], cwd=folder, capture_output=True, text=True)
        return int(re.search(r"Collected : (\d+)", done.stderr).group(1)), done.stdout.strip()


def main():
    for program in ("textcheck", "inspect", "pack"):
        if not os.path.exists(built(program)):
            sys.exit(f"bench: first run: tools/run {program}")
    library = b"{}"
    full, said = instructions("inspect", {"library.json": library, "captures.cap": bundle(1024)})
    base, _ = instructions("inspect", {"library.json": library, "captures.cap": EMPTY})
    print(f"bundle of 1,024 records, {len(bundle(1024))} bytes: {full - base} instructions for a check and an opening ({said})")
    text = book(1024, 1048576)
    packed, said = instructions("pack", {"captures.json": text})
    none, _ = instructions("pack", {"captures.json": b"{}"})
    once, _ = instructions("textcheck", {"text.json": text})
    small, _ = instructions("textcheck", {"text.json": b"{}"})
    print(f"book of 1,024 members, {len(text)} bytes: {packed - none} instructions to check, open and pack ({said}), {(packed - none) / (once - small):.1f} times one reading of the text")


main()
