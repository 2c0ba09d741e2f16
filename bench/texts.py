#!/usr/bin/env python3
"""What reading a text costs: instructions by callgrind, and the time beside jq's reader in the same run.

    bench/texts.py          (after tools/run textcheck; wants valgrind and jq)

It writes three texts of 1 MiB into a temporary folder: ordinary resources, one object of some 100,000 distinct short names,
and the same with its last name repeated; and a text of two bytes, whose cost is taken off as that of starting the program.
"""
import json
import os
import re
import subprocess
import sys
import tempfile
import time

SIZE = 1048576
ROOT = os.path.dirname(os.path.dirname(os.path.abspath(__file__)))
PROGRAM = os.path.join(ROOT, "crates", "textcheck", "out", "textcheck")


def resource(n):
    return {
        "@odata.type": "#Processor.v1_20_0.Processor",
        "@odata.id": f"/redfish/v1/Systems/{n}/Processors/CPU{n % 4}",
        "Id": f"CPU{n % 4}",
        "Name": "Processor",
        "Socket": f"CPU {n % 4}",
        "ProcessorType": "CPU",
        "ProcessorId": {"VendorId": "GenuineIntel", "IdentificationRegisters": "0x34AC34DC8901274A", "EffectiveFamily": "0x42"},
        "MaxSpeedMHz": 3700,
        "TotalCores": 8 + n % 5,
        "Status": {"State": "Enabled", "Health": "OK"},
        "Sensors": [20 + n % 7, 21.5, None, True],
        "Links": {"Chassis": {"@odata.id": f"/redfish/v1/Chassis/{n}"}},
    }


def ordinary():
    parts, size, n = [], 2, 0
    while True:
        part = json.dumps(resource(n), indent=2)
        if size + len(part) + 2 > SIZE:
            break
        parts.append(part)
        size += len(part) + 2
        n += 1
    text = "[" + ",\n".join(parts) + "]"
    return (text + " " * (SIZE - len(text))).encode()


def hostile(repeat):
    count = (SIZE - 2) // 10
    names = [f"{(i * 64927) % 99991 + 100000 if i < 99991 else i + 200000:x}"[-5:].rjust(5, "g") for i in range(count)]
    names = list(dict.fromkeys(names))
    if repeat:
        names[-1] = names[0]
    text = "{" + ",".join(f'"{name}":0' for name in names) + "}"
    return text.encode()


def instructions(folder):
    done = subprocess.run(["valgrind", "--tool=callgrind", "--callgrind-out-file=/dev/null", PROGRAM], cwd=folder, capture_output=True, text=True)
    return int(re.search(r"Collected : (\d+)", done.stderr).group(1)), done.stdout.strip()


def seconds(words, folder):
    best = None
    for _ in range(15):
        began = time.perf_counter()
        subprocess.run(words, cwd=folder, stdout=subprocess.DEVNULL, check=True)
        took = time.perf_counter() - began
        best = took if best is None else min(best, took)
    return best


def main():
    if not os.path.exists(PROGRAM):
        sys.exit("bench: first run: tools/run textcheck")
    texts = {"small": b"[]", "ordinary": ordinary(), "names": hostile(False), "repeated": hostile(True)}
    with tempfile.TemporaryDirectory() as top:
        cost = {}
        for name, text in texts.items():
            folder = os.path.join(top, name)
            os.mkdir(folder)
            with open(os.path.join(folder, "text.json"), "wb") as out:
                out.write(text)
            cost[name], verdict = instructions(folder)
            print(f"{name}: {len(text)} bytes, {cost[name]} instructions, verdict {verdict}")
        base = cost["small"]
        per_byte = (cost["ordinary"] - base) / len(texts["ordinary"])
        print(f"ordinary: {per_byte:.1f} instructions per byte")
        for name in ("names", "repeated"):
            print(f"{name}: {(cost[name] - base) / (cost['ordinary'] - base):.1f} times the ordinary text")
        for label, words in (("textcheck", [PROGRAM]), ("jq", ["jq", "empty", "text.json"])):
            took = seconds(words, os.path.join(top, "ordinary")) - seconds(words, os.path.join(top, "small"))
            print(f"{label}: {len(texts['ordinary']) / took / 1e6:.0f} MB/s")


main()
