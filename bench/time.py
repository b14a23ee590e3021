#!/usr/bin/env python3
"""Times each command on large jobs: processor seconds, bytes written and peak memory.

usage: time.py [--best N] [KIND..]

Builds nothing: run `rt run` in crates/patchtool, crates/patchrun and crates/patchlive first. KIND is a kind of job of jobs.py; without
one, `gates`, `wide`, `qubits` and `measurements` are timed. Each command runs N times (3), and its least processor seconds are
printed. A command of a program that isn't built is left out, and one that ends with another status than 0 is named with it."""

import os
import subprocess
import sys
import tempfile

import jobs

TOP = os.path.dirname(os.path.dirname(os.path.abspath(__file__)))
JOB = ["circuit", "layout", "outcomes"]
COMMANDS = [
    ("patchtool", "lower", ["circuit"]),
    ("patchtool", "layers", ["circuit"]),
    ("patchtool", "serial", JOB),
    ("patchtool", "least", JOB),
    ("patchtool", "verify", [*JOB, "schedule"]),
    ("patchtool", "slices", [*JOB, "schedule"]),
    ("patchtool", "migrate", [*JOB, "schedule"]),
    ("patchrun", "run", [*JOB, "1"]),
    ("patchrun", "run", [*JOB, "2"]),
    ("patchrun", "run", [*JOB, "4"]),
    ("patchlive", "live", [*JOB, "1"]),
    ("patchlive", "live", [*JOB, "4"]),
]


def measure(program, words, folder, keep=None):
    """Runs the program in the folder: its status, processor seconds, bytes written and peak memory in MB."""
    process = subprocess.Popen([program, *words], cwd=folder, stdout=subprocess.PIPE, stderr=subprocess.DEVNULL)
    written = 0
    while piece := process.stdout.read1(1 << 20):
        written += len(piece)
        if keep:
            keep.write(piece)
    process.stdout.close()
    _, status, used = os.wait4(process.pid, 0)
    return os.waitstatus_to_exitcode(status), used.ru_utime + used.ru_stime, written, used.ru_maxrss / 1024


def main(words):
    best = int(words[words.index("--best") + 1]) if "--best" in words else 3
    kinds = [it for it in words if it in jobs.SIZES] or ["gates", "wide", "qubits", "measurements"]
    print(f"{'job':14}{'command':12}{'seconds':>9}{'bytes':>13}{'MB':>7}")
    for kind in kinds:
        with tempfile.TemporaryDirectory(prefix="time-") as folder:
            jobs.write(kind, folder)
            for program, command, files in COMMANDS:
                path = f"{TOP}/crates/{program}/out/{program}"
                if not os.path.exists(path):
                    continue
                runs = []
                for _ in range(best):
                    with open(f"{folder}/{'schedule' if command == 'serial' else 'other'}", "wb") as file:
                        runs.append(measure(path, [command, *files], folder, file if command == "serial" else None))
                status, seconds, written, memory = min(runs, key=lambda it: (it[0], it[1]))
                name = f"{command} {files[-1]}" if command in ("run", "live") else command
                said = "" if status == 0 else f"  status {status}"
                print(f"{kind:14}{name:12}{seconds:9.2f}{written:13,}{memory:7.0f}{said}", flush=True)


if __name__ == "__main__":
    main(sys.argv[1:])
