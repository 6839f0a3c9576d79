#!/usr/bin/env python3
"""Runs `rt ci` at the top of the repository, hands its lines on, and writes a table of when each crate was done to
docs/gate_times.md: minutes from the start to where it was proved, its tests were, and its wrong bodies were tried, with how
many there are; last the time and the processor time of the whole. Words behind the script's name go to `rt ci`."""

import os
import re
import resource
import subprocess
import sys
import time

STAGES = {
    "proved": re.compile(r"^rt: (\w+) proved$"),
    "tests": re.compile(r"^rt: (\w+): its tests are proved$"),
    "begun": re.compile(r"^rt: (\w+): trying its must-fail edits \((\d+)\)$"),
    "tried": re.compile(r"^rt: must-fail (\w+)/"),
}


def minutes(seconds):
    return "" if seconds is None else f"{seconds / 60:.1f}"


def main():
    top = os.path.dirname(os.path.dirname(os.path.abspath(__file__)))
    begun = time.time()
    done = {}
    counts = {}
    run = subprocess.Popen(["rt", "ci", *sys.argv[1:]], cwd=top, stdout=subprocess.PIPE, stderr=subprocess.STDOUT, text=True)
    for line in run.stdout:
        sys.stdout.write(line)
        sys.stdout.flush()
        for stage, pattern in STAGES.items():
            match = pattern.match(line)
            if match:
                done.setdefault(match.group(1), {})[stage] = time.time() - begun
                if stage == "begun":
                    counts[match.group(1)] = match.group(2)
    status = run.wait()
    whole = time.time() - begun
    used = resource.getrusage(resource.RUSAGE_CHILDREN)
    with open(os.path.join(top, "docs", "gate_times.md"), "w", encoding="utf-8") as out:
        out.write("| Crate | Proved | Its tests | Wrong bodies | Their number |\n|---|---|---|---|---|\n")
        for crate, at in sorted(done.items(), key=lambda item: max(item[1].values())):
            out.write(
                f"| {crate} | {minutes(at.get('proved'))} | {minutes(at.get('tests'))} "
                f"| {minutes(at.get('tried'))} | {counts.get(crate, '')} |\n"
            )
        out.write(f"\nThe whole took {minutes(whole)} minutes, and {minutes(used.ru_utime + used.ru_stime)} of a processor.\n")
    return status


if __name__ == "__main__":
    sys.exit(main())
