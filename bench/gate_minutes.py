#!/usr/bin/env python3
"""Runs the gate from nothing and prints the processor seconds that it took, by crate: of the proof, of the tests' proof
and of the must-fail edits, as the table of CONTRIBUTING.md, with the number of edits; then what passed, the sums, the
longest chain of crates of which each waits for the one before, and the minutes by the clock.

    bench/gate_minutes.py             # rt ci
    bench/gate_minutes.py --gate      # .ci/run, which does more behind rt ci; the table is of rt ci all the same
    bench/gate_minutes.py --write     # puts the ten dearest rows and what stands below them into CONTRIBUTING.md too
    bench/gate_minutes.py bit_rows    # this crate and those below it, where the kit's rt ci takes names

What the run itself writes is shown as it comes. --write writes nothing where the run failed.

It looks at the processes of the run ten times a second; what a process took that lived shorter than that is counted
with the one that started it. The minutes by the clock are up to the last process of the prover; what .ci/run does
behind rt ci, and the runs of programs and tests, take some minutes more. A kit whose rt ci does not prove again what an
earlier run has passed is told to prove all anew, but where crates are named."""
import argparse
import glob
import os
import re
import subprocess
import sys
import threading
import time

PAGE, SECTION = "CONTRIBUTING.md", "## What the gate costs\n"
TICKS = os.sysconf("SC_CLK_TCK")
KINDS = ("proof", "tests", "edits")
MOST_SHOWN = 10  # so many crates have a row of their own on the page
HEAD = "| Crate | Proof | Tests | Edits | Number of edits |\n|---|---|---|---|---|\n"
SHOWN = re.compile(re.escape(HEAD) + r"(?:\|.*\n)*\n```text\n(?:.*\n)*?```\n")
COUNTS = re.compile(r"\d+ passed, \d+ failed")


def processes():
    """For each process its parent, its command, its folder, when it began, and the seconds of it and of those that it
    started and that have ended."""
    found = {}
    for name in os.listdir("/proc"):
        if not name.isdigit():
            continue
        try:
            with open(f"/proc/{name}/stat") as file:
                fields = file.read().rsplit(")", 1)[1].split()
            with open(f"/proc/{name}/cmdline") as file:
                words = file.read().split("\0")
            folder = os.readlink(f"/proc/{name}/cwd")
        except OSError:
            continue
        found[int(name)] = (int(fields[1]), words, folder, fields[19], sum(map(int, fields[11:15])) / TICKS)
    return found


def is_rt_ci(words):
    """Whether a command is `rt ci`, by itself or run by an interpreter."""
    names = [os.path.basename(word) for word in words]
    return any(pair == ("rt", "ci") for pair in zip(names, names[1:]))


def prover_of(found, process, root):
    """The outermost process of the prover that this one is, or was started by; none where no `rt ci` that the root is
    or started has started it."""
    prover, of_ci = None, False
    while process in found:
        words = found[process][1]
        if os.path.basename(words[0]) == "rattle" and "--crate-name" in words:
            prover = process
        of_ci = of_ci or is_rt_ci(words)
        if process == root:
            return prover if of_ci else None
        process = found[process][0]
    return None


def kind_of(words, folder):
    """What a run of the prover is for."""
    if "rt-edit" in folder or any("rt-edit" in word for word in words):
        return "edits"
    return "tests" if "--test" in words or "--tests" in words else "proof"


def sample(root, runs):
    """Notes what each run of the prover under the root has taken so far."""
    found, sums = processes(), {}
    for process, (_, _, _, _, seconds) in found.items():
        prover = prover_of(found, process, root)
        if prover is not None:
            sums[prover] = sums.get(prover, 0) + seconds
    for prover, seconds in sums.items():
        _, words, folder, begun, _ = found[prover]
        crate = words[words.index("--crate-name") + 1]
        before = runs.get((prover, begun), ("", "", 0))[2]
        runs[prover, begun] = (crate, kind_of(words, folder), max(seconds, before))
    return bool(sums)


def longest_chain(proofs):
    """The crates of the longest chain of libraries, by the seconds of their proofs, and these seconds."""
    with open("crates.txt") as file:
        below = {crate: names.split() for crate, names in re.findall(r"^(\w+)\b[^:\n]*:([^#\n]*)", file.read(), re.M)}
    longest = {}

    def chain_to(crate):
        if crate not in longest:
            seconds, chain = max((chain_to(it) for it in below[crate] if it in below), default=(0, []))
            longest[crate] = (seconds + proofs.get(crate, 0), [*chain, crate])
        return longest[crate]

    return max(map(chain_to, below))


def shown_row(name, row, number):
    """The row of a crate, or of several together."""
    return f"| {name} | " + " | ".join(f"{row[kind]:.0f}" if row[kind] else "none" for kind in KINDS) + f" | {number} |\n"


def shown(table, counts, minutes, most):
    """The table, in which all but the `most` dearest crates are one row, and below it what passed, the sums, the longest
    chain and the minutes by the clock."""
    ordered = sorted(table.items(), key=lambda item: -sum(item[1].values()))
    numbers = {crate: len(glob.glob(f"crates/{crate}/must-fail/*.edit")) for crate in table}
    edits, others = sum(numbers.values()), ordered[most:]
    rows = [shown_row(f"`{crate}`", row, numbers[crate]) for crate, row in ordered[:most]]
    if others:
        row = {kind: sum(each[kind] for _, each in others) for kind in KINDS}
        rows.append(shown_row(f"the {len(others)} others together", row, sum(numbers[crate] for crate, _ in others)))
    sums = {kind: sum(row[kind] for row in table.values()) / 60 for kind in KINDS}
    told = ", ".join(f"{kind} {minutes:.1f}" for kind, minutes in sums.items())
    seconds, chain = longest_chain({crate: row["proof"] for crate, row in table.items()})
    lines = [
        f"{len(table)} crates, {edits} edits; {counts}",
        f"{sum(sums.values()):.1f} processor minutes: {told}, {60 * sums['edits'] / max(edits, 1):.0f} seconds an edit",
        *wrapped(f"longest chain: {seconds / 60:.1f} processor minutes of proof: {', '.join(chain)}"),
        f"{minutes:.1f} minutes by the clock",
    ]
    return HEAD + "".join(rows) + "\n```text\n" + "\n".join(lines) + "\n```\n"


def wrapped(line):
    """The line, as lines of at most 120 columns."""
    lines = [""]
    for word in line.split(" "):
        if len(lines[-1]) + len(word) >= 120:
            lines.append("   ")
        lines[-1] += f" {word}" if lines[-1] else word
    return lines


def put_into_page(text):
    """Puts the table and what stands below it in the place of those of the page, or to the end of the section on them."""
    with open(PAGE) as file:
        page = file.read()
    if SHOWN.search(page):
        page = SHOWN.sub(lambda _: text, page)
    else:
        before, head, section = page.partition(SECTION)
        if not head:
            sys.exit(f"{PAGE} has no section {SECTION.strip()}")
        section, following, after = section.partition("\n## ")
        page = before + head + section.rstrip("\n") + f"\n\n{text}" + following + after
    with open(PAGE, "w") as file:
        file.write(page)


def echo(lines, last):
    """Shows what the run writes, and keeps the last line that counts."""
    for line in lines:
        sys.stdout.write(line)
        sys.stdout.flush()
        found = COUNTS.match(line)
        if found:
            last[0] = found[0]


def command(given):
    """What is run."""
    if given.gate:
        return [".ci/run"]
    told = subprocess.run(["rt", "help"], stdout=subprocess.PIPE, stderr=subprocess.STDOUT, errors="replace").stdout
    return ["rt", "ci", *(["--anew"] if "--anew" in told and not given.crates else []), *given.crates]


def main():
    parser = argparse.ArgumentParser(description="Runs the gate and prints the processor seconds of each crate.")
    parser.add_argument("--gate", action="store_true", help="run .ci/run in the place of rt ci")
    parser.add_argument("--write", action="store_true", help=f"put the table into {PAGE}")
    parser.add_argument("crates", nargs="*", metavar="CRATE", help="prove these and those below them; all with none")
    given = parser.parse_args()
    if given.crates and (given.gate or given.write):
        parser.error("--gate and --write are for all crates")
    begin, runs, last = time.time(), {}, ["nothing counted"]
    end = begin
    gate = subprocess.Popen(command(given), stdout=subprocess.PIPE, stdin=subprocess.DEVNULL, errors="replace")
    reader = threading.Thread(target=echo, args=(gate.stdout, last))
    reader.start()
    while gate.poll() is None:
        if sample(gate.pid, runs):
            end = time.time()
        time.sleep(0.1)
    reader.join()
    table = {}
    for crate, kind, seconds in runs.values():
        table.setdefault(crate, dict.fromkeys(KINDS, 0))[kind] += seconds
    if not table:
        print("no process of the prover was seen")
        return gate.returncode or 1
    minutes = (end - begin) / 60
    print(shown(table, last[0], minutes, len(table)), end="")
    if given.write and gate.returncode == 0:
        put_into_page(shown(table, last[0], minutes, MOST_SHOWN))
    return gate.returncode


if __name__ == "__main__":
    os.chdir(os.path.dirname(os.path.dirname(os.path.abspath(__file__))))
    sys.exit(main())
