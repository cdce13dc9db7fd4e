#!/usr/bin/env python3
"""Runs every must-fail edit: each must not only be refused by the prover, but give a wrong answer.

    model/edits.py                      runs the edits of every crate
    model/edits.py CRATE..              runs those of the named crates
    model/edits.py --by PROGRAM CRATE.. asks that program alone, to see which of them it catches

The gate shows that the prover refuses an edit. It cannot show that the edited program is wrong: an edit may be refused
only because a proof no longer fits code that still answers rightly. So this applies each edit to a copy, runs a program
on it unproved, and names the first line that differs from the program's stdout, what is said in its place, and for list
the text that the line answers; for vectors, where a recorded answer differs, that line and the answer in its place. The
program is list for the edits of words, runs, spelling, head, block, reader and listing, and where that shows nothing
vectors; for those of lines list, and where that shows nothing list without its last line, which is not ended; for all others vectors, and where that shows nothing corners for those of composer, writer, squares and trip,
list for the rest. An edit of laws or of a definition changes what is claimed, and is not run. Run it at the
repository's root after an edit or an example is added; it ends with status 1 if some edit changes nothing.
"""
import glob, os, re, shutil, subprocess, sys, tempfile

ENDED = "list, its input ended by LF"
PROGRAMS = {crate: ("list", "vectors") for crate in ("words", "runs", "spelling", "head", "block", "reader", "listing")}
PROGRAMS["lines"] = ("list", ENDED)
PROGRAMS.update((crate, ("vectors", "corners")) for crate in ("composer", "writer", "squares", "trip"))


def programs(crate, by):
    return (by,) if by else PROGRAMS.get(crate, ("vectors", "list"))


def changed(scratch, crate, path):
    """Applies the edit to the copy."""
    words = [line.rstrip("\n").split(": ", 1) for line in open(path)]
    target = os.path.join(scratch, "crates", crate, words[0][1])
    text = open(target).read()
    for (_, old), (_, new) in zip(words[1::2], words[2::2]):
        assert text.count(old) == 1, path
        text = text.replace(old, new)
    open(target, "w").write(text)


def ended(scratch):
    """Takes the last line, which is not ended, from list's input and its answer from what it has to write."""
    for name, cut in (("stdin", 1), ("stdout", 2)):
        path = os.path.join(scratch, "crates", "list", name)
        data = open(path, "rb").read()
        open(path, "wb").write(data[: len(data) - len(data.split(b"\n")[-cut]) - cut + 1])


def shown(scratch, program):
    """What the program prints otherwise, or nothing."""
    if program == ENDED:
        ended(scratch)
        program = "list"
    folder = os.path.join(scratch, "crates", program)
    feed = os.path.join(folder, "stdin")
    with open(feed if os.path.exists(feed) else os.devnull, "rb") as stdin:
        run = subprocess.run(["rt", "try"], cwd=folder, stdin=stdin, capture_output=True)
    right = open(os.path.join(folder, "stdout"), "rb").read()
    told = run.stderr.decode().strip().split("\n")
    if not told[-1].startswith("run="):
        sys.exit(f"{program} does not build: " + told[0])
    # At a fault the output is not handed on, and the line of the compiled run says what it was.
    fault = next((line for line in told if line.startswith("checked: ") and "ended" not in line), None)
    if fault:
        return f"{program} does not end: " + fault.split(": ", 1)[1]
    if run.stdout == right:
        return ""
    byte = next((k for k, (a, b) in enumerate(zip(run.stdout, right)) if a != b), min(len(run.stdout), len(right)))
    start = right.rfind(b"\n", 0, byte) + 1
    said = run.stdout[start:].split(b"\n")[0].decode(errors="replace") or "nothing more"
    differs = re.match(r"line \d+: (.*)\n  here: (.*)\n", run.stdout[start:].decode(errors="replace"))
    if differs:
        return f"{program} differs at: {differs[1]}, and says: {differs[2]}"
    line = right[start:].split(b"\n")[0].decode() or "the end"
    what = f"{program} differs at: {line}, and says: {said[:80]}"
    if program == "list" and line != "the end":
        text = open(feed, "rb").read().split(b"\n")[int(line.split()[0]) - 1]
        what += ", of: " + repr(text)[1:]
    return what


def main():
    words = sys.argv[1:]
    by = words[1] if words[:1] == ["--by"] else None
    crates = words[2:] if by else words
    silent = 0
    for path in sorted(glob.glob("crates/*/must-fail/*.edit")):
        crate, label = path.split("/")[1], os.path.basename(path)[:-5]
        if "file: specs/" in open(path).readline() or crates and crate not in crates:
            continue
        with tempfile.TemporaryDirectory() as scratch:
            for part in ("crates", "crates.txt"):
                to = os.path.join(scratch, part)
                if os.path.isdir(part):
                    shutil.copytree(part, to, ignore=shutil.ignore_patterns("out"))
                else:
                    shutil.copy(part, to)
            changed(scratch, crate, path)
            what = next(filter(None, (shown(scratch, program) for program in programs(crate, by))), None)
        silent += what is None
        print(f"{crate}/{label}: {what or 'CHANGES NOTHING'}", flush=True)
    print(silent, "edits change nothing")
    sys.exit(1 if silent else 0)


if __name__ == "__main__":
    main()
