#!/usr/bin/env python3
"""Runs the program over each example, and compares what it writes with what stands beside it.

    python3 tools/examples.py --try          # builds it unproved, by `rt try` in crates/centre: some minutes
    python3 tools/examples.py PROGRAM        # runs a built program, as crates/centre/out/centre

The examples are the first script, each line of which has to stand in README; those of the folder `examples`, NAME.script with NAME.expected and, if they
are not 0 and empty, NAME.status and NAME.stderr; and the fenced blocks of `docs/SCRIPTS.md`: one marked `script`, one marked `output` after it and, if a
line is bad, one marked `stderr`. With --try what is written on standard error is not compared, since `rt try` does not hand it on; the exit status is.
The gate runs them, too, as rows of `script_tests` (`tools/rows.py`).
"""
import argparse
import pathlib
import re
import subprocess
import sys
import tempfile

ROOT = pathlib.Path(__file__).resolve().parent.parent
FENCES = re.compile(r"```script\n(.*?)```\s+```output\n(.*?)```(?:\s+```stderr\n(.*?)```)?", re.DOTALL)
CASE = re.compile(r"^case=(\S+) run=(\S+) status=(\d+) .*output=(\S+)", re.MULTILINE)


def first_script():
    script, output = ((ROOT / "crates/centre" / name).read_text() for name in ("stdin", "stdout"))
    readme = (ROOT / "README.md").read_text()
    for line in (script + output).splitlines():
        if line not in readme:
            sys.exit(f"README lacks a line of the first script: {line}")
    yield "first_script", script, output, 0, ""


def in_folder():
    for path in sorted((ROOT / "examples").glob("*.script")):
        def text(kind):
            other = path.with_suffix(kind)
            return other.read_text() if other.exists() else ""

        yield path.stem, path.read_text(), text(".expected"), int(text(".status") or 0), text(".stderr")


def in_page():
    for number, (script, output, told) in enumerate(FENCES.findall((ROOT / "docs/SCRIPTS.md").read_text()), start=1):
        yield f"scripts_page_{number}", script, output, 2 if told else 0, told


def run(program, examples):
    for name, script, output, status, told in examples:
        ran = subprocess.run([program, "script"], input=script, capture_output=True, text=True)
        if (ran.stdout, ran.returncode, ran.stderr.strip()) != (output, status, told.strip()):
            yield f"{name}: status {ran.returncode}, {ran.stderr.strip()!r}\n{ran.stdout}"


def run_unproved(examples):
    with tempfile.TemporaryDirectory() as folder:
        for name, script, output, _, _ in examples:
            pathlib.Path(folder, name).write_text(script)
            pathlib.Path(folder, name + ".stdout").write_text(output)
        ran = subprocess.run(["rt", "try", "--cases", folder, "--", "script"], cwd=ROOT / "crates/centre", capture_output=True, text=True)
    said = {name: rest for name, *rest in CASE.findall(ran.stdout + ran.stderr)}
    for name, _, _, status, _ in examples:
        if said.get(name) != ["ended", str(status), "expected"]:
            yield f"{name}: {said.get(name)}\n{ran.stdout if name in said else ran.stderr}"


def main():
    reader = argparse.ArgumentParser(description=__doc__, formatter_class=argparse.RawDescriptionHelpFormatter)
    way = reader.add_mutually_exclusive_group(required=True)
    way.add_argument("--try", dest="is_unproved", action="store_true")
    way.add_argument("program", metavar="PROGRAM", nargs="?")
    given = reader.parse_args()
    examples = [*first_script(), *in_folder(), *in_page()]
    wrong = list(run_unproved(examples) if given.is_unproved else run(given.program, examples))
    print(*wrong, f"{len(examples)} examples, {len(wrong)} wrong", sep="\n")
    sys.exit(1 if wrong else 0)


if __name__ == "__main__":
    main()
