"""Whether each tool says how it is used: at `--help` it prints its usage, and ends with status 0."""
import os
import pathlib
import runpy
import signal
import sys
import tempfile

from repository import TOP

IS_A_TOOL = "#!/usr/bin/env python3\n"
SECONDS = 10


def tools():
    """The files of tools and bench that are called."""
    files = sorted(path for folder in ("tools", "bench") for path in (TOP / folder).iterdir() if path.is_file())
    return [path for path in files if path.suffix in ("", ".py") and path.read_text().startswith(IS_A_TOOL)]


def run_here(tool, out):
    """Runs a tool in this process, which is a copy of the one that asks, and ends it."""
    os.dup2(out.fileno(), 1)
    os.dup2(out.fileno(), 2)
    sys.stdout, sys.stderr = open(1, "w", closefd=False), open(2, "w", closefd=False)
    sys.argv, sys.path[0] = [str(tool), "--help"], str(tool.parent)
    # A tool that goes on in spite of its --help is ended.
    signal.alarm(SECONDS)
    status = 1
    try:
        runpy.run_path(str(tool), run_name="__main__")
    except SystemExit as ended:
        status = 1 if ended.code else 0
    finally:
        sys.stdout.flush()
        os._exit(status)


def fault(tool):
    """What is wrong with what a tool says, or None. A copy of this process runs it, since Python need not start then."""
    with tempfile.TemporaryFile() as out:
        copy = os.fork()
        if copy == 0:
            run_here(tool, out)
        _, ended = os.waitpid(copy, 0)
        out.seek(0)
        said = out.read().decode(errors="replace")
    name = pathlib.PurePath(tool).relative_to(TOP)
    if os.waitstatus_to_exitcode(ended) != 0 or not said.startswith("usage: "):
        return f"{name} --help: status {os.waitstatus_to_exitcode(ended)}, {said[:80]!r}"
    return None


def check():
    found = tools()
    return f"{len(found)} tools", [wrong for tool in found if (wrong := fault(tool))]
