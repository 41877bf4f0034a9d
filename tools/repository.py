"""What the tools share: the repository's crates, a copy of it to change, and commands with a time limit."""

import contextlib
import os
import pathlib
import shutil
import signal
import subprocess
import tempfile

ROOT = pathlib.Path(__file__).resolve().parent.parent


def crates():
    """Each crate of crates.txt with the libraries that it names."""
    lines = (line.split("#")[0] for line in (ROOT / "crates.txt").read_text().splitlines())
    parts = (line.partition(":") for line in lines)
    return {crate.split()[0]: libraries.split() for crate, colon, libraries in parts if colon}


@contextlib.contextmanager
def copied(built=False):
    """A temporary copy of crates.txt and crates/, if asked with what checks have kept in out/."""
    with tempfile.TemporaryDirectory() as name:
        place = pathlib.Path(name)
        shutil.copy(ROOT / "crates.txt", place)
        shutil.copytree(ROOT / "crates", place / "crates", ignore=None if built else shutil.ignore_patterns("out"))
        yield place


def run(words, place, seconds):
    """The exit status of a command in a folder, None where its time ran out, and what it printed."""
    pipes = {"stdin": subprocess.DEVNULL, "stdout": subprocess.PIPE, "stderr": subprocess.STDOUT}
    with subprocess.Popen(words, cwd=place, encoding="utf-8", errors="replace", start_new_session=True, **pipes) as command:
        try:
            printed, _ = command.communicate(timeout=seconds)
            return command.returncode, printed
        except subprocess.TimeoutExpired:
            return None, ""
        finally:
            if command.poll() is None:
                os.killpg(command.pid, signal.SIGKILL)
