"""Runs tests as `python -m unittest` does, of which it takes the arguments. Then each reason why
tests were skipped is a line with NOT TRIED and their names. What root can't try, which may read
every file, is tried as a user who may not."""
import os
import subprocess
import sys
import unittest
from subprocess import DEVNULL, PIPE
from typing import Any, Dict, List

from tests import TOP

# Such a reason begins with this word.
ROOT = "root "
NOBODY = 65534


def be_nobody() -> None:
    os.setgroups([])
    os.setgid(NOBODY)
    os.setuid(NOBODY)


def run_as_nobody(words: List[str], **options: Any) -> "subprocess.CompletedProcess[str]":
    environment = {**os.environ, "HOME": "/"}
    return subprocess.run(
        words, env=environment, preexec_fn=be_nobody, stdin=DEVNULL, text=True, **options
    )


def tests_of_nobody() -> List[str]:
    """The command by which this user runs tests. An exception says that it can't."""
    python = run_as_nobody([str(TOP / "tools" / "python_with")], stdout=PIPE).stdout.strip()
    words = [python, "-B", "-m", "tests"]
    if not python or run_as_nobody([*words, "--help"], stdout=DEVNULL, stderr=DEVNULL).returncode:
        raise OSError("this folder or Python is closed to it")
    return words


def report(skipped: Dict[str, List[str]]) -> bool:
    """Says what wasn't tried. Whether what is tried here passes."""
    is_right = True
    for reason, names in skipped.items():
        if reason.startswith(ROOT) and os.getuid() == 0:
            try:
                words = tests_of_nobody()
            except (OSError, subprocess.SubprocessError) as error:
                reason = f"{reason}, and another user can't run them here ({error})"
            else:
                print(f"run_tests: by another user: {', '.join(names)}", flush=True)
                is_right &= run_as_nobody([*words, *names]).returncode == 0
                continue
        print(f"run_tests: NOT TRIED: {reason}: {', '.join(names)}")
    return is_right


def main() -> None:
    program = unittest.main(None, argv=["run_tests", *sys.argv[1:]], exit=False)
    skipped: Dict[str, List[str]] = {}
    for test, reason in program.result.skipped:
        skipped.setdefault(reason, []).append(test.id())
    is_right = report(skipped)
    sys.exit(0 if is_right and program.result.wasSuccessful() else 1)


main()
