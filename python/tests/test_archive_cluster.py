"""`claxon-archive` by a scheduler of Dask with workers on this machine."""
import contextlib
import ctypes
import os
import re
import shlex
import signal
import subprocess
import sys
import unittest
from concurrent.futures import Future
from pathlib import Path
from subprocess import DEVNULL
from typing import Any, Callable, Dict, FrozenSet, Iterator, List, Optional, Set
from unittest import mock

from claxon.archive import batch, run
from claxon.archive.engines import Engine, Errors, _Workers
from claxon.archive.progress import Progress
from claxon.archive.results import Results
from claxon.archive.run import Wanted
from tests.archives import DASK, GO_ON, LOG, PYTHON, RIGHT, ROWS, WRONG, Archive, FoundSlowly
from tests.archives import OnCluster, can_mount, has_modules


class Interrupting:
    """Ctrl-C comes while it is removed."""

    def __del__(self) -> None:
        os.kill(os.getpid(), signal.SIGINT)
        # A signal is handled between two steps.
        for _ in range(1000):
            pass


class Mortal(Engine):
    """Two workers. One that has a file of poison dies, with all batches that it has, and another
    one takes its place."""

    def __init__(self, is_told: bool) -> None:
        """Whether it says so of a batch, or the batches are lost."""
        self._is_told = is_told
        self._batches: List[Dict[Any, bytes]] = [{}, {}]
        self._asked: Set[Any] = set()
        self.deaths = 0
        self.most = 0  # the most batches of which one worker died

    def processors(self) -> int:
        return 2

    def has_idle(self, avoided: FrozenSet[str]) -> bool:
        return not all(self._batches)

    def submit(self, names: bytes, avoided: FrozenSet[str], is_alone: bool) -> Any:
        batches = min(self._batches, key=len)
        assert not (is_alone and batches)
        future: Any = Future()
        batches[future] = names
        return future

    def attempt(self, future: Any) -> Optional[batch.Attempt]:
        """Each result is gone at first, and comes again."""
        if future not in self._asked:
            self._asked.add(future)
            return None
        return batch.Attempt(*future.result())

    def cancel(self, future: Any) -> bool:
        return True

    def lost(self, futures: List[Any]) -> List[Any]:
        """What comes of all batches is known then."""
        lost: List[Any] = []
        for batches in self._batches:
            is_dead = any(b"poison" in names for names in batches.values())
            if is_dead:
                self.deaths += 1
                self.most = max(self.most, len(batches))
            for future, names in list(batches.items()):
                del batches[future]
                if not is_dead:
                    future.set_result(batch.attempt(names, None))
                elif self._is_told:
                    future.set_result(("", None, "four workers died", True, True))
                else:
                    lost.append(future)
        return lost


class Given(unittest.TestCase):
    """What workers are given, and give."""

    def test_result_that_is_gone(self) -> None:
        """It isn't waited for, as long as it would be if it were there."""
        engine = _Workers(None, Errors(KeyError, TimeoutError), None, batch.ToShow("", []))
        found = batch.Attempt("a", [], "", True)
        for is_there, wanted, waits in ((False, None, [1]), (True, found, [1, 15])):
            result = mock.Mock(side_effect=[TimeoutError, tuple(found)[:4]])
            future = mock.Mock(result=result, done=lambda: is_there)
            self.assertEqual(engine.attempt(future), wanted)
            self.assertEqual([call[1]["timeout"] for call in result.call_args_list], waits)

    def test_alone(self) -> None:
        """A batch that is to be alone goes to a worker without any."""

        def submit(*words: Any, **more: Any) -> Any:
            return mock.Mock(done=lambda: True, result=lambda timeout: "", workers=more["workers"])

        client = mock.Mock(nthreads=lambda: {"a": 1, "b": 1, "c": 1}, submit=submit)
        errors = Errors(KeyError, TimeoutError)
        engine = _Workers(client, errors, None, batch.ToShow("", []))
        self.assertEqual(engine.processors(), 3)
        none, b = frozenset(""), frozenset("b")
        first = engine.submit(b"", none, True)
        self.assertEqual(first.workers, ["a"])
        self.assertEqual(engine.submit(b"", b, True).workers, ["c"])
        self.assertEqual((engine.has_idle(b), engine.has_idle(none)), (False, True))
        self.assertEqual(engine.submit(b"", none, True).workers, ["b"])
        self.assertFalse(engine.has_idle(none))
        engine.cancel(first)
        self.assertTrue(engine.has_idle(b))
        self.assertEqual(engine.submit(b"", b, False).workers, ["a", "c"])
        self.assertFalse(engine.has_idle(b))


class Deaths(Archive):
    """Batches whose workers die."""

    def test_dropped_interrupt(self) -> None:
        """An interrupt in a `__del__`, which Python drops, stops the run all the same."""
        self.write("1.flac", RIGHT)
        results = Results(str(self.results), is_new=True)
        wanted = Wanted([os.fsencode(self.files)], 1, None, None, False)
        with mock.patch.object(sys, "unraisablehook") as dropped:
            with run.remembered_interrupts() as interrupted:
                Interrupting()
                found = run.Verification(
                    wanted, results, Progress(), lambda: Mortal(True), interrupted
                )
                self.assertRaises(KeyboardInterrupt, found.run, wanted.folders)
        results.close()
        self.assertEqual(dropped.call_count, 1)
        self.assertIs(signal.getsignal(signal.SIGINT), signal.default_int_handler)

    def check_poison(self, is_told: bool, why: str, most: int) -> None:
        """Of ten batches of ten files the two files of poison aren't read. At most so many workers
        die of them."""
        for index in range(98):
            self.write(f"{index}.flac", WRONG if index % 9 == 0 else RIGHT)
        poison = {self.write(f"{index}-poison.flac", RIGHT) for index in (1, 7)}
        results = Results(str(self.results), is_new=True)
        wanted = Wanted([os.fsencode(self.files)], 1, None, None, False)
        engine = Mortal(is_told)
        with mock.patch.dict(os.environ, {"CLAXON_PROGRAM": self.program}):
            with mock.patch.multiple(run, _FILES=10, _FILES_A_PROCESSOR=5, _PAUSE=0.01):
                run.Verification(wanted, results, Progress(), lambda: engine).run(wanted.folders)
        results.close()
        self.assertGreater(engine.most, 1)
        self.assertLessEqual(engine.deaths, most)
        unread = {path: row["unread"] for path, row in self.by_path().items() if row["unread"]}
        self.assertEqual(unread, dict.fromkeys(poison, why))
        self.assertEqual(self.run_files().status, 1)
        self.check_kept()

    def test_told(self) -> None:
        """Of two batches beside others, and then alone: of ten files, five, three, two and one."""
        self.check_poison(True, "four workers died", 2 + 2 * 5)

    def test_lost(self) -> None:
        """As above, but twice beside others, and four times where a file is alone."""
        self.check_poison(False, "the workers that had it died", 4 + 2 * 8)


@unittest.skipIf(DASK is None, "no interpreter here has distributed (Debian's python3-distributed)")
class Cluster(OnCluster):
    """Two workers."""

    def test_verdicts(self) -> None:
        self.write_many(1000)
        self.write(b"\xff\n.flac", WRONG)
        self.run_files("--jobs", "1")
        one = self.kept()
        self.results.unlink()
        ended = self.run_on(self.start_cluster())
        self.assertEqual(ended.status, 1, ended.errors)
        self.assertEqual(self.kept(), one)
        self.check_kept()

    def test_killed_worker(self) -> None:
        """In the middle of a batch: another worker has its files."""
        self.write_many(3000)
        self.wrap(LOG + "sleep 0.5\n" + GO_ON)
        address = self.start_cluster()
        process = self.start_on(address)
        self.wait_for_rows()
        os.killpg(self.workers[0].pid, signal.SIGKILL)
        _, errors = process.communicate(timeout=120)
        text = re.sub(".* has no worker yet; waiting for one\n", "", errors.decode())
        self.assertEqual((process.returncode, text), (1, ""))
        self.check_kept()
        self.assertLessEqual(max(self.count_verified().values()), 2)

    def test_interrupt(self) -> None:
        """Batches at hand are dropped."""
        _, errors = self.interrupt()
        self.assertTrue(errors.endswith("claxon-archive: stopped; the next run goes on\n"), errors)
        self.assertEqual(self.run_files().status, 1)
        self.check_kept()

    def test_killed_scheduler(self) -> None:
        """The run ends, and what was told is kept."""
        self.write_many(3000)
        self.wrap(LOG + "sleep 0.5\n" + GO_ON)
        address = self.start_cluster()
        process = self.start_on(address)
        self.wait_for_rows()
        os.killpg(self.scheduler.pid, signal.SIGKILL)
        _, errors = process.communicate(timeout=120)
        self.assertEqual(process.returncode, 3, errors)
        self.assertIn(f"claxon-archive: {address} is gone", errors.decode())
        self.assertNotIn("Traceback", errors.decode())
        self.assertEqual(self.run_files().status, 1)
        self.check_kept()

    def test_no_claxon_on_a_worker(self) -> None:
        self.write("1.flac", RIGHT)
        self.program = "/none/claxon"
        ended = self.run_on(self.start_cluster())
        self.assertEqual((ended.status, ended.output), (3, b""))
        self.assertIn(" is left out: /none/claxon: No such file or directory\n", ended.errors)
        self.assertIn("claxon-archive: no worker is left: tcp://", ended.errors)

    def test_no_scheduler(self) -> None:
        self.write("1.flac", RIGHT)
        ended = self.run_on("tcp://127.0.0.1:9")
        self.assertEqual((ended.status, ended.output), (3, b""))
        self.assertIn("claxon-archive: tcp://127.0.0.1:9: no answer of a scheduler", ended.errors)


class NoCluster(Archive):
    def test_no_dask(self) -> None:
        self.write("1.flac", RIGHT)
        hidden = self.folder / "hidden"
        hidden.mkdir()
        (hidden / "distributed.py").write_text("raise ImportError('none', name='distributed')\n")
        (hidden / "cloudpickle.py").write_text("")
        environment = {**self.environment(), "PYTHONPATH": f"{hidden}:{PYTHON}"}
        ended = self.run_files("--scheduler", "tcp://127.0.0.1:9", env=environment)
        self.assertEqual((ended.status, ended.output), (3, b""))
        self.assertIn("distributed is missing here: Debian's python3-distributed", ended.errors)


@unittest.skipIf(DASK is None, "no interpreter here has distributed (Debian's python3-distributed)")
class Workers(OnCluster, FoundSlowly):
    """A scheduler with workers that differ."""

    @unittest.skipUnless(has_modules(sys.executable, "distributed"), "for another interpreter")
    def test_found_slowly(self) -> None:
        self.write_many(100)
        self.wrap(LOG + GO_ON)
        address = self.start_cluster()
        with self.find_slowly(lambda: None):
            self.run_here(address)
        self.check_kept()
        self.assertEqual(set(self.count_verified().values()), {1})

    @unittest.skipUnless(has_modules(sys.executable, "distributed"), "for another interpreter")
    def test_interrupt_while_finding(self) -> None:
        self.write_many(100)
        self.check_interrupt(self.start_cluster())

    @contextlib.contextmanager
    def program_of_workers(self, program: str) -> Iterator[None]:
        before, self.program = self.program, program
        yield
        self.program = before

    def wait_for_workers(self, address: str, number: int) -> None:
        script = (
            "import sys, distributed\n"
            "client = distributed.Client(sys.argv[1])\n"
            "client.wait_for_workers(int(sys.argv[2]), timeout=60)\n"
        )
        subprocess.check_call([DASK or "", "-c", script, address, str(number)], stderr=DEVNULL)

    def check_left_out(self, errors: str, reason: str) -> None:
        told = [line for line in errors.splitlines() if line.startswith("claxon-archive: ")]
        lines = [line for line in told if "has no worker yet" not in line]
        self.assertEqual(len(lines), 1, errors)
        self.assertRegex(lines[0], r"^claxon-archive: tcp://127\.0\.0\.1:\d+ is left out: ")
        self.assertTrue(lines[0].endswith(reason), lines[0])

    def test_one_without_claxon(self) -> None:
        self.write_many(600)
        address = self.start_scheduler()
        with self.program_of_workers("/none/claxon"):
            self.add_worker(address)
        self.add_worker(address)
        self.wait_for_workers(address, 2)
        ended = self.run_on(address)
        self.assertEqual(ended.status, 1, ended.errors)
        self.check_left_out(ended.errors, "/none/claxon: No such file or directory")
        self.check_kept()

    def test_other_version(self) -> None:
        self.write_many(100)
        address = self.start_scheduler()
        old = self.folder / "old"
        real = shlex.quote(self.program)
        old.write_text(
            '#!/bin/sh\nif [ "$1" = --version ]; then echo claxon 0.0.1; exit; fi\n'
            f'exec {real} "$@"\n'
        )
        old.chmod(0o755)
        with self.program_of_workers(str(old)):
            self.add_worker(address)
        self.add_worker(address)
        self.wait_for_workers(address, 2)
        ended = self.run_on(address)
        self.assertEqual(ended.status, 1, ended.errors)
        version = batch.version_of(self.program)
        self.check_left_out(
            ended.errors, f"{old} has version 0.0.1, and {version} is wanted"
        )
        self.check_kept()

    def test_none_is_left(self) -> None:
        """The run ends, and no verdict was changed."""
        self.write_many(100)
        self.assertEqual(self.run_files().status, 1)
        before = self.kept("*")
        address = self.start_scheduler()
        with self.program_of_workers("/none/claxon"):
            self.add_worker(address)
            self.add_worker(address)
        self.wait_for_workers(address, 2)
        ended = self.run_on(address, "--older-than", "0")
        self.assertEqual((ended.status, ended.output), (3, b""))
        self.assertRegex(
            ended.errors, r"claxon-archive: no worker is left: tcp://[\d.:]+, tcp://[\d.:]+\n$"
        )
        self.assertEqual(self.kept("*"), before)

    def write_damaged(self, number: int) -> None:
        """One of a hundred is damaged, of each kind in turn."""
        kinds = [row for row in ROWS.values() if row.verdict != "ok" and len(row.data) < 1000]
        for index in range(number):
            row = RIGHT if index % 100 else kinds[index // 100 % len(kinds)]
            self.write(f"{index // 1000}/{index}.flac", row)

    def test_same_verdicts(self) -> None:
        """One process, four, and a cluster say the same, of whose workers one is killed, one has no
        program and one is slow. CLAXON_TEST_FILES is the number of files."""
        self.write_damaged(int(os.environ.get("CLAXON_TEST_FILES", "3000")))
        self.assertEqual(self.run_files("--jobs", "1", timeout=3600).status, 1)
        one = self.kept()
        self.check_kept()
        self.results.unlink()
        self.assertEqual(self.run_files("--jobs", "4", timeout=3600).status, 1)
        self.assertEqual(self.kept(), one)
        self.results.unlink()
        address = self.start_scheduler()
        with self.program_of_workers("/none/claxon"):
            self.add_worker(address)
        for seconds in ("2", "0.2", "0.2"):
            self.wrap(f"{LOG}sleep {seconds}\n{GO_ON}", f"claxon-{seconds}")
            self.add_worker(address)
        self.wait_for_workers(address, 4)
        process = self.start_on(address)
        self.wait_for_rows()
        os.killpg(self.workers[-1].pid, signal.SIGKILL)
        _, errors = process.communicate(timeout=3600)
        self.assertEqual(process.returncode, 1, errors)
        self.check_left_out(errors.decode(), "/none/claxon: No such file or directory")
        self.assertEqual(self.kept(), one)

    def hide(self, folder: Path) -> Callable[[], None]:
        """In the mount namespace of a process that is started: nothing is in this folder."""

        def hidden() -> None:
            library = ctypes.CDLL(None)
            library.unshare(0x00020000)  # CLONE_NEWNS
            library.mount(b"none", b"/", None, 1 << 18 | 1 << 14, None)  # MS_PRIVATE | MS_REC
            if library.mount(b"none", os.fsencode(folder), b"tmpfs", 0, None) != 0:
                os._exit(99)

        return hidden

    @unittest.skipUnless(os.getuid() == 0 and can_mount(), "nothing can be mounted here")
    def test_one_without_the_share(self) -> None:
        self.write_many(600)
        self.assertEqual(self.run_files().status, 1)
        address = self.start_scheduler()
        self.add_worker(address, preexec_fn=self.hide(self.files))
        self.add_worker(address)
        self.wait_for_workers(address, 2)
        ended = self.run_on(address, "--older-than", "0")
        self.assertEqual(ended.status, 1, ended.errors)
        self.check_left_out(ended.errors, f"it doesn't see what is in {self.files}")
        self.check_kept()

    @unittest.skipUnless(os.getuid() == 0 and can_mount(), "nothing can be mounted here")
    def test_one_without_a_disk(self) -> None:
        """A folder below: its files are read by the other worker."""
        self.write_many(600)
        for index in range(100):
            self.write(f"disk/{index}.flac", RIGHT)
        address = self.start_scheduler()
        self.add_worker(address, preexec_fn=self.hide(self.files / "disk"))
        self.add_worker(address)
        self.wait_for_workers(address, 2)
        ended = self.run_on(address)
        self.assertEqual(ended.status, 1, ended.errors)
        self.check_kept()

    def check_killed_workers(self, number: int) -> None:
        """Of the file that kills them and so many others it alone isn't read."""
        for index in range(number):
            self.write(f"{index}.flac", RIGHT)
        poison = self.write("poison.flac", RIGHT)
        self.wrap(f"if grep -q poison $given; then kill -9 $PPID; sleep 5; else {GO_ON}; fi")
        address = self.start_cluster()
        self.wait_for_workers(address, 2)
        ended = self.run_on(address)
        self.assertEqual(ended.status, 3, ended.errors)
        self.assertNotIn("Traceback", ended.errors)
        found = self.by_path()
        self.assertEqual(found.pop(poison)["verdict"], "not read")
        self.assertEqual({row["verdict"] for row in found.values()}, {"ok"})
        self.assertEqual(len(found), number)

    def test_file_that_kills_workers(self) -> None:
        """It alone isn't read."""
        once = {"DASK_DISTRIBUTED__SCHEDULER__ALLOWED_FAILURES": "0"}
        with mock.patch.dict(os.environ, once):
            self.check_killed_workers(20)

    def test_file_that_kills_all_workers(self) -> None:
        """They are fewer than the scheduler waits for; others come in their places."""
        self.check_killed_workers(1)

    def test_interrupt(self) -> None:
        """What was finished is kept."""
        kept, _ = self.interrupt()
        self.assertTrue(kept <= {row["path"] for row in self.kept("path")})
        self.assertEqual(self.run_files().status, 1)
        self.check_kept()
