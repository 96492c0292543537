"""The program `claxon-archive`."""
import argparse
import os
import sqlite3
import sys
from typing import Dict, List, Optional, Tuple

from .. import __version__
from .engines import EngineError, processors_here
from .finding import OperandError
from .names import shown_text
from .output import STANDARD, ClosedOutput, Output, OutputError, standard_output
from .progress import open_progress, size_text
from .results import ALL, VERDICTS, Due, Lock, Ranges, Results, ResultsError, TemporaryError
from .results import outermost, ranges_of
from .run import Wanted, check_operands, fewer_collections, run

_DESCRIPTION = """\
Verifies the FLAC files below folders by `claxon verify`, and keeps the verdicts: those of files
that are new, were changed, aren't right, or were verified too long ago. It can be stopped at any
time; the next run goes on. Without a FOLDER it reports what the results have."""

_STATUSES = """\
Status: 0 if all files are right, 1 if one isn't, 3 if none is wrong, but a file or folder couldn't
be read or is missing, or the run couldn't go on; 2 for other arguments."""

# The form of a report by the end of the name of its file.
_FORMS = {".txt": "text", ".csv": "csv", ".json": "json"}


def _parser() -> argparse.ArgumentParser:
    parser = argparse.ArgumentParser(
        "claxon-archive",
        description=_DESCRIPTION,
        epilog=_STATUSES,
        formatter_class=argparse.RawDescriptionHelpFormatter,
    )
    parser.add_argument("folders", nargs="*", metavar="FOLDER", help="a folder, or a file")
    parser.add_argument("--results", required=True, metavar="FILE", help="the database of verdicts")
    parser.add_argument("--jobs", type=int, metavar="N", help="processes; as many as processors")
    parser.add_argument("--scheduler", metavar="ADDRESS", help="Dask's, as tcp://HOST:8786")
    parser.add_argument("--older-than", type=float, metavar="DAYS", help="verify again after DAYS")
    parser.add_argument(
        "--sample",
        type=_percentage,
        default=0,
        metavar="N%",
        help="verify again this part of the right files, those verified longest ago first",
    )
    parser.add_argument(
        "--all",
        action="store_true",
        help="also files of other names that begin with the marker fLaC",
    )
    parser.add_argument(
        "--forget-missing", action="store_true", help="drop the rows of files that are missing"
    )
    parser.add_argument(
        "--at-most", type=int, default=100, metavar="N", help="if these are no more than N (100)"
    )
    parser.add_argument(
        "--report",
        type=_report_of,
        metavar="FORM|FILE",
        help="print what isn't right as text, csv or json, or write FILE.txt, FILE.csv, FILE.json",
    )
    parser.add_argument("--html", metavar="FILE", help="write a page of what isn't right")
    parser.add_argument("--version", action="version", version=f"claxon-archive {__version__}")
    return parser


def _percentage(word: str) -> float:
    percent = float(word[:-1] if word.endswith("%") else word)
    if not 0 < percent <= 100:
        raise argparse.ArgumentTypeError(f"{word} isn't more than 0% and at most 100%")
    return percent


def _report_of(word: str) -> Tuple[str, str]:
    """The form of a report, and the file where it goes, or `-`."""
    if word in _FORMS.values():
        return word, STANDARD
    form = "text" if word == STANDARD else _FORMS.get(os.path.splitext(word)[1].lower())
    if form is None:
        raise argparse.ArgumentTypeError(
            f"{word!r} is none of {', '.join(_FORMS.values())}, and no file that ends with"
            f" {', '.join(_FORMS)}"
        )
    return form, word


def _parse(words: Optional[List[str]]) -> argparse.Namespace:
    parser = _parser()
    options = parser.parse_args(words)
    if options.scheduler is not None and options.jobs is not None:
        parser.error("--jobs is for this machine, and --scheduler for others")
    if options.jobs is not None and options.jobs < 1:
        parser.error("--jobs has to be at least 1")
    if options.older_than is not None and not options.older_than >= 0:
        parser.error("--older-than has to be at least 0")
    if options.at_most < 0:
        parser.error("--at-most has to be at least 0")
    if not options.folders and not (options.report or options.html or options.forget_missing):
        parser.error("there is no FOLDER, and neither --report nor --html")
    if options.report and options.html and options.report[1] == options.html:
        parser.error("--report and --html go to the same place")
    return options


def main(words: Optional[List[str]] = None) -> int:
    """Does what the arguments say, and returns the status."""
    if sys.stderr is None:  # it is closed
        sys.stderr = open(os.devnull, "w", encoding="utf-8")
    options = _parse(words)
    try:
        return _perform(options)
    except (ResultsError, sqlite3.Error) as error:
        text = f"{options.results}: {error}"
    except (EngineError, OperandError, OutputError, TemporaryError) as error:
        text = str(error)
    except MemoryError:
        text = "memory is refused"
    except ClosedOutput:
        return 0
    except OSError as error:
        text = error.strerror or str(error)
        if error.filename:
            text = f"{os.fsdecode(error.filename)}: {text}"
    except KeyboardInterrupt:
        sys.stderr.write("claxon-archive: stopped; the next run goes on\n")
        return 130
    _complain(text)
    return 3


def _complain(text: str) -> None:
    sys.stderr.write(f"claxon-archive: {shown_text(text)}\n")


def _perform(options: argparse.Namespace) -> int:
    outputs = _outputs(options)
    for output in outputs.values():
        output.check()
    folders = outermost(os.path.abspath(os.fsencode(folder)) for folder in options.folders)
    check_operands(folders)
    ranges = ranges_of(folders) if folders else ALL
    lock = Lock(options.results) if folders or options.forget_missing else None
    try:
        results = Results(options.results, is_new=bool(folders), is_read=lock is None)
        try:
            if folders:
                _run(options, folders, results)
            if options.forget_missing:
                _forget_missing(options.at_most, ranges, results)
            return _report(outputs, ranges, results)
        finally:
            results.close()
    finally:
        if lock is not None:
            lock.release()


def _run(options: argparse.Namespace, folders: List[bytes], results: Results) -> None:
    jobs = options.jobs or processors_here()
    progress = open_progress()
    try:
        wanted = Wanted(
            folders, jobs, options.scheduler, options.older_than, options.all, options.sample
        )
        with fewer_collections():
            run(wanted, results, progress)
    finally:
        progress.end()


def _forget_missing(most: int, ranges: Ranges, results: Results) -> None:
    number = results.number_missing(ranges)
    if number <= most:
        results.forget_missing(ranges)
        return
    _complain(
        f"{number:,} files are missing, more than {most:,}: none was forgotten (--at-most {number}"
        " forgets them)"
    )


def _outputs(options: argparse.Namespace) -> Dict[str, Output]:
    """Where reports go, by their forms."""
    wanted = [options.report] if options.report else []
    if options.html:
        wanted.append(("html", options.html))
    return {form: Output(name, form, options.results) for form, name in wanted}


def _report(outputs: Dict[str, Output], ranges: Ranges, results: Results) -> int:
    """Writes the reports and the table, and returns the status."""
    counts = results.counts(ranges)
    for form, output in outputs.items():
        from .report import write_report

        with output.open() as file:
            write_report(form, file, results, ranges)
    _print_table(counts, any(output.is_standard for output in outputs.values()))
    if any(verdict in counts for verdict in ("wrong", "not supported")):
        return 1
    return 3 if any(verdict in counts for verdict in ("not read", "missing")) else 0


def _print_table(counts: Dict[str, Due], has_report: bool) -> None:
    """Prints the table, on standard error where a report is on standard output."""
    if has_report:
        sys.stderr.write(_table(counts))
        return
    try:
        with standard_output() as output:
            output.write(_table(counts).encode())
    except ClosedOutput:
        pass


def _table(counts: Dict[str, Due]) -> str:
    rows = [("verdict", "files", "size")]
    for verdict in VERDICTS:
        files, size = counts.get(verdict, (0, 0))
        rows.append((verdict, f"{files:,}", size_text(size)))
    return "".join(f"{verdict:13} {files:>13} {size:>9}\n" for verdict, files, size in rows)
