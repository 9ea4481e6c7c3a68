"""What the benchmark scripts share: making large inputs, running programs on them in turns, printing figures."""
import argparse
import os
import pathlib
import subprocess
import sys
import tempfile

TOP = pathlib.Path(__file__).resolve().parent.parent
OPTIONS = """
    --program PATH   the program, where it isn't the one above
    --against PATH   another program, which is run in turn with the first on the same inputs
    --folder FOLDER  where the inputs stay, and with --outputs what was written; else both are temporary
    --runs N         seconds are the best of so many runs, and peak memory the greatest (default 3)
    --outputs        keep what each run wrote beside its input; else it goes to /dev/null

Each case has an input of its own, and each round runs each program once on it. Seconds are those of the
processor, in the program and in the system for it. Peak memory is that of the program's process, and at
least that of this script, some 16 MB. Not measured are waiting for a disk, a pipe or another process, how
even the times are, and any input but these. Ends with status 1 where a run did not end with status 0.
"""


def write_pieces(path, pieces, most, first=b""):
    """Writes `first` and then piece after piece, as many as `most` bytes hold; answers how many bytes."""
    with path.open("wb") as file:
        written = file.write(first)
        for piece in pieces:
            if written + len(piece) > most:
                break
            written += file.write(piece)
        return written


def run(command, source, sink):
    """Runs the program once: its status, its seconds of the processor and its peak memory in bytes."""
    with source.open("rb") as stdin, sink.open("wb") as stdout:
        process = subprocess.Popen(command, stdin=stdin, stdout=stdout)
        _, waited, usage = os.wait4(process.pid, 0)
    process.returncode = os.WEXITSTATUS(waited) if os.WIFEXITED(waited) else -os.WTERMSIG(waited)
    # Linux counts in KiB, macOS in bytes.
    unit = 1 if sys.platform == "darwin" else 1024
    return process.returncode, usage.ru_utime + usage.ru_stime, usage.ru_maxrss * unit


def print_figures(name, size, results):
    """Prints a line of figures, and answers whether each run ended well."""
    status = max((status for status, _, _ in results), key=abs)
    seconds = min(seconds for _, seconds, _ in results)
    peak = max(peak for _, _, peak in results)
    # A run that is too short to count has no speed.
    speed = size / 1e6 / seconds if seconds else float("nan")
    print(f"{name:<26}{size:>14,}{seconds:>10.2f}{speed:>10.1f}{peak / 1e6:>10.1f}{status:>8}", flush=True)
    return status == 0


def programs_of(options):
    """The programs that are to be measured."""
    programs = [path.resolve() for path in (options.program, options.against) if path]
    for path in programs:
        if not os.access(path, os.X_OK):
            sys.exit(f"no program at {path}: see CONTRIBUTING.md for how it is built")
    return programs


def measure(doc, program, cases, more_words=()):
    """Measures each case, a name with the program's word and what writes its input to a file and tells its size.

    Further words, the same for all cases, stand behind the case's word."""
    parser = argparse.ArgumentParser(description=doc + OPTIONS, formatter_class=argparse.RawDescriptionHelpFormatter)
    parser.add_argument("--program", type=pathlib.Path, default=TOP / program)
    parser.add_argument("--against", type=pathlib.Path)
    parser.add_argument("--folder", type=pathlib.Path)
    parser.add_argument("--runs", type=int, default=3)
    parser.add_argument("--outputs", action="store_true")
    options = parser.parse_args()
    if options.runs < 1:
        parser.error("--runs is at least 1")
    programs = programs_of(options)
    with tempfile.TemporaryDirectory() as temporary:
        folder = options.folder or pathlib.Path(temporary)
        folder.mkdir(parents=True, exist_ok=True)
        print(f"{'case':<26}{'input bytes':>14}{'seconds':>10}{'MB/s':>10}{'peak MB':>10}{'status':>8}")
        all_well = True
        for name, word, write in cases:
            source = folder / f"{name}.in"
            size = write(source)
            labels = [name, f"{name}, against"][: len(programs)]
            sinks = [folder / f"{label}.out" if options.outputs else pathlib.Path(os.devnull) for label in labels]
            rounds = [
                [run([path, word, *more_words], source, sink) for path, sink in zip(programs, sinks)] for _ in range(options.runs)
            ]
            for label, results in zip(labels, zip(*rounds)):
                all_well = print_figures(label, size, results) and all_well
    return 0 if all_well else 1
