"""What the benches share: programs that are built where that is owed, rounds by turns, and tables that are kept."""
import hashlib
import os
import platform
import subprocess
import sys
import tempfile
import time
from pathlib import Path
from typing import NamedTuple

ROOT = Path(__file__).resolve().parent.parent
FIGURES = ROOT / "bench" / "figures"
# What `beside_plain` says of each way.
BESIDE = ("seconds", "processor seconds", "peak MiB", "to plain Rust", "processors to plain Rust")


def job_cli():
    """The program, which the launcher proves and builds first where that is owed."""
    if subprocess.call([ROOT / "mukstorde", "gen", "0", "0"]) != 0:
        sys.exit(1)
    return ROOT / "crates" / "job_cli" / "out" / "job_cli"


def proved(bench):
    """The command of a bench in the program of crates/benches, proved and built first where it is missing or older than the sources."""
    crate = ROOT / "crates" / "benches"
    program = crate / "out" / "benches"
    if is_stale(program):
        program.unlink(missing_ok=True)
        # With no words the program does nothing, so its status says nothing.
        subprocess.run(["rt", "run"], cwd=crate, stdin=subprocess.DEVNULL, stdout=sys.stderr)
        if not program.exists():
            sys.exit("the program could not be built: see `rt run` in crates/benches")
        program.touch()
    return [program, bench]


def is_stale(program):
    """As the launcher decides it."""
    sources = ["(", "-name", "*.rt", "-o", "-name", "*.antt", "-o", "-name", "crates.txt", ")"]
    newer = ["find", ROOT / "crates.txt", ROOT / "crates", "-name", "out", "-prune", "-o", "-type", "f", *sources]
    newer += ["-newer", program, "-print", "-quit"]
    return not program.exists() or subprocess.run(newer, check=True, capture_output=True).stdout != b""


def plain(folder, name):
    """The command of the program in plain Rust that bench/NAME.rs makes, in this folder."""
    program = Path(folder).resolve() / name
    subprocess.run(["rustc", "--edition", "2021", "-O", "-o", program, ROOT / "bench" / f"{name}.rs"], check=True)
    return [program]


def seconds(program, *words):
    before = time.perf_counter()
    subprocess.run([*program, *map(str, words)], stdout=subprocess.PIPE, check=True)
    return time.perf_counter() - before


class Run(NamedTuple):
    seconds: float
    busy: float  # seconds of all processors
    peak: float  # MiB of the largest process
    output: object


def digest(output):
    return hashlib.sha256(output).hexdigest()


def measure(command, told=digest, **options):
    """Runs a command under GNU time. Of its output only what `told` makes of it is kept."""
    # A process that Python starts itself would count Python's own memory as its peak.
    with tempfile.TemporaryFile() as out, tempfile.NamedTemporaryFile() as taken:
        timed = ["/usr/bin/time", "-f", "%U %S %M", "-o", taken.name, *command]
        before = time.perf_counter()
        status = subprocess.call(timed, stdout=out, **options)
        seconds = time.perf_counter() - before
        if status != 0:
            sys.exit(f"{command} ended with status {status}")
        out.seek(0)
        user, system, peak = taken.read().split()
        return Run(seconds, float(user) + float(system), int(peak) / 1024, told(out.read()))


def by_turns(rounds, measure, ways):
    """What `measure` gives of each way, in so many rounds in which they take turns."""
    given = {name: [] for name in ways}
    for _ in range(rounds):
        for name, way in ways.items():
            given[name].append(measure(way))
    return given


def beside_plain(what, runs):
    """A table row for each way, with the least of its runs, and with ratios to plain Rust."""
    if len({run.output for way in runs.values() for run in way}) != 1:
        sys.exit(f"{what}: they do not agree")
    least = {way: (min(run.seconds for run in runs[way]), min(run.busy for run in runs[way])) for way in runs}
    for way, (seconds, busy) in least.items():
        peak = max(run.peak for run in runs[way])
        ratios = (f"{mine / rust:.2f}" for mine, rust in zip(least[way], least["plain Rust"]))
        yield row(what, way, f"{seconds:.2f}", f"{busy:.2f}", f"{peak:.1f}", *ratios)


def middle(numbers):
    return sorted(numbers)[len(numbers) // 2]


def spread(numbers, digits):
    """The least, the middle and the most."""
    return " / ".join(f"{number:.{digits}f}" for number in (min(numbers), middle(numbers), max(numbers)))


def row(*cells):
    return f"| {' | '.join(map(str, cells))} |"


def head(*names):
    """The lines with which a table begins."""
    return ["", row(*names), "|" + "---|" * len(names)]


def machine():
    told = (line.split(":") for line in Path("/proc/cpuinfo").read_text().splitlines())
    model = next((words[1].strip() for words in told if words[0].strip() == "model name"), platform.machine())
    return f"{os.cpu_count()} processors: {model}"


def keep(name, lines):
    """Prints lines as they come, and keeps them all as bench/figures/NAME.md, with the machine in a comment."""
    kept = []
    for line in lines:
        print(line, flush=True)
        kept.append(line)
    (FIGURES / f"{name}.md").write_text("\n".join([*kept, "", f"<!-- {machine()} -->", ""]))
