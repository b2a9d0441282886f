"""The programs that are compared, run on many files at a time, and what of a report the Rust module decides."""

import subprocess
from pathlib import Path

ROOT = Path(__file__).resolve().parent.parent
BUILT = ROOT / "target" / "oracle"
VECTORS = ROOT.parent / "shared" / "vectors"
NOT_THE_MODULES = (b"paste ", b"calls ")


def build():
    """Builds the oracle, the second reading and the generator."""
    subprocess.run([ROOT / "oracle" / "build"], check=True)


def generated(seed, kind, first, count):
    """A stream of so many files of a kind, from a number on; the kind may be a family's name."""
    words = ["--seed", seed, "--kind", kind, "--from", str(first), "--count", str(count), "--stream"]
    return subprocess.run([BUILT / "generate", *words], check=True, stdout=subprocess.PIPE).stdout


def answers(program, stream):
    """What a program writes for a stream of files."""
    return subprocess.run(program, input=stream, check=True, stdout=subprocess.PIPE).stdout


def read_by_the_second(stream):
    """The second reading's answers."""
    return answers([BUILT / "reading", "--batch"], stream)


def judged_by_the_oracle(stream):
    """The oracle's answers."""
    return answers([BUILT / "oracle", "--batch"], stream)


def joined(files):
    """Files as a stream: each after its length in decimal and a line feed."""
    return b"".join(b"%d\n%b" % (len(file), file) for file in files)


def split(stream):
    """The files of a stream."""
    files = []
    place = 0
    while place < len(stream):
        start = stream.index(b"\n", place) + 1
        place = start + int(stream[place : start - 1])
        files.append(stream[start:place])
    return files


def is_report(answer):
    """Whether an answer is a report."""
    return not answer.startswith(b"refused ")


def decided_lines(report):
    """The report's lines that the module decides."""
    return [line for line in report.splitlines() if not line.startswith(NOT_THE_MODULES)]
