"""tests/measures.py BENCH GATE SECONDS: writes the kit's version, the tables and the paragraph on the gate into docs/MEASURES.md, from what `tests/run bench`
and `.ci/run` printed and how long the gate took. What the numbers mean is written by hand."""

import os
import pathlib
import re
import subprocess
import sys

MEASURES = pathlib.Path("docs/MEASURES.md")
bench, gate = (pathlib.Path(name).read_text() for name in sys.argv[1:3])
minutes, seconds = divmod(int(sys.argv[3]), 60)


def speed():
    """Times come first, then instructions, under the same names."""
    rows = re.findall(r"^(jl\w+(?:, [^\n]*?\S)?)\s{2,}([\d.]+)\s+([\d.]+)\s+([\d.]+)", bench, re.MULTILINE)
    times, counts = rows[: len(rows) // 2], rows[len(rows) // 2 :]
    yield "| function | input | library ns | peer ns | ratio | library instructions | peer instructions | ratio |"
    yield "|---|---|---|---|---|---|---|---|"
    for (name, library, peer, ratio), (counted, *instructions) in zip(times, counts, strict=True):
        assert name == counted, (name, counted)
        function, _, of = name.partition(", ")
        yield " | ".join([f"| `{function}`", of or "-", f"{float(library):.0f}", f"{float(peer):.0f}", ratio, *instructions]) + " |"


def sizes():
    yield from subprocess.run(["tests/run", "sizes"], check=True, capture_output=True, text=True).stdout.splitlines()


def verdict():
    """The gate keeps what it passed on a machine: how much it did itself stands on its line of success."""
    done = re.search(r"^rt: ok; .*?must-fail edits: (\d+) refused[^;]*; (?:done in this run: )?(.*?)(?:; the others .*)?$", gate, re.MULTILINE)
    yield f"`.ci/run` from a clean clone: '{gate.splitlines()[-1]}' in {minutes} min {seconds} s on {os.cpu_count()} cores, {done[1]} edits among them. Done in that run:"
    yield f"{done[2].removesuffix(' was done in this run')}."


def kit():
    yield f"Kit: `{subprocess.run(['rt', 'version'], check=True, capture_output=True, text=True).stdout.strip()}`."


text = MEASURES.read_text()
for start, lines in [(r"Kit: ", kit()), (r"\| function \|", speed()), (r"\| crate \|", sizes()), (r"`\.ci/run` from a clean clone", verdict())]:
    text, found = re.subn(rf"^{start}.*?(?=\n\n|\n?\Z)", lambda _: "\n".join(lines), text, count=1, flags=re.MULTILINE | re.DOTALL)
    if not found:
        sys.exit(f"tests/measures.py: docs/MEASURES.md has no part that begins {start}")
MEASURES.write_text(text)
