"""Runs the proved programs, the two steps by the archive's calls, and the second codec's programs, each within a time limit, and compares
what they write."""
import collections
import functools
import os
import pathlib
import re
import subprocess
import sys
import tempfile

TOP = os.path.dirname(os.path.dirname(os.path.abspath(__file__)))
SECOND = f"{TOP}/second/target/release/second"
SECONDS = 120

Done = collections.namedtuple("Done", "out said status")


def command(program, *words):
    """The words that run a proved program."""
    return ["timeout", str(SECONDS), f"{TOP}/run", program, *words]


def run(words, given):
    done = subprocess.run(words, input=given, capture_output=True, check=False)
    return Done(done.stdout, done.stderr.decode(errors="replace"), done.returncode)


def ours(program, *words, given=b""):
    return run(command(program, *words), given)


@functools.cache
def steps_program():
    """Builds rust/src/bin/steps.rs over the archive in the folder ZELCANDRY_DIST, or over one that ./build makes; its path, or None where
    this machine cannot have a compiler for x86-64."""
    dist = os.path.abspath(os.environ.get("ZELCANDRY_DIST") or f"{TOP}/target/dist")
    makers = [] if os.environ.get("ZELCANDRY_DIST") else [[f"{TOP}/build", dist]]
    for words in makers + [[f"{TOP}/native", "program", f"{TOP}/rust", "steps"]]:
        done = subprocess.run(words, capture_output=True, text=True, env={**os.environ, "ZELCANDRY_DIST": dist}, check=False)
        if done.returncode == 3 and words not in makers:
            return None
        if done.returncode:
            sys.exit(f"{' '.join(words)}: {done.stdout}{done.stderr}")
    return done.stdout.strip()


def steps(step, *words, given=b""):
    """A step of decoding, `hear` or `join`, by the calls of the archive."""
    return run(["timeout", str(SECONDS), f"{TOP}/native", "run", steps_program(), step, *words], given)


def second(program, *words, given=b""):
    return run(["timeout", str(SECONDS), SECOND, program, *words], given)


def lamp(done):
    """How many sums a desk says that it limited, for each turn in which there were any."""
    return [int(count) for count in re.findall(r"^overload: ([1-9]\d*) sums limited$", done.said, re.M)]


def woven(ports):
    """The octets of all ports as ticks, one octet of each after the other, up to the last whole tick."""
    return bytes(octet for tick in zip(*ports) for octet in tick)


def desk(modes, ports):
    """What the proved desk sends to each port, by files, for the octets of each port; and the run."""
    with tempfile.TemporaryDirectory() as folder:
        given, sent = ([pathlib.Path(folder, f"{name}.{port}") for port in range(len(ports))] for name in ("given", "sent"))
        for path, octets in zip(given, ports):
            path.write_bytes(octets)
        done = ours("desk", str(len(ports)), *modes, *map(str, given + sent))
        return [path.read_bytes() if path.exists() else b"" for path in sent], done


def material(kind, seed, n):
    """n samples or octets of the second codec's material, never none."""
    made = second("material", kind, str(seed), str(n))
    if made.status != 0 or len(made.out) < n:
        sys.exit(f"no material {kind} {seed} {n}: {made.said}")
    return made.out


def difference(mine, theirs, unit):
    """The first place at which two runs of bytes differ and what stands there, or nothing."""
    if mine == theirs:
        return None
    pairs = [(mine[i:i + unit], theirs[i:i + unit]) for i in range(0, max(len(mine), len(theirs)), unit)]
    place = next(i for i, (a, b) in enumerate(pairs) if a != b)
    return f"the first difference is at {place}: {pairs[place][0].hex()} and {pairs[place][1].hex()}"


def skipped(what):
    """Ends a test that this machine cannot run: well, but for CI, where nothing may be skipped."""
    print(f"skipped: {what}")
    sys.exit(1 if os.environ.get("CI") == "true" else 0)
