"""The program of crates/bench_engine, and its input, for the scripts beside it."""

import subprocess
from pathlib import Path

CRATE = Path(__file__).resolve().parents[2] / "crates" / "bench_engine"
# The lines of the input that are the engine's; each line after them is a frame for the codec.
ENGINE_LINES = 3
NAMES = ["open", "begin", "attach", "flow", "transfer", "disposition", "detach", "end", "close"]


def lines():
    """The lines of the input, in hexadecimal."""
    return (CRATE / "stdin").read_text().split()


def codec_frames():
    """The nine frames for the codec, by their names."""
    return dict(zip(NAMES, lines()[ENGINE_LINES:], strict=True))


def built():
    """The program, built."""
    words = ["rt", "run", "--", "codec", "clone", "0", "512"]
    subprocess.run(words, cwd=CRATE, stdin=subprocess.DEVNULL, stdout=subprocess.DEVNULL, check=True)
    return str(CRATE / "out" / CRATE.name)
