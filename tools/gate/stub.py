"""A program in the place of amqp_replay, for tests of the tools that run that: it refuses each Detach by a name."""

import sys
import tempfile
from pathlib import Path

STUB = """import sys
for line in sys.stdin.read().split("\\n"):
    if line == "release 4294967295":
        print("err NoSession")
    elif line == "recv ":
        print("err DecodeError")
    elif line.startswith("recv ") and line[13:19] == "005316":
        print("err " + NAME)
"""


def with_stub(call, name):
    """What a call answers that is handed such a program."""
    with tempfile.TemporaryDirectory() as folder:
        program = Path(folder) / "stub"
        program.write_text(f"#!{sys.executable}\nNAME = {name!r}\n{STUB}")
        program.chmod(0o755)
        return call(str(program))
