#!/usr/bin/env python3
"""Times the client of the Python package beside qpid-proton's for Python and uAMQP: processor time of the client's
process, for a message of 64 bytes.

    tools/bench/bench_client.py [PORT] [COUNT]

On loopback PORT has to listen a broker that takes anonymous clients, as qpid-proton's example in C++; without a PORT,
or with 0, that one is built, and started for each row. Each row is the median of five slopes between COUNT messages
and a fifth of them, so that what is done once is in none: messages sent and settled by the broker, of which 100 wait
at a time, and one after the other; and received and accepted. uAMQP connects by TLS alone: so two rows go by TLS, for
all three, by tls_front.py before the same broker. AMQP_LIBRARY names the library; the others are Debian's
`python3-qpid-proton` and `python3-uamqp`, run by /usr/bin/python3, which runs all three. Behind each figure stand the
lines of the function that was timed, without empty ones: in client_ours.py, client_proton.py and client_uamqp.py.
"""

import asyncio
import contextlib
import importlib
import inspect
import socket
import statistics
import subprocess
import sys
import tempfile
import time
from pathlib import Path

ROOT = Path(__file__).resolve().parents[2]
sys.path.insert(0, str(ROOT / "tools"))
sys.path.insert(0, str(ROOT / "bindings" / "python"))

from shared.command import command

EXAMPLES = Path("/usr/share/proton/examples/cpp")
HEAD = "| microseconds of processor time a message; lines | ours | qpid-proton | uAMQP |\n|---|---|---|---|"
ROWS = [
    ("sent and settled, 100 at a time", "ours.send", "proton.send"),
    ("received and accepted", "ours.receive", "proton.receive"),
    ("sent and settled, one after the other", "ours.send_one", "proton.blocking_send"),
    ("the same by `blocking`", "ours.blocking_send", "proton.blocking_send"),
    ("received and accepted by `blocking`", "ours.blocking_receive", "proton.blocking_receive"),
]  # fmt: skip
BY_TLS = [
    ("by TLS: sent and settled, 100 at a time", "ours.send", "proton.send", "uamqp.send"),
    ("by TLS: received and accepted", "ours.receive", "proton.receive", "uamqp.receive"),
]  # fmt: skip


def function(name):
    side, what = name.split(".")
    return getattr(importlib.import_module(f"bench.client_{side}"), what)


def lines(name):
    return sum(bool(line.strip()) for line in inspect.getsource(function(name)).splitlines())


def run_here(name, url, address, count, ca):
    """Does it in this process, and prints the processor time."""
    what, start = function(name), time.process_time()
    it = what(url, address, count, ca)
    if it is not None:
        asyncio.run(it)
    print(time.process_time() - start)


class Server:
    """Where the broker is, and by which way it is reached."""

    def __init__(self, port, ca=None):
        scheme, host = ("amqps", "localhost") if ca else ("amqp", "127.0.0.1")
        self.url, self.ca = f"{scheme}://{host}:{port}/", ca or ""

    def timed(self, name, address, count):
        """The processor time of a process that does it."""
        words = ["/usr/bin/python3", __file__, "--run", name, self.url, address, str(count), self.ca]
        done = subprocess.run(words, capture_output=True, text=True, timeout=600)
        if done.returncode:
            sys.exit(f"{name}: {done.stderr[-500:]}")
        return float(done.stdout.split()[-1])

    def slope(self, name, count):
        """Microseconds for a message. What is received was sent before."""
        few, times = count // 5, []
        address = f"amqps://localhost/bench-{name}"  # a whole URL, as uAMQP writes it
        for many in (few, count):
            if name.endswith("receive"):
                self.timed("ours.send", address, many)
            times.append(self.timed(name, address, many))
        return 1e6 * (times[1] - times[0]) / (count - few)

    def row(self, title, names, count):
        """The sides take turns, so that what else the machine does is the same for all."""
        rounds = [[self.slope(name, count) for name in names] for _ in range(5)]
        medians = [statistics.median(it) for it in zip(*rounds)]
        cells = [f"{median:.0f}; {lines(name)}" for median, name in zip(medians, names)]
        print(f"| {title} |" + "".join(f" {it} |" for it in (cells + [""])[:3]), flush=True)


def free_port():
    with socket.socket() as it:
        it.bind(("127.0.0.1", 0))
        return it.getsockname()[1]


def listens(port):
    with socket.socket() as it:
        return it.connect_ex(("127.0.0.1", port)) == 0


def build_broker(folder):
    """qpid-proton's example in C++, which sends unsettled what came."""
    built, flags = Path(folder, "broker"), [f"-I{EXAMPLES}", "-lqpid-proton-cpp", "-lpthread"]
    subprocess.run(["g++", "-std=c++17", "-O1", EXAMPLES / "broker.cpp", "-o", built, *flags], check=True)
    return built


@contextlib.contextmanager
def started(program):
    """A broker of its own, since what is sent and not received stays there: its port."""
    port = free_port()
    with subprocess.Popen([program, "-a", f"127.0.0.1:{port}"], stdout=subprocess.DEVNULL) as broker:
        try:
            while not listens(port) and broker.poll() is None:
                time.sleep(0.1)
            yield port
        finally:
            broker.kill()


@contextlib.contextmanager
def tls_front(port):
    """Before the server at this port: where it is, and what a client trusts. It ends with its standard input."""
    words = ["/usr/bin/python3", ROOT / "tools" / "bench" / "tls_front.py", str(port)]
    with subprocess.Popen(words, stdin=subprocess.PIPE, stdout=subprocess.PIPE, text=True) as front:
        found, ca = front.stdout.readline().split()
        yield Server(found, ca)


def measure(broker, count):
    """`broker` has a port for each row."""
    print(HEAD)
    for title, *names in ROWS:
        with broker() as port:
            Server(port).row(title, names, count)
    for title, *names in BY_TLS:
        with broker() as port, tls_front(port) as server:
            server.row(title, names, count)


def main():
    if sys.argv[1:2] == ["--run"]:
        name, url, address, count, ca = sys.argv[2:]
        return run_here(name, url, address, int(count), ca or None)
    if len(sys.argv) > 3:
        sys.exit(__doc__.strip())
    port, count = [int(it) for it in sys.argv[1:] + ["0", "10000"][len(sys.argv) - 1 :]]
    if port:
        return measure(lambda: contextlib.nullcontext(port), count)
    with tempfile.TemporaryDirectory() as folder:
        program = build_broker(folder)
        measure(lambda: started(program), count)


if __name__ == "__main__":
    command(main, __doc__)
