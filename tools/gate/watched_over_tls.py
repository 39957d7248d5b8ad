"""TLS through tools/watch.py, for try_watch.py: to the client, to the server, or to both, with a certificate that openssl makes."""

import asyncio
import contextlib
import ssl
import subprocess
import sys
import tempfile
from pathlib import Path

import watch
from amqp.recorded import CAPTURES
from amqp.recordings import recorded

HEADER = b"AMQP\0\1\0\0"
# What one side sends in the end, so that the other knows that it has all
PATIENCE = 20


def certificate(folder, name):
    """A certificate for localhost, signed by itself, and its key."""
    of, key = Path(folder) / f"{name}.pem", Path(folder) / f"{name}.key"
    words = ["req", "-x509", "-newkey", "ec", "-pkeyopt", "ec_paramgen_curve:prime256v1", "-nodes", "-days", "2", "-subj", "/CN=localhost"]
    words += ["-addext", "subjectAltName=DNS:localhost", "-keyout", str(key), "-out", str(of)]
    subprocess.run(["openssl", *words], check=True, capture_output=True)
    return of, key


def streams():
    """What each side sends of a recording."""
    found = {"A": HEADER, "B": HEADER}
    for side, of in recorded(CAPTURES / "erlang-rmq.txt"):
        found[side] += (len(of) + 4).to_bytes(4, "big") + of
    return found


def served(pair):
    context = ssl.SSLContext(ssl.PROTOCOL_TLS_SERVER)
    context.load_cert_chain(*pair)
    return context


async def exchanged(words, of, near=None, far=None):
    """A client and a server that send each other all, through watch.py: what each got, and what was told; the client begins."""
    got = {"A": b"", "B": b""}

    async def serve(reader, writer):
        with contextlib.suppress(OSError, asyncio.IncompleteReadError):
            got["B"] = await reader.readexactly(len(of["A"]))
            writer.write(of["B"])
            await writer.drain()
            await reader.read()
        writer.close()

    server = await asyncio.start_server(serve, "127.0.0.1", 0, ssl=far)
    port = server.sockets[0].getsockname()[1]
    words = [sys.executable, watch.__file__, "0", "localhost", str(port), "--connections", "1", "--quiet", *words]
    watcher = await asyncio.create_subprocess_exec(*words, stdout=asyncio.subprocess.PIPE, stderr=asyncio.subprocess.STDOUT)
    at = int((await watcher.stdout.readline()).split(b":")[-1])
    with contextlib.suppress(OSError, asyncio.IncompleteReadError):
        reader, writer = await asyncio.open_connection("127.0.0.1", at, ssl=near, server_hostname="localhost" if near else None)
        writer.write(of["A"])
        got["A"] = await reader.readexactly(len(of["B"]))
        writer.close()
    told, _ = await asyncio.wait_for(watcher.communicate(), PATIENCE)
    server.close()
    return got, told.decode(), watcher.returncode


async def refused(at_words):
    """A client that speaks no TLS where TLS is wanted is no connection, and the next one is."""
    words, of, near = at_words
    words = [sys.executable, watch.__file__, "0", "localhost", "1", "--connections", "1", *words]
    watcher = await asyncio.create_subprocess_exec(*words, stdout=asyncio.subprocess.PIPE)
    at = int((await watcher.stdout.readline()).split(b":")[-1])
    reader, writer = await asyncio.open_connection("127.0.0.1", at)
    writer.write(of["A"])
    with contextlib.suppress(OSError):
        await asyncio.wait_for(reader.read(), PATIENCE)
    writer.close()
    _, second = await asyncio.open_connection("127.0.0.1", at, ssl=near, server_hostname="localhost")
    told, _ = await asyncio.wait_for(watcher.communicate(), PATIENCE)
    second.close()
    return told.decode()


def over_tls(check):
    of = streams()
    with tempfile.TemporaryDirectory() as folder:
        pair, other = certificate(folder, "one"), certificate(folder, "other")
        trusts = ssl.create_default_context(cafile=pair[0])
        ends, goes = ["--tls-cert", str(pair[0]), "--tls-key", str(pair[1])], ["--tls-to", str(pair[0])]
        cases = {"to the client": (ends, trusts, None), "to the server": (goes, None, served(pair)), "to both": ([*ends, *goes], trusts, served(pair))}
        for name, (words, near, far) in cases.items():
            got, told, status = asyncio.run(exchanged(words, of, near, far))
            is_whole = got == {"A": of["B"], "B": of["A"]}
            check(f"TLS {name}", is_whole and status == 1 and "connection 1, client, frame" in told and "UnattachedHandle" in told, told, status, is_whole)
        for name, words, far in (("another's", goes, served(other)), ("one that the system knows not", ["--tls-to"], served(pair))):
            got, told, status = asyncio.run(exchanged(words, of, None, far))
            check(f"a certificate: {name}", got == {"A": b"", "B": b""} and status == 1 and "CERTIFICATE_VERIFY_FAILED" in told, told, status)
        told = asyncio.run(refused((ends, of, trusts)))
        check("no TLS where it is wanted", "connection 1, localhost:1: " in told and "connection 2" not in told, told)
        none = [["--tls-to", f"{folder}/none"], ["--tls-cert", __file__, "--tls-key", __file__]]
        for name, words in (("no key", ends[:2]), ("no such file", none[0]), ("no certificate", none[1])):
            ran = subprocess.run([sys.executable, watch.__file__, "0", "localhost", "1", *words], capture_output=True, text=True, timeout=PATIENCE)
            check(f"TLS with {name}", ran.returncode in (1, 2) and "Traceback" not in ran.stderr and ran.stderr, ran.stderr)
