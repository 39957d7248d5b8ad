"""What try_c.py tries of a server over TLS: handshakes that never end, clients that speak no TLS, and certificates."""

import asyncio
import contextlib
import logging
import shutil
import socket
import ssl
import subprocess
import sys
import tempfile
from pathlib import Path

sys.path.insert(0, str(Path(__file__).resolve().parents[2] / "bindings" / "python"))

from amqp_engine import ConnectionLost, External, Open, PeerSilent, Waits, connect, serve
from hostile.peers import HEADER, SASL

TESTS = []
WAITS = Waits(login=0.5, answer=1.0, closing=0.2)


def openssl(folder, *words):
    subprocess.run(["openssl", *words], cwd=folder, check=True, capture_output=True)


def certified(folder):
    """An authority, and a certificate of a server and of a client."""
    keys = ["-newkey", "ec", "-pkeyopt", "ec_paramgen_curve:prime256v1", "-nodes"]
    own = ["-x509", "-days", "2", "-subj", "/CN=authority", "-keyout", "ca.key", "-out", "ca.pem"]
    openssl(folder, "req", *keys, *own)
    for name in ("localhost", "somebody"):
        openssl(folder, "req", *keys, "-subj", f"/CN={name}", "-keyout", f"{name}.key", "-out", f"{name}.csr")
        (Path(folder) / "names").write_text(f"subjectAltName=DNS:{name}")
        signs = ["-CA", "ca.pem", "-CAkey", "ca.key", "-CAcreateserial", "-days", "2", "-extfile", "names"]
        openssl(folder, "x509", "-req", "-in", f"{name}.csr", *signs, "-out", f"{name}.pem")


def test(function):
    def run():
        if shutil.which("openssl") is None:
            print(f"not tried, since there is no openssl: {function.__name__}")
            return
        with tempfile.TemporaryDirectory() as folder:
            certified(folder)
            asyncio.run(asyncio.wait_for(function(Path(folder)), 60))

    run.__name__ = function.__name__
    TESTS.append(run)
    return function


class Secure:
    """A server over TLS, what it was told, and who came."""

    def __init__(self, folder, asks=ssl.CERT_NONE, told=None):
        self.folder, self.told, self.came = folder, [], []
        self.tells = told or self.told.append
        self.context = ssl.create_default_context(ssl.Purpose.CLIENT_AUTH, cafile=folder / "ca.pem")
        self.context.load_cert_chain(folder / "localhost.pem", folder / "localhost.key")
        self.context.verify_mode = asks

    async def __aenter__(self):
        how = {"tls": self.context, "told": self.tells, "waits": WAITS}
        self.server = await serve("127.0.0.1", 0, lambda: Open("secure"), self.handle, **how)
        self.port = self.server.sockets[0].getsockname()[1]
        self.url = f"amqps://localhost:{self.port}/"
        return self

    async def __aexit__(self, *_):
        self.server.close()
        await self.server.wait_closed()

    async def handle(self, connection):
        self.came.append(connection.certificate)
        await connection.serve_links(lambda link: link.refuse("amqp:not-found", "no node"))

    def client(self, name=None):
        """What a client trusts, and by which certificate it is known."""
        context = ssl.create_default_context(cafile=self.folder / "ca.pem")
        if name:
            context.load_cert_chain(self.folder / f"{name}.pem", self.folder / f"{name}.key")
        return context

    async def serves(self):
        """Whether a good client is served."""
        async with connect(self.url, tls=self.client()) as connection:
            return connection.remote.container_id == "secure"

    async def until_told(self, count):
        while len(self.told) < count:
            await asyncio.sleep(0.02)


async def over(reader):
    """What comes until the other side ends the stream."""
    came = b""
    with contextlib.suppress(ConnectionError):
        while data := await reader.read(4096):
            came += data
    return came


def hello():
    """The first bytes of a client of TLS."""
    comes, goes = ssl.MemoryBIO(), ssl.MemoryBIO()
    with contextlib.suppress(ssl.SSLWantReadError):
        ssl.create_default_context().wrap_bio(comes, goes, server_hostname="localhost").do_handshake()
    return goes.read()


@test
async def a_handshake_that_never_ends_ends_with_the_logins_time(folder):
    async def drips(writer, data):
        for at in range(len(data)):
            writer.write(data[at : at + 1])
            await asyncio.sleep(0.05)

    async with Secure(folder) as secure:
        peers = [await asyncio.open_connection("127.0.0.1", secure.port) for _ in range(4)]
        peers[1][1].write(hello()[:50])
        peers[2][1].write(hello())
        dripping = asyncio.ensure_future(drips(peers[3][1], hello()))
        assert await secure.serves()
        await asyncio.gather(*(over(reader) for reader, _ in peers))
        await secure.until_told(4)
        assert all(isinstance(it, PeerSilent) for it in secure.told), secure.told
        dripping.cancel()
        assert await secure.serves() and len(secure.told) == 4
        for _, writer in peers:
            writer.transport.abort()


@test
async def the_number_of_a_file_is_not_given_to_another_client_too_early(folder):
    found = []

    def tells(error):
        # what a socket gets that is made as soon as a client is gone
        found.append(error)
        with socket.socket() as other:
            asyncio.get_running_loop().add_reader(other, print)
            asyncio.get_running_loop().remove_reader(other)
        found.append("free")

    async with Secure(folder, told=tells) as secure:
        for _ in range(3):
            reader, writer = await asyncio.open_connection("127.0.0.1", secure.port)
            await over(reader)
            writer.transport.abort()
    assert found[1::2] == ["free"] * 3 and all(isinstance(it, PeerSilent) for it in found[::2]), found


@test
async def a_client_without_tls_is_ended_and_is_no_fault_of_the_servers(folder):
    lines = []
    logger, handler = logging.getLogger("amqp_engine"), logging.Handler()
    handler.emit = lines.append
    async with Secure(folder) as secure:
        records = (b"\x16\x03\x01\x00\x05hello", b"\x16\x03\x01\xff\xff" + bytes(70000))
        for said in (HEADER, SASL, b"GET / HTTP/1.1\r\n\r\n", *records):
            reader, writer = await asyncio.open_connection("127.0.0.1", secure.port)
            writer.write(said)
            assert not (await over(reader)).startswith(b"AMQP")
            writer.transport.abort()
        await secure.until_told(5)
        assert all(isinstance(it, (ssl.SSLError, ConnectionError)) for it in secure.told), secure.told
        assert await secure.serves() and len(secure.told) == 5
    from amqp_engine.accepting import log

    logger.addHandler(handler)
    logger.setLevel(logging.INFO)
    for it in secure.told:
        log(it)
    logger.removeHandler(handler)
    assert [it.levelname for it in lines] == ["INFO"] * 5, lines


@test
async def a_client_is_known_by_its_certificate(folder):
    async with Secure(folder, ssl.CERT_REQUIRED) as secure:
        async with connect(secure.url, tls=secure.client("somebody")) as connection:
            assert connection.remote.container_id == "secure"
        names = [dict(it[0] for it in of["subject"])["commonName"] for of in secure.came]
        assert names == ["somebody"] and not secure.told, (names, secure.told)
        # without one it is not served
        try:
            await connect(secure.url, tls=secure.client()).open()
            raise AssertionError("let in")
        except (ssl.SSLError, ConnectionLost, ConnectionError):
            pass
        await secure.until_told(1)
        assert len(secure.came) == 1 and isinstance(secure.told[0], (ssl.SSLError, ConnectionError)), secure.told
    async with Secure(folder) as secure:
        assert await secure.serves() and secure.came == [None]


@test
async def a_server_that_nobody_trusts_has_no_client(folder):
    async with Secure(folder) as secure:
        for context in (ssl.create_default_context(), secure.client()):
            url = secure.url if context.get_ca_certs() == [] else f"amqps://127.0.0.1:{secure.port}/"
            try:
                await connect(url, tls=context, login=External()).open()
                raise AssertionError("trusted")
            except ssl.SSLCertVerificationError:
                pass
        assert await secure.serves()
