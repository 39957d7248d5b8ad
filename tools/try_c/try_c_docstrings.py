"""What try_c.py tries of the package's docstrings: the programs that stand in them run, against a broker. And the small
server of the examples."""

import ast
import asyncio
import sys
import textwrap
from pathlib import Path

sys.path.insert(0, str(Path(__file__).resolve().parents[2] / "bindings" / "python"))

from amqp_engine import Message, connect
from hostile.peers import ROOT, Broker
from try_c.try_c_client_peers import tests

TESTS, test = tests()
PACKAGE = ROOT / "bindings" / "python" / "amqp_engine"
ALL = "import asyncio\nfrom amqp_engine import *\n"
#: What the programs of the package's and of a server's docstring leave to others
HEADERS = """import socket as sockets
socket = sockets.create_connection(("127.0.0.1", PORT))
socket.sendall(b"AMQP\\0\\1\\0\\0")
socket.recv(8)
"""
SERVER = """async def client(port):
    async with connect(f"amqp://127.0.0.1:{port}/") as connection, connection.sender("q") as sender:
        await sender.send(b"hello")
        try:
            await connection.receiver("q").open()
        except LinkClosed as error:
            print(error.condition)

async def take(link):
    RECEIVES

async def handle(connection):
    SERVES

async def main():
    async with await serve("127.0.0.1", 0, lambda: Open("s"), handle) as server:
        await client(server.sockets[0].getsockname()[1])

asyncio.run(main())
"""


def programs(name, of=None):
    """The indented parts of a docstring: each is a program, or more of the one before."""
    tree = ast.parse((PACKAGE / f"{name}.py").read_text())
    nodes = [tree] if of is None else [it for it in tree.body if getattr(it, "name", None) == of]
    parts, is_program = [], False
    for line in ast.get_docstring(nodes[0]).split("\n"):
        if line.startswith("    "):
            if not is_program:
                parts.append([])
            parts[-1].append(line)
        is_program = line.startswith("    ") or is_program and not line
        if is_program and not line:
            parts[-1].append(line)
    return [textwrap.dedent("\n".join(it)).rstrip() + "\n" for it in parts]


def awaited(program):
    return ALL + "async def main():\n" + textwrap.indent(program, "    ") + "asyncio.run(main())\n"


async def ran(program, lines, ends=False):
    """Runs a program until it has printed these lines; one that does not end by itself is ended then."""
    words = {"stdout": asyncio.subprocess.PIPE, "stderr": asyncio.subprocess.PIPE}
    process = await asyncio.create_subprocess_exec(sys.executable, "-c", program, cwd=PACKAGE.parent, **words)
    try:
        came = [(await asyncio.wait_for(process.stdout.readline(), 20)).decode().strip() for _ in lines]
        if ends:
            await asyncio.wait_for(process.wait(), 20)
        else:
            await asyncio.sleep(0.5)
        told = process.returncode
    finally:
        if process.returncode is None:
            process.kill()
    said = (await process.communicate())[1].decode()
    assert (came, said, told) == (lines, "", 0 if ends else None), (came, said[-1500:], told)


@test
async def what_needs_no_peer_says_what_it_says():
    for program in (*programs("message"), *programs("message", "Message")):
        await ran(ALL + program, [], True)


@test
async def clients_run():
    async with Broker() as broker:
        here = f"127.0.0.1:{broker.port}"
        (engine,), (script,) = programs("__init__"), programs("blocking")
        (client,), (transport,) = programs("client"), programs("transport")
        await ran(HEADERS.replace("PORT", str(broker.port)) + engine, [], True)
        await ran(script.replace("//localhost", f"//{here}"), ["hello"])
        await ran(awaited(client.replace("user:password@localhost", here)), ["hello"])
        raw = transport.replace('"localhost", 5672', f'"127.0.0.1", {broker.port}')
        await ran(awaited("from amqp_engine.listening import connect\n" + raw), [])


@test
async def a_server_runs():
    serves, receives = programs("served")
    program = SERVER.replace("SERVES", textwrap.indent(serves, "    ").strip())
    program = program.replace("RECEIVES", textwrap.indent(receives, "    ").strip())
    await ran(ALL + program, ["b'\\x00Su\\xa0\\x05hello'", "amqp:not-allowed"], True)


class SmallServer(Broker):
    """The server of the examples, as a process of its own."""

    words = [sys.executable, str(ROOT / "examples" / "python" / "server.py"), "0"]


async def takes(receiver):
    delivery = await receiver.receive(timeout=20)
    await delivery.accept()
    return delivery.message.body


@test
async def the_small_server_serves():
    assert len(Path(SmallServer.words[1]).read_text().splitlines()) <= 40
    async with SmallServer() as server, connect(f"amqp://127.0.0.1:{server.port}/") as connection:
        async with connection.sender("q") as sender:
            await sender.send(Message("hello"))
        assert await asyncio.wait_for(server.process.stdout.readline(), 20) == b"hello\n"
        async with connection.receiver("q", credit=3) as receiver:
            assert [await takes(receiver) for _ in range(3)] == ["hello 0", "hello 1", "hello 2"]
