"""What try_c.py tries of the client: a server that is killed in the middle of 10,000 messages, and started again."""

import asyncio
import sys
import tempfile
from pathlib import Path

sys.path.insert(0, str(Path(__file__).resolve().parents[2] / "bindings" / "python"))

from amqp_engine import Accepted, Backoff, ConnectionLost, blocking, connect
from hostile.peers import ROOT
from try_c.try_c_client_peers import tests

TESTS, test = tests(300)
COUNT, KILLS = 10000, 3


class Keeping:
    """The server of keeping.py, as a process of its own."""

    def __init__(self, folder):
        self.file, self.port = Path(folder) / "kept", 0
        self.file.touch()

    async def start(self):
        words = [sys.executable, str(ROOT / "tools" / "try_c" / "keeping.py"), str(self.port), str(self.file)]
        self.process = await asyncio.create_subprocess_exec(*words, stdout=asyncio.subprocess.PIPE)
        self.port = int(await self.process.stdout.readline())

    async def kill(self):
        """Ends it as it stands (SIGKILL)."""
        self.process.kill()
        await self.process.wait()

    def kept(self):
        return [int(it) for it in self.file.read_text().split()]

    async def until(self, count):
        while self.file.read_bytes().count(b"\n") < count:
            await asyncio.sleep(0.005)

    async def killed_again_and_again(self):
        for at in range(1, KILLS + 1):
            await self.until(at * COUNT // (KILLS + 1))
            await self.kill()
            await self.start()


async def sent_over(keeping, resend):
    """Sends all messages while the server is killed: what each call told."""
    await keeping.start()
    how = {"reconnect": Backoff(0.05, 0.2), "resend": resend}
    try:
        async with connect(f"amqp://127.0.0.1:{keeping.port}/", **how) as connection:
            lost = []
            connection.on_lost = lost.append
            sender = await connection.sender("q")
            killing = asyncio.ensure_future(keeping.killed_again_and_again())
            told = await asyncio.gather(*(sender.send(at) for at in range(COUNT)), return_exceptions=True)
            await killing
    finally:
        await keeping.kill()
    assert len(lost) == KILLS and all(isinstance(it, ConnectionLost) for it in lost), lost
    return told


@test
async def each_of_ten_thousand_messages_arrives_though_the_server_is_killed():
    with tempfile.TemporaryDirectory() as folder:
        keeping = Keeping(folder)
        told = await sent_over(keeping, True)
        kept = keeping.kept()
    assert told == [Accepted()] * COUNT and set(kept) == set(range(COUNT)), len(set(kept))
    # what came twice had been taken, and not told
    assert COUNT <= len(kept) <= COUNT + KILLS * 200, len(kept)


@test
async def none_is_told_as_settled_that_a_killed_server_has_not_kept():
    with tempfile.TemporaryDirectory() as folder:
        keeping = Keeping(folder)
        told = await sent_over(keeping, False)
        kept = keeping.kept()
    accepted = {at for at, it in enumerate(told) if it == Accepted()}
    lost = [it for it in told if isinstance(it, ConnectionLost)]
    assert len(accepted) + len(lost) == COUNT and all(it.is_unsettled for it in lost), len(accepted)
    # each went out once, and in order
    assert accepted <= set(kept) and kept == sorted(set(kept)) and 0 < len(lost) <= KILLS * 200, (len(kept), len(lost))


@test
async def a_script_goes_on_over_the_next_connection():
    def script(port):
        how = {"reconnect": Backoff(0.05, 0.2), "resend": True}
        with blocking.connect(f"amqp://127.0.0.1:{port}/", **how) as connection:
            with connection.sender("q") as sender:
                return [sender.send(at, timeout=30) for at in range(1000)]

    def script_without_resend(port):
        told = []
        with blocking.connect(f"amqp://127.0.0.1:{port}/", reconnect=Backoff(0.05, 0.2)) as connection:
            with connection.sender("q") as sender:
                for at in range(1000, 2000):
                    try:
                        told.append(sender.send(at, timeout=30))
                    except ConnectionLost as error:
                        told.append(error)
        return told

    with tempfile.TemporaryDirectory() as folder:
        keeping = Keeping(folder)
        await keeping.start()
        told = []
        for run, at in ((script, 300), (script_without_resend, 1300)):
            scripts = asyncio.get_running_loop().run_in_executor(None, run, keeping.port)
            await keeping.until(at)
            await keeping.kill()
            await keeping.start()
            told += await scripts
        await keeping.kill()
        kept = keeping.kept()
    assert told[:1000] == [Accepted()] * 1000 and set(range(1000)) <= set(kept) and len(kept) - len(set(kept)) <= 1
    lost = [at for at, it in enumerate(told) if isinstance(it, ConnectionLost)]
    # one waits at a time: no more than it is lost, and it may have been kept
    assert len(lost) <= 1 and set(range(1000, 2000)) - set(lost) <= set(kept), (lost, len(kept))
