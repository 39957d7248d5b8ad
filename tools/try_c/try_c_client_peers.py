"""Peers of the client that are written out frame by frame, for try_c_client_wire.py and those beside it."""

import asyncio
import contextlib
import sys
from pathlib import Path

sys.path.insert(0, str(Path(__file__).resolve().parents[2] / "bindings" / "python"))

from amqp_engine import RECEIVER, Attach, Begin, Disposition, Flow, Open, Waits, connect
from hostile.peers import HEADER, LARGE, frame, listens

WAITS = Waits(login=5.0, answer=0.5, reading=0.5, closing=0.2)


def tests(seconds=60):
    """A list of tests, and what puts one in it, which may take so long."""
    listed = []

    def test(function):
        def run():
            asyncio.run(asyncio.wait_for(function(), seconds))

        run.__name__ = function.__name__
        listed.append(run)
        return function

    return listed, test


async def raised(what, kind):
    try:
        await what
    except kind as error:
        return error
    raise AssertionError(f"no {kind.__name__}")


@contextlib.asynccontextmanager
async def against(script, how=None, **opens):
    """A client of a peer that does this once the connection and a session are open; `how` are the words of
    `connect`."""
    tasks = []

    async def begins(peer):
        tasks.append(asyncio.current_task())
        try:
            await peer.take(8)
            peer.send(HEADER, frame(Open("peer", **{"max_frame_size": 512, **opens})))
            await peer.until(0x11)
            peer.send(frame(Begin(0, 0, LARGE, LARGE)))
            await script(peer)
            await peer.over()
        except (ConnectionError, asyncio.IncompleteReadError, asyncio.CancelledError):
            pass
        finally:
            peer.gone()

    server, port = await listens(begins)
    try:
        async with connect(f"amqp://127.0.0.1:{port}/", **{"login": None, "waits": WAITS, **(how or {})}) as connection:
            yield connection
    finally:
        server.close()
        for it in tasks:
            if not it.done():
                it.cancel()
        await asyncio.gather(*tasks, return_exceptions=True)


async def attach(peer, handle=0, credit=None, answer=None, **how):
    """Answers the client's next Attach, and gives credit; answers what the client asked for."""
    theirs = Attach.decode((await peer.until(0x12))[4:])
    mine = Attach(theirs.name, handle, not theirs.role, source=theirs.source, target=theirs.target, **how)
    mine.initial_delivery_count = 0 if theirs.role == RECEIVER else None
    peer.send(frame(answer(mine) if answer else mine))
    if credit is not None:
        peer.send(grants(handle, credit))
    return theirs


def grants(handle, credit, count=0, incoming=LARGE, next_incoming=0, **how):
    said = {"handle": handle, "delivery_count": count, "link_credit": credit, **how}
    return frame(Flow(next_incoming, incoming, 0, LARGE, **said))


def settles(number, state, settled=True, last=None):
    return frame(Disposition(RECEIVER, number, last, settled=settled, state=state))
