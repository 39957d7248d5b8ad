#!/usr/bin/env python3
"""Stands between a client and a server, and prints the frames of both, and which of them break the protocol, by name.

    tools/watch.py LISTEN HOST PORT [--connections N] [--quiet] [--json] [--color auto|always|never] [--html PAGE]
                   [--tls-cert FILE --tls-key FILE] [--tls-to [CA]]

It listens on 127.0.0.1:LISTEN (on a port that is free where that is 0), and hands what comes on to HOST:PORT and back, unchanged, whatever it is. A judge
follows both sides, apart from that. Each frame has a line: the connection, the seconds since the frame before, who sent it, its number, its kind, its channel, its
fields, and what the judge finds. Frames are counted over both sides, as in a recording. A line at a connection's end sums it up. With `--quiet` there is no more
than the breaches, and what could not be looked at, and the status is 1 where there was any of that:

    connection 1, client, frame 7, Flow: UnattachedHandle

`--json` prints an object of JSON a line, for programs (docs/USING.md lists their fields). Lines have colours on a terminal, where NO_COLOR is not set; `--color` says
otherwise. With `--connections N` it ends after so many. `--html PAGE` writes each connection, once it is over or this is interrupted, as a page for a browser:
the second one as PAGE-2, and so on, up to the 16th. SASL and protocol headers pass by. A peer's End and Close with an error are told as what they are.

TLS that passes by is not looked into. With `--tls-cert` and `--tls-key`, a certificate and its key, clients speak TLS to this. With `--tls-to` this speaks TLS to the
server, whose certificate has to be for HOST, and of an authority in the file CA, or of one that the system trusts. Who cannot agree on TLS is no connection.

Looked at are: the bytes of each frame; its size and channel, once the other side's Open came by; the order of Open, Begin, Attach, Detach, End and Close, and
what is sent after the last three; handles and names of links; transfers against the session's window; delivery-ids, which go up by one. A frame may
have been sent before what came by from the other side was read: it is told only where it is wrong all the same. Not looked at are: link credit, tags, states and
settlement of deliveries, ranges of dispositions, handle-max, max-message-size, and time.

What cannot be read is told once, and no more is told of what hangs on it. Of a frame of more than 1 MiB the front is read. Where more waits to be looked at than 64 MiB, a
line says so, and that connection is looked at no more. Where nobody listens, a line says so, and the client's connection is closed.
"""

import argparse
import asyncio
import contextlib
import queue
import ssl
import sys
import threading
import time
from pathlib import Path

from amqp.looking import Seen
from amqp.telling import add_options, teller_of
from page.make import Page, page_of
from shared.command import command, told

# So much may wait to be looked at
MOST_WAITING = 2**26
# What is counted for a chunk besides its bytes
CHUNK = 200
# The seconds for a handshake of TLS, and for one direction once the other has ended, where its end cannot be handed on
HANDSHAKE, LAST = 20, 2


class Desk(threading.Thread):
    """Where things are looked at, one after the other, apart from the sockets: nothing that is handed on waits for it."""

    def __init__(self):
        super().__init__(daemon=True)
        # each count is changed by one thread alone
        self.tasks, self.given, self.taken = queue.SimpleQueue(), 0, 0

    def give(self, size, task, *words):
        self.given += size
        self.tasks.put((size, task, words))

    def waiting(self):
        return self.given - self.taken

    def run(self):
        while (it := self.tasks.get()) is not None:
            size, task, words = it
            task(*words)
            self.taken += size

    def end(self):
        self.tasks.put(None)
        self.join()


class Watched:
    """One connection that is handed on."""

    def __init__(self, number, desk, teller, html=None):
        self.desk, self.teller, self.is_behind, self.html = desk, teller, False, html
        self.seen = Seen(teller, number, Page(f"connection {number}", "a judge of both sides") if html else None)

    def look(self, side, data):
        """Has the bytes looked at; once too much waits, nothing more."""
        if not self.is_behind and self.desk.waiting() > MOST_WAITING:
            self.is_behind = True
            self.desk.give(CHUNK, self.seen.stop, None, "looked at no more (more comes than can be looked at)")
        if not self.is_behind:
            self.desk.give(len(data) + CHUNK, self.seen.see, side, data, time.monotonic())

    async def carry(self, side, reader, writer):
        """Hands on what comes. It waits to be looked at before an answer to it can come. Answers whether the end was handed on: TLS has none of one direction."""
        is_ended = True
        try:
            while data := await reader.read(65536):
                writer.write(data)
                self.look(side, data)
                await writer.drain()
            is_ended = writer.can_write_eof()
            if is_ended:
                writer.write_eof()
        except OSError:
            # one of the two is gone: so is the other then
            writer.close()
        if not self.is_behind:
            self.desk.give(CHUNK, self.seen.end, side)
        return is_ended

    async def both(self, near, far):
        """Both directions. Where the end of one cannot be handed on, the other has a little time yet."""
        ways = [asyncio.ensure_future(self.carry("A", near[0], far[1])), asyncio.ensure_future(self.carry("B", far[0], near[1]))]
        ended, others = await asyncio.wait(ways, return_when=asyncio.FIRST_COMPLETED)
        if others and not all(it.result() for it in ended):
            await asyncio.wait(others, timeout=LAST)
            near[1].close()
            far[1].close()
        await asyncio.gather(*ways)

    async def between(self, near, far):
        writers = near[1], far[1]
        try:
            await self.both(near, far)
            for writer in writers:
                writer.close()
            for writer in writers:
                # what it holds is sent yet
                with contextlib.suppress(OSError):
                    await writer.wait_closed()
        finally:
            for writer in writers:
                writer.close()
            self.desk.give(CHUNK, self.over)

    def over(self):
        self.teller.over(self.seen.tally)
        if self.html is None:
            return
        try:
            self.seen.page.write(self.html)
            self.teller.remark(self.seen.tally, f"its page is {self.html}")
        except OSError as error:
            self.teller.note(self.seen.tally.number, f"no page, {self.html}: {error.strerror}")


class Watcher:
    """Hands on each connection that comes, `most` at most; `tls` has what TLS to the client and to the server needs, if it is spoken."""

    def __init__(self, host, port, most, teller, html=None, tls=(None, None)):
        self.host, self.port, self.most, self.teller, self.html, self.count = host, port, most, teller, html, 0
        (self.near, self.far), self.waits = tls, [{"ssl_handshake_timeout": HANDSHAKE} if it else {} for it in tls]
        self.desk = Desk()

    async def met(self, reader, writer):
        if self.count == self.most:
            return writer.close()
        self.count += 1
        self.come.release()
        with contextlib.suppress(asyncio.CancelledError):
            await self.hand_on(Watched(self.count, self.desk, self.teller, page_of(self.html, self.count)), (reader, writer))
        self.gone.release()

    async def hand_on(self, watched, near):
        try:
            far = await asyncio.open_connection(self.host, self.port, ssl=self.far, **self.waits[1])
        except OSError as error:
            self.desk.give(CHUNK, watched.seen.stop, None, f"{self.host}:{self.port}: {error.strerror or error}")
            near[1].close()
        else:
            await watched.between(near, far)

    async def watch(self, listen):
        # here, since before Python 3.10 they are of the loop in which they are made
        self.come, self.gone = asyncio.Semaphore(0), asyncio.Semaphore(0)
        self.desk.start()
        async with await asyncio.start_server(self.met, "127.0.0.1", listen, ssl=self.near, **self.waits[0]) as server:
            self.teller.listens("127.0.0.1", server.sockets[0].getsockname()[1])
            for _ in range(self.most):
                await self.come.acquire()
        for _ in range(self.most):
            await self.gone.acquire()
        self.desk.end()


def tls_of(parser, said):
    """What TLS to the client and to the server needs; `None` where it is not spoken."""
    near = far = None
    if bool(said.tls_cert) != bool(said.tls_key):
        parser.error("--tls-cert and --tls-key go together")
    try:
        if said.tls_cert:
            near = ssl.SSLContext(ssl.PROTOCOL_TLS_SERVER)
            near.load_cert_chain(said.tls_cert, said.tls_key, password="")
        if said.tls_to is not None:
            far = ssl.create_default_context(cafile=said.tls_to or None)
    except OSError as error:
        told(f"a certificate or a key cannot be read: {error.strerror or error}")
    return near, far


def main():
    parser = argparse.ArgumentParser(description=__doc__, formatter_class=argparse.RawDescriptionHelpFormatter)
    parser.add_argument("listen", type=int)
    parser.add_argument("host")
    parser.add_argument("port", type=int)
    parser.add_argument("--connections", type=int)
    parser.add_argument("--html", type=Path)
    parser.add_argument("--tls-cert", metavar="FILE")
    parser.add_argument("--tls-key", metavar="FILE")
    parser.add_argument("--tls-to", nargs="?", const="", metavar="CA")
    add_options(parser)
    said = parser.parse_args()
    tls = tls_of(parser, said)
    watcher = Watcher(said.host, said.port, said.connections or sys.maxsize, teller_of(said, goes_on=True), said.html, tls)
    try:
        asyncio.run(watcher.watch(said.listen))
    finally:
        # what was handed on before an interruption is looked at yet, and summed up, and the pages are written
        if watcher.desk.is_alive():
            watcher.desk.end()
        if said.quiet and watcher.teller.is_bad:
            sys.exit(1)


if __name__ == "__main__":
    command(main, __doc__)
