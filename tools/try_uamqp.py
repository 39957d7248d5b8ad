#!/usr/bin/env python3
"""uAMQP sends messages to a server on the loopback, or receives them, over TLS, without which it speaks to none. It wants Debian's python3-uamqp.

    tools/try_uamqp.py send|receive PORT COUNT CA [USER PASSWORD]
    tools/try_uamqp.py --modes SENDER RECEIVER send|receive PORT COUNT CA [USER PASSWORD]

SENDER and RECEIVER are settle modes by their numbers, as the standard has them. The server's certificate is for
localhost, and of the authority in the file CA. It logs in by PLAIN, or by ANONYMOUS where there is no user. It may hang
up once its session has ended, without a Close.
"""

import sys

import uamqp
from uamqp import authentication
from uamqp.constants import MessageState, ReceiverSettleMode, SenderSettleMode


def login(port, ca, words):
    if words:
        return authentication.SASLPlain("localhost", *words, port=port, verify=ca)
    return authentication.SASLAnonymous("localhost", port=port, verify=ca)


def send(url, auth, count, modes):
    client = uamqp.SendClient(url, auth=auth, **modes)
    for number in range(count):
        client.queue_message(uamqp.Message(f"message {number}"))
    return sum(it == MessageState.SendComplete for it in client.send_all_messages())


def receive(url, auth, count, modes):
    client = uamqp.ReceiveClient(url, auth=auth, prefetch=count, **modes)
    got = 0
    while got < count:
        got += len(client.receive_message_batch(max_batch_size=count - got, timeout=10000))
    client.close()
    return got


def settling(words):
    sender, receiver = map(int, words)
    return {"send_settle_mode": SenderSettleMode(sender), "receive_settle_mode": ReceiverSettleMode(receiver)}


def main():
    words, modes = sys.argv[1:], {}
    if words[:1] == ["--modes"] and len(words) > 3:
        modes, words = settling(words[1:3]), words[3:]
    if len(words) not in (4, 6) or words[0] not in ("send", "receive"):
        sys.exit(__doc__.strip())
    word, port, count, ca, *words = words
    does = {"send": send, "receive": receive}[word]
    done = does(f"amqps://localhost:{port}/examples", login(int(port), ca, words), int(count), modes)
    print(f"{word}: {done} messages")
    sys.exit(done != int(count))


if __name__ == "__main__":
    main()
