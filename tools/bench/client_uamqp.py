"""The same by uAMQP, for bench_client.py. It speaks by TLS alone, polls while it waits for settlements, and takes the
address, a whole URL, for that of the server too."""

from urllib.parse import urlsplit

PAYLOAD = b"x" * 64
AT_ONCE = 100


def trusting(url, ca):
    from uamqp.authentication import SASLAnonymous

    at = urlsplit(url)
    return SASLAnonymous(at.hostname, port=at.port, verify=ca)


def send(url, address, count, ca):
    import uamqp

    client = uamqp.SendClient(address, auth=trusting(url, ca))
    client.open()
    queued = settled = 0

    def told(result, error):
        nonlocal settled
        assert not error
        settled += 1

    while settled < count:
        for _ in range(min(AT_ONCE - queued + settled, count - queued)):
            message = uamqp.Message(PAYLOAD)
            message.on_send_complete = told
            client.queue_message(message)
            queued += 1
        client.do_work()
    client.close()


def receive(url, address, count, ca):
    import uamqp

    client = uamqp.ReceiveClient(address, auth=trusting(url, ca), prefetch=2 * AT_ONCE)
    for came, message in enumerate(client.receive_messages_iter(), 1):
        assert b"".join(message.get_data()) == PAYLOAD
        message.accept()
        if came == count:
            break
    client.close()
