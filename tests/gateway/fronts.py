"""Cases of clients, and of the connection to an issuer, with a gateway that serves."""

import contextlib
import random
import time

from model import messages

from gateway import clients
from gateway.clients import NETWORK_TEST, Client, request, reversal
from gateway.issuer import WARMING, Issuer
from gateway.served import Wrong, awaited, serving, wanted

MANY = 900


@contextlib.contextmanager
def served(bench, *words, delay=0.0):
    """A gateway with an issuer that is connected, and the issuer."""
    issuer = Issuer(delay)
    try:
        with serving(bench.program, bench.room, *words, issuer=issuer, without=bench.without) as gateway:
            awaited("the issuer is connected", lambda: issuer.connections)
            warmed(gateway)
            yield gateway, issuer
    finally:
        issuer.close()


def warmed(gateway):
    """Asks each engine until it has asked the issuer: it opens its pipes at its first request."""
    client = Client(gateway.port)
    for shard in range(len(gateway.engines())):
        card = next(it for it in range(900_000, 900_100) if shard_of(it, len(gateway.engines())) == shard)
        for stan in range(1, 50):
            client.send(request(card, stan, sent=WARMING))
            # (an approval that is late is reversed, and has no answer)
            answer = client.receive(2)
            if answer is not None and answer[1].get(39) == b"00":
                break
            time.sleep(0.1)
        else:
            raise Wrong(f"engine {shard} does not reach the issuer")
    client.close()


def shard_of(card, shards):
    from cardgate.request import shard_of as shard

    return shard(f"4{card:015d}", b"", shards)


def pieces(bench):
    """Requests in pieces of 7 bytes are answered, each once."""
    with served(bench) as (gateway, _):
        client = Client(gateway.port)
        data = b"".join(messages.framed(request(number, number)) for number in range(1, 21))
        for at in range(0, len(data), 7):
            client.socket.sendall(data[at : at + 7])
        stans = sorted(client.receive()[1][11] for _ in range(20))
        wanted("the answered STANs", stans, [b"%06d" % number for number in range(1, 21)])
        wanted("one more answer", client.receive(0.3), None)


def equal_keys(bench):
    """Two connections with the same card, terminal, STAN and time: each gets one answer, its own request's."""
    with served(bench, delay=0.05) as (gateway, _):
        pair = [Client(gateway.port), Client(gateway.port)]
        for client in pair:
            client.send(request(5, 5))
        answers = [client.receive() for client in pair]
        wanted("the types", [mti for mti, _ in answers], [b"0110", b"0110"])
        wanted("one more answer", [client.receive(0.2) for client in pair], [None, None])
        # (equal terminals and STANs, and other cards)
        for number, client in enumerate(pair):
            client.send(request(10 + number, 6))
        cards = [client.receive()[1][2] for client in pair]
        wanted("the cards", cards, [b"4%015d" % (10 + number) for number in range(2)])


def without_a_response(bench):
    """Messages that get no response hold up nobody: unreadable ones, and those of a response's type."""
    with served(bench) as (gateway, _):
        junk, client = Client(gateway.port), Client(gateway.port)
        _, fields = messages.decode(request(1, 1))
        junk.send(*[b"0100%06d" % number for number in range(300)], *[messages.encode(b"0110", fields)] * 300, b"")
        client.send(request(8, 8), reversal(8, 8))
        wanted("the answers of another client", [client.receive()[0], client.receive()[0]], [b"0110", b"0410"])
        wanted("the junk's own next answer", junk.ask(NETWORK_TEST)[0], b"0810")


def many_connections(bench):
    """900 connections at once, each with a network test of its own, and then some with an authorization."""
    with served(bench, "--wait", "20", "--late", "25") as (gateway, _):
        all_clients = [Client(gateway.port) for _ in range(MANY)]
        for number, client in enumerate(all_clients):
            client.send(messages.encode(b"0800", {11: b"%06d" % number, 70: b"301"}))
        answers = [client.receive(40) for client in all_clients]
        stans = [it and it[1][11] for it in answers]
        wanted("the answered tests", stans, [b"%06d" % number for number in range(MANY)])
        some = all_clients[::30]
        for number, client in enumerate(some):
            client.send(request(number, 1))
        cards = [client.receive(40)[1][2] for client in some]
        wanted("the answered cards", cards, [b"4%015d" % number for number in range(len(some))])
        for client in all_clients:
            client.close()


def one_connection_to_the_issuer(bench):
    """Three engines ask the issuer over one connection, and each gets the answers to its own requests."""
    with served(bench, "--engines", "3", "--wait", "9", "--late", "10", delay=0.05) as (gateway, issuer):
        client = Client(gateway.port)
        client.send(*[request(number, 7) for number in range(24)])
        answers = [client.receive() for _ in range(24)]
        wanted("approved", {fields[39] for _, fields in answers}, {b"00"})
        wanted("connections to the issuer", issuer.connections, 1)


def answers_without_cards(bench):
    """An issuer whose answers have no card: they go to the engines that asked."""
    with served(bench, "--engines", "3", "--wait", "9", "--late", "10", delay=0.05) as (gateway, issuer):
        issuer.tells_cards = False
        client = Client(gateway.port)
        client.send(*[request(number, number % 3, amount=100 + number) for number in range(24)])
        answers = [client.receive() for _ in range(24)]
        wanted("approved", [fields[39] for _, fields in answers], [b"00"] * 24)


def issuer_away_and_back(bench):
    """While the issuer is away requests are declined at once; it is asked again when it is back, and gets the
    reversals."""
    with served(bench, "--engines", "1") as (gateway, issuer):
        client = Client(gateway.port)
        wanted("with the issuer", client.ask(request(1, 1))[1][39], b"00")
        issuer.hang_up()
        awaited("the log says so", lambda: gateway.events("issuer_away"))
        began = time.monotonic()
        wanted("while it is away", client.ask(request(2, 2))[1][39], b"91")
        if time.monotonic() - began > 2:
            raise Wrong("it was not declined at once")
        issuer.listen()
        awaited("it is connected again", lambda: issuer.connections > 1)
        awaited(
            "it is asked again",
            lambda: client.ask(request(3, issuer.connections + len(issuer.ledger) + 50))[1][39] == b"00",
        )
        awaited(
            "the reversal",
            lambda: [it for it in issuer.reversals() if it.key == (b"4%015d" % 2, b"000002", clients.SENT)],
        )


def random_clients(bench):
    """Clients that send whatever comes, in pieces, and go at any moment: the log has no fault, others are served."""
    chosen = random.Random(11)
    with served(bench, "--open", "8", "--unread", "3000") as (gateway, _):
        for _ in range(60):
            client = Client(gateway.port)
            with contextlib.suppress(OSError):
                for _ in range(chosen.randrange(3)):
                    client.socket.sendall(random_bytes(chosen))
                    if chosen.random() < 0.3:
                        client.receive(0.02)
            client.go() if chosen.random() < 0.5 else client.close()
        other = Client(gateway.port)
        awaited("another client is answered", lambda: other.send(request(1, 1)) or other.receive(3))
        wanted("the status", gateway.stop(), 0)
        wanted("faults", gateway.events("internal_fault"), [])
        with open(gateway.log, encoding="utf-8") as file:
            wanted("lines that are not of the log", [it for it in file if not it.startswith("{")], [])


def random_bytes(chosen):
    """Requests, answers, unreadable messages and no messages at all, some of them cut."""
    stan = chosen.randrange(1000)
    kinds = [request(stan % 7, stan), reversal(stan % 7, stan), NETWORK_TEST, b"", b"0110", chosen.randbytes(30)]
    data = b"".join(messages.framed(chosen.choice(kinds)) for _ in range(chosen.randrange(1, 8)))
    if chosen.random() < 0.2:
        data += chosen.randbytes(4)
    return data[: chosen.randrange(1, len(data))] if chosen.random() < 0.4 else data


def no_card_in_the_log(bench):
    """The log names STANs and no card number, whatever happens."""
    with served(bench, delay=0.3) as (gateway, _):
        client = Client(gateway.port)
        client.send(request(77, 1), b"0100" + request(77, 1))
        client.receive()
        client.socket.sendall(b"0x" + request(77, 2))
        wanted("closed", client.is_closed(), True)
        gone = Client(gateway.port)
        gone.send(request(78, 3))
        time.sleep(0.1)
        gone.go()
        time.sleep(0.5)
        gateway.stop()
        with open(gateway.log, encoding="utf-8") as file:
            text = file.read()
        wanted("the cards in the log", [it for it in (77, 78) if f"{it:015d}" in text], [])


CASES = [
    pieces,
    equal_keys,
    without_a_response,
    many_connections,
    one_connection_to_the_issuer,
    answers_without_cards,
    issuer_away_and_back,
    no_card_in_the_log,
    random_clients,
]
