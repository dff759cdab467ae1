"""Two members of one session in one program: of three strokes the second is lost, asked for and repaired.

The program is the network too. One of your own sends what a tick leaves to all others.
"""

import sys

from ringyew import Agent, Close, Draw, Left, Message, Open

END = 900_000
"""The last moment, in microseconds: by then what was lost is repaired."""


def carry(one: Agent, other: Agent, lost: int | None, now: int) -> None:
    """A member hears what a tick of another left to be sent, but for one datagram that is lost."""
    for place, datagram in enumerate(one.datagrams()):
        if place != lost:
            other.hear(datagram, now)


def tick(one: Agent, other: Agent, now: int) -> None:
    one.tick(now)
    for name in one.requests():
        print(f"{now}: asked for stroke {name.number}")
    for name in one.repairs():
        print(f"{now}: repaired stroke {name.number}")
    carry(one, other, None, now)


def told(message: Message) -> str:
    match message:
        case Open(page):
            return f"page {page.number} of member {page.creator}"
        case Draw(name, _, body):
            return f"stroke {name.number} of member {name.source}: {body.decode()}"
        case Left(source):
            return f"that member {source} left"
        case Close():
            return "the close"


def next_due(*agents: Agent) -> int:
    return min(agent.next_due or END for agent in agents)


def main() -> None:
    drawer, listener = (Agent(me=me, members=2, session=7, seed=me, now=0) for me in range(2))
    with drawer, listener:
        for stroke in (b"a line", b"a circle", b"an arrow"):
            drawer.draw(stroke, now=0)
        drawer.tick(0)
        carry(drawer, listener, 1, 0)
        while (now := next_due(drawer, listener)) < END:
            tick(drawer, listener, now)
            tick(listener, drawer, now)
        for message in listener.messages(0):
            print("given", told(message))


if len(sys.argv) > 1:
    print(f"repair.py: {sys.argv[1]}: it takes no argument", "usage: repair.py", sep="\n", file=sys.stderr)
    sys.exit(2)
main()
