"""A member over UDP, by asyncio: it joins a room, draws each line of its input on the first page, and prints what it is given, as `srm node` does.

    python3 node.py --room FILE --me NAME     the name, or the place from 0

Once its input ended it stays until nobody asked for anything for as long as the room says, and then leaves."""

import asyncio
import contextlib
import os
import pathlib
import socket
import sys
import time
from typing import cast

from ringyew import BODY_MAX, FIRST_PAGE, SLOTS, Agent, Draw, DroppedError, FaultError, Guard, Left, MemberError, Message, Open, Room, State

USAGE = "usage: node.py --room FILE --me NAME"


def now() -> int:
    """The moment, in microseconds."""
    return time.monotonic_ns() // 1000


def told(message: Message) -> str:
    """What is printed of a message."""
    if isinstance(message, Open):
        return f"open {message.page.creator}.{message.page.number}"
    if isinstance(message, Draw):
        return f"draw {message.name.source} {message.name.number} {message.body.decode(errors='replace')}"
    return f"left {message.source}" if isinstance(message, Left) else "close"


class Member(asyncio.DatagramProtocol):
    """An agent over a socket. Its one timer is set anew after each call."""

    udp: asyncio.DatagramTransport
    timer: asyncio.TimerHandle | None = None

    def __init__(self, agent: Agent, guard: Guard, me: int, others: dict[int, tuple[str, int]]) -> None:
        self.agent, self.guard, self.me, self.others = agent, guard, me, others
        self.asked = now()  # when somebody last asked for something, or got it
        self.gone = asyncio.Event()

    def connection_made(self, transport: asyncio.BaseTransport) -> None:
        self.udp = cast(asyncio.DatagramTransport, transport)  # as create_datagram_endpoint promises
        self.turn()

    def datagram_received(self, data: bytes, addr: object) -> None:
        with contextlib.suppress(DroppedError):  # without the key, or for the second time
            if self.agent.hear(self.guard.open(data), now()).timers:
                self.asked = now()
        self.turn()

    def turn(self) -> None:
        """Does what is due, sends and prints, and sets the timer."""
        if self.agent.tick(now()).repairs:
            self.asked = now()
        for datagram in self.agent.datagrams():
            for to, address in self.others.items():
                self.udp.sendto(self.guard.seal(to, datagram), address)  # what is lost, here too, is asked for again
        for slot in range(SLOTS):
            for message in self.agent.messages(slot):
                print("took", self.me, slot, told(message), flush=True)
        if self.timer:
            self.timer.cancel()
        if (due := self.agent.next_due) is not None:
            self.timer = asyncio.get_running_loop().call_later(max(due - now(), 0) / 1_000_000, self.turn)
        else:
            self.gone.set()

    async def draw(self, line: bytes) -> None:
        """Draws a line once the rate lets it go."""
        while not self.agent.admits(len(line), now()):
            first = self.agent.admits_from(len(line)) or self.agent.next_due or now()
            await asyncio.sleep(max(first - now(), 1000) / 1_000_000)
        self.agent.draw(line, now(), FIRST_PAGE)
        self.asked = now()
        self.turn()

    async def leave(self, linger: int) -> None:
        """Stays until nobody asked for anything for so many microseconds, and then leaves."""
        self.asked = now()
        while (left := self.asked + linger - now()) > 0:
            await asyncio.sleep(left / 1_000_000)
        self.agent.leave(now())
        self.turn()
        await self.gone.wait()
        assert self.agent.state is State.GONE


async def resolved(address: str, family: int) -> tuple[int, tuple[str, int]]:
    """An address of a room, with its family: that of the members before, if there are any."""
    host, _, port = address.rpartition(":")
    try:
        found = await asyncio.get_running_loop().getaddrinfo(host.strip("[]"), int(port), family=family, type=socket.SOCK_DGRAM)
    except socket.gaierror as why:
        sys.exit(f"node.py: cannot find {host}: {why.strerror}: give all members an address of the same kind")
    return found[0][0], (str(found[0][4][0]), int(found[0][4][1]))


async def addresses_of(room: Room) -> list[tuple[str, int]]:
    """The addresses of a room's members, each resolved once."""
    family, addresses = 0, []
    for member in room.members:
        family, address = await resolved(member.address, family)
        addresses.append(address)
    return addresses


async def run(room: Room, me: int) -> None:
    others = dict(enumerate(await addresses_of(room)))
    own = others.pop(me)
    seed = int.from_bytes(os.urandom(8))
    with room.guard(me, start=time.time_ns() // 1000) as guard, Agent(**room.settings(me), seed=seed, now=now()) as agent:
        member = Member(agent, guard, me, others)
        udp, _ = await asyncio.get_running_loop().create_datagram_endpoint(lambda: member, local_addr=own)
        while line := await asyncio.to_thread(sys.stdin.buffer.readline, BODY_MAX + 2):
            body = line.removesuffix(b"\n")
            if len(body) > BODY_MAX:
                sys.exit(f"a line has more than {BODY_MAX} bytes")
            await member.draw(body)
        await member.leave(room.linger)
        udp.close()
    print("gone", me)


def read(path: str) -> Room:
    """The room of a file, or the end of the program."""
    try:
        return Room(pathlib.Path(path).read_bytes())
    except OSError as why:
        sys.exit(f"node.py: cannot read room {path}: {why.strerror}")
    except FaultError as why:
        sys.exit(f"node.py: room {path}{f', line {why.line}' if why.line else ''}: {why}")


def find(room: Room, path: str, me: str) -> int:
    """A member's place, or the end of the program."""
    try:
        return room.find(me)
    except MemberError:
        sys.exit(f"node.py: room {path} has no member {me}: write --me with one of {' '.join(member.name for member in room.members)}")


def main(words: list[str]) -> int:
    match words:
        case ["--room", path, "--me", me]:
            with read(path) as room:
                asyncio.run(run(room, find(room, path, me)))
            return 0
    print("node.py: name a room and a member of it", USAGE, sep="\n", file=sys.stderr)
    return 2


if __name__ == "__main__":
    sys.exit(main(sys.argv[1:]))
