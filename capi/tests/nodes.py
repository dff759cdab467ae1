"""Members of one room by the examples `node` and one live `srm node` on loopback, over a relay that loses a tenth: all take the same strokes, and an audit of the program's
record finds nothing wrong: it is whole, and of a run of these members that may have been.

nodes.py SRM NODE..: the program, and the command of each other member."""

import pathlib
import random
import re
import secrets
import shlex
import socket
import subprocess
import sys
import tempfile
import threading

STROKES = 40
NAMES = ("ada", "grace", "edsger", "barbara", "tony")
# A live `srm node` calls members by their names, the examples by their places.
PLACES = {word: place for place, name in enumerate(NAMES) for word in (name, str(place))}
SECONDS = 90
# What all members have in common, as a room has it.
SESSION, LINGER, SETTINGS = 7, 8_000_000, {"least-distance": 5_000, "rate": 64_000, "depth": 4_204, "most-missing": 16_777_216}


def bound():
    """A socket on a free port of this machine."""
    udp = socket.socket(socket.AF_INET, socket.SOCK_DGRAM)
    udp.bind(("127.0.0.1", 0))
    return udp


def address(udp):
    return "%s:%d" % udp.getsockname()


class Relay(threading.Thread):
    """Hands on what comes for one member, but for one datagram in ten."""

    def __init__(self, to, seed):
        super().__init__(daemon=True)
        self.udp, self.to, self.chance, self.lost, self.came = bound(), to, random.Random(seed), 0, 0

    def run(self):
        while True:
            datagram = self.udp.recv(65536)
            self.came += 1
            if self.chance.random() < 0.1:
                self.lost += 1
            else:
                self.udp.sendto(datagram, self.to)


def room_of(key, addresses):
    """The text of a room with these addresses. A relay stands between members, so each has a room of its own."""
    people = "".join(f'[[member]]\nname = "{name}"\naddress = "{place}"\n\n' for name, place in zip(NAMES, addresses))
    settings = "".join(f"{name} = {value}\n" for name, value in SETTINGS.items())
    return f'ringyew = 1\nsession = {SESSION}\nkey = "{key.hex()}"\n\n{people}[settings]\nwaits = [2, 2, 1, 1]\nlinger = {LINGER}\n{settings}'


def audited(srm, room, record, me, count):
    """What is wrong with the program's record, by `srm audit`. The others have none, so a whole and honest one alone is undecided, with status 7. It has the member's name."""
    ran = subprocess.run([srm, "audit", "--room", str(room), str(record)], capture_output=True, text=True, check=False)
    first, _, second = ran.stdout.partition("\n")
    if ran.returncode != 7 or first != f"undecided: session {SESSION}, 1 of {count} records, 0 of them cut" or NAMES[me] not in second.split(":")[0].split():
        return [f"srm audit: status {ran.returncode}: {ran.stdout}{ran.stderr}"]
    return []


def draws(told):
    """The strokes that a member's page worker took, in order: source, number and text."""
    return [(PLACES[source], int(number), text) for source, number, text in re.findall(r"^took \w+ 0 draw (\w+) (\d+) (.*)$", told, re.M)]


def taken(told):
    """The strokes that a member took, by source and number, and whether it is gone."""
    return {(source, number): text for source, number, text in draws(told)}, "gone" in told


def in_order(told, members):
    """Whether the numbers of each source rise by one from 1."""
    return all([number for of, number, _ in draws(told) if of == source] == list(range(1, STROKES + 1)) for source in range(members))


def main(srm, *nodes):
    with tempfile.TemporaryDirectory() as folder:
        return run(pathlib.Path(folder), srm, *nodes)


def run(folder, srm, *nodes):
    count = len(nodes) + 1
    key = secrets.token_bytes(32)
    record = folder / "srm.record"
    # The ports are free when they are asked for; whoever takes one in between makes the test fail in words.
    own = [bound() for _ in range(count)]
    places = [udp.getsockname() for udp in own]
    relays = [Relay(place, seed) for seed, place in enumerate(places)]
    for udp in own:
        udp.close()
    for relay in relays:
        relay.start()
    members = []
    for me in range(count):
        addresses = ["%s:%d" % places[me] if to == me else address(relays[to].udp) for to in range(count)]
        room = folder / f"{NAMES[me]}.room"
        room.touch(0o600)
        room.write_text(room_of(key, addresses))
        if me < len(nodes):
            command = [*shlex.split(nodes[me]), "--room", str(room), "--me", NAMES[me]]
        else:
            # What comes over a relay doesn't come from its sender's address; the key's tag says who sent it.
            command = [srm, "node", "--room", str(room), "--me", NAMES[me], "--live", "--any-origin", "--stay", "10s", "--record", str(record)]
        members.append(subprocess.Popen(command, stdin=subprocess.PIPE, stdout=subprocess.PIPE, text=True))
    for me, member in enumerate(members):
        member.stdin.write("".join(f"stroke {number} of member {me}\n" for number in range(STROKES)))
        member.stdin.close()
        member.stdin = None
    wrong = []
    told = []
    for me, member in enumerate(members):
        try:
            told.append(member.communicate(timeout=SECONDS)[0])
        except subprocess.TimeoutExpired:
            member.kill()
            told.append(member.communicate()[0])
            wrong.append(f"member {me} didn't end in {SECONDS} seconds")
        if member.returncode:
            wrong.append(f"member {me} ended with status {member.returncode}")
    first = taken(told[0])[0]
    if sorted(first) != [(source, number) for source in range(count) for number in range(1, STROKES + 1)]:
        wrong.append(f"member 0 took {len(first)} strokes of {count * STROKES}")
    for me in range(count):
        strokes, is_gone = taken(told[me])
        if strokes != first:
            wrong.append(f"members 0 and {me} took other strokes")
        if not in_order(told[me], count):
            wrong.append(f"member {me} took strokes out of order")
        if not is_gone:
            wrong.append(f"member {me} isn't gone")
    came, lost = sum(relay.came for relay in relays), sum(relay.lost for relay in relays)
    if not lost:
        wrong.append("nothing was lost")
    wrong += audited(srm, folder / f"{NAMES[len(nodes)]}.room", record, len(nodes), count)
    print("\n".join(wrong) or f"{count * STROKES} strokes, each taken by all {count}, with {lost} of {came} datagrams lost; an audit finds nothing wrong")
    return len(wrong) > 0


sys.exit(main(*sys.argv[1:]))
