"""Live members on loopback, what they take and when, and a relay between them.

The members run by ./srm, which has to be built (`./srm build`), or by the program named in SRM."""
import contextlib
import itertools
import os
import pathlib
import select
import selectors
import signal
import socket
import subprocess
import sys
import threading
import time

TOP = pathlib.Path(__file__).resolve().parent.parent
PROGRAM = os.environ.get("SRM", f"{TOP}/srm")
HOST = "127.0.0.1"
# Ports below those that the system picks from. Each process begins at another one, by its number.
PORTS = itertools.islice(itertools.cycle(range(10_000, 32_000)), os.getpid() * 100 % 22_000, None)
# Seconds after which a session isn't waited for.
LIMIT = 600.0
# Bytes of receive buffer that the relay asks for, by the option of Linux that root may set beyond the system's limit.
ROOM = 4 << 20
SO_RCVBUFFORCE = 33


def bound():
    """A socket of loopback."""
    it = socket.socket(socket.AF_INET, socket.SOCK_DGRAM)
    it.bind((HOST, 0))
    return it


def is_free(port):
    """Whether nobody has this port of loopback, as far as the system knows."""
    with socket.socket(socket.AF_INET, socket.SOCK_DGRAM) as it:
        try:
            it.bind((HOST, port))
        except OSError:
            return False
    return True


def free_ports(count):
    """Returns ports of loopback that nobody has, none twice. The system never picks one of these, so they stay free until members bind them."""
    return list(itertools.islice(filter(is_free, PORTS), count))


def stroke(member, number):
    """What a member draws."""
    return f"stroke {member} {number}"


class Member:
    """A live member, what it took so far, and when."""

    def __init__(self, number, addresses, *words):
        words = [PROGRAM, "node", "--live", "--session", "7", "--me", str(number), *words, *addresses]
        self.number = number
        self.process = subprocess.Popen(words, stdin=subprocess.PIPE, stdout=subprocess.PIPE, stderr=subprocess.DEVNULL)
        os.set_blocking(self.process.stdout.fileno(), False)
        self.left, self.taken = b"", {}
        self.drawn = 0

    def program(self):
        """The process of the program. ./srm runs it as its child."""
        pid = self.process.pid
        with open(f"/proc/{pid}/task/{pid}/children", encoding="ascii") as it:
            return int((it.read().split() or [pid])[0])

    def kill(self):
        if self.process.poll() is None:
            os.kill(self.program(), signal.SIGKILL)
            self.process.kill()
            self.process.wait()

    def draw(self, count):
        self.drawn += count
        text = "".join(f"{stroke(self.number, it)}\n" for it in range(count))
        self.process.stdin.write(text.encode())
        self.process.stdin.flush()

    def read(self):
        """Takes what was printed, with its moment."""
        try:
            text = os.read(self.process.stdout.fileno(), 1 << 20)
        except BlockingIOError:
            return
        lines = (self.left + text).split(b"\n")
        self.left = lines.pop()
        now = time.monotonic()
        for line in lines:
            words = line.split(b" ", 6)
            if words[:1] == [b"took"] and words[3:4] == [b"draw"]:
                self.taken.setdefault(int(words[4]), []).append(now)

    def count(self, source):
        return len(self.taken.get(source, ()))


def start_into(folder, number, program, *words, before=()):
    """Starts a member, with these words before its own, whose output and standard error go to the files NUMBER.out and NUMBER.err of a folder. Its process, to whose `stdin` one types."""
    words = [*before, program, "node", "--session", "7", "--me", str(number), *words]
    with open(f"{folder}/{number}.out", "wb") as out, open(f"{folder}/{number}.err", "wb") as err:
        return subprocess.Popen(words, stdin=subprocess.PIPE, stdout=out, stderr=err)


def end_input(processes):
    """Ends the input of processes, also of those that have ended."""
    for it in processes:
        with contextlib.suppress(BrokenPipeError):
            it.stdin.close()


def until(members, is_done):
    """Reads until it is so. Stops with status 1 where that takes too long, or a member ends."""
    name = "/".join(pathlib.Path(sys.argv[0]).parts[-3:-1])
    begun = time.monotonic()
    while not is_done():
        ready, _, _ = select.select([it.process.stdout for it in members], [], [], 0.05)
        for it in members:
            if it.process.stdout in ready:
                it.read()
            if it.process.poll() is not None:
                sys.exit(f"{name}: member {it.number} ended with status {it.process.returncode}")
        if time.monotonic() - begun > LIMIT:
            counts = {it.number: {source: it.count(source) for source in range(len(members))} for it in members}
            sys.exit(f"{name}: not whole after {LIMIT:.0f} s: {counts}")


def read_for(members, seconds):
    """Reads for so long."""
    end = time.monotonic() + seconds
    until(members, lambda: time.monotonic() >= end)


def kill(members):
    for it in members:
        it.kill()


class Relay:
    """Passes on what members send each other, as often as `passes` says of the sender, the receiver and the datagram: a number, or whether at all.

    Each member knows each other one by an address of the relay, and hears it from there: so it may keep to its roster."""

    def __init__(self, count, passes):
        self.ports = free_ports(count)
        self.passes = passes
        # By who sends there, and to whom.
        self.stops = {pair: self.stop() for pair in itertools.permutations(range(count), 2)}
        # So many bytes each member sent.
        self.sent = [0] * count
        self.ended = threading.Event()
        self.thread = threading.Thread(target=self.run)

    @staticmethod
    def stop():
        it = bound()
        it.setblocking(False)
        it.setsockopt(socket.SOL_SOCKET, SO_RCVBUFFORCE if os.geteuid() == 0 else socket.SO_RCVBUF, ROOM)
        return it

    def roster(self, me):
        """The addresses of all, as a member knows them."""
        ports = [port if it == me else self.stops[me, it].getsockname()[1] for it, port in enumerate(self.ports)]
        return [f"{HOST}:{it}" for it in ports]

    def send(self, sender, receiver, datagram):
        """Sends a datagram to the receiver, from the address that the receiver has of the sender."""
        self.stops[receiver, sender].sendto(datagram, (HOST, self.ports[receiver]))

    def take(self, stop, sender, receiver):
        """Passes on what lies at a stop."""
        try:
            while True:
                datagram = stop.recv(65_536)
                self.sent[sender] += len(datagram)
                for _ in range(self.passes(sender, receiver, datagram)):
                    self.send(sender, receiver, datagram)
        except OSError:
            # There is no more, or the receiver isn't there.
            return

    def run(self):
        with selectors.DefaultSelector() as ready:
            for pair, stop in self.stops.items():
                ready.register(stop, selectors.EVENT_READ, pair)
            while not self.ended.is_set():
                for key, _ in ready.select(0.05):
                    self.take(key.fileobj, *key.data)

    def __enter__(self):
        self.thread.start()
        return self

    def __exit__(self, *_):
        self.ended.set()
        self.thread.join()
        for it in self.stops.values():
            it.close()
