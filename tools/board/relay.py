"""A relay between the members of a session that loses, doubles and delays datagrams, on loopback, in a thread.

The relay has a port for each pair of members. Member i sends to the port of (i, j) instead of member j's own, so the relay knows the sender and the receiver of each datagram.
"""
import heapq
import random
import select
import socket
import threading
import time


class Relay(threading.Thread):
    def __init__(self, ports, loss=0.0, double=0.0, delay=(0.001, 0.005), seed=1):
        super().__init__(daemon=True)
        self.ports, self.loss, self.double, self.delay = ports, loss, double, delay
        self.random = random.Random(seed)
        self.cut = set()        # members to whom and from whom nothing passes
        self.lose = None        # asked of each datagram: (from, to, bytes) -> lost?
        self.sockets, self.ends, self.over = {}, {}, False
        self.passed = self.lost = 0
        self.bytes = {}         # of all that members sent: (from, kind) -> bytes
        for i in range(len(ports)):
            for j in range(len(ports)):
                if i != j:
                    s = socket.socket(socket.AF_INET, socket.SOCK_DGRAM)
                    s.bind(('127.0.0.1', 0))
                    s.setblocking(False)
                    self.sockets[i, j] = s
                    self.ends[s] = (i, j)

    def roster(self, i):
        return ['127.0.0.1:%d' % (port if j == i else self.sockets[i, j].getsockname()[1]) for j, port in enumerate(self.ports)]

    def run(self):
        heap, serial = [], 0
        while not self.over:
            wait = 0.02 if not heap else max(0.0, min(0.02, heap[0][0] - time.monotonic()))
            ready, _, _ = select.select(list(self.ends), [], [], wait)
            for s in ready:
                i, j = self.ends[s]
                while True:
                    try:
                        b = s.recv(65536)
                    except (BlockingIOError, ConnectionRefusedError):
                        break
                    self.bytes[i, b[3]] = self.bytes.get((i, b[3]), 0) + len(b)
                    if i in self.cut or j in self.cut or self.random.random() < self.loss or (self.lose and self.lose(i, j, b)):
                        self.lost += 1
                        continue
                    for _ in range(2 if self.random.random() < self.double else 1):
                        serial += 1
                        heapq.heappush(heap, (time.monotonic() + self.random.uniform(*self.delay), serial, i, j, b))
            now = time.monotonic()
            while heap and heap[0][0] <= now:
                _, _, i, j, b = heapq.heappop(heap)
                try:
                    self.sockets[j, i].sendto(b, ('127.0.0.1', self.ports[j]))
                    self.passed += 1
                except OSError:
                    pass
