"""How long a loss lasts at most, by the laws of recovery: the sums are those of crates/srm_recovery/specs. Times are microseconds.

Members 50 ms apart, with the default waits, over a network that takes up to 60 ms, as in Examples.antt there:

>>> waits = Waits(2, 2, 1, 1)
>>> far = Timing(delay=60_000, tick=10_000, emptying=10_000, repair_wait=waits.longest_repair(50_000), hold_off=HOLD_OFF * FIRST_DISTANCE)
>>> far.settling_time(), far.repair_time(200_000), far.repair_time(waits.longest_request(50_000, 8)), far.sharing_time(1_000_000, 200_000)
(420000, 460000, 51460000, 1530000)
>>> longest_interval(8_000, 2, session_length(2, 2)), longest_interval(8_000, 32, session_length(32, 32))
(1000000, 64480000)
"""
from typing import NamedTuple

SECOND = 1_000_000
# Before its first echo a member takes a distance to be so long, and a hold-off lasts so many distances.
FIRST_DISTANCE, HOLD_OFF = 100_000, 3
# A request timer's wait is doubled at most so often.
GREATEST_EXPONENT = 8
# The session messages of all members take one part of the rate in so many.
SESSION_SHARE = 20
# Bytes of a datum or a repair beside its stroke, and of a request for 33 names.
HEAD, REQUEST, NAMES = 27, 21, 33
# What live members have if no option says otherwise.
LIVE_RATE, LIVE_FLOOR, LIVE_WAITS = 64_000, 5_000, "2,2,1,1"


class Waits(NamedTuple):
    """How many distances a request waits, from c1 to c1 + c2, and a repair, from d1 to d1 + d2."""

    c1: int
    c2: int
    d1: int
    d2: int

    def longest_request(self, distance, exponent):
        return (self.c1 + self.c2) * distance << exponent

    def longest_repair(self, distance):
        return (self.d1 + self.d2) * distance

    def longest_request_within(self, time, farthest):
        """The longest wait of a request timer that is set so long after its name was first missing, of a member that takes no other to be farther.

        Another's request doubles the first wait at once, and each further one where half of it has passed at the earliest.

        >>> Waits(2, 2, 1, 1).longest_request_within(0, 10_000), Waits(2, 2, 1, 1).longest_request_within(60_000, 10_000)
        (80000, 320000)
        """
        longest = 0
        for exponent in range(1, GREATEST_EXPONENT + 1):
            halves = self.c1 * (2 ** (exponent - 1) - 1)
            distance = min(farthest, time // halves) if halves else farthest
            longest = max(longest, self.longest_request(distance, exponent))
        return longest


class Timing(NamedTuple):
    """What the network and the members do within these times.

    A datagram arrives at most `delay` after it was sent; a member ticks at least each `tick`, and its bucket is empty after one at least each `emptying`; no repair timer waits longer
    than `repair_wait`, and no hold-off lasts longer than `hold_off`."""

    delay: int
    tick: int
    emptying: int
    repair_wait: int
    hold_off: int

    def settling_time(self):
        return max(self.hold_off + self.delay, self.emptying) + self.delay

    def repair_time(self, request_wait):
        return request_wait + self.repair_wait + 2 * (self.tick + self.emptying + self.delay)

    def knowing_time(self, interval):
        return max(self.settling_time(), interval + self.tick + self.delay)

    def sharing_time(self, interval, request_wait):
        return self.knowing_time(interval) + self.repair_time(request_wait)


def session_length(members, streams):
    return 23 + 8 * streams + 17 * (members - 1)


def longest_interval(rate, members, length):
    return max(SECOND, SESSION_SHARE * members * length * SECOND // rate)


class Session(NamedTuple):
    """What a bound is told of, beside its settings: how many members and streams there are, how many strokes of how many bytes a member misses, what the network and the nodes take,
    and how far a member takes another to be at most."""

    members: int
    streams: int
    missed: int
    length: int
    delay: int
    tick: int
    farthest: int


def whole_within(session, rate, floor, waits):
    """How long all that was missed takes at most to be had by all, from when the network delivers all, in microseconds. The settings are texts, or None for those of a live member.

    A bucket is empty at the latest once the rate has paid for what a member then sends: each missed stroke once as a repair, and its requests. A member that repairs one twice
    meanwhile may take longer."""
    rate, floor = int(rate or LIVE_RATE), int(floor or LIVE_FLOOR)
    waits = Waits(*map(int, (waits or LIVE_WAITS).split(",")))
    handed = session.missed * (HEAD + session.length) + -(-session.missed // NAMES) * REQUEST
    farthest = max(floor, session.farthest)
    timing = Timing(
        delay=session.delay,
        tick=session.tick,
        emptying=session.tick + -(-handed * SECOND // rate),
        repair_wait=waits.longest_repair(farthest),
        hold_off=HOLD_OFF * max(farthest, FIRST_DISTANCE),
    )
    interval = longest_interval(rate, session.members, session_length(session.members, session.streams))
    return timing.sharing_time(interval, waits.longest_request_within(timing.knowing_time(interval), farthest))
