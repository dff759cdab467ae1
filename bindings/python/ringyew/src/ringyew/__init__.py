"""One member of a session of Scalable Reliable Multicast: a proved state machine, without clock, socket or thread.

    with Agent(me=0, members=2, session=7, seed=0, now=0) as agent:
        agent.draw(b"a line", now=0)
        agent.tick(now=0)                     # when agent.next_due says
        for datagram in agent.datagrams():
            ...                               # send it to all other members
        agent.hear(datagram, now=5)           # when one comes
        for message in agent.messages(0):     # of each slot, 0 to 7
            ...

Members of one room have a file in common. It has the key by which a guard seals what goes to each member, and opens what comes:

    with Room(text) as room:                  # what `srm room new` wrote
        me = room.find("ada")
        agent = Agent(**room.settings(me), seed=seed, now=0)
        guard = room.guard(me, start=time.time_ns() // 1000)
    guard.seal(to, datagram)                  # for each other member, in place of the datagram alone
    agent.hear(guard.open(came), now=5)       # unless it raises DroppedError

Moments are whole microseconds of the caller's own clock, from any beginning, at most MOMENT_MAX. Members' clocks needn't agree. What a call
refuses is an SrmError; nothing has changed then.

The package calls libsrm, which it finds by pkg-config, or in the folder that RINGYEW_LIB names.
"""

from ringyew._agent import Agent
from ringyew._errors import (
    AgainError,
    BodyLongError,
    ConfigError,
    CountersError,
    DroppedError,
    FaultError,
    GoneError,
    KeyRefusedError,
    LeavingError,
    MemberError,
    MemoryRefusedError,
    MomentError,
    OlderError,
    PageError,
    PageLimitError,
    SlotError,
    SrmError,
    StreamFullError,
    UntaggedError,
)
from ringyew._guard import Guard
from ringyew._library import (
    BODY_MAX,
    DATAGRAM_MAX,
    KEY_MAX,
    KEY_MIN,
    MEMBERS_MAX,
    MOMENT_MAX,
    NAME_MAX,
    ROOM_TEXT_MAX,
    SEAL_BYTES,
    SEALED_MAX,
    SLOTS,
    STROKES_MAX,
    library_version,
)
from ringyew._room import Room
from ringyew._values import FIRST_PAGE, Cause, Close, Draw, Heard, Left, Message, Name, Open, Outstanding, Page, RoomFault, RoomMember, State, Ticked

__all__ = [
    "BODY_MAX",
    "DATAGRAM_MAX",
    "FIRST_PAGE",
    "KEY_MAX",
    "KEY_MIN",
    "MEMBERS_MAX",
    "MOMENT_MAX",
    "NAME_MAX",
    "ROOM_TEXT_MAX",
    "SEALED_MAX",
    "SEAL_BYTES",
    "SLOTS",
    "STROKES_MAX",
    "AgainError",
    "Agent",
    "BodyLongError",
    "Cause",
    "Close",
    "ConfigError",
    "CountersError",
    "Draw",
    "DroppedError",
    "FaultError",
    "GoneError",
    "Guard",
    "Heard",
    "KeyRefusedError",
    "LeavingError",
    "Left",
    "MemberError",
    "MemoryRefusedError",
    "Message",
    "MomentError",
    "Name",
    "OlderError",
    "Open",
    "Outstanding",
    "Page",
    "PageError",
    "PageLimitError",
    "Room",
    "RoomFault",
    "RoomMember",
    "SlotError",
    "SrmError",
    "State",
    "StreamFullError",
    "Ticked",
    "UntaggedError",
    "library_version",
]
