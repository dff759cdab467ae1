"""What calls take and return."""

from enum import IntEnum
from typing import NamedTuple, Union


class Page(NamedTuple):
    """A page: who began it, 0 to 31, and its number among that member's pages."""

    creator: int
    number: int


FIRST_PAGE = Page(0, 0)
"""The page that each member has from the start, in slot 0."""


class Name(NamedTuple):
    """The name of a stroke, which is never given to another: its page, who drew it, and its number there, from 1."""

    page: Page
    source: int
    number: int


class Open(NamedTuple):
    """The slot's page. It comes first."""

    page: Page


class Draw(NamedTuple):
    """The next stroke of its source, and the moment at which it was drawn, by its source's clock."""

    name: Name
    stamp: int
    body: bytes


class Left(NamedTuple):
    """This member left, and all that it drew on the page was given."""

    source: int


class Close(NamedTuple):
    """Nothing more comes."""


Message = Union[Open, Draw, Left, Close]


class State(IntEnum):
    """Whether a member takes part. It never goes back."""

    ACTIVE = 1
    LEAVING = 2
    GONE = 3


class Cause(IntEnum):
    """Why a datagram was ignored. Nothing but the last moment changed then."""

    OWN = 1
    GONE = 2
    CONFLICT = 3
    PAGE_LIMIT = 4
    BEYOND_FINAL = 5
    DECODE = 6
    STRANGER = 7


class RoomFault(IntEnum):
    """What is wrong with a text that is no room."""

    NO_TEXT = 1
    NOT_TOML = 2
    LACKS = 3
    WRONG = 4
    KEY_LENGTH = 5
    NO_MEMBER = 6
    TOO_MANY = 7
    NAME = 8
    ADDRESS = 9
    NAME_TWICE = 10
    ADDRESS_TWICE = 11
    UNKNOWN = 12


class RoomMember(NamedTuple):
    """A member of a room: its name and its address, `IPv4:port`, `[IPv6]:port` or `host:port`."""

    name: str
    address: str


class Heard(NamedTuple):
    """What became of a datagram: why it was ignored, or None; by which fault, 1 to 11, where it is no datagram of the session, else 0; and how
    many timers it set."""

    ignored: Cause | None
    fault: int
    timers: int


class Ticked(NamedTuple):
    """What a tick did: how many strokes it asked for and repaired, how many datagrams are to be sent, and whether the member takes part after it."""

    requests: int
    repairs: int
    datagrams: int
    state: State


class Outstanding(NamedTuple):
    """What a member waits for, and what it has to send.

    `missing` counts the strokes that it misses, over all sources and pages. `next_request_at` and `next_repair_at` say when its first request timer and its first repair
    timer expire, in microseconds; None where none runs. Without a request timer nothing is missing. `waiting_shown`, `waiting_new` and `waiting_other` count the datagrams
    that the rate holds back: requests and repairs for the page shown, the member's strokes, and requests and repairs for other pages. `state` says whether the member
    takes part."""

    missing: int
    next_request_at: int | None
    next_repair_at: int | None
    waiting_shown: int
    waiting_new: int
    waiting_other: int
    state: State
