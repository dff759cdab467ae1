"""One member of a session."""

import ctypes
from collections.abc import Callable, Iterator
from types import TracebackType

from ringyew._errors import ConfigError, MemberError, MomentError, PageError, SlotError, check
from ringyew._library import BODY_MAX, DATAGRAM_MAX, NEVER, NOTHING, OK, STROKES_MAX, RawConfig, RawHeard, RawMessage, RawName, RawOutstanding, RawPage, RawTicked, library
from ringyew._values import FIRST_PAGE, Cause, Close, Draw, Heard, Left, Message, Name, Open, Outstanding, Page, State, Ticked


class Agent:
    """One member of a session.

    Call draw, show and leave when the user does so, and hear when a datagram comes. After each call ask next_due again, and tick when that moment
    has come; then send all datagrams(). After each call, too, hand on the messages() of each slot.

    Closing it, or leaving its `with` block, frees all that it holds and sends nothing. To take leave of the others, call leave and tick until the
    state is State.GONE. A call after close raises ValueError.
    """

    _at: ctypes.c_void_p | None = None

    def __init__(
        self,
        *,
        me: int,
        members: int,
        session: int,
        seed: int,
        now: int,
        rate: int | None = None,
        depth: int | None = None,
        c1: int | None = None,
        c2: int | None = None,
        d1: int | None = None,
        d2: int | None = None,
        least_distance: int | None = None,
    ) -> None:
        """Makes member `me` of `members`, at a moment. Members choose their waits by their seeds: give each another. The other settings are those of
        srm_config in srm.h, with its defaults."""
        config = RawConfig()
        library.srm_config_init(config, ctypes.sizeof(config))
        needed = {"me": me, "members": members, "session": session}
        others = {"rate": rate, "depth": depth, "c1": c1, "c2": c2, "d1": d1, "d2": d2, "least_distance": least_distance}
        for field, value in (*needed.items(), *others.items()):
            if value is not None:
                _set(config, field, value)
        at = ctypes.c_void_p()
        check(library.srm_agent_new(at, config, seed % 2**64, _moment(now)))
        self._at = at

    def close(self) -> None:
        """Frees the agent. It may be called again."""
        at, self._at = self._at, None
        if at is not None:
            library.srm_agent_free(at)

    def __enter__(self) -> "Agent":
        return self

    def __exit__(self, kind: type[BaseException] | None, error: BaseException | None, trace: TracebackType | None) -> None:
        self.close()

    def __del__(self) -> None:
        self.close()

    @property
    def _agent(self) -> ctypes.c_void_p:
        if self._at is None:
            raise ValueError("the agent is closed")
        return self._at

    def draw(self, body: bytes, now: int, page: Page = FIRST_PAGE) -> Name:
        """Draws a stroke of at most BODY_MAX bytes on a page, and returns its name. A later tick sends it, when the rate lets it go."""
        body, name = bytes(body), RawName()
        check(library.srm_agent_draw(self._agent, _raw_page(page), body, len(body), _moment(now), name))
        return _name_of(name)

    def admits(self, length: int, now: int) -> bool:
        """Whether a stroke of so many bytes, drawn at this moment, would have to wait for no other: nothing waits that goes before it, or the bucket
        covers all of that and the stroke."""
        return bool(library.srm_agent_admits(self._agent, _length(length), _moment(now)))

    def admits_from(self, length: int) -> int | None:
        """From which moment on `admits` is true, if no other call comes before; None where something else has to go first."""
        return _or_none(library.srm_agent_admits_from(self._agent, _length(length)))

    def new_page(self) -> Page | None:
        """The page of this member's own that it would begin next; None where the table is full or all page numbers are used."""
        page = RawPage()
        return _page_of(page) if library.srm_agent_new_page(self._agent, page) == OK else None

    def show(self, page: Page, now: int) -> None:
        """Shows a page, which enters the page table if it isn't there. Requests and repairs for it go first."""
        check(library.srm_agent_show(self._agent, _raw_page(page), _moment(now)))

    def leave(self, now: int) -> None:
        """Begins to leave: the member draws nothing new, and once all that it drew was sent, a tick sends its farewell."""
        check(library.srm_agent_leave(self._agent, _moment(now)))

    def hear(self, datagram: bytes, now: int) -> Heard:
        """Hears bytes that came from the network, whatever they are."""
        datagram, heard = bytes(datagram), RawHeard()
        check(library.srm_agent_hear(self._agent, datagram, len(datagram), _moment(now), heard))
        return Heard(Cause(heard.cause) if heard.cause else None, heard.fault, heard.timers)

    def tick(self, now: int) -> Ticked:
        """Does what is due. It drops what an earlier tick left and nobody took, as if that were lost on its way."""
        ticked = RawTicked()
        check(library.srm_agent_tick(self._agent, _moment(now), ticked))
        return Ticked(ticked.requests, ticked.repairs, ticked.datagrams, State(ticked.state))

    def datagrams(self) -> Iterator[bytes]:
        """Takes the datagrams that the last tick left. Send each to all other members, once."""
        room, length = ctypes.create_string_buffer(DATAGRAM_MAX), ctypes.c_size_t()
        while library.srm_agent_next_datagram(self._agent, room, DATAGRAM_MAX, length) == OK:
            yield room.raw[: length.value]

    def requests(self) -> Iterator[Name]:
        """Takes the names that the last tick asked for, in order; for logs alone."""
        return self._names(library.srm_agent_next_request)

    def repairs(self) -> Iterator[Name]:
        """Takes the names that the last tick repaired, in order; for logs alone."""
        return self._names(library.srm_agent_next_repair)

    def _names(self, take: Callable[[ctypes.c_void_p, RawName], int]) -> Iterator[Name]:
        name = RawName()
        while take(self._agent, name) == OK:
            yield _name_of(name)

    @property
    def next_due(self) -> int | None:
        """The next moment at which a tick does something; None where the member is gone. It may be past MOMENT_MAX: then no tick comes to it."""
        return _or_none(library.srm_agent_next_due(self._agent))

    @property
    def state(self) -> State:
        """Whether the member takes part."""
        return State(library.srm_agent_state(self._agent))

    def distance(self, member: int) -> int:
        """The one-way distance to a member in microseconds. Timers wait for multiples of it."""
        distance = ctypes.c_uint64()
        check(library.srm_agent_distance(self._agent, _member(member), distance))
        return distance.value

    def known(self, source: int, page: Page = FIRST_PAGE) -> int:
        """The greatest number that the member knows to exist of a source's strokes on a page, or 0."""
        known = ctypes.c_uint32()
        check(library.srm_agent_known(self._agent, _raw_page(page), _member(source), known))
        return known.value

    def missing(self, source: int, page: Page = FIRST_PAGE) -> int:
        """How many of a source's strokes on a page are missing: the member knows that they exist, and doesn't hold them."""
        count = ctypes.c_uint32()
        check(library.srm_agent_missing(self._agent, _raw_page(page), _member(source), count))
        return count.value

    def next_missing(self, source: int, after: int = 0, page: Page = FIRST_PAGE) -> int | None:
        """The number of the first missing stroke of a source on a page above a number; None where none is. Begin with 0 and go on with what it
        returns, to find all."""
        number = ctypes.c_uint32()
        code: int = library.srm_agent_next_missing(self._agent, _raw_page(page), _member(source), min(after, STROKES_MAX), number)
        if code == NOTHING:
            return None
        check(code)
        return number.value

    @property
    def outstanding(self) -> Outstanding:
        """What the member misses, when its timers expire, what waits to be sent, and whether it takes part."""
        raw = RawOutstanding()
        check(library.srm_agent_outstanding(self._agent, raw))
        return Outstanding(
            raw.missing,
            _or_none(raw.next_request_at),
            _or_none(raw.next_repair_at),
            raw.waiting_shown,
            raw.waiting_new,
            raw.waiting_other,
            State(raw.state),
        )

    def give(self, slot: int) -> Message | None:
        """Takes the next message of a slot, 0 to 7; None where there is none. Of each source the strokes come in order, each once."""
        raw = RawMessage()
        if not 0 <= slot < 2**32:
            raise SlotError(18)
        code: int = library.srm_agent_give(self._agent, slot, raw)
        if code == NOTHING:
            return None
        check(code)
        return _message_of(raw)

    def messages(self, slot: int) -> Iterator[Message]:
        """Takes the messages of a slot until there is none."""
        while (message := self.give(slot)) is not None:
            yield message


def _set(config: RawConfig, field: str, value: int) -> None:
    """Sets a field of the settings. ctypes would take the low bits of a number that doesn't fit."""
    setattr(config, field, value)
    if getattr(config, field) != value:
        raise ConfigError(19)


def _moment(now: int) -> int:
    if not 0 <= now < 2**64:
        raise MomentError(17)
    return now


def _member(member: int) -> int:
    if not 0 <= member < 2**32:
        raise MemberError(26)
    return member


def _length(length: int) -> int:
    """More than the longest body counts as it does."""
    if length < 0:
        raise ValueError("a length is below 0")
    return min(length, BODY_MAX)


def _or_none(moment: int) -> int | None:
    return None if moment == NEVER else moment


def _page_of(raw: RawPage) -> Page:
    return Page(raw.creator, raw.number)


def _name_of(raw: RawName) -> Name:
    return Name(_page_of(raw.page), raw.source, raw.number)


def _raw_page(page: Page) -> RawPage:
    raw = RawPage(page.creator, page.number)
    if (raw.creator, raw.number) != (page.creator, page.number):
        raise PageError(22)
    return raw


def _message_of(raw: RawMessage) -> Message:
    if raw.kind == 1:
        return Open(_page_of(raw.name.page))
    if raw.kind == 2:
        return Draw(_name_of(raw.name), raw.stamp, bytes(raw.body[: raw.length]))
    if raw.kind == 3:
        return Left(raw.name.source)
    return Close()
