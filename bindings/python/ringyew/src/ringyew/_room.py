"""What the members of a session have in common."""

import ctypes
from types import TracebackType

from ringyew._errors import FaultError, MemberError, check
from ringyew._guard import Guard, start_of
from ringyew._library import BUFFER, FAULT, RawConfig, RawRoomFault, library
from ringyew._values import RoomFault, RoomMember


class Room:
    """What the members of a session have in common: the session, the key, names and addresses, and settings. `srm room new` writes its text.

    Closing it, or leaving its `with` block, frees all that it holds. A call after close raises ValueError.
    """

    _at: ctypes.c_void_p | None = None

    def __init__(self, text: bytes) -> None:
        """Reads a room from TOML in UTF-8. A text that is no room raises FaultError."""
        text, at, fault = bytes(text), ctypes.c_void_p(), RawRoomFault()
        code: int = library.srm_room_read(at, text, len(text), fault)
        if code == FAULT:
            raise FaultError(FAULT, RoomFault(fault.kind), fault.line or None, fault.text.decode(errors="replace"))
        check(code)
        self._at = at

    def close(self) -> None:
        """Frees the room. It may be called again."""
        at, self._at = self._at, None
        if at is not None:
            library.srm_room_free(at)

    def __enter__(self) -> "Room":
        return self

    def __exit__(self, kind: type[BaseException] | None, error: BaseException | None, trace: TracebackType | None) -> None:
        self.close()

    def __del__(self) -> None:
        self.close()

    @property
    def _room(self) -> ctypes.c_void_p:
        if self._at is None:
            raise ValueError("the room is closed")
        return self._at

    @property
    def members(self) -> list[RoomMember]:
        """The members, by their places."""
        return [RoomMember(self._text("srm_room_name", place), self._text("srm_room_address", place)) for place in range(library.srm_room_members(self._room))]

    def _text(self, call: str, place: int) -> str:
        copy, length = getattr(library, call), ctypes.c_size_t()
        code: int = copy(self._room, place, None, 0, length)
        if code != BUFFER:
            check(code)
        buffer = ctypes.create_string_buffer(length.value + 1)
        check(copy(self._room, place, buffer, len(buffer), length))
        return buffer.raw[: length.value].decode()

    def find(self, who: str) -> int:
        """The place of a member, by its name or by the place itself as digits. A member's place is its `me`."""
        place = ctypes.c_uint()
        if "\0" in who:
            raise MemberError(26)
        check(library.srm_room_find(self._room, who.encode(), place))
        return place.value

    def settings(self, me: int) -> dict[str, int]:
        """What Agent takes for the member at a place, but for its seed and the moment: `Agent(**room.settings(me), seed=seed, now=now)`."""
        config = RawConfig()
        library.srm_config_init(config, ctypes.sizeof(config))
        check(library.srm_room_config(self._room, _place(me), config))
        return {field: getattr(config, field) for field in ("me", "members", "session", "rate", "depth", "c1", "c2", "d1", "d2", "least_distance")}

    @property
    def linger(self) -> int:
        """How long a member stays, after its user is done, for others that miss what it holds: until nobody asked for anything for so many microseconds."""
        linger: int = library.srm_room_linger(self._room)
        return linger

    @property
    def most_missing(self) -> int:
        """How many strokes a member may miss at once. The library sets no such bound: who wants one looks at Agent.outstanding."""
        most_missing: int = library.srm_room_most_missing(self._room)
        return most_missing

    def guard(self, me: int, start: int) -> Guard:
        """The guard of the member at a place, by the room's key. Its counters begin at `start`, as of a Guard."""
        at = ctypes.c_void_p()
        check(library.srm_room_guard(at, self._room, _place(me), start_of(start)))
        return Guard._of(at)


def _place(place: int) -> int:
    if not 0 <= place < 2**32:
        raise MemberError(26)
    return place
