"""What seals the datagrams that a member sends, and opens what comes."""

import ctypes
from types import TracebackType

from ringyew._errors import MemberError, check
from ringyew._library import SEAL_BYTES, library


class Guard:
    """What seals the datagrams that a member sends, and opens what comes, by a key that all members share.

    Behind each datagram to a member stand its sender, a counter and a tag of all that. So a guard opens only what somebody with the key sealed for its
    member, and each such datagram once. A key hides nothing, and doesn't tell one member from another: a member may lie.

    Closing it, or leaving its `with` block, frees all that it holds. A call after close raises ValueError.
    """

    _at: ctypes.c_void_p | None = None

    def __init__(self, *, key: bytes, me: int, start: int) -> None:
        """Makes the guard of a member by a key, best of 32 random bytes. Its counters begin at `start`, which must be above all that this member used under
        this key before, or others drop what it sends: pass the microseconds since 1970."""
        key, at = bytes(key), ctypes.c_void_p()
        check(library.srm_guard_new(at, key, len(key), _member(me), start_of(start)))
        self._at = at

    @classmethod
    def _of(cls, at: ctypes.c_void_p) -> "Guard":
        """The guard that the library made at a pointer, which belongs to it then."""
        guard = cls.__new__(cls)
        guard._at = at
        return guard

    def close(self) -> None:
        """Frees the guard. It may be called again."""
        at, self._at = self._at, None
        if at is not None:
            library.srm_guard_free(at)

    def __enter__(self) -> "Guard":
        return self

    def __exit__(self, kind: type[BaseException] | None, error: BaseException | None, trace: TracebackType | None) -> None:
        self.close()

    def __del__(self) -> None:
        self.close()

    @property
    def _guard(self) -> ctypes.c_void_p:
        if self._at is None:
            raise ValueError("the guard is closed")
        return self._at

    def seal(self, to: int, datagram: bytes) -> bytes:
        """A datagram, sealed for a member. Seal it anew for each member, and for each time that it is sent."""
        datagram, length = bytes(datagram), ctypes.c_size_t()
        buffer = ctypes.create_string_buffer(len(datagram) + SEAL_BYTES)
        check(library.srm_guard_seal(self._guard, _member(to), datagram, len(datagram), buffer, len(buffer), length))
        return buffer.raw[: length.value]

    def open(self, came: bytes) -> bytes:
        """The datagram in front of bytes that came from the network, whatever they are. A DroppedError says why there is none to be heard."""
        came, length = bytes(came), ctypes.c_size_t()
        check(library.srm_guard_open(self._guard, came, len(came), length))
        return came[: length.value]


def start_of(start: int) -> int:
    """Where counters begin."""
    if not 0 <= start < 2**64:
        raise ValueError("counters begin from 0 to 2**64 - 1")
    return start


def _member(member: int) -> int:
    if not 0 <= member < 2**32:
        raise MemberError(26)
    return member
