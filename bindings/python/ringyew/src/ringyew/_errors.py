"""Why a call is refused."""

from ringyew._library import OK, describe
from ringyew._values import RoomFault


class SrmError(Exception):
    """A call was refused, and nothing has changed. `code` is the number of `enum srm_code` in srm.h."""

    def __init__(self, code: int) -> None:
        self.code = code
        super().__init__(describe(code))


class LeavingError(SrmError):
    """The member is leaving: it draws nothing new."""


class GoneError(SrmError):
    """The member has left."""


class PageLimitError(SrmError):
    """The page isn't in the table, and the table has no slot for another."""


class StreamFullError(SrmError):
    """The member drew STROKES_MAX strokes on the page."""


class BodyLongError(SrmError):
    """The stroke has more than BODY_MAX bytes."""


class MemoryRefusedError(SrmError, MemoryError):
    """Out of memory. Make the same call again later, or let it be."""


class MomentError(SrmError):
    """A moment is below 0, or past MOMENT_MAX."""


class SlotError(SrmError):
    """A slot isn't one of 0 to 7."""


class ConfigError(SrmError):
    """A setting is out of its range, or `me` isn't below `members`."""


class PageError(SrmError):
    """A page's creator isn't one of 0 to 31, or its number isn't one of 0 to 65,535."""


class MemberError(SrmError):
    """A member isn't one of 0 to 31, or the room has no such member."""


class KeyRefusedError(SrmError):
    """The key has fewer than KEY_MIN bytes, or more than KEY_MAX."""


class CountersError(SrmError):
    """All counters to the member were used."""


class DroppedError(SrmError):
    """What came isn't to be heard, and counts as lost."""


class UntaggedError(DroppedError):
    """Nobody with the key sealed the bytes for this member."""


class OlderError(DroppedError):
    """Nobody with the key sealed the bytes for this member, but an older version tagged them."""


class AgainError(DroppedError):
    """The bytes came before, or so late that this can't be told."""


class FaultError(SrmError):
    """A text is no room. As text it says in one line what is wrong and what to write instead; `line` is where, from 1, or None where no line shows it."""

    def __init__(self, code: int, kind: RoomFault | None = None, line: int | None = None, text: str = "") -> None:
        super().__init__(code)
        self.kind, self.line = kind, line
        if text:
            self.args = (text,)


_BY_CODE: dict[int, type[SrmError]] = {
    1: LeavingError,
    2: GoneError,
    3: PageLimitError,
    4: StreamFullError,
    5: BodyLongError,
    6: MemoryRefusedError,
    17: MomentError,
    18: SlotError,
    19: ConfigError,
    22: PageError,
    26: MemberError,
    27: FaultError,
    28: KeyRefusedError,
    29: UntaggedError,
    30: OlderError,
    31: AgainError,
    32: CountersError,
}


def error_of(code: int) -> SrmError:
    """The exception for a code."""
    return _BY_CODE.get(code, SrmError)(code)


def check(code: int) -> None:
    """Raises the exception for a code that isn't OK."""
    if code != OK:
        raise error_of(code)
