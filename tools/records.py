"""Records of members, as docs/RECORDS.md has their bytes."""

import struct
import zlib
from typing import NamedTuple

DREW, HEARD, TICKED, SHOWED, ASKED_LEAVE, GAVE, TOOK, ENDED = range(1, 9)
# How many bytes stand before the first frame, and before the payload of each.
BEGINNING, HEAD = 55, 13
# Where the session, the seed and the time of day stand.
SESSION, SEED, WALL = slice(7, 11), slice(27, 35), slice(43, 51)


class Frame(NamedTuple):
    """A line of a record."""

    kind: int
    moment: int
    payload: bytes = b""


def sealed(data):
    """Bytes, and behind them their checksum."""
    return data + struct.pack(">I", zlib.crc32(data))


def frame_bytes(frame):
    return sealed(struct.pack(">BQI", frame.kind, frame.moment, len(frame.payload)) + frame.payload)


class Record(NamedTuple):
    """A record: what stands before its frames, without the checksum, and the frames."""

    beginning: bytes
    frames: list

    @classmethod
    def read(cls, data):
        """A whole record, in which each frame has its checksum."""
        frames, rest = [], data[BEGINNING:]
        while rest:
            kind, moment, length = struct.unpack(">BQI", rest[:HEAD])
            frame = Frame(kind, moment, rest[HEAD : HEAD + length])
            size = len(frame_bytes(frame))
            if rest[:size] != frame_bytes(frame):
                raise ValueError(f"frame {len(frames)} has another checksum")
            frames, rest = [*frames, frame], rest[size:]
        return cls(data[: BEGINNING - 4], frames)

    def with_field(self, place, data):
        """The same with another setting at this place of its beginning."""
        return self._replace(beginning=self.beginning[: place.start] + data + self.beginning[place.stop :])

    def with_frames(self, at, until, *others):
        """The same with other frames from one place to another."""
        return self._replace(frames=[*self.frames[:at], *others, *self.frames[until:]])

    def places(self, *kinds):
        """The places of the frames of these kinds."""
        return [place for place, it in enumerate(self.frames) if it.kind in kinds]

    def __bytes__(self):
        return sealed(self.beginning) + b"".join(frame_bytes(it) for it in self.frames)
