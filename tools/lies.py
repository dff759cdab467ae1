"""Lies in the records of a session: how a member tells of it otherwise than it was.

A lie is made of the records of all members, whole and in order of member, and of the liar's number. It yields one or several lists of records, each with the lie."""

import struct
from records import ASKED_LEAVE, DREW, ENDED, GAVE, HEARD, SEED, SESSION, TICKED, TOOK, WALL, Frame, Record

CALLS = (DREW, HEARD, TICKED, ASKED_LEAVE, GAVE)
# The kind of a request, and where a datagram has its session.
REQUEST, OF_SESSION = 2, slice(4, 8)


def lying(records, liar, record):
    """The records with another one of the liar."""
    return [record if me == liar else it for me, it in enumerate(records)]


def ended(record, calls):
    """The record of these calls, whose workers took nothing."""
    last = calls[-1].moment if calls else 0
    return record._replace(frames=[*calls, Frame(ENDED, last)])


# ---- lies that may pass


def another_time_of_day(records, liar):
    """It says that it was made an hour later."""
    (wall,) = struct.unpack(">Q", records[liar].beginning[WALL])
    yield lying(records, liar, records[liar].with_field(WALL, struct.pack(">Q", wall + 3_600_000_000)))


def last_take_is_hidden(records, liar):
    """Of the last message that a worker took it says nothing."""
    last = records[liar].places(TOOK)[-1]
    yield lying(records, liar, records[liar].with_frames(last, last + 1))


def datagram_is_hidden(records, liar):
    """Of one that it heard it says nothing."""
    for place in records[liar].places(HEARD):
        yield lying(records, liar, records[liar].with_frames(place, place + 1))


def last_calls_are_hidden(records, liar):
    """It says that it made the first calls alone."""
    calls = [it for it in records[liar].frames if it.kind in CALLS]
    for count in reversed(range(len(calls))):
        yield lying(records, liar, ended(records[liar], calls[:count]))


def all_tell_of_another_session(records, _):
    """All agree that the session had another number, and no datagram of that was ever sent."""
    number = struct.pack(">I", 8)

    def moved(frame):
        return frame._replace(payload=frame.payload[: OF_SESSION.start] + number + frame.payload[OF_SESSION.stop :]) if frame.kind == HEARD else frame

    yield [it.with_field(SESSION, number)._replace(frames=[moved(frame) for frame in it.frames]) for it in records]


# ---- lies that don't


def a_tick_that_did_nothing(records, liar):
    tick = records[liar].places(TICKED)[0]
    yield lying(records, liar, records[liar].with_frames(tick, tick, records[liar].frames[tick], records[liar].frames[tick]))


def a_moment_that_falls(records, liar):
    last = records[liar].places(*CALLS)[-1]
    yield lying(records, liar, records[liar].with_frames(last, last + 1, records[liar].frames[last]._replace(moment=0)))


def another_seed(records, liar):
    (seed,) = struct.unpack(">Q", records[liar].beginning[SEED])
    yield lying(records, liar, records[liar].with_field(SEED, struct.pack(">Q", seed + 1000)))


def a_stroke_is_hidden(records, liar):
    drew = records[liar].places(DREW)[0]
    yield lying(records, liar, records[liar].with_frames(drew, drew + 1))


def another_stroke_than_others_heard(records, liar):
    """It changes its first stroke wherever its record has it. Where it heard another repair that stroke, as it was, no run has its record."""
    body = records[liar].frames[records[liar].places(DREW)[0]].payload[3:]
    frames = [it._replace(payload=it.payload.replace(body, body[::-1])) if it.kind in (DREW, TOOK) else it for it in records[liar].frames]
    yield lying(records, liar, records[liar]._replace(frames=frames))


def a_forged_request_is_heard(records, liar):
    """Before it leaves it says that a member asked for its strokes 1, 3, 5 and 7 in one datagram, as nobody did."""
    record = records[liar]
    at = record.places(ASKED_LEAVE)[0]
    request = struct.pack(">2sBB4sBBBHII", b"SR", 2, REQUEST, record.beginning[SESSION], (liar + 1) % len(records), liar, 0, 0, 1, 0b101010)
    yield lying(records, liar, record.with_frames(at, at, Frame(HEARD, record.frames[at].moment, request)))


def a_take_is_left_out(records, liar):
    first = records[liar].places(TOOK)[0]
    yield lying(records, liar, records[liar].with_frames(first, first + 1))


def takes_change_places(records, liar):
    record = records[liar]
    one, other = next((a, b) for a, b in zip(record.places(TOOK), record.places(TOOK)[1:]) if record.frames[a].payload[0] == record.frames[b].payload[0])
    yield lying(records, liar, record.with_frames(one, other + 1, record.frames[other], record.frames[one]))


UNTOLD = r"not honest: .+ isn't the record of any run of its member"
UNGIVEN = r"not honest: the worker of page slot \d of member \d took what it wasn't given"
UNSENT = r"not honest: call \d+ of member \d hears a datagram that nobody can have sent before"

# By their names; of those that may pass one at least does, of whoever lies.
MAY_PASS = {
    "another time of day": another_time_of_day,
    "the last message that a worker took is hidden": last_take_is_hidden,
    "a datagram that was heard is hidden": datagram_is_hidden,
    "the last calls are hidden": last_calls_are_hidden,
    "all tell of another session": all_tell_of_another_session,
}
# By their names, with what is said of each.
REFUSED = {
    "a tick that did nothing": (a_tick_that_did_nothing, UNTOLD),
    "a moment that falls": (a_moment_that_falls, UNTOLD),
    "another seed, by which timers were set": (another_seed, UNTOLD),
    "a stroke that others heard is hidden": (a_stroke_is_hidden, f"{UNTOLD}|{UNGIVEN}|{UNSENT}"),
    "another stroke than others heard": (another_stroke_than_others_heard, f"{UNTOLD}|{UNSENT}"),
    "a request that nobody sent": (a_forged_request_is_heard, UNSENT),
    "a message that a worker took is left out": (a_take_is_left_out, UNGIVEN),
    "messages that a worker took change places": (takes_change_places, UNGIVEN),
}
