"""libsrm, as ctypes calls it: the structs and functions of srm.h."""

import ctypes
import os
import pathlib
import subprocess
from ctypes import POINTER, Structure, c_bool, c_char, c_char_p, c_int, c_size_t, c_uint, c_uint8, c_uint16, c_uint32, c_uint64, c_void_p
from typing import Any

MEMBERS_MAX = 32
SLOTS = 8
BODY_MAX = 1024
STROKES_MAX = 65536
DATAGRAM_MAX = 6398
MOMENT_MAX = 281474976710656
NEVER = 2**64 - 1
ROOM_TEXT_MAX = 65536
NAME_MAX = 160
FAULT_TEXT_MAX = 256
KEY_MIN = 16
KEY_MAX = 1024
SEAL_BYTES = 25
SEALED_MAX = 6423

OK = 0
BUFFER = 20
NOTHING = 23
FAULT = 27


class RawPage(Structure):
    _fields_ = [("creator", c_uint8), ("number", c_uint16)]
    creator: int
    number: int


class RawName(Structure):
    _fields_ = [("page", RawPage), ("source", c_uint8), ("number", c_uint32)]
    page: RawPage
    source: int
    number: int


class RawConfig(Structure):
    _fields_ = [
        ("size", c_uint32),
        ("session", c_uint32),
        ("rate", c_uint32),
        ("depth", c_uint32),
        ("me", c_uint8),
        ("members", c_uint8),
        ("c1", c_uint8),
        ("c2", c_uint8),
        ("d1", c_uint8),
        ("d2", c_uint8),
        ("least_distance", c_uint64),
    ]


class RawHeard(Structure):
    _fields_ = [("timers", c_size_t), ("cause", c_uint8), ("fault", c_uint8)]
    timers: int
    cause: int
    fault: int


class RawTicked(Structure):
    _fields_ = [("requests", c_size_t), ("repairs", c_size_t), ("datagrams", c_size_t), ("state", c_uint8)]
    requests: int
    repairs: int
    datagrams: int
    state: int


class RawOutstanding(Structure):
    _fields_ = [
        ("next_request_at", c_uint64),
        ("next_repair_at", c_uint64),
        ("waiting_shown", c_size_t),
        ("waiting_new", c_size_t),
        ("waiting_other", c_size_t),
        ("missing", c_uint32),
        ("state", c_uint8),
    ]
    next_request_at: int
    next_repair_at: int
    waiting_shown: int
    waiting_new: int
    waiting_other: int
    missing: int
    state: int


class RawMessage(Structure):
    _fields_ = [("stamp", c_uint64), ("length", c_size_t), ("name", RawName), ("kind", c_uint8), ("body", c_uint8 * BODY_MAX)]
    stamp: int
    length: int
    name: RawName
    kind: int
    body: "ctypes.Array[c_uint8]"


class RawRoomFault(Structure):
    _fields_ = [("line", c_size_t), ("length", c_size_t), ("kind", c_uint8), ("text", c_char * FAULT_TEXT_MAX)]
    line: int
    length: int
    kind: int
    text: bytes


def _folder() -> pathlib.Path | None:
    """The folder of the library, if it is known."""
    named = os.environ.get("RINGYEW_LIB")
    if named:
        return pathlib.Path(named)
    try:
        told = subprocess.run(["pkg-config", "--variable=libdir", "srm"], capture_output=True, text=True, check=True)
    except (OSError, subprocess.CalledProcessError):
        return None
    return pathlib.Path(told.stdout.strip())


def _load() -> ctypes.PyDLL:
    """The library. It is called with the interpreter's lock held: a call takes microseconds, and no two of one agent may run at once."""
    folder = _folder()
    if folder is None or not (folder / "libsrm.so.0").exists():
        raise ImportError(
            "ringyew: libsrm isn't found: run `make -C capi install PREFIX=DIR` with DIR/lib/pkgconfig in PKG_CONFIG_PATH, or set RINGYEW_LIB to the folder of libsrm.so.0"
        )
    return ctypes.PyDLL(str(folder / "libsrm.so.0"))


library = _load()

_AGENT = c_void_p
_ROOM = c_void_p
_GUARD = c_void_p
_SIGNATURES: list[tuple[str, Any, list[Any]]] = [
    ("srm_version_string", c_char_p, []),
    ("srm_strerror", c_char_p, [c_int]),
    ("srm_config_init", None, [POINTER(RawConfig), c_size_t]),
    ("srm_agent_new", c_int, [POINTER(_AGENT), POINTER(RawConfig), c_uint64, c_uint64]),
    ("srm_agent_free", None, [_AGENT]),
    ("srm_agent_draw", c_int, [_AGENT, RawPage, c_char_p, c_size_t, c_uint64, POINTER(RawName)]),
    ("srm_agent_admits", c_bool, [_AGENT, c_size_t, c_uint64]),
    ("srm_agent_admits_from", c_uint64, [_AGENT, c_size_t]),
    ("srm_agent_new_page", c_int, [_AGENT, POINTER(RawPage)]),
    ("srm_agent_show", c_int, [_AGENT, RawPage, c_uint64]),
    ("srm_agent_leave", c_int, [_AGENT, c_uint64]),
    ("srm_agent_hear", c_int, [_AGENT, c_char_p, c_size_t, c_uint64, POINTER(RawHeard)]),
    ("srm_agent_tick", c_int, [_AGENT, c_uint64, POINTER(RawTicked)]),
    ("srm_agent_next_datagram", c_int, [_AGENT, c_void_p, c_size_t, POINTER(c_size_t)]),
    ("srm_agent_next_request", c_int, [_AGENT, POINTER(RawName)]),
    ("srm_agent_next_repair", c_int, [_AGENT, POINTER(RawName)]),
    ("srm_agent_next_due", c_uint64, [_AGENT]),
    ("srm_agent_state", c_int, [_AGENT]),
    ("srm_agent_distance", c_int, [_AGENT, c_uint, POINTER(c_uint64)]),
    ("srm_agent_known", c_int, [_AGENT, RawPage, c_uint, POINTER(c_uint32)]),
    ("srm_agent_missing", c_int, [_AGENT, RawPage, c_uint, POINTER(c_uint32)]),
    ("srm_agent_next_missing", c_int, [_AGENT, RawPage, c_uint, c_uint32, POINTER(c_uint32)]),
    ("srm_agent_outstanding", c_int, [_AGENT, POINTER(RawOutstanding)]),
    ("srm_agent_give", c_int, [_AGENT, c_uint, POINTER(RawMessage)]),
    ("srm_room_read", c_int, [POINTER(_ROOM), c_char_p, c_size_t, POINTER(RawRoomFault)]),
    ("srm_room_free", None, [_ROOM]),
    ("srm_room_members", c_uint, [_ROOM]),
    ("srm_room_find", c_int, [_ROOM, c_char_p, POINTER(c_uint)]),
    ("srm_room_name", c_int, [_ROOM, c_uint, c_void_p, c_size_t, POINTER(c_size_t)]),
    ("srm_room_address", c_int, [_ROOM, c_uint, c_void_p, c_size_t, POINTER(c_size_t)]),
    ("srm_room_config", c_int, [_ROOM, c_uint, POINTER(RawConfig)]),
    ("srm_room_linger", c_uint32, [_ROOM]),
    ("srm_room_most_missing", c_uint32, [_ROOM]),
    ("srm_room_guard", c_int, [POINTER(_GUARD), _ROOM, c_uint, c_uint64]),
    ("srm_guard_new", c_int, [POINTER(_GUARD), c_char_p, c_size_t, c_uint, c_uint64]),
    ("srm_guard_free", None, [_GUARD]),
    ("srm_guard_seal", c_int, [_GUARD, c_uint, c_char_p, c_size_t, c_void_p, c_size_t, POINTER(c_size_t)]),
    ("srm_guard_open", c_int, [_GUARD, c_char_p, c_size_t, POINTER(c_size_t)]),
]
for _name, _result, _takes in _SIGNATURES:
    _function = getattr(library, _name)
    _function.restype = _result
    _function.argtypes = _takes


def library_version() -> str:
    """The version of libsrm, as `0.1.0`."""
    told: bytes = library.srm_version_string()
    return told.decode()


def describe(code: int) -> str:
    """What a code stands for."""
    told: bytes = library.srm_strerror(code)
    return told.decode()
