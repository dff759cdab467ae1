"""Compares the constants of srm.h, of its declarations in Rust and Python, and the numbers of codes, causes, faults, states and messages, with those of the
crates. Prints what differs."""

import pathlib
import re
import sys

TOP = pathlib.Path(__file__).resolve().parent.parent.parent
HEADER = (TOP / "capi/srm.h").read_text()
# What each constant of srm.h is called in the crates, and in which file it stands.
CRATES = {
    "MEMBERS_MAX": ("srm_names/src/limits.rt", "MEMBERS"),
    "SLOTS": ("srm_names/src/limits.rt", "PAGES"),
    "BODY_MAX": ("srm_names/src/limits.rt", "LONGEST_BODY"),
    "STROKES_MAX": ("srm_names/src/limits.rt", "DRAWOPS"),
    "MOMENT_MAX": ("srm_names/src/limits.rt", "LATEST_MOMENT"),
    "DISTANCE_MAX": ("srm_names/src/limits.rt", "LONGEST_DISTANCE"),
    "DISTANCE_MIN": ("srm_distance/src/limits.rt", "SHORTEST_DISTANCE"),
    "RATE_MIN": ("srm_bucket/src/limits.rt", "LEAST_RATE"),
    "RATE_MAX": ("srm_bucket/src/limits.rt", "GREATEST_RATE"),
    "DEPTH_MIN": ("srm_bucket/src/limits.rt", "GREATEST_LENGTH"),
    "DEPTH_MAX": ("srm_bucket/src/limits.rt", "GREATEST_DEPTH"),
    "WAIT_MAX": ("srm_timers/src/limits.rt", "GREATEST_TIMER_SETTING"),
    "ROOM_TEXT_MAX": ("srm_join/src/reading.rt", "LONGEST_TEXT"),
    "KEY_MIN": ("srm_join/src/sealing.rt", "SHORTEST_KEY"),
    "KEY_MAX": ("srm_join/src/sealing.rt", "LONGEST_KEY"),
    "SEAL_BYTES": ("srm_guard/src/seal.rt", "TRAILER_BYTES"),
}


def numbers(text, pattern):
    """The numbers by name that a pattern finds."""
    return {name: int(number.replace("_", ""), 0) for name, number in re.findall(pattern, text, re.M)}


def constants(file):
    """The constants of a source file of a crate."""
    return numbers((TOP / "crates" / file).read_text(), r"^(?:pub )?const (\w+): \w+ = ([\d_]+);")


def longest_datagram():
    """The bytes of a session message with as many rows and echoes as the format has room for."""
    size = constants("srm_codec/src/format.rt")
    return size["HEAD_BYTES"] + size["SESSION_MESSAGE_BYTES"] + 255 * (size["NAME_BYTES"] + size["ECHO_BYTES"])


def snake(name):
    """A variant's name as srm.h spells it."""
    return re.sub(r"(?<!^)(?=[A-Z])", "_", name).upper()


def variants(file, name):
    """The variants of an enum that has numbers, from 1 where the first alone has one."""
    body = re.search(rf"pub enum {name} \{{(.*?)^\}}", (TOP / "crates" / file).read_text(), re.M | re.S)[1]
    words = re.findall(r"^    (\w+)(?:\(\w+\))?(?: = (\d+))?,$", body, re.M)
    return {snake(word): int(number or place) for place, (word, number) in enumerate(words, 1)}


def numbered_in(file, pattern):
    """The numbers and names that a pattern finds in a file."""
    return re.findall(pattern, (TOP / file).read_text(), re.M)


def numbered():
    """Where the bindings read numbers of srm.h: the file, what its names are called there, the names with their numbers, and how many there are at least."""
    error, heard, message, room = (f"bindings/rust/ringyew/src/{name}.rs" for name in ("error", "heard", "message", "room"))
    errors, values, agent = (f"bindings/python/ringyew/src/ringyew/{name}.py" for name in ("_errors", "_values", "_agent"))
    yield error, "ERROR_", numbered_in(error, r"^            (\d+) => Error::(\w+),"), 16
    yield error, "ERROR_", [(number, word) for word, number in numbered_in(error, r"^            Error::(\w+) => (\d+),")], 16
    yield heard, "CAUSE_", numbered_in(heard, r"^            (\d+) => Some\(Cause::(\w+)"), 7
    yield heard, "", numbered_in(heard, r"^            (\d+) => State::(\w+),"), 2
    yield room, "FAULT_", numbered_in(room, r"^            (\d+) => RoomFaultKind::(\w+),"), 12
    yield message, "MESSAGE_", numbered_in(message, r"^            (\d+) => Message::(\w+)"), 3
    yield errors, "ERROR_", numbered_in(errors, r"^    (\d+): (\w+?)(?:Refused)?Error,"), 17
    yield agent, "ERROR_", [(number, word) for word, number in numbered_in(agent, r"^ +raise (\w+)Error\((\d+)\)$")], 5
    yield agent, "MESSAGE_", numbered_in(agent, r"^    if raw\.kind == (\d+):\n        return (\w+)\("), 3
    for name, prefix, least in (("Cause", "CAUSE_", 7), ("State", "", 3), ("RoomFault", "FAULT_", 12)):
        body = re.search(rf"^class {name}\(IntEnum\):(.*?)(?=^class|\Z)", (TOP / values).read_text(), re.M | re.S)[1]
        yield values, prefix, [(number, word) for word, number in re.findall(r"^    (\w+) = (\d+)$", body, re.M)], least


def specified(file, pattern):
    """Finds the variants that match a pattern, with the numbers that srm_ffi returns to C for them."""
    return {snake(name): number for name, number in numbers((TOP / "crates/srm_ffi/specs" / file).read_text(), pattern).items()}


def of_definitions(coded):
    """What is to be the same in the definitions of srm_ffi and in the crates: a title and the two numbers."""
    for function, file, name in (
        ("fault_number faults", "srm_entries/src/fault.rt", "AgentFault"),
        ("state_number states", "srm_entries/src/state.rt", "AgentState"),
        ("decode_number decode", "srm_codec/src/fault.rt", "DecodeFault"),
    ):
        told = specified("Codes.antt", rf"^{function}\.(\w+) = (\d+)$")
        for variant, number in variants(file, name).items():
            yield f"{function}.{variant}", told.get(variant), number
    told = specified("Codes.antt", r"^kind_number \(?kinds\.(\w+).* = (\d+)$")
    for variant in re.findall(r"^    (\w+)(?:\(.*\))?,$", re.search(r"^pub enum Fault \{(.*?)^\}", (TOP / "crates/srm_room/src/fault.rt").read_text(), re.M | re.S)[1], re.M):
        yield f"kind_number of {variant}", told.get(snake(variant)), coded[f"FAULT_{snake(variant)}"]
    told = specified("Shapes.antt", r"^raw_message \(?(\w+).* kind = (\d+) \}$")
    for variant in variants("srm_names/src/page_msg.rt", "PageMsg"):
        yield f"raw_message of {variant}", told.get(variant), coded[f"MESSAGE_{variant}"]


def of_crates(defined, coded):
    """What is to be the same in srm.h and in the crates: a title and the two numbers."""
    for name in set(defined) - {"CONFIG_SIZE_MIN", "VERSION_MAJOR", "VERSION_MINOR", "VERSION_PATCH", "DATAGRAM_MAX", "SEALED_MAX", "NAME_MAX", "FAULT_TEXT_MAX"}:
        file, theirs = CRATES.get(name, (None, "nothing"))
        yield f"SRM_{name} and {theirs}", defined[name], file and constants(file)[theirs]
    yield "SRM_DATAGRAM_MAX and the format's longest", defined["DATAGRAM_MAX"], longest_datagram()
    yield "SRM_SEALED_MAX and what is sealed", defined["SEALED_MAX"], defined["DATAGRAM_MAX"] + constants("srm_guard/src/seal.rt")["TRAILER_BYTES"]
    yield "SRM_NAME_MAX and characters of 4 bytes", defined["NAME_MAX"], 4 * constants("srm_room/src/naming.rt")["LONGEST_NAME"]
    yield "SRM_NEVER and or_never", 2**64 - 1, numbers((TOP / "crates/srm_ffi/specs/Codes.antt").read_text(), r"^or_never (None) = (\d+)$")["None"]
    for file, name, prefix in (
        ("srm_entries/src/fault.rt", "AgentFault", "ERROR_"),
        ("srm_entries/src/cause.rt", "Cause", "CAUSE_"),
        ("srm_entries/src/state.rt", "AgentState", ""),
        ("srm_names/src/page_msg.rt", "PageMsg", "MESSAGE_"),
    ):
        for variant, number in variants(file, name).items():
            yield f"SRM_{prefix}{variant}", coded[prefix + variant], number
    for name, number in constants("srm_ffi/src/codes.rt").items():
        theirs = {"DONE": "OK", "NOTHING": "NOTHING"}.get(name, f"ERROR_{name}")
        yield f"SRM_{theirs} and {name} of srm_ffi", coded[theirs], number


def of_bindings(defined, coded):
    """What is to be the same in srm.h and in the bindings."""
    for file, pattern in (
        ("bindings/rust/ringyew/src/sys.rs", r"^pub const (\w+): \w+ = ([\d_]+);"),
        ("bindings/python/ringyew/src/ringyew/_library.py", r"^(\w+) = (\d+)$"),
    ):
        for name, number in numbers((TOP / file).read_text(), pattern).items():
            yield f"{name} of {file}", number, defined.get(name, coded.get(name, coded.get(f"ERROR_{name}")))
    for file, prefix, found, least in numbered():
        yield f"numbers that are found in {file}", max(len(found), least), len(found)
        for number, name in found:
            yield f"{name} of {file}", int(number), coded[prefix + (name if name.isupper() else snake(name))]


def main():
    defined = numbers(HEADER, r"^#define SRM_(\w+) (?:UINT64_C\()?(\d+)\)?(?=\s|$)")
    coded = numbers(HEADER, r"^    SRM_(\w+) = (\d+),?")
    wrong = [f"{name}: {one} and {other}" for name, one, other in (*of_crates(defined, coded), *of_definitions(coded), *of_bindings(defined, coded)) if one != other]
    print("\n".join(wrong), end="\n" if wrong else "")
    return len(wrong) > 0


sys.exit(main())
