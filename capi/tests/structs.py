"""Compares the structs of srm.h with those of its declarations in Rust and Python, and with what crates/srm_ffi lays out: the same fields of the same types, in the
same order, which C's rules then lay out alike. Prints what differs."""

import pathlib
import re
import sys

TOP = pathlib.Path(__file__).resolve().parent.parent.parent
STRUCTS = ("page", "name", "config", "heard", "ticked", "outstanding", "message", "room_fault")
# What each language calls a type of C.
TYPES = {"u8": "uint8_t", "u16": "uint16_t", "u32": "uint32_t", "u64": "uint64_t", "usize": "size_t", "size_t": "size_t", "char": "char"}


def of_c(name):
    """The fields of a struct in srm.h, as pairs of name and type."""
    body = re.search(rf"^typedef struct srm_{name} \{{$(.*?)^\}} srm_{name};$", (TOP / "capi/srm.h").read_text(), re.M | re.S)[1]
    body = re.sub(r"/\*.*?\*/", "", body, flags=re.S)
    return [(field, kind + size) for kind, field, size in re.findall(r"(\w+) (\w+)((?:\[\w+\])?);", body)]


def in_c(kind):
    """A type of Rust, Rattle or ctypes as C spells it."""
    array = re.fullmatch(r"\[(\w+); (\w+)\]|(\w+) \* (\w+)", kind)
    if array:
        of, size = (it for it in array.groups() if it)
        return f"{in_c(of)}[SRM_{size}]"
    plain = kind.removeprefix("c_").replace("uint", "u")
    return TYPES.get(plain) or f"srm_{plain.removeprefix('Raw').lower()}"


def of_rust(file, name):
    """The fields of a struct in Rust or Rattle that has C's layout."""
    body = re.search(rf"^#\[repr\(C\)\]\n(?:#\[.*\]\n)*pub struct {name} \{{$(.*?)^\}}$", (TOP / file).read_text(), re.M | re.S)[1]
    return [(field, in_c(kind)) for field, kind in re.findall(r"^    pub (\w+): (.+),$", body, re.M)]


def of_python(name):
    """The fields of a struct of ctypes."""
    text = (TOP / "bindings/python/ringyew/src/ringyew/_library.py").read_text()
    body = re.search(rf"^class {name}\(Structure\):\n    _fields_ = \[(.*?)\]$", text, re.M | re.S)[1]
    return [(field, in_c(kind)) for field, kind in re.findall(r"\(\"(\w+)\", ([^)]+)\)", body)]


def main():
    wrong = []
    for name in STRUCTS:
        wanted, raw = of_c(name), "".join(word.capitalize() for word in name.split("_"))
        # A message's body and a fault's text are written into buffers of their own.
        crossing = [field for field in wanted if field[0] not in ("body", "text")]
        for where, fields, found in (
            ("sys.rs", wanted, of_rust("bindings/rust/ringyew/src/sys.rs", raw)),
            ("_library.py", wanted, of_python(f"Raw{raw}")),
            ("shapes.rt", crossing, of_rust("crates/srm_ffi/src/shapes.rt", f"Raw{raw}")),
        ):
            if len(fields) < 2 or found != fields:
                wrong.append(f"srm_{name}: {fields}, and in {where} {found}")
    print("\n".join(wrong), end="\n" if wrong else "")
    return len(wrong) > 0


sys.exit(main())
