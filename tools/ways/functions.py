"""The functions of the product's crates, as they stand in the sources, and which of them a compiled program's symbol means."""
import collections
import re
from typing import NamedTuple

from listed import TOP, Passed

# Crates that no member is made of: tests, and what only these and benchmarks stand on.
ASIDE = re.compile(r"_tests$|_bench$|^srm_rig|^srm_conformance$")
HEAD = re.compile(r"^(?:pub(?:\([^)]*\))? )?(?:impl|trait)\b[^{;]*\{", re.M)
FUNCTION = re.compile(r"^( *)(?:pub(?:\([^)]*\))? )?(?:const )?(?:extern \"C\" )?fn (\w+)")
CLAUSES = ("ensures", "requires", "ghost")
# A function that takes nothing but its value, and whose body is a field, or asks it one thing.
TAKES_SELF = re.compile(r"\((?:&self|self),?\) *->")
FIELD = r"self(?:\.\w+)*"
READS = re.compile(rf"[&*]?{FIELD}(?:\.\w+\(\))?|\w+::from\({FIELD}\)|matches!\({FIELD}, [^()]*\)")


class Function(NamedTuple):
    """A function of a source file."""

    passed: Passed
    trait: str  # whose function it is, if of one
    reads: bool  # whether it only reads a field, as long as what it asks does too


def without_generics(text):
    """A text without what stands in angle brackets. The arrow of a closure's type isn't one."""
    text, depth, kept = text.replace("->", ""), 0, []
    for letter in text:
        depth += letter == "<"
        if depth == 0:
            kept.append(letter)
        depth -= letter == ">"
    return "".join(kept)


def owner_of(head):
    """The type and the trait of an impl, by its head; of a trait its name stands for both."""
    text = re.sub(r"\bwhere\b.*", "", without_generics(head[:-1]), flags=re.S)
    words = re.sub(r"^(?:pub(?:\([^)]*\))? )?(?:impl|trait)\b", "", text).split()
    if "for" in words:
        at = words.index("for")
        return words[at + 1].split("::")[-1].lstrip("&"), words[at - 1].split("::")[-1]
    return words[0].strip(":").split("::")[-1], ""


def parts_of(lines, at, indent):
    """The head and the body of a function that begins at a line, each in one line; None for one without a body."""
    for begin in range(at, len(lines)):
        line = lines[begin]
        if line == f"{indent}{{" or (line.endswith(" {") and not line.strip().startswith(CLAUSES)):
            end = lines.index(f"{indent}}}", begin)
            return joined(lines[at : begin + 1]), joined(lines[begin + 1 : end])
        if line.endswith(";") and line.startswith(indent) and not line.startswith(f"{indent} "):
            return None
    return None


def joined(lines):
    """Lines as one, without comments."""
    return " ".join(it.strip() for it in lines if not it.strip().startswith("//"))


def functions_of(crate, file, text):
    """The functions of a file."""
    heads = {text.count("\n", 0, it.start()): it for it in HEAD.finditer(text)}
    lines, owner, trait = text.split("\n"), "", ""
    for at, line in enumerate(lines):
        if at in heads:
            owner, trait = owner_of(heads[at][0])
        elif line == "}":
            owner, trait = "", ""
        begun = FUNCTION.match(line)
        if begun and len(begun[1]) == (4 if owner else 0) and (parts := parts_of(lines, at, begun[1])):
            name = f"{owner}::{begun[2]}" if owner else begun[2]
            yield Function(Passed(crate, file, name), trait, bool(TAKES_SELF.search(parts[0]) and READS.fullmatch(parts[1])))


class Functions:
    """The functions of all product crates."""

    def __init__(self):
        # A symbol names the module of a type, and not that of the impl. So a type's functions are found by their crates and names.
        self.free, self.owned = {}, collections.defaultdict(list)
        for folder in sorted((TOP / "crates").glob("srm_*/src")):
            if not ASIDE.search(folder.parent.name):
                for file in sorted(folder.rglob("*.rt")):
                    self.read(folder.parent.name, file.relative_to(folder), file.read_text())

    def read(self, crate, file, text):
        module = [it for it in file.with_suffix("").parts if it not in ("lib", "main")]
        for it in functions_of(crate, str(file), text):
            owner, _, name = it.passed.name.rpartition("::")
            if owner:
                self.owned[crate, name].append((owner, it))
            else:
                self.free["::".join([crate, *module, name])] = it

    def of_symbol(self, symbol):
        """The function that a symbol means; None where it stands in no source of the product: of the kit, derived, a closure."""
        symbol = re.sub(r"(?:::<.*>)?(?:'\d+)?$", "", symbol)
        if symbol in self.free or symbol.count("::") < 2:
            return self.free.get(symbol)
        crate, *modules, name = symbol.split("::")
        # What a trait's function has before its name is its type, its trait, and the types that this takes.
        found = [it for owner, it in self.owned[crate, name] if modules[-1] == owner + it.trait or (it.trait and modules[-1].startswith(owner + it.trait))]
        return found[0] if found else None
