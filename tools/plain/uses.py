"""Which calls of the library a source makes, told by its text.

A variable has the type that its declaration names or that what it is set to returns. Where neither tells, `map`, `set`, `maps` and `sets` are
what they are called. A type that the source declares itself is not the library's.
"""
import re

from sources import behind

BY_NAME = {"map": "Map", "set": "Set", "maps": "Maps", "sets": "Sets"}
# Calls of the standard library that hand their subject on.
PASSING = ("unwrap", "expect", "clone", "as_ref", "as_mut", "by_ref", "unwrap_or_default")
ITERATORS = re.compile(r"(?:Map|Set)(?:IntoIter|IterBack|Iter|Range|Union|Intersection|(?:Symmetric)?Difference)")
ROOT = re.compile(r"(?<![\w.])(?:(?P<type>[A-Z]\w*)(?:::<[^()]*?>)?::(?P<made>\w+)|(?P<name>[a-z_]\w*))")
STEP = re.compile(r"\s*(?:(?P<index>\[)|(?P<pass>\?)|\.(?P<part>\w+)(?:::<[^()]*?>)?(?P<call>\()?)")
DECLARED = re.compile(r"\b([a-z_]\w*)\s*:\s*&?\s*(?:'\w+\s+)?(?:mut\s+)?(Vec<)?(\w+)")
LET = re.compile(r"\blet\s+(?:Ok\()?(?:mut\s+)?(\w+|\([^=()]*\)|\[[^=\]]*\])\)?\s*(?::[^=;]*)?=\s*")
HEAD = re.compile(r"^ *(?:pub(?:\(crate\))? )?(?:fn|const|struct)\b", re.M)


def bare(text):
    """A text without its comments and without what stands in quotes."""
    text = re.sub(r"//[^\n]*|'(?:\\.|[^'\\])'", " ", text)
    return re.sub(r'"(?:\\.|[^"\\])*"', '""', text, flags=re.S)


class Source:
    """The calls that a source makes, each as a type and a name. `returns` gives the type that a call returns, or nothing of interest."""

    def __init__(self, text, returns):
        self.text, self.returns, self.made = bare(text), dict(returns), set()
        own = set(re.findall(r"\b(?:struct|enum|trait) (\w+)", self.text))
        self.types = {it for it, _ in returns} - own
        self.aliases = {a: it for a, it in re.findall(r"\btype (\w+)(?:<[^=]*>)? = (\w+)", self.text) if it in self.types}
        self.free = {name: self.type_in(it) for name, it in re.findall(r"\bfn (\w+)[^;{]*?->([^{;]*)", self.text)}
        self.fields, self.known = {}, {}
        starts = [0, *(it.start() for it in HEAD.finditer(self.text)), len(self.text)]
        for start, end in zip(starts, starts[1:]):
            self.read_item(start, end)

    def type_in(self, text):
        """The first type of the library that a type names."""
        found = [self.aliases.get(it, it) for it in re.findall(r"\w+", text)]
        return next((it for it in found if it in self.types), None)

    def read_item(self, start, end):
        """Reads a function, a constant or a struct, whose variables no other one has."""
        self.known = {name: it for name, it in BY_NAME.items() if it in self.types} | self.fields
        places = [(it.start(), self.declare, it) for it in DECLARED.finditer(self.text, start, end)]
        places += [(it.end(), self.bind, it) for it in LET.finditer(self.text, start, end)]
        places += [(it.start(), self.use, it) for it in ROOT.finditer(self.text, start, end)]
        for _, read, found in sorted(places, key=lambda it: it[0]):
            read(found)
        if re.match(r" *(?:pub )?struct", self.text[start:end]):
            self.fields |= {name: it for name, it in self.known.items() if it}

    def declare(self, found):
        kind = self.type_in(found[3])
        if kind:
            self.known[found[1]] = f"[{kind}]" if found[2] else kind

    def bind(self, found):
        """Gives variables the types of what they are set to."""
        names, at = found[1], found.end()
        if names[0] == "[":
            made = (self.free.get(it) for it in re.findall(r"\w+", self.text[at : self.text.index(";", at)]))
            self.known |= dict.fromkeys(re.findall(r"\w+", names.replace("mut ", "")), next(filter(None, made), None))
        elif names[0] != "(":
            self.known[names] = self.type_at(at)
        elif self.text[at] == "(":
            for name, part in zip(names.strip("()").split(","), self.parts(at)):
                self.known[name.replace("mut ", "").strip()] = self.type_at(part)

    def parts(self, at):
        """Where each part of a list in brackets starts."""
        end, part = behind(self.text, at), at + 1
        while part < end:
            yield part
            while part < end and self.text[part] != ",":
                part = behind(self.text, part) if self.text[part] in "([{" else part + 1
            part += 1

    def type_at(self, at):
        """The type of what stands at a place."""
        start = re.compile(r"(?:\s|&|\*|mut\b|const\b|\{)*").match(self.text, at).end()
        if self.text[start : start + 1] == "[":
            kind = self.type_at(start + 1)
            return f"[{kind}]" if kind else None
        found = ROOT.match(self.text, start)
        return self.follow(found) if found else None

    def use(self, found):
        kind = self.follow(found)
        if kind and ITERATORS.fullmatch(kind) and re.search(r"\bin\s+&?$", self.text[: found.start()][-12:]):
            self.made.add((kind, "next"))

    def follow(self, found):
        """Goes from a root along its calls, notes those of the library, and returns the type of the whole."""
        at = found.end()
        is_call = self.text[at : at + 1] == "("
        if found["type"]:
            kind = self.note(self.aliases.get(found["type"], found["type"]), found["made"])
        else:
            kind = self.free.get(found["name"]) if is_call else self.known.get(found["name"])
        if is_call:
            at = behind(self.text, at)
        while step := STEP.match(self.text, at):
            at = behind(self.text, step.end() - 1) if step["index"] or step["call"] else step.end()
            if step["index"]:
                kind = kind[1:-1] if kind and kind[0] == "[" else None
            elif step["call"]:
                kind = self.note(kind, step["part"])
            elif step["part"]:
                kind = self.fields.get(step["part"]) or self.known.get(step["part"])
        return kind

    def note(self, kind, name):
        """Notes a call on a type, and returns the type of its answer."""
        if (kind, name) in self.returns and kind in self.types:
            self.made.add((kind, name))
            return self.returns[kind, name]
        if name in PASSING:
            return kind
        if kind and kind[0] == "[" and name == "swap_remove":
            return kind[1:-1]
        if kind and ITERATORS.fullmatch(kind):
            # Each method of an iterator is made of its steps.
            self.made.add((kind, "next_back" if name == "rev" and "Range" in kind else "next"))
            return kind if name == "rev" else None
        return None
