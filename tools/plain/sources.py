"""How `tools/plain_rust` makes Rust of a proved source: what only the prover reads goes, and what the package adds comes."""
import re
import textwrap

from edits import ALIASES, CALLED_FROM, CLONED, CONSTANT, EDITS, FALLIBLE, IMPORT, MUST_USE, OPENED, PROGRAM, UNUSED

# comments and blank lines in front of what goes, which are about it
LEAD = r"(?:^[ \t]*(?://[^\n]*)?\n)*"
DOCS = r"(?:^[ \t]*(?://|#\[)[^\n]*\n)*"
CLAUSE = LEAD + r"^[ \t]*(?:requires|ensures\*?|decreases|invariant)\b[^{\n]*\{"
GHOST = LEAD + r"^[ \t]*ghost \w+\s*[=:]\s*\{"
MODEL = r"^impl[^\n{]*\bModel for [^\n{]*\{"
# what no plain Rust has outside of a comment
LEFT = re.compile(r"[^\x00-\x7f]|\b(?:ghost|requires|ensures|decreases|invariant|tactic|Model|Global|rt;)\b|derive\(Drop")
# What a public function of the forest requires of its handle, and of its handle's keys.
LIVE, SEARCHABLE = r"requires (?:live |searchable )?\{ (?:IsLive|IsSearchable) ", r"requires (?:searchable )?\{ IsSearchable "
IS_LIVE, IS_ORDERED = "The call requires that the handle is live", " and that its keys increase under the comparator"
ARE_LIVE, ARE_ORDERED = "The call requires that both handles are live", " and that their keys increase under the comparator"
PANICS = "Else it may panic; builds with guards often do so at once: [what a call requires](crate#what-a-call-requires)."
LIVE_TOO = r"requires other \{ IsSearchable "
GUARD, GUARD_TOO = "forest.trees.expect_live(self.root);", "forest.trees.expect_live(other.root);"
# What a call that changes one tree by the keys of another one tests beside that. It reads both, so the test takes no more than the call.
CHANGED, ORDERED = r"requires other \{ IsSearchable \(C\.order comp\.now\) forest\.old ", "forest.trees.expect_increasing({}.root, comp);"
# The same in a call on the forest.
OF_FOREST, GUARD_OF_FOREST = r"requires \{ IsSearchable \(C\.order comp\.now\) self\.", "self.trees.expect_live(map.root);"
TRACKED = 'cfg_attr(any(debug_assertions, feature = "guards"), track_caller)'


class Stop(Exception):
    """What the tool met and does not know."""


def behind(text, at):
    """The index behind the bracket that closes the one at `at`."""
    pairs, depth = {"{": "}", "(": ")", "<": ">", "[": "]"}, 0
    opened, closed = text[at], pairs[text[at]]
    while at < len(text):
        if text.startswith("//", at):
            at = text.index("\n", at)
        # the arrow of a type of functions closes nothing
        depth += (text[at] == opened) - (text[at] == closed and text[at - 1] != "-")
        at += 1
        if depth == 0:
            return at
    raise Stop("a bracket is not closed")


def without(text, pattern):
    """The text without what begins with the pattern and ends with its bracket, and with a semicolon where it is an item."""
    finder, out = re.compile(pattern, re.M), ""
    while found := finder.search(text):
        end = behind(text, found.end() - 1)
        end += text.startswith(";", end) and "ghost" in found[0]
        end += text.startswith("\n", end)
        out, text = out + text[: found.start()], text[end:]
    return out + text


def functions(text):
    """Of each function: where its docs begin, its name, and the spans of its parameters and its body."""
    for found in re.finditer(DOCS + r"^[ \t]*(?:pub(?:\(\w+\))? )?(?:const )?fn (\w+)", text, re.M):
        at = found.end()
        if text[at] == "<":
            at = behind(text, at)
        end = behind(text, at)
        body = min(it for it in (text.find("{", end), text.find(";", end), len(text)) if it >= 0)
        close = behind(text, body) if text[body : body + 1] == "{" else body
        yield found.start(), found[1], (at, end), (body, close)


def replaced(text, pattern, new, count, what):
    """The text with each match of the pattern replaced; `count` says how many there have to be, where that is known."""
    text, made = re.subn(pattern, new, text, flags=re.M)
    if count is not None and made != count:
        raise Stop(f"{what}: {pattern!r} is there {made} times, and {count} are wanted")
    return text


def without_unused(text, names):
    """The text without the functions of these names, which the forest does not call."""
    for name in names:
        spans = [(start, close) for start, it, _, (_, close) in functions(text) if it == name]
        if len(spans) != 1:
            raise Stop(f"{len(spans)} functions are called {name}, and one is to go")
        text = text[: spans[0][0]] + text[spans[0][1] :].lstrip("\n")
    return text


def marked_unused(text):
    """The text in which a parameter that only contracts name begins with an underscore."""
    for _, _, (at, end), (body, close) in reversed(list(functions(text))):
        if text[body : body + 1] != "{":
            continue
        for found in reversed(list(re.finditer(r"(?<=[(,\s])([a-z]\w*): ", text[at:end]))):
            if not re.search(rf"\b{found[1]}\b", text[body:close]):
                start = at + found.start()
                text = f"{text[:start]}_{text[start:]}"
    return text


def with_panics(text, source, panics):
    """The text in which the docs of public functions say when they panic: `panics` tells of a contract what they say, an attribute, and
    what the body begins with, or returns nothing."""
    for start, name, _, (body, _) in reversed(list(functions(text))):
        contract = re.search(rf"^    pub fn {name}\b.*?^    \{{", source, re.M | re.S)
        told = panics(contract[0]) if contract and "    pub fn" in text[start:body] else None
        if not told:
            continue
        said, attribute, first = told
        docs = "".join(f"    /// {it}".rstrip() + "\n" for it in ["", "# Panics", "", *textwrap.wrap(said, 92, break_on_hyphens=False)])
        put = text.rindex("    pub fn", start, body)
        text = f"{text[:put]}{docs}    #[{attribute}]\n{text[put : body + 1]}{first}{text[body + 1 :]}"
    return text


def guard(contract):
    """Where a handle has to be live: builds with guards test it."""
    if not re.search(LIVE, contract):
        return None
    if re.search(LIVE_TOO, contract):
        tests = [GUARD, GUARD_TOO]
        if re.search(CHANGED, contract):
            tests += [ORDERED.format("self"), ORDERED.format("other")]
        return f"{ARE_LIVE}{ARE_ORDERED}. {PANICS}", TRACKED, "".join(f"\n        {it}" for it in tests)
    asked = IS_LIVE + (IS_ORDERED if re.search(SEARCHABLE, contract) else "")
    test = GUARD_OF_FOREST if re.search(OF_FOREST, contract) else GUARD
    return f"{asked}. {PANICS}", TRACKED, f"\n        {test}"


def with_marks(text):
    """The text of the trees in which each handle gets its root by `rename`, with which builds with guards keep the marks of roots."""
    text = re.sub(r"^( *)\*handle = ((?:PackedNode::some|packed)\(\w+\)|\w+);", r"\1self.rename(handle, \2);", text, flags=re.M)
    # what changes the table comes before
    return re.sub(r"^( *)\*handle = packed\(([^;]*)\);", r"\1let left = \2;\n\1self.rename(handle, packed(left));", text, flags=re.M)


def bounded(contract):
    """Where an index has to be there, or to be made: the panic names it."""
    if "{ I.names (count " in contract:
        return "Where the type of index has no value for `len`, as an own type may; the panic names it.", "track_caller", ""
    indices = re.findall(r"requires \w+ \{ I\.number (\w+) < count ", contract)
    if not indices:
        return None
    return f"Where `{'` or `'.join(indices)}` is not less than `len`; the panic names it.", "track_caller", ""


def with_attributes(text, name):
    """The text with what Rust's users expect of its types and functions: `Clone`, `const`, `must_use`, other names, and fields that
    `rust.rs` reads."""
    for it in CLONED.get(name, []):
        text = replaced(text, rf"^(?=(?:pub(?:\(crate\))? )?(?:struct|enum) {it}\b)", "#[derive(Clone)]\n", 1, name)
    for it in OPENED.get(name, []):
        start = text.index("{", re.search(rf"struct {it}\b", text).start())
        end = behind(text, start)
        text = text[:start] + re.sub(r"^    (?=\w+: )", "    pub(crate) ", text[start:end], flags=re.M) + text[end:]
    for it in CONSTANT.get(name, []):
        text = replaced(text, rf"^( *pub(?:\(crate\))? )(?=fn {it}\()", r"\1const ", 1, name)
    for it in CALLED_FROM.get(name, []):
        text = replaced(text, rf"^(?=( *)(?:pub(?:\(\w+\))? )?fn {it}\b)", rf"\1#[{TRACKED}]\n", 1, name)
    for it in MUST_USE.get(name, []):
        text = replaced(text, rf"^(?=( *)pub (?:const )?fn {it}\b)", r"\1#[must_use]\n", 1, name)
    for it, aliases in ALIASES.get(name, {}).items():
        lines = "".join(f'\\1#[doc(alias = "{alias}")]\n' for alias in aliases)
        text = replaced(text, rf"^(?=( *)pub fn {it}\b)", lines, 1, name)
    lazy = '#[must_use = "iterators are lazy and do nothing unless consumed"]\n'
    return re.sub(r"^(?=pub struct \w*(?:Iter|Range)\b)", lazy, text, flags=re.M)


def plain(text):
    """A source with all that only the prover reads taken out."""
    text = re.sub(r"^[ \t]*ghost use [^;]*;\n?", "", text, flags=re.M)
    for pattern in (GHOST, CLAUSE, MODEL):
        text = without(text, pattern)
    text = re.sub(r"^[ \t]*#!?\[(?:tactic|cycle)\([^\n]*\]\n", "", text, flags=re.M)
    text = re.sub(r"^[ \t]*#\[derive\(Drop\)\]\n", "", text, flags=re.M)
    text = re.sub(r"(#\[derive\([^)]*?)(?:, Drop|Drop, )", r"\1", text)
    text = re.sub(r"^(.*\btrait \w+[^{\n]*): Drop \{", r"\1 {", text, flags=re.M)
    text = re.sub(r"use std::marker::\{Model, (\w+)\};", r"use std::marker::\1;", text)
    text = re.sub(r"^use std::marker::Model;\n", "", text, flags=re.M)
    # what Rust's prelude has
    text = re.sub(r"^use std::default::Default;\n", "", text, flags=re.M)
    text = re.sub(r"^use std::cmp::\{Ord, (\w+)\};", r"use std::cmp::\1;", text, flags=re.M)
    # a label that only an invariant names
    return re.sub(r"'(\w+): (?=for |while |loop )", lambda it: it[0] if text.count(f"'{it[1]}") > 1 else "", text)


def edited(text, name):
    """The text with the edits of its file made."""
    for old, new, count in EDITS.get(name, []):
        text = replaced(text, old, new, count, name)
    return text


def checked(text, name):
    """The text, in which nothing of the prover's may be left."""
    found = LEFT.search(re.sub(r"//[^\n]*|println!\(rt;", "", text))
    if found:
        raise Stop(f"{name}: the prover's {found[0]!r} is left")
    return text


def with_examples(text, examples):
    """The text in which the docs of each type with an example end with it."""
    for found in reversed(list(re.finditer(r"^(?:#\[[^\n]*\n)*pub (?:struct|enum|trait|type) (\w+)", text, re.M))):
        lines = examples.pop(found[1], None)
        if lines:
            docs = ["", "# Example", "", "```", *lines, "```"]
            text = text[: found.start()] + "".join(f"/// {it}".rstrip() + "\n" for it in docs) + text[found.start() :]
    return text


def library_source(source, name, examples):
    """A source of the library as Rust: the text of the file `name`, which begins with its crate."""
    text = marked_unused(without_unused(edited(plain(source), name), UNUSED.get(name, [])))
    if name.startswith("bforest/"):
        text = with_panics(text, source, guard)
    if name.startswith("bforest_trees/"):
        text = with_marks(text)
    if name.startswith("bforest_indexed/"):
        text = with_panics(text, source, bounded)
    # the package has no std
    text = re.sub(r"^((?:pub )?use )std::", r"\1core::", with_attributes(text, name), flags=re.M)
    text = with_examples(text, examples)
    return checked(text, name)


def program_source(source, name):
    """A source of a program above the library, or of a crate below that program, as Rust."""
    text = without_unused(edited(plain(source), name), UNUSED.get(name, []))
    for old, new in PROGRAM:
        text = re.sub(old, new, text, flags=re.M)
    used = [it for it, calls in FALLIBLE.items() if re.search(rf"\b(?:{calls})\b", text)]
    text = text.replace(IMPORT, f"use crate::fallible::{{{', '.join(used)}}};\n" if used else "")
    return checked(text, name)
