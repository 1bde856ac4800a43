"""How `tools/plain_rust` makes the package's pages of the repository's documents.

A page of the package is for a user of cargo. What is for readers of the repository alone goes:

- what stands behind the line `<!-- inside -->`;
- what stands between the lines `<!-- rattle -->` and `<!-- /rattle -->`;
- each sentence, and each clause behind a semicolon, that still has a word of the checker (`WORDS`). Each cell of a table has to keep a
  clause, but for a row that says `in Rattle alone`, which goes.

What stands between the lines `<!-- cargo` and `-->` comes. `REWRITTEN` says some sentences in other words; a sentence that is no longer in
a document does no harm there.
"""
import base64
import posixpath
import re
import textwrap

from sources import Stop

# Where a document of the package ends: what stands behind is for readers of the sources.
INSIDE = "\n<!-- inside -->\n"
RATTLE = re.compile(r"^<!-- rattle -->\n.*?^<!-- /rattle -->\n", re.M | re.S)
CARGO = re.compile(r"^<!-- cargo\n(.*?)^-->\n", re.M | re.S)
LINK = re.compile(r"\]\(([^()\s#]*)(#[^()\s]*)?\)")
WIDTH = 140

# The documents that are modules of the package's docs: the file in docs/, and the module.
DOCUMENTS = {"CHOOSING": "choosing", "TUTORIAL": "tutorial", "CALLS": "calls", "DIFFERENCES": "differences"}

# A link to a call that stands in the docs of both `MapForest` and `SetForest`.
OF_FORESTS = re.compile(r"\[`((?:Map|Set)Forest)::(new|with_node_limit|holds)`\](?![(\[])")

# What the checker reads or does, the allocator that is handed over, and the tool that makes the package. `what is proved` is the name of a
# section of the package's README.
WORDS = re.compile(
    r"\b(?:Rattle|checker|prover|proofs?|contracts?|theorems?|ghost|antt|specs)\b|(?<!what[\s-]is[\s-])\bproved?\b|`requires`"
    r"|\brt\.alloc\b|\ballocator argument|\btakes? (?:no|an|the) allocator\b|`[^`]*\balloc[,)][^`]*`|tools/plain_rust",
    re.I,
)
ALONE = re.compile(r"\bin Rattle (?:alone|only)\b", re.I)
PROVED = "[what is proved](../README.md#what-is-proved)"
# What stands in front of what is so in the package alone.
HERE = re.compile(r"^(\s*)in (?:plain Rust|the package(?: for cargo)?),? ", re.I)


def the(found):
    """The word before what was found: it begins a sentence or does not."""
    return "The" if re.search(r"(?:[.!?]|^- ?|\A)\s*\Z", found.string[: found.start()], re.M) else "the"


# A pattern, in which a space is any white space, and what takes its place.
REWRITTEN = [
    # names of pages
    (r"\[`?(?:docs/)?([A-Z]{3,})\.md`?(?=[\],])", lambda it: f"[`{it[1].lower()}`"),
    (r"`?(?:docs/)?([A-Z]{3,})\.md`? of the repository", lambda it: f"{the(it)} repository's page on {it[1].lower()}"),
    (r"[Tt]he repository's `?(?:docs/)?([A-Z]{3,})\.md`?", lambda it: f"{the(it)} repository's page on {it[1].lower()}"),
    # two signatures in one cell of a table
    (r"(?<=\|)( )`[^`|\n]*`; in the package (`[^`|\n]*`)", r"\1\2"),
    (r"(?<=\|)( )`[^`|\n]*` in Rattle[,;] (`[^`|\n]*`) in the package", r"\1\2"),
    (r"`([^`|\n]*?)\balloc(?:, )?([^`|\n]*)`; in the package without `alloc`", r"`\1\2`"),
    (r"; in the package also ", "; also "),
    (r": in the package ", ": "),
    # what is told of the package
    (r"\b(is|are) not proved\b", rf"\1 not among {PROVED}"),
    (r"In Rattle the checker refuses [^.;]*; [^.;]*nobody checks it\.", "Nobody checks that a call has what it requires."),
    (r"In plain Rust nobody checks\b", "Nobody checks"),
    (
        r"An index that is not there [^.;]*checker[^.;]*; in plain Rust the call panics and names it\.",
        "Where the index is not there, the call panics and names it.",
    ),
    (r"\*\*You want (?:the )?proofs\*\*:[^.]*\.", f"**You want more than tests**: {PROVED}."),
]


def definitions(text):
    """The references that the end of a text defines: each key with the file that it names there."""
    return dict(re.findall(r"^\[([^\]]+)\]: (\S+)$", text, re.M))


def module_of(target):
    """What cargo's docs have for a file of the package, or for a part of one."""
    file, _, part = target.partition("#")
    name = file.rsplit("/", 1)[-1].removesuffix(".md")
    if name != "README" and name not in DOCUMENTS:
        raise Stop(f"the package has no page {target}")
    return ("crate" if name == "README" else f"crate::{DOCUMENTS[name]}") + (f"#{part}" if part else "")


def own_page(text):
    """The text in which a link to a call that maps' and sets' forests have each of their own leads to the page of the one that is named:
    both are one type, whose page has the calls of both."""
    return OF_FORESTS.sub(r"[`\1::\2`](crate::\1#method.\2)", text)


def in_docs(defined):
    """The lines that define the references for cargo's docs: an item by its path, a page by its module."""
    items = {key: OF_FORESTS.sub(r"\1#method.\2", f"[{key}]") for key in defined if key.startswith("`")}
    return [f"[{key}]: {'crate::' + items[key].strip('[`]') if key in items else module_of(target)}" for key, target in defined.items()]


def linked(text, files):
    """A document with each link by a reference, which its end defines for a reader of the file, and the pictures that it shows, each with
    its content, which `files` reads."""
    defined, pictures = {}, {}

    def by_reference(found):
        target = found[1] + (found[2] or "")
        if "://" in target or not found[1]:
            return found[0]
        if target.endswith(".svg"):
            pictures[target] = files(target)
        defined[target] = target
        return f"][{target}]"

    text = LINK.sub(by_reference, text)
    ends = "".join(f"\n[{key}]: {target}" for key, target in defined.items())
    return text + (ends + "\n" if ends else ""), pictures


def module(name, files):
    """A document of the package and what belongs to it, by their names, and the module that shows it."""
    shown = DOCUMENTS[name]
    text, pictures = linked(for_cargo(files(f"{name}.md")), files)
    made = {f"docs/{name}.md": text, **{f"docs/{it}": picture for it, picture in pictures.items()}}
    pages = {key: it for key, it in definitions(text).items() if it not in pictures}
    attributes = [f'doc = "{it}"' for it in in_docs(pages)]
    if pictures:
        # cargo's docs copy no file, so there a picture is a part of the page
        inline = [(it, base64.b64encode(picture.encode()).decode()) for it, picture in pictures.items()]
        made[f"docs/pictures/{shown}.md"] = "".join(f"[{it}]: data:image/svg+xml;base64,{data}\n" for it, data in inline)
        attributes.insert(0, f'doc = include_str!("../docs/pictures/{shown}.md")')
    lines = "".join(f"#[{it}]\n" for it in [*attributes, f'doc = include_str!("../docs/{name}.md")'])
    return made, f"\n#[cfg(any(doc, doctest))]\n{lines}pub mod {shown} {{}}\n"


def anchors(text):
    """What can be linked to in a document: its headings."""
    headings = re.findall(r"^#+ (.*)$", re.sub(r"^```.*?^```$", "", text, flags=re.M | re.S), re.M)
    return {re.sub(r"[^\w -]", "", it.lower()).replace(" ", "-") for it in headings}


def check_links(files):
    """Whether each link from a page to a page leads to one that is there, and to a heading in it."""
    for name, text in files.items():
        for target in definitions(text).values() if name.endswith(".md") and "pictures/" not in name else ():
            file, _, part = target.partition("#")
            to = posixpath.normpath(posixpath.join(posixpath.dirname(name), file))
            if to not in files or part and part not in anchors(files[to]):
                raise Stop(f"{name}: there is no {target}")


def for_cargo(text):
    """A document as the package has it, with its links as they are."""
    text = text.split(INSIDE)[0].rstrip() + "\n"
    text = CARGO.sub(r"\1", RATTLE.sub("", text))
    blocks = re.split(r"(^```.*?^```$)", text, flags=re.M | re.S)
    blocks[::2] = (without_words(rewritten(it)) for it in blocks[::2])
    return re.sub(r"\n{3,}", "\n\n", "".join(blocks)).rstrip() + "\n"


def rewritten(text):
    """The text, in which no code stands, with what `REWRITTEN` says in other words."""
    for old, new in REWRITTEN:
        text = re.sub(old.replace(" ", r"\s+"), new, text)
    return text


def without_words(text):
    """The text, in which no code stands, without what has a word of the checker."""
    parts, kept = re.split(r"(\n(?:\n+|(?=(?:[-|*]|\d+\.) )))", text), ""
    for between, part in zip(["", *parts[1::2]], parts[::2]):
        if part.startswith("|"):
            made = row_without_words(part)
        elif part.startswith("#") or not WORDS.search(part):
            made = part
        else:
            made = paragraph_without_words(part)
        if made or not part:
            kept += between + made
    return kept


def row_without_words(row):
    """The row of a table without the clauses that have a word of the checker, or nothing where it says that it is of Rattle alone."""
    if ALONE.search(row):
        return ""
    cells = [clauses_without_words(it) if WORDS.search(it) else it for it in row.split("|")]
    if None in cells:
        raise Stop(f"a cell of a table is of Rattle alone, and its row does not say so (`in Rattle alone`): {row}")
    return "|".join(cells)


def paragraph_without_words(part):
    """A paragraph or an item of a list without the sentences that have a word of the checker; its lines are filled anew."""
    start = re.match(r"(?:(?:[-*]|\d+\.) )?", part)[0]
    sentences = re.split(r"(?<=[.!?])\s+(?=[A-Z`\[*(])", part[len(start) :].strip("\n"))
    kept = [clauses_without_words(it) if WORDS.search(it) else it for it in sentences]
    text = " ".join(" ".join(it[:1].upper() + it[1:] for it in kept if it).split())
    filler = textwrap.TextWrapper(WIDTH, start, " " * len(start), break_on_hyphens=False, break_long_words=False)
    return part[: len(part) - len(part.lstrip("\n"))] + filler.fill(text) if text else ""


def clauses_without_words(text):
    """A sentence or a cell without the parts that have a word of the checker, or None where no part is left."""
    found = re.fullmatch(r"(\s*)(.*?)([.:!?]?\s*)", text, re.S)
    # what can be left out of a clause: a relative clause, and what stands in brackets
    shorter = re.sub(r", which [^,;:()]*[^\s,;:()]|\s\([^()]*\)", lambda it: "" if WORDS.search(it[0]) else it[0], found[2])
    kept = [HERE.sub(r"\1", it) for it in re.split(r";\s+", shorter) if not WORDS.search(it)]
    return found[1] + "; ".join(kept) + found[3] if kept else None
