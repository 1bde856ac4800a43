"""Wrong bodies: a file of lines `file: FILE`, `old: TEXT` and `new: TEXT`, of which the old text stands once in the file of the crate."""


def edited(edit, folder):
    """The edited texts, by their files below the crate's folder. Raises a ValueError where an old text does not stand once."""
    texts, file, old = {}, None, None
    for line in open(edit, encoding="utf-8").read().split("\n"):
        if line.startswith("file: "):
            file = f"{folder}/{line[6:].strip()}"
            texts.setdefault(file, open(file, encoding="utf-8").read())
        elif line.startswith("old: "):
            old = line[5:]
        elif line.startswith("new:"):
            if texts[file].count(old) != 1:
                raise ValueError(f"{edit}: its old text stands {texts[file].count(old)} times in {file}")
            texts[file] = texts[file].replace(old, line[4:].removeprefix(" "))
    return texts
