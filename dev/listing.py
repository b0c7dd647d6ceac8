"""Reads crates.txt: the crates in their order, with what each uses, by rooms.

A comment '# -------- NAME' begins a room. Other comments are only words.
"""
import os
import re

HEADING = re.compile(r"#\s*-{3,}\s*(\S.*)")
TOP = os.path.dirname(os.path.dirname(os.path.abspath(__file__)))


class Room:
    def __init__(self, name):
        self.name = name
        self.crates = []


class Crate:
    def __init__(self, name, uses):
        self.name = name
        self.uses = uses


def read_crate(line):
    """The crate of a line 'NAME: DEPENDENCY ..', in which words such as 'status=3' may stand behind the name."""
    head, _, uses = line.partition(":")
    return Crate(head.split()[0], re.split(r"[\s,]+", uses.strip()) if uses.strip() else [])


def read_rooms(text):
    """The rooms that have crates, lowest first, of the text of a crates.txt."""
    rooms = [Room("")]
    for line in text.splitlines():
        heading = HEADING.fullmatch(line.strip())
        said = line.partition("#")[0].strip()
        if heading:
            rooms.append(Room(heading[1]))
        elif said:
            rooms[-1].crates.append(read_crate(said))
    return [room for room in rooms if room.crates]


def crates_of(rooms):
    return [crate for room in rooms for crate in room.crates]


def text_of(path):
    """The text of a file by its path from the top of the repository, or none where it is not there."""
    whole = os.path.join(TOP, path)
    if not os.path.isfile(whole):
        return None
    with open(whole, encoding="utf-8") as file:
        return file.read()


def with_drawn(path, maker, drawn):
    """The text of a document with other lines between the marker of what makes them and `<!-- up to here -->`."""
    begin, end = f"<!-- {maker} writes this -->\n", "<!-- up to here -->\n"
    text = text_of(path) or ""
    if text.count(begin) != 1 or end not in text.partition(begin)[2]:
        raise SystemExit(f"{path}: has no lines {begin.strip()} and {end.strip()}")
    head, _, rest = text.partition(begin)
    return head + begin + drawn + end + rest.partition(end)[2]


def write_text(path, text):
    with open(os.path.join(TOP, path), "w", encoding="utf-8") as file:
        file.write(text)


def files_below(folder, ending):
    """The paths of the files in a folder and below it whose names end so."""
    found = []
    for place, _, names in os.walk(folder):
        found += [os.path.join(place, it) for it in names if it.endswith(ending)]
    return sorted(found)


def listed_rooms():
    return read_rooms(text_of("crates.txt") or "")
