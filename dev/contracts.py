"""Reads a file of code (`.rt`): its functions with their clauses and doc comments, what its types say of themselves, and its imports.

A clause is kept as the tokens of its term. `ghost use` lines give what its names mean."""
import os
import re

import antt
from listing import TOP, files_below

PIECE = re.compile(
    r"""(?P<doc>///[^\n]*) | (?P<inner>//![^\n]*) | (?P<comment>//[^\n]*) | (?P<string>b?"(?:\\.|[^"\\])*") | (?P<char>b?'(?:\\.|[^'\\\n])')
    | (?P<ghost_use>(?:pub\s+)?ghost\s+use\s+[^;]*;) | (?P<clause>\b(?:ensures|requires|decreases)\b\s*\w*\s*\{)
    | (?P<ghost>(?:pub\s+)?\bghost\s+\w+(?:\([^)]*\))?\s*[:=]\s*\{)
    | (?P<use>\b(?:pub(?:\([a-z]+\))?\s+)?use\s+[^;]*;) | (?P<attribute>\#!?\[)
    | (?P<word>[A-Za-z_]\w*) | (?P<brace>[{}]) | (?P<sign>[^\s])""",
    re.X | re.S,
)
TYPES = {"struct", "enum", "trait", "union"}


class Clause:
    """A clause of a function (`ensures`, `requires`), or what a type says of itself (`ghost view = ..`)."""

    def __init__(self, kind, name, text, line):
        self.kind = kind
        self.name = name
        self.text = text
        self.line = line


class Function:
    def __init__(self, name, owner, is_public, line):
        self.name = name
        self.owner = owner
        self.is_public = is_public
        self.line = line
        self.doc = []
        self.clauses = []
        self.scope = []
        self.parameters = {"result", "self"}
        self.has_body = False
        # it gives something back, or may change what it is given
        self.does_something = False

    def full_name(self):
        return f"{self.owner}::{self.name}" if self.owner else self.name

    def is_law(self):
        """A function that gives nothing back and changes nothing: it is there for its contract alone."""
        return self.has_body and not self.does_something and any(it.kind == "ensures" for it in self.clauses)


class Type:
    """A struct, an enum or a trait: its own lines, its variants, constants and fields."""

    def __init__(self, name, kind, is_public, line):
        self.name = name
        self.kind = kind
        self.is_public = is_public
        self.line = line
        self.doc = []
        self.lines = 0
        self.members = set()


class Code:
    """A file of code."""

    def __init__(self, path):
        self.path = path
        self.doc = []
        self.functions = []
        self.types = {}
        self.said = []
        self.constants = set()
        self.exports = []
        self.modules = {}
        self.imports = []


class Block:
    def __init__(self, kind, name, is_public):
        self.kind = kind
        self.name = name
        self.is_public = is_public
        # a trait, or what a type has of one
        self.is_trait = kind == "trait"
        self.imports = []


def is_said_public(head):
    """Whether the words before a name say `pub`, and not `pub(crate)`."""
    return "pub" in head and not {"crate", "super"} & set(head)


def read_code(path):
    with open(path, encoding="utf-8") as file:
        return Reader(path, file.read()).read()


class Reader:
    """Goes over the pieces of a file, with the blocks that are open."""

    def __init__(self, path, text):
        self.text = text
        self.code = Code(path)
        self.blocks = [Block("file", "", True)]
        self.head = []
        self.doc = []
        self.function = None
        self.at = 0

    def read(self):
        while found := PIECE.search(self.text, self.at):
            self.at = found.end()
            getattr(self, "take_" + found.lastgroup)(found)
        self.code.imports = self.blocks[0].imports
        return self.code

    def line(self, found):
        return self.text.count("\n", 0, found.start()) + 1

    def balanced(self, start):
        """The place behind the brace that closes the one at a place."""
        depth, at = 0, start
        while at < len(self.text):
            sign = self.text[at]
            if sign == '"':
                at = re.compile(r'"(?:\\.|[^"\\])*"', re.S).match(self.text, at).end()
                continue
            depth += (sign == "{") - (sign == "}")
            at += 1
            if depth == 0:
                break
        return at

    def take_doc(self, found):
        self.doc.append(found[0][3:].removeprefix(" ").rstrip())

    def take_inner(self, found):
        self.code.doc.append(found[0][3:].strip())

    def take_comment(self, found):
        pass

    take_string = take_char = take_comment

    def take_attribute(self, found):
        depth, at = 1, found.end()
        while depth:
            depth += (self.text[at] == "[") - (self.text[at] == "]")
            at += 1
        self.at = at

    def take_ghost_use(self, found):
        said = found[0][:-1].replace("pub ", "").replace("ghost ", "")
        item = list(antt.tokens_of(said))
        self.blocks[-1].imports.append(antt.import_of(item, False))

    def take_use(self, found):
        self.head = []
        if found[0].startswith("pub") and self.blocks[-1].kind in ("file", "mod"):
            self.code.exports += re.findall(r"\w+|\*", found[0])[2:]

    def term(self, found):
        start = found.end() - 1
        self.at = self.balanced(start)
        return self.text[start + 1:self.at - 1]

    def take_clause(self, found):
        words = found[0][:-1].split()
        clause = Clause(words[0], words[1] if len(words) > 1 else "", self.term(found), self.line(found))
        if self.function is not None:
            self.function.clauses.append(clause)

    def take_ghost(self, found):
        name = re.search(r"ghost\s+(\w+)", found[0])[1]
        clause = Clause("ghost", name, self.term(found), self.line(found))
        clause.owner = self.blocks[-1]
        clause.scope = self.imports()
        self.code.said.append(clause)

    def imports(self):
        return [block.imports for block in self.blocks]

    def take_word(self, found):
        self.head.append(found[0])
        if found[0] == "mut" and self.function is not None:
            self.function.does_something = True
        if found[0] == "const" or len(self.head) > 1 and self.head[-2] == "const":
            self.code.constants.add(found[0])
        if len(self.head) > 1 and self.head[-2] == "fn":
            self.begin_function(found)
        if len(self.head) > 1 and self.head[-2] in TYPES and self.blocks[-1].kind in ("file", "mod"):
            self.begin_type(found)
        if self.blocks[-1].kind in TYPES:
            self.blocks[-1].type.members.add(found[0])
        if len(self.head) > 1 and self.head[-2] == "mod":
            self.code.modules[found[0]] = "pub" in self.head

    def begin_function(self, found):
        block = self.blocks[-1]
        owner = block.name if block.kind in ("impl", "trait") else ""
        is_public = is_said_public(self.head) or block.is_trait and block.is_public
        function = Function(found[0], owner, is_public, self.line(found))
        function.doc, self.doc = self.doc, []
        function.scope = self.imports()
        self.function = function
        self.code.functions.append(function)

    def begin_type(self, found):
        made = Type(found[0], self.head[-2], "pub" in self.head, self.line(found))
        made.doc, self.doc = self.doc, []
        made.start = found.start()
        self.code.types[found[0]] = self.type = made

    def take_brace(self, found):
        if found[0] == "{":
            self.open_block()
        else:
            self.close_block(found)
        self.head = []
        self.doc = []

    def open_block(self):
        head = self.head
        if self.function is not None and "fn" in head:
            block = Block("fn", self.function.name, False)
            block.function = self.function
            self.function.has_body = True
            self.function = None
        elif "impl" in head:
            block = Block("impl", self.owner(head), True)
            block.is_trait = "for" in head
        elif next((it for it in head if it in TYPES), None) and self.blocks[-1].kind in ("file", "mod"):
            kind = next(it for it in head if it in TYPES)
            block = Block(kind, head[head.index(kind) + 1], "pub" in head)
            block.type = self.type
        elif "mod" in head:
            block = Block("mod", head[-1], "pub" in head)
        else:
            block = Block("block", "", False)
        self.blocks.append(block)

    def owner(self, head):
        """The type of an `impl`: behind `for`, or behind its own parameters."""
        words = head[head.index("impl") + 1:]
        if "for" in words:
            return words[words.index("for") + 1]
        return next((it for it in words if it[0].isupper() and len(it) > 1), words[0] if words else "")

    def close_block(self, found):
        block = self.blocks.pop()
        if block.kind in TYPES:
            self.end_type(block.type, found.end())

    def end_type(self, made, end):
        lines = self.text[made.start:end].split("\n")
        made.lines = sum(1 for it in lines if it.strip() and not it.strip().startswith("//"))

    def take_sign(self, found):
        if found[0] == ":" and self.function is not None and "fn" in self.head:
            self.function.parameters.add(self.head[-1])
        if found[0] == ";":
            if self.function is not None and "fn" in self.head:
                self.function = None
            elif any(it in TYPES for it in self.head) and self.blocks[-1].kind in ("file", "mod"):
                self.end_type(self.type, found.end())
                self.type.members.update(self.head)
            self.head = []
            self.doc = []
        elif found[0] == "-" and self.text[found.end()] == ">" and self.function is not None:
            self.function.does_something = True


# ---- a crate


class CrateCode:
    """The code of a crate, file by file, and what of it others can see."""

    def __init__(self, crate):
        self.folder = os.path.join(TOP, "crates", crate, "src")
        self.files = {path: read_code(path) for path in files_below(self.folder, ".rt")}
        self.exported = {name for code in self.files.values() for name in code.exports}

    def functions(self):
        """Each function with the path of its file, and whether other crates can call it."""
        for path, code in self.files.items():
            is_shown = self.is_public_module(path)
            for function in code.functions:
                named = function.owner or function.name
                yield path, function, function.is_public and (is_shown or named in self.exported)

    def is_public_module(self, path):
        """Whether the modules on the way to a file are public."""
        words = os.path.relpath(path, self.folder)[:-len(".rt")].split(os.sep)
        if words in (["lib"], ["main"]):
            return True
        place = os.path.join(self.folder, "lib.rt")
        for number, word in enumerate(words):
            if place not in self.files or not self.files[place].modules.get(word, False):
                return False
            place = os.path.join(self.folder, *words[:number + 1]) + ".rt"
        return True
