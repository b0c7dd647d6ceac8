"""Reads a file of definitions or proofs (`.antt`): its imports, its declarations, and the names that each of these cites.

A name that a declaration binds itself (an argument, a `λ`, a `let`, a pattern) is no citation, and neither is a field's name. What
is left is cited: by itself, by an alias (`x.item`), or as a part of an operator (`if .. then .. else ..`).
"""
import re

TOKEN = re.compile(r"""\{-.*?-\} | --[^\n]* | "(?:\\.|[^"\\\n])*" | \n[ ]* | [ \t]+ | [(){}.;,@] | «[^»]*» | [^\s(){}.;,@"«»]+""", re.X | re.S)
NUMERAL = re.compile(r"[0-9][0-9a-fA-Fx_ob]*$")
MARKS = ("pattern", "unfoldable", "opaque", "abbrev", "pub", "axiom")
DECLARES = ("record", "data")
LINES = ("use", "mod", "infixl", "infixr", "infix", "open", "ruleset")
# signs of the language, and what is there without an import
SIGNS = {"→", "×", "=", "|", ":", "[", "]", "↦", "←", "λ", "∀", "∃", "_", "Π", "?"}
WORDS = {"let", "in", "elim", "as", "where", "record", "use", "open", "Type", "do", "with", "unfolding", "data", "pub"}
BUILT_IN = {
    "Type", "𝕀", "ℓ", "Unit", "tt", "absurd", "⊥", "¬", "Prim", "yes", "no", "IsProp", "IsSet", "IsContr", "subst", "J",
    "rw", "rw⁻¹", "simp", "search", "grw", "cc", "omega", "grind", "hlevel", "assumption", "first_of", "cap", "∥", "∥₁",
}
# what tells a lemma: signs of a statement in its signature, or tactics in its body
STATES = {"≡", "≤", "<", "IsTrue", "IsFalse", "IsProp", "IsSet", "↔", "≢"}
PROOF_WORDS = {"rw", "rw⁻¹", "simp", "search", "grw", "cc", "omega", "grind", "hlevel", "assumption", "first_of", "refl"}
OPEN, CLOSE = {"(": ")", "{": "}", "[": "]"}, {")", "}", "]"}


class Import:
    """A line `use MODULE.{a, b as c}`, `use MODULE as ALIAS` or `use MODULE`."""

    def __init__(self, module, items, alias, is_public):
        self.module = module
        self.items = items
        self.alias = alias
        self.is_public = is_public


class Declaration:
    """A declaration: its kind, the names that it declares (its own, constructors and fields), its lines, and what it cites."""

    def __init__(self, name, kind, is_public, line):
        self.name = name
        self.kind = kind
        self.is_public = is_public
        self.line = line
        self.lines = 0
        self.constructors = []
        self.fields = []
        self.signature = []
        self.tokens = []
        # the items that make it up, and the binders of the block that it is in
        self.items = []
        self.outer = []

    def is_lemma(self):
        """A declaration with a proof: it has a statement that is proved, and is no function, relation, type or value."""
        return self.kind == "plain" and bool(STATES & set(self.signature) or PROOF_WORDS & set(self.tokens))


class File:
    def __init__(self, module, path):
        self.module = module
        self.path = path
        self.word = ""
        self.imports = []
        self.modules = []
        self.declarations = {}

    def declaring(self, name):
        """The declaration that declares a name, as its own or as a constructor."""
        if name in self.declarations:
            return self.declarations[name]
        return next((it for it in self.declarations.values() if name in it.constructors), None)


# ---- tokens


def tokens_of(text):
    """The tokens of a text, without comments: (line, column, token), where only the first of a line has a column."""
    line, column = 1, 0
    for found in TOKEN.finditer(text):
        word = found[0]
        if word[0] == "\n":
            line, column = line + 1, len(word) - 1
        elif word[0] in " \t" or word.startswith("--") or word.startswith("{-"):
            line += word.count("\n")
        else:
            yield line, column, word
            column = None


def items_of(tokens, base):
    """The tokens by items: each begins at the column `base`, and holds all that stands further right. A brace that closes goes on."""
    item = []
    for token in tokens:
        begins = token[1] is not None and token[1] <= base and token[2] not in CLOSE
        if begins and item:
            yield item
            item = []
        item.append(token)
    if item:
        yield item


# ---- a file


def read_file(module, path):
    with open(path, encoding="utf-8") as file:
        text = file.read()
    found = File(module, path)
    found.word = first_comment(text)
    read_items(found, list(tokens_of(text)), 0, [])
    return found


def first_comment(text):
    """The comment at the head of a file, up to its first full stop."""
    said = []
    for line in text.splitlines():
        if not line.startswith("--"):
            break
        said.append(line.lstrip("- ").strip())
    return " ".join(said)


def read_items(file, tokens, base, outer):
    """The declarations of a file, or of a block `module _ (..) where`, whose binders are tokens of each declaration in it."""
    current, unfolded = None, []
    for item in items_of(tokens, base):
        words = [it[2] for it in item]
        bare = [it for it in words if it not in MARKS]
        if bare[0] == "use":
            file.imports.append(import_of(item, words[0] == "pub"))
            current = None
        elif bare[0] == "mod":
            file.modules.append(bare[1])
        elif bare[0] == "module":
            read_module(file, item, outer)
            current = None
        elif bare[0] == "unfolding":
            if current is not None:
                add_item(current, item)
        elif bare[0] in LINES:
            current = None
        elif bare[0] in DECLARES:
            current = declared(file, item, words, bare[1], bare[0])
            current.outer = outer
        elif is_signature(bare, words):
            kind = "abbrev" if "abbrev" in words[:3] else "unfoldable" if "unfoldable" in words[:3] else "plain"
            current = declared(file, item, words, bare[0], kind)
            current.outer = outer
        elif current is not None:
            add_item(current, item)
        else:
            raise ValueError(f"{file.path}:{item[0][0]}: no declaration: {' '.join(words[:8])}")


def is_signature(bare, words):
    """A name and a colon, with levels in braces between them or not."""
    if words[0] in MARKS:
        return True
    at = 1
    if len(bare) > at and bare[at] == "{":
        at = closing(bare, at) + 1
    return len(bare) > at and bare[at] == ":"


def closing(words, at):
    """The place of the bracket that closes the one at a place."""
    depth = 0
    for place in range(at, len(words)):
        depth += (words[place] in OPEN) - (words[place] in CLOSE)
        if depth == 0:
            return place
    return len(words) - 1


def read_module(file, item, outer):
    end = next(place for place, it in enumerate(item) if it[2] == "where")
    body = item[end + 1:]
    if body:
        read_items(file, body, body[0][1], outer + item[2:end])


def declared(file, item, words, name, kind):
    found = Declaration(name, kind, "pub" in words[:4], item[0][0])
    if name in file.declarations:
        raise ValueError(f"{file.path}:{item[0][0]}: {name} is declared twice")
    file.declarations[name] = found
    add_item(found, item)
    if kind in DECLARES:
        read_members(found, item)
    else:
        found.signature = words
    return found


def add_item(declaration, item):
    declaration.items.append(item)
    declaration.lines += len({it[0] for it in item})
    declaration.tokens += [it[2] for it in item]


def members_of(item):
    """The items of a record or data behind its `where`."""
    end = next((place for place, it in enumerate(item) if it[2] == "where"), None)
    body = item[end + 1:] if end is not None else []
    return list(items_of(body, body[0][1])) if body else []


def read_members(declaration, item):
    """The names of the fields, or of the constructors."""
    for member in members_of(item):
        names = []
        for token in member:
            if token[2] == ":":
                break
            if token[2] != "pub":
                names.append(token[2])
        (declaration.fields if declaration.kind == "record" else declaration.constructors).extend(names)


def import_of(item, is_public):
    words = [it[2] for it in item if it[2] != "pub"][1:]
    path, at = [], 0
    while at < len(words) and words[at] not in ("{", "as"):
        if words[at] != ".":
            path.append(words[at])
        at += 1
    if at < len(words) and words[at] == "{":
        return Import(".".join(path), items_named(words[at + 1:-1]), None, is_public)
    alias = words[at + 1] if at < len(words) else path[-1]
    return Import(".".join(path), None, alias, is_public)


def items_named(words):
    """The items of a list as a map from the name here to the name there."""
    found, said = {}, []
    for word in [*words, ","]:
        if word != ",":
            said.append(word)
        elif said:
            found[said[-1]] = said[0]
            said = []
    return found


# ---- what a declaration cites


class Scope:
    """What the names of a file mean, by its imports and declarations: `known` those that are no variable in a pattern."""

    def __init__(self, names, aliases, is_constructor):
        self.names = names
        self.aliases = aliases
        self.is_constructor = is_constructor
        self.parts = {}
        for name in names:
            if "◌" in name:
                for part in name.split("◌"):
                    if part:
                        self.parts.setdefault(part.strip(), []).append(name)


class Citing:
    """Walks over the tokens of a declaration, and keeps what is cited: (name,) or (alias, item), and what is not known."""

    def __init__(self, scope):
        self.scope = scope
        self.cited = set()
        self.unknown = set()

    def cite(self, words, at, bound):
        """The name at a place; gives the place behind it and its fields."""
        name, end = words[at], at + 1
        fields = []
        while end + 1 < len(words) and words[end] == "." and is_name(words[end + 1]) and not words[end + 1] in SIGNS:
            fields.append(words[end + 1])
            end += 2
        if name in bound:
            return end
        self.cite_free(name, fields)
        return end

    def cite_free(self, name, fields):
        scope = self.scope
        if name in scope.aliases and fields:
            self.cited.add((name, *fields))
        elif name in scope.names:
            self.cited.add((name, *fields))
        elif name in scope.parts:
            self.cited.update((it,) for it in scope.parts[name])
        elif name in BUILT_IN or name in WORDS or name in SIGNS or NUMERAL.match(name) or name[0] in '"?':
            pass
        else:
            self.unknown.add(name)

    def walk(self, words, bound):
        """A term, or the types of a signature: binders hold up to the end of the bracket that they stand in."""
        bound, at = set(bound), 0
        pending = []
        while at < len(words):
            word = words[at]
            if word == "λ":
                at = self.binders(words, at + 1, ".", bound)
            elif word == "let":
                at, names = let_names(words, at + 1)
                pending.append(names)
            elif word == "in" and pending:
                bound |= pending.pop()
                at += 1
            elif word in OPEN:
                end = closing(words, at)
                self.bracket(words[at:end + 1], bound)
                at = end + 1
            elif is_name(word) and word not in SIGNS:
                at = self.cite(words, at, bound)
            elif word == "." and at + 1 < len(words) and is_name(words[at + 1]):
                at += 2
            else:
                at += 1

    def binders(self, words, at, end, bound):
        """Binders up to a sign, as those of `λ`; gives the place behind it."""
        while at < len(words) and words[at] != end:
            if words[at] in OPEN:
                close = closing(words, at)
                self.pattern(words[at:close + 1], bound)
                at = close + 1
            else:
                if is_name(words[at]):
                    bound.add(words[at])
                at += 1
        return at + 1

    def pattern(self, words, bound):
        """A pattern: names that are no constructors are bound, and what stands behind a colon is a type."""
        at, depth = 0, 0
        while at < len(words):
            word = words[at]
            if word == ":":
                end = at + 1
                self.walk(words[end:len(words) - 1], bound)
                return
            if word == "." and at + 1 < len(words):
                at += 2
                continue
            if is_name(word) and word not in SIGNS and word not in WORDS:
                alias = word in self.scope.aliases and at + 2 < len(words) and words[at + 1] == "."
                if at + 1 < len(words) and words[at + 1] == "=":
                    pass
                elif alias or self.scope.is_constructor(word) or word in BUILT_IN or NUMERAL.match(word):
                    self.cite_free(word, [words[at + 2]] if alias else [])
                elif word in self.scope.parts and word not in self.scope.names:
                    self.cite_free(word, [])
                else:
                    bound.add(word)
            at += 1

    def bracket(self, words, bound):
        """What stands in a bracket. A group that declares names, as `(x y : A)`, binds them for what stands behind it."""
        inside = words[1:-1]
        colon = colon_of(inside)
        if words[0] in "({" and colon is not None and all(is_name(it) for it in inside[:colon]):
            self.walk(inside[colon + 1:], bound)
            bound.update(inside[:colon])
        elif words[0] == "[":
            self.cases(inside, bound)
        elif words[0] == "{":
            for part in split_at(inside, (";", ",")):
                labelled = len(part) > 1 and part[1] == "="
                self.walk(part[2:] if labelled else part, bound)
        else:
            for part in split_at(inside, (",",)):
                self.walk(part, bound)

    def cases(self, words, bound):
        """The cases of an `elim`, or a list in brackets."""
        for part in split_at(words, ("|",)):
            arrow = place_of(part, "↦")
            own = set(bound)
            if arrow is not None:
                self.pattern(part[:arrow], own)
                part = part[arrow + 1:]
            self.walk(part, own)


def let_names(words, at):
    """The place of the sign behind the names that a `let` binds, and these; they hold after its `in`."""
    names = set()
    while at < len(words) and words[at] not in (":", "="):
        if is_name(words[at]):
            names.add(words[at])
        at += 1
    return at, names


def is_name(word):
    return word[0] not in '(){}.;,@"'


def colon_of(words):
    """The place of a colon behind names alone."""
    for at, word in enumerate(words):
        if word == ":":
            return at if at else None
        if not is_name(word) or word in SIGNS:
            return None
    return None


def place_of(words, sign):
    depth = 0
    for at, word in enumerate(words):
        depth += (word in OPEN) - (word in CLOSE)
        if depth == 0 and word == sign:
            return at
    return None


def split_at(words, signs):
    """The parts between signs that stand in no inner bracket."""
    parts, part, depth = [], [], 0
    for word in words:
        depth += (word in OPEN) - (word in CLOSE)
        if depth == 0 and word in signs:
            parts.append(part)
            part = []
        else:
            part.append(word)
    return [*parts, part]


def cite_declaration(declaration, scope):
    """What a declaration cites, by what its file knows: sets of cited names and of unknown ones."""
    citing = Citing(scope)
    outer = set()
    walk_binders(citing, [it[2] for it in declaration.outer], outer)
    for number, item in enumerate(declaration.items):
        words = [it[2] for it in item]
        if words[0] == "unfolding":
            for word in words[1:]:
                citing.cite_free(word, [])
        elif declaration.kind in DECLARES:
            cite_members(citing, declaration, item, outer)
        elif number == 0:
            cite_signature(citing, words, outer)
        else:
            cite_clause(citing, declaration.name, item, outer)
    own = {declaration.name, *declaration.constructors}
    citing.cited = {it for it in citing.cited if it[0] not in own}
    return citing


def walk_binders(citing, words, bound):
    """The groups `(x : A)` and `{x : A}` of a head."""
    at = 0
    while at < len(words):
        if words[at] in OPEN:
            end = closing(words, at)
            citing.bracket(words[at:end + 1], bound)
            at = end + 1
        else:
            at += 1


def cite_members(citing, declaration, item, outer):
    words = [it[2] for it in item]
    end = words.index("where") if "where" in words else len(words)
    head = words[words.index(declaration.name) + 1:end]
    bound = set(outer) | {declaration.name}
    at = place_of(head, ":")
    at = len(head) if at is None else at
    walk_binders(citing, head[:at], bound)
    citing.walk(head[at:], bound)
    for member in members_of(item):
        said = [it[2] for it in member]
        colon = said.index(":")
        citing.walk(said[colon + 1:], bound)
        if declaration.kind == "record":
            bound.update(it for it in said[:colon] if it != "pub")


def cite_signature(citing, words, outer):
    at = 0
    while words[at] in MARKS:
        at += 1
    at += 1
    bound = set(outer)
    if at < len(words) and words[at] == "{":
        bound.update(words[at:closing(words, at)])
        at = closing(words, at) + 1
    citing.walk(words[at + 1:], bound)


def cite_clause(citing, name, item, outer):
    """A clause `name patterns = term`, with what stands behind its `where`."""
    words = [it[2] for it in item]
    bound = set(outer)
    equals = place_of(words, "=")
    if equals is None:
        raise ValueError(f"{name}: no clause: {' '.join(words[:10])}")
    left = [it for it in words[:equals] if it != name]
    for part in split_at(left, ("|",)):
        at = 0
        while at < len(part):
            end = closing(part, at) if part[at] in OPEN else at
            citing.pattern(part[at:end + 1], bound)
            at = end + 1
    where = place_of(words, "where")
    if where is not None:
        cite_local(citing, item[where + 1:], bound)
    citing.walk(words[equals + 1:where], bound)


def cite_local(citing, tokens, bound):
    """The declarations behind a `where`: their names hold in the clause."""
    items = list(items_of(tokens, tokens[0][1]))
    said = [[it[2] for it in item] for item in items]
    bound.update(words[0] for words in said if is_signature(words, words))
    for words, item in zip(said, items):
        if is_signature(words, words):
            cite_signature(citing, words, bound)
        elif words[0] != "unfolding":
            cite_clause(citing, words[0], item, bound)
