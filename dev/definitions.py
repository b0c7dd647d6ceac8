"""All definitions of the repository (`crates/*/specs`), each name of theirs resolved by the imports of its file.

A node of the graph is (kind, module, name): `spec` a definition; `type` a struct, enum or trait of `src/`, or a file of constants; and
`kit` a name of the kit of Rattle, which is not followed further."""
import os

import antt
import contracts
from listing import TOP, crates_of, files_below, listed_rooms

KIT = {"core", "std", "std_alloc", "std_collections", "std_io", "std_heap", "io"}
DECLARED = ".specs.declared."
# the record of what a trait says of itself
GHOSTS = "Ghosts"
PARTS_OF_TYPES = {"TheVariants", "TheConstants", "TheInside"}


class Definitions:
    """The files of definitions, by their modules, and the code of each crate, which is read where it is asked for."""

    def __init__(self, part="specs"):
        self.crates = crates_of(listed_rooms())
        self.names = {crate.name for crate in self.crates}
        self.files = {}
        self.code = {}
        self.scopes = {}
        self.cited = {}
        self.unresolved = []
        for crate in self.crates:
            self.read_crate(crate.name, part)

    def read_crate(self, crate, part):
        folder = os.path.join(TOP, "crates", crate, part)
        for path in files_below(folder, ".antt"):
            inner = os.path.relpath(path, folder)[:-len(".antt")].replace(os.sep, ".")
            module = f"Rattle.{crate}.{part}.{inner}"
            self.files[module] = antt.read_file(module, path)

    # ---- what names mean

    def find(self, module, name, seen=()):
        """The node that a module hands out under a name, or none."""
        if (module, name) in seen:
            return None
        if self.is_of_kit(module):
            return "kit", module, name
        if DECLARED in module:
            return self.find_declared(module, name)
        file = self.files.get(module)
        if file is None:
            return None
        own = file.declaring(name)
        if own is not None:
            return "spec", module, own.name
        return self.find_handed_on(file, name, (*seen, (module, name)))

    def find_handed_on(self, file, name, seen):
        for it in file.imports:
            if it.is_public and it.items is not None and name in it.items:
                return self.find(it.module, it.items[name], seen)
        return None

    def is_of_kit(self, module):
        words = module.split(".")
        return words[0] != "Rattle" or words[1] not in self.names

    def module_of(self, path):
        """The module that a path means: itself, or one that another hands on under a name (`pub use M as N`)."""
        if path in self.files or DECLARED in path or self.is_of_kit(path):
            return path
        head, _, last = path.rpartition(".")
        if head.endswith((".specs", ".proofs")):
            return None
        outer = self.module_of(head)
        for it in self.files[outer].imports if outer in self.files else []:
            if it.is_public and it.alias == last and it.items is None:
                return self.module_of(it.module)
        return None

    def find_by_path(self, path, name):
        module = self.module_of(path)
        return self.find(module, name) if module else None

    def find_declared(self, module, name):
        """A type of `src/`: for the type itself, one of its variants or constants, or what a trait says of itself."""
        head, _, inner = module.partition(DECLARED)
        crate, words = head.split(".")[1], inner.split(".")
        folder = [it for it in words if not it[0].isupper()]
        kind = next((it for it in words if it[0].isupper() and it not in PARTS_OF_TYPES), "")
        code = self.code_of(crate, folder)
        if code is None or kind and kind not in code.types and "TheConstants" not in words:
            return None
        if name and not declares(code, kind, words, name):
            return None
        return "type", f"Rattle.{crate}{DECLARED}{'.'.join(folder)}", kind if kind in code.types else ""

    def code_of(self, crate, folder):
        base = os.path.join("crates", crate, "src", *folder)
        for path in (f"{base}.rt", os.path.join(base, "mod.rt"), os.path.join(base, "lib.rt")):
            if path in self.code:
                return self.code[path]
            if os.path.isfile(os.path.join(TOP, path)):
                self.code[path] = contracts.read_code(os.path.join(TOP, path))
                return self.code[path]
        return None

    # ---- what a definition cites

    def names_by(self, imports, where):
        """The names and aliases that imports give: a name as its node, an alias as its module."""
        names, aliases = {}, {}
        for it in imports:
            if it.items is None:
                aliases[it.alias] = it.module
                if self.module_of(it.module) is None or DECLARED in it.module and self.find(it.module, None) is None:
                    self.miss(where, f"no module {it.module}")
                continue
            for here, there in it.items.items():
                node = self.find_by_path(it.module, there)
                if node is None:
                    self.miss(where, f"{it.module} has no {there}")
                names[here] = node
        return names, aliases

    def scope_of(self, module):
        if module not in self.scopes:
            file = self.files[module]
            names, aliases = self.names_by(file.imports, file.path)
            for declaration in file.declarations.values():
                for name in (declaration.name, *declaration.constructors):
                    names[name] = "spec", module, declaration.name
            self.scopes[module] = antt.Scope(names, aliases, lambda name: self.is_constructor(names, name))
        return self.scopes[module]

    def is_constructor(self, names, name):
        """Whether a name in a pattern is a constructor, and no variable."""
        node = names.get(name)
        if node is None:
            return False
        kind, module, owner = node
        if kind == "spec":
            declaration = self.files[module].declarations[owner]
            return name != owner or owner in declaration.constructors or declaration.kind == "data"
        return kind == "type" or name[0].isupper() or name in ("zero", "suc", "true", "false", "pos", "negsuc", "refl", "[]") or "◌" in name

    def nodes_of(self, cited, scope, where):
        """The nodes of what was cited."""
        found = set()
        for name, *fields in cited:
            if name in scope.names and (name not in scope.aliases or not fields):
                node = scope.names[name]
            else:
                node = self.find_in_alias(scope.aliases[name], fields)
                if node is None:
                    self.miss(where, f"{name}.{'.'.join(fields)}: {scope.aliases[name]} has none")
            if node is not None:
                found.add(node)
        return found

    def find_in_alias(self, module, fields):
        for count in range(len(fields)):
            node = self.find_by_path(".".join([module, *fields[:count]]), fields[count])
            if node is not None:
                return node
        return None

    def cites(self, node):
        """The nodes that a definition cites."""
        if node not in self.cited:
            kind, module, name = node
            self.cited[node] = self.read_citations(module, name) if kind == "spec" else set()
        return self.cited[node]

    def read_citations(self, module, name):
        file, scope = self.files[module], self.scope_of(module)
        declaration = file.declarations[name]
        citing = antt.cite_declaration(declaration, scope)
        where = f"{file.path}:{declaration.line}"
        for word in sorted(citing.unknown):
            self.miss(where, f"{name} cites {word}, which nothing declares")
        return self.nodes_of(citing.cited, scope, where) - {node_of(module, name)}

    def miss(self, where, said):
        line = f"{os.path.relpath(where, TOP)}: {said}"
        if line not in self.unresolved:
            self.unresolved.append(line)

    def all_nodes(self):
        return [node_of(module, name) for module, file in self.files.items() for name in file.declarations]

    def closure(self, roots):
        """All nodes that some rest on."""
        found, ready = set(), list(roots)
        while ready:
            node = ready.pop()
            if node not in found:
                found.add(node)
                ready += self.cites(node) - found
        return found

    def lines(self, node):
        kind, module, name = node
        if kind == "spec":
            return self.files[module].declarations[name].lines
        if kind == "type" and name:
            crate, folder = module.split(".")[1], module.partition(DECLARED)[2].split(".")
            return self.code_of(crate, folder).types[name].lines
        return 0


def declares(code, kind, words, name):
    """Whether a type, or its variants, constants or ghosts, have a name."""
    if "TheConstants" in words:
        return name in code.constants
    if name == kind or kind not in code.types:
        return name == kind
    made = code.types[kind]
    return name in made.members or "TheInside" in words or name in said_of(code, kind) or name == GHOSTS and made.kind == "trait"


def said_of(code, kind):
    """What a type or trait says of itself (`ghost`)."""
    return {clause.name for clause in code.said if clause.owner.name == kind}


def node_of(module, name):
    return "spec", module, name
