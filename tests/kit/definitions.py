"""Follows each definition that a contract names, and each that such a definition names, through every kind of import.

A `Place` is a definition of this project: of specs/, or a type or a trait of src/. A `Word` is one of the compiler or of another project,
which isn't followed. A name whose definition isn't found is `Unfollowed`.
"""
import collections
import dataclasses
import functools
import re

IMPORT = re.compile(r"^( *)(pub )?(?:ghost )?use ((?:\w+\.)+\w+)(?:\.\{([^}]*)\})?(?: as (\w+))?;?$", re.MULTILINE)
RUST_IMPORT = re.compile(r"^( *)(pub )?use ((?:\w+::)+)(?:\{([^{}]*)\}|(\w+(?: as \w+)?));", re.MULTILINE)
ANY_IMPORT = re.compile(r"^ *(?:pub )?(?:ghost )?use [^\n]*", re.MULTILINE)
PATH = re.compile(r"(?<![\w.':])[A-Za-z_][\w'-]*(?:(?:\.|::)[A-Za-z_][\w'-]*)*")
DEFINED = re.compile(r"(?:unfoldable |abbrev |def )?(?:pub )?(record |data )?([A-Za-z_][\w'-]*)")
MEMBER = re.compile(r"^ +(?:pub )?([A-Za-z_][\w'-]*) :(?!:)", re.MULTILINE)
BOUND = re.compile(r"[({λ,] *((?:[\w']+ )*[\w']+) *[:.]|\blet ([\w']+) =|\b([a-z_]\w*): ")
EQUATION = re.compile(r"^ *[a-zA-Z_][\w'-]* (.*) =(?: |$)", re.MULTILINE)
TYPE = r"^(?:pub(?:\(\w+\))? )?(?:unsafe )?(?:struct|enum|trait|type|const) {}\b"
IMPL = re.compile(r"^impl\b[^\n{]*\{", re.MULTILINE)
OF_TRAIT = re.compile(r"^impl(?:<.*?>)? (\w+)(?:<[^{]*>)? for (\w+)\b[^\n{]*\{", re.MULTILINE)
GHOST = re.compile(r"^    ghost (?!use )[^\n]*?= \{.*?\};$", re.DOTALL | re.MULTILINE)
VALUE = re.compile(r"^ *ghost Value = \{.*?\};", re.DOTALL | re.MULTILINE)
VARIANT = re.compile(r"^ +(?:ghost |type |const )?([A-Z]\w*)", re.MULTILINE)
FIELD = re.compile(r"^( +)(?:pub )?[A-Za-z_][\w'-]* (?=:(?!:)|= )|(?<=[{;] )[A-Za-z_][\w'-]* (?== )", re.MULTILINE)
GENERIC = re.compile(r"<([^<>]*)>")
BUILT_IN = set("Type Unit Self Some None Ok Err Copy Clone Drop Fn FnMut FnOnce Prim Send Sync AllocGlobal Print C".split())
PRELUDE = {"Option", "Result", "Vec", "Box", "String"}
KEYWORDS = ("use", "module", "mod", "pub", "syntax", "open")


class Unfollowed(Exception):
    """A name whose definition isn't found, and where it is used."""


@dataclasses.dataclass(frozen=True, order=True)
class Place:
    """A definition: its file below crates/, and its name there."""

    file: str
    name: str


@dataclasses.dataclass(frozen=True, order=True)
class Word:
    """A name of the compiler or of another project."""

    module: str
    name: str


@dataclasses.dataclass(frozen=True)
class Import:
    """One name that an import brings in: what it is called here and there, its module, and whether other files may import it from here.
    The name is None if the import is of the module.
    """

    alias: str
    name: str | None
    module: tuple
    public: bool
    margin: int


def bare(text):
    """Returns the text without comments of either language, attributes, and empty lines."""
    lines = (re.sub(r"(?:^|\s)\s*(?://|-- ).*$|^\s*--$|^\s*#!?\[.*\]$", "", line) for line in text.split("\n"))
    return "\n".join(line for line in lines if line.strip()) + "\n"


def pairs(names):
    """Yields each name that an import lists, after the name that it has in the file."""
    for part in filter(None, (part.strip() for part in names.split(","))):
        name, _, alias = part.partition(" as ")
        yield (alias or name).strip(), name.strip()


def imports_in(text):
    """Yields the imports of a text. An import of a form that this module doesn't know is Unfollowed."""
    known = set()
    for found in IMPORT.finditer(text):
        known.add(found.start())
        margin, public, path, names, alias = found.groups()
        module = tuple(path.split("."))
        if names is None:
            yield Import(alias or module[-1], None, module, bool(public), len(margin))
        for here, there in pairs(names or ""):
            yield Import(here, there, module, bool(public), len(margin))
    for found in RUST_IMPORT.finditer(text):
        known.add(found.start())
        margin, public, path, names, name = found.groups()
        for here, there in pairs(names or name):
            yield Import(here, there, ("rust", *path.split("::")[:-1]), bool(public), len(margin))
    for found in ANY_IMPORT.finditer(text):
        if found.start() not in known:
            raise Unfollowed(f"an import of an unknown form: {found[0].strip()}")


def whole(text, start):
    """Returns the item that begins at a place of a text: up to its closing brace, or to its semicolon outside of brackets."""
    depth = 0
    for at in range(start, len(text)):
        if text[at] in "([{":
            depth += 1
        elif text[at] in ")]}":
            depth -= 1
            if depth == 0 and text[at] == "}":
                return text[start : at + 1]
        elif text[at] == ";" and depth == 0:
            return text[start : at + 1]
    raise Unfollowed(f"an item without an end: {text[start : start + 40]}")


def apart(text):
    """Returns an item without the imports inside it, and these."""
    inside = re.findall(r"^    (?:ghost )?use .*$", text, re.MULTILINE)
    return "\n".join(line for line in text.split("\n") if line not in inside), "\n".join(inside)


class Sources:
    """The sources of a project, whose crates are folders of `crates`."""

    def __init__(self, crates):
        self.crates = crates
        self.source = functools.cache(self._source)
        self.imports = functools.cache(self._imports)
        self.blocks = functools.cache(self._blocks)
        self.item = functools.cache(self._item)
        self.names = functools.cache(self._names)

    def _source(self, file):
        path = self.crates / file
        return bare(path.read_text()) if path.is_file() else ""

    def is_crate(self, name):
        return (self.crates / name).is_dir()

    def _imports(self, file):
        """Returns the imports of a file that aren't inside an item, by their names there."""
        return {it.alias: it for it in imports_in(self.source(file)) if it.margin == 0}

    # ---- definitions of specs/

    def _blocks(self, file):
        """Returns the definitions of a file of specs/, also those of its modules without a name: each name with its lines. Then, for each
        field and each constructor, the record or the data that has it. Then the heads of the modules around each name.
        """
        lines, members, heads = collections.defaultdict(list), {}, {}
        name = owner = None
        margin = head = ""
        for line in self.source(file).split("\n"):
            if line and not line[0].isspace():
                margin, head = ("  ", line) if line.startswith("module _") else ("", "")
            begun = line.removeprefix(margin)
            if begun and not begun[0].isspace():
                word = DEFINED.match(begun)
                name = None if not word or word[2] in KEYWORDS else word[2]
                owner = name if word and word[1] else None
            if name and line.strip():
                lines[name].append(line)
                heads[name] = head
            member = MEMBER.match(line)
            if owner and member and member[1] != owner:
                members.setdefault(member[1], owner)
        return {name: "\n".join(text) for name, text in lines.items()}, members, heads

    def defined(self, file, name):
        """Returns the place of a name that a file of specs/ defines, or None."""
        blocks, members, _ = self.blocks(file)
        if name in blocks or name in members:
            return Place(file, members.get(name, name) if name not in blocks else name)
        return None

    def exported(self, file, name):
        """Returns the place of a name that can be imported from a file of specs/: defined there, or imported by a `pub use`."""
        found = self.defined(file, name)
        again = self.imports(file).get(name)
        if not found and again and again.public:
            return self.place(again, file)
        if not found:
            raise Unfollowed(f"{file} has no `{name}`")
        return found

    # ---- types of src/

    def item_at(self, file, name):
        """Returns where a file of src/ begins to define a type or a trait, or None."""
        return re.search(TYPE.format(re.escape(name)), self.source(file), re.MULTILINE)

    def module_file(self, crate, modules):
        """Returns the file of a module path of a crate."""
        for root in ("lib", "main"):
            path = "/".join(modules) if modules else root
            if self.source(f"{crate}/src/{path}.rt"):
                return f"{crate}/src/{path}.rt"
        raise Unfollowed(f"{crate} has no module {'::'.join(modules)}")

    def rust(self, crate, modules, name, seen=()):
        """Returns the place of a name of a module: a type that is defined or imported there, or None for anything else."""
        file = self.module_file(crate, modules)
        if self.item_at(file, name):
            return Place(file, name)
        again = self.imports(file).get(name)
        return self.place(again, file, seen) if again and (file, name) not in seen else None

    def rust_place(self, path, name, file, seen):
        """Returns the place of a name that a path of Rust has, from a file."""
        crate, *modules = path
        here = file.split("/")[0]
        own = [] if file.endswith(("/lib.rt", "/main.rt")) else file.removesuffix(".rt").split("/")[2:]
        if crate == "super":
            while modules and modules[0] == "super":
                own, modules = own[:-1], modules[1:]
            crate, modules = here, own[:-1] + modules
        elif crate == "self":
            crate, modules = here, own + modules
        elif crate == "crate" or self.source(f"{here}/src/{'/'.join([*own, crate])}.rt"):
            crate, modules = here, modules if crate == "crate" else [*own, crate, *modules]
        if not self.is_crate(crate):
            return self.word(path, name, file)
        return self.rust(crate, modules, name, (*seen, (file, name)))

    def declared(self, crate, path, name):
        """Returns the place of a type of src/ that a path of the generated modules names."""
        at = next((at for at, part in enumerate(path) if part[0].isupper()), None)
        modules, kind = (path, name) if at is None else (path[:at], path[at])
        kinds = [kind, *(kind[:end] for end in range(len(kind) - 1, 0, -1) if kind[end].isupper())] if kind else []
        for some in kinds:  # `ItemPartialEq` is the impl of a trait for `Item`
            found = self.rust(crate, list(modules), some)
            if found:
                inside = "TheInside" in path and isinstance(found, Place)
                return Place(found.file, f"{found.name}.TheInside") if inside else found
        raise Unfollowed(f"{crate} has no type {'.'.join([*path, name or ''])}")

    # ---- names

    @functools.cached_property
    def others(self):
        """The names of what isn't followed: the compiler's libraries, and the projects that crates.txt lists."""
        listed = (self.crates.parent / "crates.txt").read_text()
        return {"std", "mathlib", "lib", "base", "denote", "mir", *re.findall(r"\w+", re.sub(r"#.*|^\w+", "", listed, flags=re.MULTILINE))}

    def word(self, path, name, file):
        if path[0] not in self.others:
            raise Unfollowed(f"{file} imports `{name}` from `{path[0]}`, which crates.txt doesn't list")
        return Word(".".join(path), name)

    def place(self, it, file, seen=()):
        """Returns the place of an import of a file, or a word that isn't followed; for a function of src/, None."""
        return self.named(it.module, it.name, file, seen)

    def named(self, module, name, file, seen=()):
        """Returns what a module calls by a name: a place, a word, or None."""
        if module[0] == "rust":
            return self.rust_place(module[1:], name, file, seen)
        if module[0] != "Rattle" or not self.is_crate(module[1]):
            return self.word(module[module[0] == "Rattle" :], name or "", file)
        crate, part, *rest = module[1:]
        if part == "proofs":
            raise Unfollowed(f"{file} names a proof: {'.'.join(module)}")
        if rest and rest[0] in ("declared", "contracts"):
            return self.declared(crate, tuple(rest[1:]), name)
        if not self.source(f"{crate}/{part}/{'/'.join(rest)}.antt"):  # a data's name is the module of its constructors
            *rest, _ = rest
        return self.exported(f"{crate}/{part}/{'/'.join(rest)}.antt", name)

    def impl_around(self, file, start):
        """Returns the impl that a place of a file is in, or an empty text."""
        before = [it for it in IMPL.finditer(self.source(file)) if it.start() < start]
        text = whole(self.source(file), before[-1].start()) if before else ""
        return text if before and before[-1].start() + len(text) > start else ""

    def functions(self, file):
        """Returns the names of a file's public functions."""
        return re.findall(r"^ *pub (?:extern \"C\" )?fn (\w+)", self.source(file), re.MULTILINE)

    def contract(self, file, name):
        """Returns the signature and the clauses of a public function, and the head and the imports of the impl that it is in."""
        found = re.search(rf"^ *pub (?:extern \"C\" )?fn {name}\b.*?(?:^ *\{{\}}|\{{)$", self.source(file), re.DOTALL | re.MULTILINE)
        if not found:
            raise Unfollowed(f"crates/{file} has no public function `{name}`")
        around = self.impl_around(file, found.start())
        return found[0], f"{around.split('{')[0]}\n{apart(around)[1]}"

    def model(self, file, name):
        """Returns the value in the model of a type and the imports of that model, or None."""
        found = re.search(rf"^impl(?:<[^>]*>)? Model for {name}\b[^\n]*\{{", self.source(file), re.MULTILINE)
        text = whole(self.source(file), found.start()) if found else ""
        value = VALUE.search(text)
        return (value[0], apart(text)[1]) if value else None

    @functools.cached_property
    def impls(self):
        """The impls of this project's traits that define ghost items: each place with the type and the trait."""
        found = {}
        for path in sorted(self.crates.glob("*/src/**/*.rt")):
            file = str(path.relative_to(self.crates))
            for it in OF_TRAIT.finditer(self.source(file)):
                if it[1] != "Model" and GHOST.search(whole(self.source(file), it.start())):
                    both = frozenset(self.head(file, self.imports(file), name, it.groups()) for name in it.groups())
                    found.update({Place(file, f"impl {it[1]} for {it[2]}"): both} if None not in both else {})
        return found

    def impl(self, place):
        """Returns the ghost items of an impl, and its imports."""
        _, trait, _, kind = place.name.split()
        at = next(it for it in OF_TRAIT.finditer(self.source(place.file)) if it.groups() == (trait, kind))
        text = whole(self.source(place.file), at.start())
        return "\n".join(GHOST.findall(text)), f"{text.split('{')[0]}\n{apart(text)[1]}"

    def _item(self, place):
        """Returns the lines that define a place, and further lines that they depend on: imports of a model, the head of a module."""
        if place.file.endswith(".antt"):
            blocks, _, heads = self.blocks(place.file)
            return blocks[place.name], heads[place.name]
        if place.name.startswith("impl "):
            return self.impl(place)
        name, _, inside = place.name.partition(".")
        model = None if inside else self.model(place.file, name)
        if model:
            return model
        return apart(whole(self.source(place.file), self.item_at(place.file, name).start()).strip("\n"))

    def lines(self, place):
        return len(self.item(place)[0].strip("\n").split("\n"))

    def in_text(self, file, text, around):
        """Yields the places and the words that a text of a file names. `around` are lines of the file that it depends on."""
        scope = dict(self.imports(file))
        scope.update({it.alias: it for it in imports_in(around)})
        text = re.sub(r"^ *(?:ghost )?use .*$|\"[^\"]*\"", "", f"{around}\n{text}", flags=re.MULTILINE)
        bound = {name for some in BOUND.findall(text) for name in " ".join(some).split()}
        bound |= {name for some in EQUATION.findall(text) for name in PATH.findall(some)}
        if file.endswith(".antt"):
            text = FIELD.sub(r"\1", text)
        else:
            bound |= {word for some in GENERIC.findall(text) for part in some.split(",") for word in part.split(":")[0].split()[:1]}
            bound |= set(VARIANT.findall(text))
        for path in set(PATH.findall(text)):
            found = self.head(file, scope, path, bound)
            if found:
                yield found

    def head(self, file, scope, path, bound):
        """Returns what the first name of a path is, or None if it is bound in the text, or of the language."""
        head, *rest = re.split(r"\.|::", path)
        it = scope.get(head)
        if it and (it.name or rest):
            return self.imported(file, it, it.name or rest[0], head in bound)
        here = self.defined(file, head) if file.endswith(".antt") else self.item_at(file, head) and Place(file, head)
        if here and (here.name == head or head[0].isupper()):  # a variable may have the name of a field
            return here
        if path.startswith(f"{head}::") and self.is_crate(head):
            return self.rust(head, rest[:-1], rest[-1])
        if file.endswith(".rt") and head in PRELUDE:
            return Word("std.prelude", head)
        if head[0].isupper() and head not in bound and head not in BUILT_IN and len(head) > 1:
            raise Unfollowed(f"{file} names `{head}`, which is neither imported nor defined there")
        return None

    def imported(self, file, it, name, bound):
        """Returns what an import's name is, or None for a function of src/, or a field of a variable that is named as the module."""
        try:
            found = self.named(it.module, name, file)
        except Unfollowed:
            if it.name or name[0].isupper() or not bound:
                raise
            return None
        if not found and name[0].isupper():
            raise Unfollowed(f"{file} imports `{name}` from {'.'.join(it.module).removeprefix('rust.')}, which has no such type")
        return found

    def _names(self, place):
        """Returns the places and the words that a definition names."""
        text, around = self.item(place)
        try:
            return frozenset(self.in_text(place.file, text, around)) - {place}
        except Unfollowed as why:
            raise Unfollowed(f"{place.file}, {place.name}: {why}") from why

    def roots(self, file, name):
        """Returns the places and the words that the contract of a public function names."""
        text, around = self.contract(file, name)
        try:
            return set(self.in_text(file, text, around))
        except Unfollowed as why:
            raise Unfollowed(f"{file}, the contract of {name}: {why}") from why

    def closure(self, roots, left_out=frozenset(), known=frozenset()):
        """Returns all places and words that the roots rest on, without what is left out. The impl of a trait for a type is one of them if
        both are, or are known.
        """
        reached, waiting = set(), set(roots) - left_out
        while waiting:
            it = waiting.pop()
            reached.add(it)
            waiting |= (self.names(it) if isinstance(it, Place) else set()) - left_out - reached
            if not waiting:
                waiting |= {impl for impl, both in self.impls.items() if both <= reached | known} - reached - left_out - known
        return reached
