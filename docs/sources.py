"""What docs/list_theorem, docs/list_api and gate/edits read of the sources: the definitions of a file of specs/, the items of a file of src/, and which
definitions the names in either mean by its `use` lines. It relies on the layout that `rt fmt` gives."""
import functools
import pathlib
import re

TOP = pathlib.Path(__file__).resolve().parent.parent
CRATES = TOP / "crates"
WORD = r"[A-Za-z_][\w'-]*"
TYPES = ("struct", "enum", "trait", "type", "const")


class Wrong(Exception):
    """A page, docs/theorem.txt or an import names what does not exist."""


class Kit:
    """A name that the kit defines, by its path."""

    def __init__(self, path: str) -> None:
        self.path, self.name = path, path.rpartition(".")[2]

    @property
    def key(self) -> str:
        return ".".join(self.path.split(".")[-2:])


def cell(text: str) -> str:
    """Makes a text fit for a cell of a table."""
    return text.replace("|", "\\|")


def code(text: str) -> str:
    return f"`{cell(text)}`"


def crates_in_order() -> list[str]:
    """Returns the crates as crates.txt orders them: each stands on crates before it alone."""
    rows = (TOP / "crates.txt").read_text("utf-8").split("\n")
    return [row.split(":")[0].split()[0] for row in rows if ":" in row and not row.startswith("#")]


@functools.cache
def lines_of(file: pathlib.Path) -> list[str]:
    return file.read_text("utf-8").split("\n")


class Definition:
    """A definition of specs/ or an item of src/: where it stands, its text, and what of that text names others."""

    def __init__(self, file: pathlib.Path, name: str, first: int, last: int, head: int, kind: str) -> None:
        self.file, self.name, self.first, self.head, self.kind = file, name, first, head, kind
        self.lines = lines_of(file)[first:last]
        while not self.lines[-1]:
            self.lines.pop()

    @property
    def crate(self) -> str:
        return self.file.relative_to(CRATES).parts[0]

    @property
    def key(self) -> tuple[str, int]:
        return (self.path, self.head)

    @property
    def path(self) -> str:
        return str(self.file.relative_to(TOP))

    @property
    def comment(self) -> list[str]:
        """Returns the lines of comment above the head."""
        return self.lines[:self.head - self.first]

    @property
    def body(self) -> list[str]:
        return self.lines[self.head - self.first:]


def comment_above(lines: list[str], at: int, mark: str = r" *(///|//(?!!)|#\[)") -> int:
    """Returns the first of the lines of comment, or of attributes, that stand directly above a line."""
    while at and re.match(mark, lines[at - 1]):
        at -= 1
    return at


@functools.cache
def definitions(file: pathlib.Path) -> dict[str, Definition]:
    """Returns the definitions of a file of specs/ by name, in their order."""
    lines = lines_of(file)
    # With the words of a definition that others may cite, or with a name and its type.
    heads = [at for at, line in enumerate(lines) if re.match(rf"(abbrev|unfoldable|record|data) |pub (?!use |mod )|{WORD} :(?= )", line)]
    firsts = [comment_above(lines, head, r"\s*--") for head in heads]
    found = {}
    for head, first, last in zip(heads, firsts, firsts[1:] + [len(lines)]):
        name = re.match(rf"(?:(?:abbrev|unfoldable|pub|record|data) )*({WORD})", lines[head])[1]
        kind = "data" if " data " in lines[head] else "record" if "record " in lines[head] else "definition"
        found[name] = Definition(file, name, first, last, head, kind)
    return found


@functools.cache
def constructors(file: pathlib.Path) -> dict[str, str]:
    """Returns which definition each constructor of a `data` of this file belongs to."""
    return {row[1]: item.name for item in definitions(file).values() if item.kind == "data"
            for row in (re.match(rf"  ({WORD}) :", line) for line in item.body) if row}


def split_uses(text: str, in_group: bool = False) -> list[tuple[str, str]]:
    """Returns the names that a `use` path of either language says: pairs of a name and its path, which ends with `.*` where it is a module's."""
    text = " ".join(text.split())
    alias = re.fullmatch(r"(\S+) as (\S+)", text)
    if alias:
        return [(alias[2], alias[1] if in_group else alias[1] + ".*")]
    group = re.fullmatch(r"(.*?)(\.|::)\{(.*)\}", text)
    if not group:
        return [(re.split(r"\.|::", text)[-1], text)]
    return [pair for part in split_commas(group[3]) for pair in split_uses(f"{group[1]}{group[2]}{part}", True)]


def split_commas(text: str) -> list[str]:
    """Splits at commas that stand in no braces."""
    parts, depth = [""], 0
    for char in text:
        depth += (char == "{") - (char == "}")
        if char == "," and not depth:
            parts.append("")
        else:
            parts[-1] += char
    return [part.strip() for part in parts if part.strip()]


def uses_in(lines: list[str], form: str) -> dict[str, str]:
    """Returns what these lines import in a form: the path of each name."""
    return dict(pair for row in re.findall(form, "\n".join(lines), re.M) for pair in split_uses(row))


@functools.cache
def spec_uses(file: pathlib.Path) -> dict[str, str]:
    """Returns what a file of specs/ imports: the path of each name."""
    return uses_in(lines_of(file), r"^(?:pub )?use (.*)")


# What lines of src/ import for contracts, and for the code.
GHOST, RUST = r"ghost use ([^;]*);", r"^ *(?:pub )?use ([^;]*);"


ITEM = re.compile(r"(?:pub(?:\(crate\))? )?(?:const |unsafe )*(struct|enum|trait|const|type|fn) (\w+)")
METHOD = re.compile(r"    (?:pub(?:\(crate\))? )?(?:const |unsafe |final )*fn (\w+)")


@functools.cache
def items(file: pathlib.Path) -> list[Definition]:
    """Returns the items of a file of src/ in their order: types, traits, constants, functions, and each `impl` with its lines."""
    lines, found = lines_of(file), []
    for head, line in enumerate(lines):
        impl = re.match(r"impl\b(?:<.*?>)? (?:(.*) for )?(\w+)", line)
        said = ITEM.match(line)
        if said or impl:
            last = end_of_item(lines, head)
            first = comment_above(lines, head)
            kind = f"impl {impl[1] or ''}".strip() if impl else said[1]
            found.append(Definition(file, impl[2] if impl else said[2], first, last, head, kind))
    return found


def end_of_item(lines: list[str], head: int) -> int:
    """Returns the line behind an item: behind the end of its body, or behind the `;` where it has none."""
    indent = re.match(" *", lines[head])[0]
    for at in range(head, len(lines)):
        if lines[at] == indent + "{}" or re.search(r"(;| \{.*\})$", lines[at]) and not re.match(r" *(//|requires|ensures|×).*\}$", lines[at]):
            return at + 1
        if lines[at] == indent + "{" or lines[at].endswith(" {"):
            return next(row for row in range(at, len(lines)) if re.match(rf"{indent}\}}", lines[row])) + 1
    raise SystemExit(f"no end of the item at line {head + 1}")


def methods(impl: Definition) -> list[Definition]:
    """Returns the functions of an `impl` or a trait."""
    lines, found = lines_of(impl.file), []
    for head in range(impl.head + 1, impl.head + len(impl.body)):
        said = METHOD.match(lines[head])
        if said:
            found.append(Definition(impl.file, said[1], comment_above(lines, head), end_of_item(lines, head), head, "fn"))
    return found


def signature(function: Definition) -> list[str]:
    """Returns the lines of a function from its head to its body, which opens on a line of its own where there are clauses."""
    lines, indent, has_clauses = [], re.match(" *", function.body[0])[0], False
    for line in function.body:
        if line in (indent + "{", indent + "{}", indent + ";"):
            break
        has_clauses = has_clauses or bool(re.match(r" *(requires|ensures|ghost)\b", line))
        if not has_clauses and not re.match(r" *//", line) and re.search(r"( \{|;|\})$", line):
            return lines + [re.sub(r"( \{| \{.*\}|;)$", "", line)]
        lines.append(line.removesuffix(";") if has_clauses else line)
    return lines


def clauses(function: Definition) -> list[tuple[str, str, int]]:
    """Returns the clauses of a function: the kind, the name or nothing, and the line where each begins."""
    rows = ((at, re.match(r" *(requires|ensures|ghost)\*? ?(\w*):? ?\{", line)) for at, line in enumerate(signature(function)))
    return [(row[1], row[2], function.head + at + 1) for at, row in rows if row]


def doc(item: Definition) -> str:
    """Returns the doc comment of an item as one text."""
    rows = (re.match(r" */// ?(.*)", line) for line in item.comment)
    return " ".join(row[1] for row in rows if row)


def head_text(file: pathlib.Path) -> str:
    """Returns the comment that a file opens with, as one text."""
    lines = []
    for line in lines_of(file):
        said = re.match(r"(?://!|--) ?(.*)", line)
        if not said:
            break
        lines.append(said[1])
    return " ".join(lines)


def first_sentence(text: str) -> str:
    return re.split(r"(?<=[.?]) (?=[A-Z`])", text)[0]


def source_of(crate: str, module: str) -> pathlib.Path | None:
    """Returns the file of src/ that has a module of a crate."""
    place = CRATES / crate / "src" / re.sub(r"::|\.", "/", module)
    return next((file for file in (place.with_suffix(".rt"), place / "mod.rt") if file.is_file()), None)


@functools.cache
def handed_out(crate: str) -> dict[str, tuple[str, str | None]]:
    """Returns what the lib.rt of a crate hands out: for each name the module and the name there; a public module stands for itself."""
    lines = lines_of(CRATES / crate / "src" / "lib.rt")
    uses = uses_in([line for line in lines if not line.startswith("use ")], RUST)
    found = {name: path.removeprefix("crate::").rpartition("::")[::2] for name, path in uses.items()}
    return found | {row[1]: (row[1], None) for row in (re.match(r"pub mod (\w+);", line) for line in lines) if row}


# What a text names

def without_comments(lines: list[str]) -> str:
    """Returns lines of antt or of Rattle as one text, without comments and quoted texts."""
    return "\n".join(re.sub(r'--(?= |$).*|//.*|"[^"]*"', "", line) for line in lines)


def words_in(text: str) -> list[tuple[str, str]]:
    """Returns the names in a text, each with what stands behind its first dot; the names of fields that are given a value are left out."""
    return re.findall(rf"(?<![\w.'-])({WORD})((?:\.{WORD})*)", re.sub(rf"([{{;]\s*){WORD} = ", r"\1", text))


def has_operator(name: str, text: str) -> bool:
    """Says whether a text uses an operator of the kit, as `◌+◌` or `if◌then◌else◌`."""
    spaced = " " + re.sub(r"([()])", r" \1 ", text).replace("\n", " ") + " "
    return all(f" {part} " in spaced for part in name.split("◌") if part)


def names_in_spec(item: Definition) -> list[Definition | Kit]:
    """Returns what a definition of specs/ names: definitions, items of src/, and names of the kit."""
    uses, own, made = spec_uses(item.file), definitions(item.file), constructors(item.file)
    text, found = without_comments(item.body), []
    for word, rest in words_in(text):
        if word in own or word in made:
            found.append(own[made.get(word, word)])
        elif word in uses:
            found += resolve(behind_alias(uses[word], rest))
    return [other for other in found if other is not item] + operators_in(uses, text)


def operators_in(uses: dict[str, str], text: str) -> list[Kit]:
    """Returns the operators of the kit that a text has, of those that are imported."""
    return [Kit(path) for name, path in uses.items() if "◌" in name and has_operator(name, text)]


def behind_alias(path: str, rest: str) -> str:
    """Returns the path of what is named behind the alias of a module; a value may have the name of an alias, and then none is meant."""
    if not path.endswith(".*"):
        return path
    return path[:-1] + rest.split(".")[1] if rest else ""


def names_in_clauses(file: pathlib.Path, lines: list[str], inner: list[str]) -> list[Definition | Kit]:
    """Returns what lines of src/ name: by the imports for contracts, those of `inner` too, and by those of the code."""
    outer = [line for line in lines_of(file) if not line.startswith(" ")]
    ghosts = uses_in(outer, GHOST) | uses_in(inner, GHOST)
    uses = uses_in([line for line in outer if "ghost" not in line], RUST)
    text = re.sub(r"ghost use [^;]*;|#\[.*", "", without_comments(lines))
    found = []
    for word, rest in words_in(text.replace("::", " ")):
        if word in ghosts:
            found += resolve(behind_alias(ghosts[word], rest))
        elif word in uses:
            found += resolve_type(uses[word], file)
        elif word[0].isupper():
            found += type_in(file, word)
    return found + operators_in(ghosts, text)


def names_in(item: Definition, whole: frozenset[tuple[str, str]]) -> list[Definition | Kit]:
    """Returns what a definition or an item names; of a type with a model nothing, but of the types in `whole`."""
    if item.file.suffix == ".antt":
        return names_in_spec(item)
    if (item.path, item.name) in whole or not has_model(item):
        return [other for other in names_in_clauses(item.file, item.body, item.body) if other is not item]
    return names_in_clauses(item.file, said_of_value(item), item.body) if item.kind == "impl Model" else []


def has_model(item: Definition) -> bool:
    """Says whether contracts see another value in place of this type's own."""
    return any(other.kind == "impl Model" and other.name == item.name for other in items(item.file))


def said_of_value(model: Definition) -> list[str]:
    """Returns what a model says of its value: its type, and its invariant where that speaks of the value itself."""
    said = {row[1]: row[2] for row in re.finditer(r"ghost (\w+) = \{ (.*) \};", "\n".join(model.body))}
    view, invariant = (said.get(word, "").partition(". ")[2] for word in ("view", "invariant"))
    return [said["Value"]] + ([invariant.replace(view, "")] if view and view in invariant else [])


# What a name means

def resolve(path: str) -> list[Definition | Kit]:
    """Finds what an antt path means: a definition of specs/, a type of src/ with its model, or a name of the kit."""
    parts = path.split(".")
    if not path:
        return []
    if parts[0] != "Rattle" or not (CRATES / parts[1]).is_dir():
        return [Kit(path)]
    if parts[3] == "declared":
        return declared(parts[1], parts[4:])
    file = CRATES / parts[1] / "specs" / ("/".join(parts[3:-1]) + ".antt")
    own = definitions(file)
    name = constructors(file).get(parts[-1], parts[-1])
    if name not in own and name not in spec_uses(file):
        raise Wrong(f"{file.relative_to(TOP)}: no definition of {name}, which others import")
    return [own[name]] if name in own else resolve(spec_uses(file)[name])


def declared(crate: str, parts: list[str]) -> list[Definition]:
    """Finds what a path behind `declared` means: a constant, or a type with its model."""
    if parts[0] == "TheConstants":
        return [item for file in sorted((CRATES / crate / "src").glob("**/*.rt")) for item in type_in(file, parts[1]) if item.kind == "const"]
    for length in range(len(parts) - 1, 0, -1):
        file = source_of(crate, "/".join(parts[:length]))
        if file:
            return type_in(file, parts[length])
    raise Wrong(f"{crate}: no type {'.'.join(parts)}")


def type_in(file: pathlib.Path | None, name: str) -> list[Definition]:
    """Returns the type of this name in a file of src/, and its model."""
    return [item for item in items(file) if item.name == name and item.kind in TYPES + ("impl Model",)]


def resolve_type(path: str, file: pathlib.Path) -> list[Definition | Kit]:
    """Finds the type that a path of the code means; one of the kit is none."""
    parts = path.split("::")
    crate = file.relative_to(CRATES).parts[0] if parts[0] == "crate" else parts[0]
    if not (CRATES / crate).is_dir():
        return []
    if len(parts) > 2:
        return type_in(source_of(crate, "/".join(parts[1:-1])), parts[-1])
    module, name = handed_out(crate).get(parts[-1], ("", None))
    if (CRATES / module.split("::")[0] / "src").is_dir():
        return resolve_type(f"{module}::{name}", file)
    return type_in(source_of(crate, module), name) if module and name else []
