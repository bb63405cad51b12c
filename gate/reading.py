"""What is read before anything is proved: the functions of a crate's sources, and its wrong bodies.

The file crates/NAME/edits holds them, each in a section:
    == NAME                      what the wrong body does, in words
    file: src/block.rt           the file; then pairs of lines: a text that stands there once, and the text in its place
    old:     Block { bytes: [0; 512] }
    new:     Block { bytes: [1; 512] }
    clause: zeros value          the clause that refuses it: the function, and the clause's name, or `ensures` if it has none

The word after the function may be another: `requires` or a condition's name, if the edited function calls it and no longer meets what it asks for;
`trait` for a contract of a trait, `invariant` for that of a type, `safe` for a sum, an index or a callee's condition, `ends` for the end of a
recursion, and `loop` in the body of a loop, where only its invariant speaks.
"""
import collections
import functools
import re

# Its file, its name as a check writes it (module::Type::f), the names that no other edit of a round may have (that name and its ring of calls), and
# its lines, from 1: the first, the one that opens the body, the last.
Function = collections.namedtuple("Function", "file name keys first body last")

# Its name (crate/name), the clause that refuses it, its changes (file, from, to, text), and the functions in whose bodies they are, or those that the
# clause names if a change is outside of bodies; then whether one is, and its section.
Edit = collections.namedtuple("Edit", "label clause changes functions is_outside text")

IMPL = re.compile(r"(?:unsafe )?impl(?:<.*?>)? (?:(.*) for )?(\w+)(?:<([^{]*)>)?")
FUNCTION = re.compile(r"( *)(?:pub(?:\(.*?\))? )?(?:const |unsafe )*fn (\w+)")
PAIR = re.compile(r"^(?:file: (.*)\n)?old: (.+)\nnew: ?(.*)$", re.M)
NO_CLAUSES = ("ends", "safe", "trait", "loop", "invariant")


def uses_of(top):
    """Returns for each crate of crates.txt the crates of the repository that its line names."""
    rows = [row.partition("#")[0].split(":") for row in (top / "crates.txt").read_text("utf-8").split("\n")]
    rows = {row[0].split()[0]: row[1].split() for row in rows if len(row) == 2}
    return {name: [it for it in words if it in rows] for name, words in rows.items()}


def below(names, uses):
    """Returns these crates and all that they depend on, lowest first."""
    found = []
    for name in names:
        found += [it for it in [*below(uses[name], uses), name] if it not in found]
    return found


def module_of(file):
    return "".join(f"{word}::" for word in file[len("src/") : -len(".rt")].split("/") if word not in ("lib", "main", "mod"))


def scope_of(impl, folder, file):
    """Returns the first part of the names of an impl's methods: a method is in its type's module, one of a trait in the impl's. Arguments of the type,
    as in Vec<Reply>, follow its name, and parameters, which have one letter, do not. The words of a trait's path are joined: FromIoError."""
    of = re.findall(r"\b[A-Z]\w+", impl[3] or "")
    traits = re.findall(r"(?:\w+::)*[A-Z]\w*", re.sub(r"(<\w+)<.*?>", r"\1", impl[1] or ""))
    traits = [word[:1].upper() + word[1:] for it in traits for word in it.split("::")]
    declared = re.compile(rf"^(?:pub\S* )?(?:struct|enum) {impl[2]}\b", re.M)
    homes = [it for it in folder.glob("src/**/*.rt") if declared.search(it.read_text("utf-8"))]
    home = file if traits or len(homes) != 1 else str(homes[0].relative_to(folder))
    return "".join([module_of(home), impl[2], *of, *traits, "::"])


def functions_in(lines, folder, file):
    """Lists the functions in these lines of a source file, by the layout that `rt fmt` gives it."""
    module = scope = module_of(file)
    found = []
    for at, line in enumerate(lines):
        impl, said = IMPL.match(line), FUNCTION.match(line)
        if impl and not line.endswith("{}"):
            scope = scope_of(impl, folder, file)
        elif line == "}":
            scope = module
        elif said and len(said[1]) == (0 if scope == module else 4):
            indent, name = said.groups()
            body = next((it for it in range(at, len(lines)) if re.fullmatch(indent + r"(\S.*)?[{}]|.*;", lines[it])), at)
            if lines[body].endswith(("{", "{}")):
                rings = re.findall(r"#\[cycle\((\w+)\)\]", "".join(lines[at - 3 : at]))
                keys = frozenset(scope + it for it in [name, *rings])
                last = lines.index(indent + "}", body) if lines[body].endswith("{") else body
                found.append(Function(file, scope + name, keys, at + 1, body + 1, last + 1))
    return found


@functools.lru_cache(None)
def functions_of(folder, file):
    """Lists the functions of a source file of the crate in this folder."""
    return functions_in((folder / file).read_text("utf-8").split("\n"), folder, file)


@functools.lru_cache(None)
def all_functions(folder):
    """Lists the functions of a crate."""
    return [it for file in sorted(folder.glob("src/**/*.rt")) for it in functions_of(folder, str(file.relative_to(folder)))]


def named(name, folder):
    """Lists the functions of a crate that have this name, of whatever type."""
    return [it for it in all_functions(folder) if it.name.rpartition("::")[2] == name]


def head_of(function, folder):
    """Returns the lines of a function from its name to the one that opens its body."""
    return "\n".join((folder / function.file).read_text("utf-8").split("\n")[function.first - 1 : function.body])


def has_clause(name, word, folder, top):
    """Says whether a function of this name, of the crate or else of any, has a clause of this name."""
    folders = [folder] if named(name, folder) else [it.parent for it in top.glob("crates/*/src")]
    pattern = re.compile(rf" ({word}|ensures {word}|requires {word}) {{")
    return any(word in NO_CLAUSES or pattern.search(head_of(it, home)) for home in folders for it in named(name, home))


def read_edit(section, folder, top):
    """Returns the edit in this section of a crate's file, or a line that says why it cannot be applied."""
    name, _, said = section.partition("\n")
    label, path, changes, functions = f"{folder.name}/{name.strip()}", "", [], []
    pairs = PAIR.findall(said)
    for given, old, new in pairs:
        path = given.strip() or path
        text = (folder / path).read_text("utf-8") if (folder / path).is_file() else ""
        if not re.match(r"(src|specs|proofs)/", path) or text.count(old) != 1:
            return f"{label}: BAD EDIT: a text of 'old:' stands {text.count(old)} times in {path or 'no file'}, and not once"
        start = text.index(old)
        row = text[:start].count("\n") + 1
        changes.append((path, start, start + len(old), new))
        functions.append(next((it for it in functions_of(folder, path) if it.body < row < it.last), None) if path.endswith(".rt") else None)
    if not pairs or 2 * len(pairs) != len(re.findall("^(?:old|new):", said, re.M)):
        return f"{label}: BAD EDIT: it is not made of 'old:' lines with 'new:' lines right below"
    clause = "".join(re.findall(r"^clause: (.*)$", said, re.M)[:1])
    function, _, word = clause.partition(" ")
    if not word or not has_clause(function, word, folder, top):
        return f"{label}: BAD EDIT: no function {function} has a clause {word}" if clause else f"{label}: BAD EDIT: it has no line 'clause:'"
    is_outside = None in functions
    functions = named(function, folder) if is_outside else functions
    return Edit(label, clause, tuple(changes), tuple(functions), is_outside, said) if functions else f"{label}: BAD EDIT: {folder.name} has no function {function}"


def sections_of(text):
    """Splits a crate's file of edits into its sections, each from its name on."""
    return re.split(r"^== ", text, flags=re.M)[1:]


def edits_of(crate, top):
    """Reads the edits of a crate; one that cannot be applied is a line that says so."""
    folder = top / "crates" / crate
    file = folder / "edits"
    return [read_edit(it, folder, top) for it in sections_of(file.read_text("utf-8"))] if file.is_file() else []
