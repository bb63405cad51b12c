"""Which calls are public: those that the lib.rt of a crate for other programs hands out, and the public functions of the programs' own crates."""
import re

import sources as src
from sources import CRATES

FOR_OTHERS = ("ods_base ods_header ods_space ods_directory ods_request ods_mount ods_look ods_amend ods_volume ods_share ods_records ods_paths ods_walk "
              "ods_files ods_check ods_init ods_filing ods_repair").split()
OF_PROGRAMS = "fs_saving fs_host fs_words fs_reads f11 f11fs".split()
TYPES = ("struct", "enum", "trait", "type")


def methods_of(item: src.Definition) -> list[src.Definition]:
    """Lists the public functions of a type in all files of its crate, or those of a trait."""
    if item.kind == "trait":
        return src.methods(item)
    files = sorted((CRATES / item.crate / "src").glob("**/*.rt"))
    impls = [other for file in files for other in src.items(file) if other.kind == "impl" and other.name == item.name]
    return [fn for impl in impls for fn in src.methods(impl) if fn.body[0].startswith("    pub ") and "pub(crate)" not in fn.body[0]]


def exported(crate: str) -> tuple[list[src.Definition], list[str]]:
    """Lists what the lib.rt of a crate hands out, and the names that no source has: of a public module all that is public in it."""
    found, missing = [], []
    for name, (module, own) in src.handed_out(crate).items():
        home, _, module = module.partition("::") if (CRATES / module.split("::")[0] / "src").is_dir() else (crate, "", module)
        if home != crate and not module:
            module, own = src.handed_out(home)[own]
        file = src.source_of(home, module)
        items = [item for item in src.items(file) if item.kind in TYPES + ("fn", "const")] if file else []
        chosen = [item for item in items if (item.name == own if own else re.match(r"pub (?!\()", item.body[0]))]
        found += chosen
        missing += [] if chosen else [f"{crate}: no {name} in {module}"]
    return found, missing


def calls_of(items: list[src.Definition]) -> list[src.Definition]:
    """Lists the functions among these items, and the public ones of their types."""
    return [call for item in items for call in ([item] if item.kind == "fn" else methods_of(item) if item.kind in TYPES else [])]


def public_clauses() -> list[tuple[str, int, list[str]]]:
    """Lists the public calls with a body, by the file and the line of their names, each with the names of the clauses that promise something; one
    without a name is called by its kind."""
    calls = [call for crate in FOR_OTHERS for call in calls_of(exported(crate)[0])]
    for crate in OF_PROGRAMS:
        items = [item for file in sorted((CRATES / crate / "src").glob("**/*.rt")) for item in src.items(file)]
        functions = [call for item in items for call in ([item] if item.kind == "fn" else src.methods(item) if item.kind.startswith("impl") else [])]
        calls += [call for call in functions if re.match(r" *pub (?!\()", call.body[0])]
    found = {(call.path, call.head + 1): [name or kind for kind, name, _ in src.clauses(call) if kind != "requires"] for call in calls if not "\n".join(call.body).endswith("{}")}
    return [(path, first, said) for (path, first), said in found.items() if said]
