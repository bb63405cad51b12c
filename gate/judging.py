"""What a check of an edited crate says of its edits: which goals of the edited function are not met, and of which clause each is."""
import re

# An error that says only that a name is missing or was not admitted: what an edit took away, or what depends on another error.
MISSING = re.compile(r"has no field|is not in scope|has no `|was not admitted|was rejected, (?:was|were) not checked")
GOAL = re.compile(r"note: (src/\S+?):(\d+):\d+: it is not proved that .* \(`([^`]+)`\)")
OPEN = re.compile(r"fn \w+::(\S+): (?!proved).*did not prove (`[^;]*)")
WRONG = re.compile(r"\S*?\bproofs/(\S+)/\w+\.antt(?::\d+:\d+)?: error: `([^`]+)`: ")
DECLARED = re.compile(r"^ *(?:pub |abbrev |unfoldable )*([^\s:(){}]+) :(?= |$)", re.M)
NO_CLAUSES = ("safe", "ends", "loop", "invariant", "requires")


def is_of(name, edit):
    """Returns whether this name, of a function or a proof folder, is of a function of the edit or a closure in it."""
    name = re.sub(r"(^|::)fn::", r"\1", name.replace("/", "::").replace("+", "")) + "::"
    return any(name.startswith(f"{key}::") for it in edit.functions for key in it.keys)


def is_of_clause(goal, edit):
    """Returns whether a goal, by the name that the check gives it, is of the clause that the edit names."""
    function, _, word = edit.clause.partition(" ")
    if goal.startswith("returns"):
        clause = re.search(r"-clause-(\w+)", goal)
        return word == "trait" or word in ([clause[1], f"ensures {clause[1]}"] if clause else [word] if word not in NO_CLAUSES else [])
    if re.search(r"-(init|preserved)(-in_\S+)?$", goal):
        return word == "loop"
    if goal.endswith("-smaller") or goal.startswith("decreases"):
        return word == "ends"
    if goal.startswith("invariant_of-"):
        return word == "invariant"
    if "-requires" in goal:
        return word == "safe" or goal.startswith(function) and not is_edited(function, edit)
    return word == "safe"


def is_edited(name, edit):
    """Returns whether the edit is in the body of a function of this name."""
    return any(it.name.rpartition("::")[2] == name for it in edit.functions)


def behind(lemma, folder):
    """Returns what stands on this lemma in the files of a proof folder, by the names that they mention; the lemma itself too."""
    parts = {}
    for file in folder.glob("*.antt"):
        said = DECLARED.split(file.read_text("utf-8"))
        for name, body in zip(said[1::2], said[2::2]):
            parts[name] = parts.get(name, "") + body
    found, more = set(), {lemma}
    while more:
        found |= more
        said = re.compile(rf"(?<![\w.-])(?:{'|'.join(map(re.escape, more))})(?![\w-])")
        more = {name for name, body in parts.items() if said.search(body)} - found
    return found


class Said:
    """The lines of `rt check` in the folder of a crate with edits."""

    def __init__(self, crate, text, folder):
        self.folder = folder
        self.lines = [it for it in text.split("\n") if it and not it.startswith(" ")]
        self.functions = dict(it.groups() for it in re.finditer(rf"^fn {crate}::(\S+): (.*)$", text, re.M))
        self.unproved = {name: rest for name, rest in self.functions.items() if not rest.startswith("proved")}
        self.verdict = next((it for it in self.lines if it.startswith(("logic=", "only="))), "")
        self.reached_all = bool(self.functions and self.verdict)

    def goals(self, edit):
        """Returns the goals of the edit's functions that are not met, each with its line. An error that only says that a name is missing
        is none; where a lemma of the function's own is wrong, the goals that depend on it are its goals."""
        found = {}
        for line in self.lines:
            if (it := GOAL.match(line)) and any(it[1] == by.file and by.first <= int(it[2]) <= by.last for by in edit.functions):
                found.setdefault(it[3], line)
            elif (it := OPEN.match(line)) and is_of(it[1], edit):
                for goal in re.findall("`([^`]+)`", it[2].partition("; it calls")[0]):
                    found.setdefault(goal, line)
            elif (it := WRONG.match(line)) and is_of(it[1], edit) and not MISSING.search(line):
                for goal in behind(it[2], self.folder / "proofs" / it[1]):
                    found.setdefault(goal, line)
        return found

    def judge(self, edit, is_alone):
        """Returns whether the edit is refused at its clause, or None where that cannot be told beside others, and the line for it."""
        if edit.is_outside:
            return self.judge_outside_bodies(edit)
        goals = self.goals(edit)
        of_clause = [line for goal, line in goals.items() if is_of_clause(goal, edit)]
        if of_clause:
            return True, of_clause[0]
        if not is_alone and self.calls_unproved(edit):
            return None, "tried again by itself"
        if goals:
            return False, f"REFUSED ELSEWHERE: not at {edit.clause}, but at {', '.join(goals)}"
        told = [f"{name}: {rest}" for name, rest in self.functions.items() if is_of(name, edit)]
        if self.reached_all and not any(is_of(it, edit) for it in self.unproved):
            told.append(f"the check does not mention {edit.functions[0].name}")
            return False, f"LET THROUGH: {told[0]}"
        lost = [it for it in self.lines if (said := WRONG.match(it)) and is_of(said[1], edit)]
        return False, f"NOT JUDGED: {(lost or told or [' / '.join(self.lines[-5:])])[0]}"

    def calls_unproved(self, edit):
        """Says whether a function of the edit calls one that is not proved, itself or by what it calls: some of its goals may not have been tried then."""
        found, more = set(), {it for it in self.unproved if is_of(it, edit)}
        while more:
            rest = " ".join(self.unproved.get(it, "").partition("it calls ")[2] for it in more)
            more = {it.partition("::")[2] for it in re.findall(r"`(\S+?)`", rest)} - found
            found |= more
        return any(not is_of(it, edit) for it in found)

    def judge_outside_bodies(self, edit):
        """The same of an edit of a definition, a lemma or a type, which is tried by itself: the function that it names must not be proved."""
        files = "|".join(["src/", "specs/", *(re.escape(it[0]) for it in edit.changes)])
        unread = rf"(\S*/)??({files})\S*: error: (?!`[^`]*`: (?!.*(not in scope|has no field|no name|is missing|expected the end)))"
        bad = [it for it in self.lines if re.match(unread, it)]
        if bad or not self.reached_all:
            return False, f"BAD EDIT: {(bad or self.lines[-1:])[0]}"
        name = edit.clause.partition(" ")[0]
        found = [f"{it}: {rest}" for it, rest in self.unproved.items() if it.rpartition("::")[2] == name]
        return bool(found), (found or [f"LET THROUGH: {name} is proved"])[0]
