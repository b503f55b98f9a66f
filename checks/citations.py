#!/usr/bin/env python3
"""What the documents cite of the code: each file, function, definition and clause is looked up where it should stand.

- `path/to/file.rt` is a file, from the root or from the document's folder; a `*` stands for any name.
- `Owner::member` is a function, a variant or a constant of that type, or an item of that module or crate.
- `clause` after `function` and a dot is the name of a clause of a function of that name.
- `name` after a link to a file of specs/ is defined in that file.
- In a column of the name `in specs/`, `File`: `name` is defined in that file, of the crate of the row or the one named before it.
- In a table with the columns function and clause, the clauses are those of the functions; and if there is a column of callers,
  one of them calls the function, perhaps through one other.
- A link to a section leads to a heading.
- Any other `name` is a word of the code. What the standard library has is not looked up, nor what only the history names.

It reads text alone and knows no types: where functions have one name, any of them will do.
"""
import re
from collections import defaultdict
from dataclasses import dataclass, field
from pathlib import Path

HEADING = re.compile(r"^#+ (.*)$", re.M)
SECTION = re.compile(r"\]\(([^)\s#:]*)#([^)\s]+)\)")
SPAN = re.compile(r"`([^`]+)`")
NAME = re.compile(r"[A-Za-z_][\w']*")
PATH = re.compile(r"[\w./*-]+/[\w.*-]*|[\w-]+\.(?:rt|antt|py|md|script|txt)")
AFTER_LINK = re.compile(r"\]\(([^)\s]+\.antt)\):? ((?:(?:, )?`[^`]+`)+)")
CITED_CLAUSES = re.compile(r"((?:(?:, )?`[\w:]+`)+) · ((?:(?:, )?`[^`]+`)+)")
OWNER = re.compile(r"(?:impl(?:<[^{]*?>)? (?:(?P<trait>\w+)[^{]*? for )?|(?:pub(?:\([^)]*\))? )?(?:struct|enum|trait) )(?P<owner>[A-Z]\w*)")
FUNCTION = re.compile(r"\s*(?:pub(?:\([^)]*\))? )?(?:const |final |unsafe )*fn (\w+)")
ALIAS = re.compile(r"pub type (\w+)(?:<[^=]*>)? =\s*(\w+)", re.M)
ITEM = re.compile(r"\s*(?:pub(?:\([^)]*\))? )?(?:const|static|struct|enum|trait|type|mod) (\w+)")
VARIANT = re.compile(r"    (\w+)(?:[ ({,]|$)")
DEFINED = re.compile(r"\s*(?:abbrev |unfoldable )?(?:pub )?(?:record |data )?([\w'◌-]+) (?::|\(|\{)")
# What was, and a page that is made of the code.
UNREAD = ("CHANGELOG.md", "EDITS.md")
LIBRARY = {"std", "thread", "Arc", "output"}
COLUMNS = ("function", "called by", "clause")
SPECS = "in specs/"
TERM = re.compile(r"(?:(\w+) )?`([A-Z]\w*)`(?:: (.*))?")


@dataclass
class Function:
    """A function of the code: its name, its type or module, its crate, the names of its clauses, and its text."""

    name: str
    owner: str
    trait: str
    module: str
    crate: str
    text: list = field(default_factory=list)

    def own_clauses(self):
        return set(re.findall(r"^\s*ensures (\w+) \{", "\n".join(self.text), re.M))

    def calls(self):
        """The names that its body calls."""
        return set(re.findall(r"\b(\w+)(?:::<[^(]*>)?\(", "\n".join(self.text[1:])))


class Code:
    """The names of the code, by what they are of."""

    def __init__(self, root, files):
        self.root = root
        self.functions = defaultdict(list)
        self.members = defaultdict(set)
        self.aliases = {}
        self.defined = {}
        self.words = set()
        for path in files:
            if path.suffix == ".rt" and "src" in path.parts:
                self.read_code(path)
            elif path.suffix == ".antt":
                text = path.read_text(encoding="utf-8")
                self.defined[path] = {found[1] for found in map(DEFINED.match, text.split("\n")) if found}
            if path.suffix != ".md":
                self.words.add(path.stem)
                self.words.update(path.relative_to(root).parts)
                if path.suffix not in (".png", ".svg", ".transcript"):
                    self.words.update(NAME.findall(path.read_text(encoding="utf-8", errors="replace")))

    def read_code(self, path):
        """Takes in the functions and items of a file of src/."""
        crate = path.relative_to(self.root).parts[1]
        module, owner, trait, function = path.stem, "", "", None
        text = re.sub(r"^impl<\n.*?\n> ?", "impl ", path.read_text(encoding="utf-8"), flags=re.M | re.S)
        for alias, meant in ALIAS.findall(text):
            self.aliases[alias] = meant
        for line in text.split("\n"):
            found = OWNER.match(line)
            if found:
                owner, trait, function = found["owner"], found["trait"] or "", None
            elif line == "}":
                owner, trait, function = "", "", None
            start, item = FUNCTION.match(line), ITEM.match(line)
            if start:
                function = Function(start[1], owner, trait, module, crate)
                self.functions[start[1]].append(function)
            name = start[1] if start else item[1] if item else found["owner"] if found else None
            if name is None and owner and function is None:
                variant = VARIANT.match(line)
                name = variant[1] if variant else None
            if name:
                for place in {owner, module, crate} - {""}:
                    self.members[place].add(name)
            if function:
                function.text.append(line)

    def named(self, cited):
        """The functions that `name`, `Owner::name` or `crate` `module::name` may be."""
        *owners, name = cited.split("::")
        owner = self.aliases.get(owners[-1], owners[-1]) if owners else None
        return [f for f in self.functions[name] if owner in (None, f.owner, f.module, f.crate)]

    def clauses(self, function):
        """The names of a function's clauses: with those of the trait that it implements a part of."""
        traits = [f for f in self.functions[function.name] if function.trait and f.owner == function.trait]
        return function.own_clauses().union(*(f.own_clauses() for f in traits))

    def is_called(self, name, callers):
        """A function of this name is called by one of these, or by one that one of these calls."""
        called = set().union(*(f.calls() for f in callers))
        between = [f for middle in called for f in self.functions[middle]]
        return name in called or any(name in f.calls() for f in between)

    def has_path(self, cited, document):
        if re.search(r"\b[A-Z]{4,}\b", cited.rsplit(".", 1)[0]) and not cited.endswith(".md"):
            return True  # a place in words, as specs/SUBJECT.antt
        starts = (self.root, self.root / "crates", document.parent)
        return any(any(start.glob(cited.rstrip("/"))) for start in starts) or any(self.root.glob(f"crates/*/**/{cited}"))

    def has_member(self, cited):
        *owners, member = cited.split("::")
        owner = self.aliases.get(owners[-1], owners[-1])
        return owners[0] in LIBRARY or member in self.members[owner]


def cells(row):
    return [cell.strip() for cell in re.split(r"(?<!\\)\|", row)[1:-1]]


def spans(text):
    return SPAN.findall(text)


def wrong_spans(code, document, text):
    """What is wrong with the code spans of a text, each taken by itself."""
    for span in spans(text):
        if PATH.fullmatch(span) and not span.startswith(("./prestel", ".ci")):
            if not code.has_path(span, document):
                yield f"no file is at {span}"
        elif re.fullmatch(r"\w+(?:::\w+)+", span):
            if not code.has_member(span):
                yield f"nothing is called {span}"
        elif NAME.fullmatch(span) and span not in code.words | LIBRARY:
            yield f"no word of the code is {span}"


def wrong_sections(document, text):
    """The links to sections that no heading has."""
    for target, section in SECTION.findall(text):
        path = document.parent / target if target else document
        headings = HEADING.findall(path.read_text(encoding="utf-8")) if path.exists() else []
        if section not in {re.sub(r"[^\w\- ]", "", heading.lower()).replace(" ", "-") for heading in headings}:
            yield f"no heading of {path.name} is {section}"


def wrong_definitions(code, document, text):
    """The names after a link to a file of specs/ that are not defined there."""
    for target, names in AFTER_LINK.findall(text):
        path = (document.parent / target).resolve()
        for name in spans(names):
            if path in code.defined and NAME.fullmatch(name.split(".")[0]) and name.split(".")[0] not in code.defined[path]:
                yield f"{path.name} does not define {name}"


def wrong_clauses(code, text):
    """The clauses after functions and a dot that none of them has. After a type's name may be its functions, too."""
    for listed, names in CITED_CLAUSES.findall(text):
        functions, members = [], set()
        for cited in spans(listed):
            members |= code.members.get(cited, set())
            found = code.named(cited) or [f for name in members for f in code.functions[name] if cited in (f.owner, f.module, f.crate)]
            if not found:
                yield f"no function is called {cited}"
            functions += found
        clauses = set().union(*(code.clauses(f) for f in functions))
        for name in spans(names):
            if functions and re.fullmatch(r"[a-z_]+", name) and name not in clauses | members | LIBRARY:
                yield f"no clause of {listed} is called {name}"


def functions_in(code, cell):
    """The functions that a cell cites: a word that is a crate's or a type's name goes before the next."""
    owner = ""
    for span in spans(cell):
        if (code.root / "crates" / span).is_dir():
            continue
        if not re.fullmatch(r"[\w:]+", span):
            continue
        cited = span if "::" in span or not owner else f"{owner}::{span}"
        owner = cited.rsplit("::", 1)[0] if "::" in cited else ""
        found = code.named(cited) or code.named(span)
        yield span, found


def wrong_terms(code, row):
    """What is wrong with the last cell of a row of the glossary: files of specs/, each with names that it defines."""
    here = re.findall(r"\b(?:pv_\w+|prestel)\b", re.sub(r"\([^)]*\)", "", row.get("crate", "")))
    for part in row[SPECS].split("; "):
        found = TERM.fullmatch(part)
        if not found:
            continue
        crates = [found[1]] if found[1] else here
        paths = [code.root / f"crates/{crate}/specs/{found[2]}.antt" for crate in crates]
        if not any(path in code.defined for path in paths):
            yield f"{' and '.join(crates)}: no specs/{found[2]}.antt"
            continue
        names = set().union(*(code.defined.get(path, set()) for path in paths))
        for name in spans(found[3] or ""):
            if name not in names:
                yield f"specs/{found[2]}.antt of {' and '.join(crates)} does not define {name}"


def wrong_row(code, row):
    """What is wrong with a row of a table that has columns of functions and of their clauses, and perhaps of their callers."""
    done, by, clause = (row.get(column, "") for column in COLUMNS)
    done_by = list(functions_in(code, done))
    callers = list(functions_in(code, by))
    for span, found in done_by + callers:
        if not found:
            yield f"no function is called {span}"
    texts = [f for _, found in callers for f in found]
    for span, found in done_by:
        if found and texts and not code.is_called(span.split("::")[-1], texts):
            yield f"{span} is not called by {by}"
    clauses = set().union(*(code.clauses(f) for _, found in done_by for f in found))
    for name in spans(clause):
        if done_by and name not in clauses:
            yield f"{done} has no clause {name}"


def cited(root, files):
    """A line for each file or name that a document cites and that is not there."""
    code = Code(root, files)
    for document in files:
        if document.suffix != ".md" or document.name in UNREAD:
            continue
        fenced, columns = False, None
        for number, line in enumerate(document.read_text(encoding="utf-8").split("\n"), 1):
            if line.startswith("```"):
                fenced = not fenced
            if fenced or line.startswith("```"):
                continue
            found = [*wrong_spans(code, document, line), *wrong_sections(document, line)]
            found += [*wrong_definitions(code, document, line), *wrong_clauses(code, line)]
            if not line.startswith("|"):
                columns = None
            elif columns is None:
                columns = cells(line)
            elif {"function", "clause"} <= set(columns) and not line.startswith("|---"):
                found += wrong_row(code, dict(zip(columns, cells(line))))
            elif SPECS in columns and not line.startswith("|---"):
                found += wrong_terms(code, dict(zip(columns, cells(line))))
            for what in dict.fromkeys(found):
                yield f"{document.relative_to(root)}:{number}: {what}", False


if __name__ == "__main__":
    import subprocess

    here = Path(__file__).resolve().parent.parent
    listed = subprocess.run(["git", "ls-files"], cwd=here, capture_output=True, text=True, check=True).stdout.split("\n")
    for text, _ in cited(here, [here / name for name in listed if name and (here / name).is_file()]):
        print(text)
