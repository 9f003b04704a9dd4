"""Reads the definitions of the crates, `crates/NAME/specs/FILE.antt`, and tells on which others each of them stands.

A definition stands on what its words name, in its file or by an import. A variable names nothing where it is bound: by
the left side of a clause, a λ, a `let`, a step of a `do`, a branch, or a type. Nor does a field of a record.
"""
import os
import re

# `use Rattle.CRATE.specs.FILE.{A, B as C}`, or `use Rattle.CRATE.specs.FILE as NAME`
IMPORT = re.compile(r"(?:unfoldable |pub )*use Rattle\.(\w+)\.specs\.([\w.]+)(?:\.\{([^}]*)\}| as (\w+))$")
PASSED = re.compile(r"(unfoldable |pub )*(use|mod|infix[lr]?) ")
# the line that a definition begins with
DECLARED = re.compile(r"(?:(?:unfoldable |abbrev |pub |private |record |data )+|(?=\S+ :))([^\s({:]+)")
CONSTRUCTOR = re.compile(r"  (\S+) :")
WORD = re.compile(r'"[^"]*"|[(){};,]|\.(?![^\s(){};,.])|\.?[^\s(){};,.]+(?:\.[^\s(){};,.]+)*')
CLOSING = {"(": ")", "{": "}", "[": "]"}
# what a pattern may have of the kit's library, beside its operators and the variants of an enum
LIBRARY = {"zero", "suc", "[]", "Some", "None", "Ok", "Err", "true", "false", "pos", "negsuc", "tt"}
# the logic's own words
LOGIC = {"Type", "Unit", "tt", "⊥", "¬", "×", "→", ":", "record", "elim", "as"}


class Word(str):
    """A word with its column, and whether it begins a line."""


class Group(list):
    """What stands between two brackets, where the first one stands."""


def words(lines):
    for line in lines:
        for at, it in enumerate(WORD.finditer(line)):
            word = Word(it[0])
            word.column, word.begins = it.start(), at == 0
            yield word


def grouped(row, closing=None):
    """Lays out the words up to the closing bracket, or to the end."""
    items = []
    for word in row:
        if word == closing:
            return items
        if word in CLOSING:
            group = Group(grouped(row, CLOSING[word]))
            group.opening, group.column, group.begins = word, word.column, word.begins
            word = group
        items.append(word)
    return items


def flat(items):
    for item in items:
        yield from flat(item) if isinstance(item, Group) else [item]


def split(items, *marks):
    """Cuts a row at each of these words."""
    parts = [[]]
    for item in items:
        if item in marks:
            parts.append([])
        else:
            parts[-1].append(item)
    return parts


def cut(items, mark):
    """Gives what stands before the first such word, and what stands behind it."""
    at = items.index(mark)
    return items[:at], items[at + 1 :]


def block(items):
    """Cuts a block into its lines, which begin at one column, and gives what stands behind it."""
    column, lines = items[0].column, [[]]
    for at, item in enumerate(items):
        if at and item.begins and item.column < column:
            return lines, items[at:]
        if at and item.begins and item.column == column:
            lines.append([])
        lines[-1].append(item)
    return lines, []


class Names:
    """Gathers the words of a definition that it doesn't bind itself."""

    def __init__(self, is_constructor):
        self.is_constructor = is_constructor
        self.found = set()

    def bind(self, items):
        """Gives the variables of a pattern, or of the left side of a type."""
        bound = set()
        for word in flat(items):
            if self.is_constructor(word):
                self.found.add(word)
            else:
                bound.add(word)
        return bound

    def read(self, items, bound):
        """Reads a row of words in which these variables are bound."""
        for part in split(items, ",", ";"):
            self.read_part(part, bound)

    def read_part(self, items, bound):
        while items:
            item, items = items[0], items[1:]
            if isinstance(item, Group):
                bound = self.read_group(item, bound)
            elif item == "λ":
                pattern, items = cut(items, ".")
                for it in pattern:
                    bound = self.read_group(it, bound) if ":" in it else bound | self.bind([it])
            elif item == "let":
                pattern, items = cut(items, "=")
                value, items = self.cut_let(items)
                pattern, *types = split(pattern, ":")
                for it in (value, *types):
                    self.read(it, bound)
                bound = bound | self.bind(pattern)
            elif item == "do":
                self.found.add(">>=")
                lines, items = block(items)
                self.read_steps(lines, bound)
            elif item == "where":
                lines, items = block(items)
                self.read_fields(lines, bound)
            elif item[0] not in '."' and item.partition(".")[0] not in bound:
                self.found.add(item)

    def cut_let(self, items):
        """Cuts what stands behind the `=` of a `let` at its `in`."""
        open_lets = 0
        for at, item in enumerate(items):
            if item == "in" and open_lets == 0:
                return items[:at], items[at + 1 :]
            open_lets += (item == "let") - (item == "in")
        raise ValueError("a `let` without its `in`")

    def read_steps(self, lines, bound):
        for line in lines:
            pattern, value = cut(line, "←") if "←" in line else ([], line)
            self.read(value, bound)
            bound = bound | self.bind(pattern)

    def read_fields(self, lines, bound):
        for line in lines:
            field, type_ = cut(line, ":")
            self.read(type_, bound)
            bound = bound | {*flat(field)}

    def read_group(self, group, bound):
        """Reads what stands between brackets, and gives what is bound behind it."""
        if group.opening == "[":
            for branch in filter(None, split(group, "|")):
                pattern, value = cut(branch, "↦")
                self.read(value, bound | self.bind(pattern))
        elif ":" in group and "let" not in group:
            variables, type_ = cut(group, ":")
            self.read(type_, bound)
            return bound | {*flat(variables)}
        elif group.opening == "{" and "=" in group:
            for field in filter(None, split(group, ";")):
                self.read(cut(field, "=")[1], bound)
        else:
            self.read(group, bound)
        return bound


class File:
    """The definitions of a file, each with its lines, and what it imports."""

    def __init__(self, place, text):
        self.place, self.definitions = place, {}
        self.imports, self.modules, self.constructors = {}, {}, {}
        lines = []
        for line in text.splitlines():
            if not line.strip() or line.lstrip().startswith("--"):
                continue
            if PASSED.match(line):
                self.read_import(line)
                continue
            declared = DECLARED.match(line)
            if declared:
                lines = self.definitions[declared[1]] = []
            lines.append(line)
        for name, lines in self.definitions.items():
            if re.match(r"(pub )?data ", lines[0]):
                self.constructors |= {it[1]: name for it in map(CONSTRUCTOR.match, lines) if it}
        operators = [name for name in (*self.imports, *self.definitions) if "◌" in name]
        self.operators = {part: name for name in operators for part in name.split("◌") if part}

    def read_import(self, line):
        imported = IMPORT.match(line)
        if imported:
            crate, module, names, here = imported.groups()
            if here:
                self.modules[here] = crate, module
            for name in filter(None, map(str.strip, (names or "").split(","))):
                own, _, here = name.partition(" as ")
                self.imports[here or own] = crate, module, own

    def find(self, word):
        """Gives what a word names here, by crate, file and name; or None."""
        word = self.operators.get(word.strip("◌"), word)
        head, _, name = word.partition(".")
        if name and head in self.modules:
            return (*self.modules[head], name.partition(".")[0])
        head = self.constructors.get(head, head)
        return (*self.place, head) if head in self.definitions else self.imports.get(head)


class Files(dict):
    """The files by crate and name, each read when it is asked for; None for one that isn't in this repository."""

    def __missing__(self, place):
        crate, module = place
        path = f"crates/{crate}/specs/{module.replace('.', '/')}.antt"
        self[place] = None
        if os.path.exists(path):
            with open(path, encoding="utf-8") as file:
                self[place] = File(place, file.read())
        return self[place]

    def is_constructor(self, file, word):
        head, _, name = word.partition(".")
        if word in file.operators or word in file.constructors or name and head in file.modules:
            return True
        if word not in file.imports:
            return False
        crate, module, own = file.imports[word]
        there = self[crate, module]
        if there:
            return self.is_constructor(there, own)
        return module.endswith(".TheVariants") or own in LIBRARY

    def stands_on(self, file, name):
        """Gives all that the words of a definition name, by crate, file and name."""
        names = Names(lambda word: self.is_constructor(file, word))
        clauses, _ = block(grouped(words(file.definitions[name])))
        # (what is declared, behind its marks and its own name)
        names.read(clauses[0][clauses[0].index(name) + 1 :], frozenset())
        for clause in clauses[1:]:
            left, right = cut(clause, "=")
            names.read(right, names.bind(left))
        unknown = [word for word in names.found if not file.find(word) and word not in LOGIC and not word[0].isdigit()]
        if unknown:
            raise ValueError(f"{'/'.join(file.place)}: what is {' '.join(unknown)} in {name}?")
        return {*map(file.find, names.found)} - {(*file.place, name), None}
