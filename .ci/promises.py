"""What there is to read for a promise: the definitions that the clauses of its functions name, those that these name, and so on, with the
types of the code that they speak of and the pages of the kit. A definition is a signature with its equations, a record or a data type,
with the comment before it; a name is looked up in its own file and among what that file imports. A word that is a variable in one place
and the name of a definition in another counts as the definition, so that a list may have one too many and never one too few."""
import functools
import os
import re

# The clauses that carry each promise: a file, a function or an `impl` in it, and which of its clauses.
TEXTS = [
    ("rp_syntax/src/table.rt", "fn read_table", ["table"]),
    ("rp_compile/src/compiling.rt", "fn compile", ["query"]),
]
NODE = [
    *TEXTS,
    ("rp_promise/src/lib.rt", "fn law_promise", ["one_answer", "both", "calls"]),
    ("rp_node/src/node.rt", "fn new", ["query", "none"]),
    ("rp_node/src/node.rt", "fn accept", ["answer", "taken", "unchanged"]),
    ("rp_node/src/node.rt", "fn poll", ["query", "polls"]),
    ("rp_node/src/node.rt", "fn save", ["bytes", "back"]),
    ("rp_node/src/node.rt", "fn restart", ["query", "restarts", "refused", "returned"]),
    ("rp_node/src/laws.rt", "fn law_calls", ["rows", "closes", "polls", "refused", "restarts", "same", "taken"]),
    ("rp_schedules/src/lib.rt", "fn law_schedules", ["fits"]),
]
PROMISES = {
    "whole": [
        *TEXTS,
        ("rp_columns/src/columns_text.rt", "fn read_columns", ["columns"]),
        ("rp_question/src/question.rt", "fn new", ["query", "filter", "reading"]),
        ("rp_question/src/question.rt", "fn answer_lines", ["answer"]),
    ],
    "node": NODE,
    "connections": [
        *NODE,
        ("rp_node/src/beginning.rt", "fn begin", ["begins", "again"]),
        ("rp_node/src/requests.rt", "impl Answers for Node", ["step", "cut_short"]),
        ("rp_node/src/requests.rt", "impl Keeps for Node", ["is_saved", "can_go_back", "goes_back"]),
        ("rp_serve/src/connection.rt", "fn round", ["round", "again"]),
    ],
}
# How the head of a file begins whose definitions say how the code goes about it: no promise may rest on it.
INSIDE = "-- Inside: "
IMPORT = re.compile(r"^\s*(?:pub )?(?:ghost )?use Rattle\.([\w.◌+-]+?)(?:\.\{([^}]*)\}| as (\w+))?;?[ \t]*$", re.M)
HEAD = re.compile(r"(?:abbrev |unfoldable |opaque )?(?:pub )?(?:(record|data|module) ([^\s:({]+)|([^\s:({]+) :)")
WORD = re.compile(r"[^\s(){};,]+")
TYPE = re.compile(r"^(?:pub(?:\(crate\))? )?(struct|enum) (\w+)[^{(;]*(\{.*?^\}|\(.*?\);|;)", re.M | re.S)


def text(path):
    with open(path, encoding="utf-8") as file:
        return file.read()


def words_of(code):
    """The words of some text, each also without what stands behind its first dot."""
    words = {word.strip(".") for word in WORD.findall(code)}
    return words | {word.split(".")[0] for word in words}


def parts_of(name):
    """The words that stand for a name: those between the holes of an operator, or the name itself."""
    return [part for part in name.split("◌") if part] or [name]


def imports_of(code):
    """What each word of a file stands for: the path of an import and a name behind it, or no name where a whole file has a word."""
    names = {}
    for path, listed, alias in IMPORT.findall(code):
        for name in filter(None, (name.strip() for name in listed.split(","))):
            names[name.split(" as ")[-1].strip()] = (path, name.split(" as ")[0].strip())
        if not listed:
            names[alias or path.split(".")[-1]] = (path, None)
    return names


class Definition:
    def __init__(self, kind, name):
        self.kind, self.name, self.lines = kind, name, []

    def code(self):
        return "\n".join(line for line in self.lines if not line.strip().startswith("--"))


class Definitions:
    """A file of definitions, each by its name and by those of its constructors; records also by those of their fields."""

    def __init__(self, path):
        code = text(path)
        self.names, self.passed_on = imports_of(code), imports_of("\n".join(re.findall(r"^pub use .*$", code, re.M)))
        self.all, self.by_name, self.by_field, comment = [], {}, {}, []
        for line in code.split("\n"):
            if line.startswith("--"):
                comment.append(line)
                continue
            if line.strip() and not re.match(r"(pub )?use |infix", line):
                self.add(line, comment)
            comment = []

    def add(self, line, comment):
        """A line, with the comment before it: it begins a definition, or goes on with one and may name a part of it."""
        head = HEAD.match(line.strip())
        if head and not line.startswith(" "):
            self.all.append(Definition(head.group(1), head.group(2) or head.group(3)))
        definition = self.all[-1]
        definition.lines += [*comment, line]
        if head and not line.startswith("    "):
            is_field = line.startswith(" ") and definition.kind == "record"
            (self.by_field if is_field else self.by_name).setdefault(head.group(2) or head.group(3), definition)

    def find(self, name):
        return self.by_name.get(name) or self.by_field.get(name)


def declared_types():
    """Each type of the code, by its file and name: what shows of the parts that it is made of."""
    types = {}
    for at, _, files in sorted(os.walk("crates")):
        for file in sorted(files):
            if "/src" in at and file.endswith(".rt"):
                for kind, name, parts in TYPE.findall(re.sub(r"//.*", "", text(f"{at}/{file}"))):
                    shown = parts if kind == "enum" else " ".join(re.findall(r"\bpub (?:\w+: )?(.*)", parts))
                    types[f"{at}/{file}", name] = shown
    return types


class Reading:
    """What is to be read for some clauses: by file the definitions and the types that are reached, and the pages of the kit."""

    declared = None

    def __init__(self, clauses):
        Reading.declared = Reading.declared or declared_types()
        self.files, self.read, self.types, self.kit, self.missing, self.left = {}, {}, {}, set(), [], []
        for place, function, names in clauses:
            self.begin(f"crates/{place}", function, names)
        while self.left:
            self.take(*self.left.pop(0))
        self.read = {path: read for path, read in self.read.items() if read}

    def begin(self, path, function, names):
        """Takes up the clauses of a function, which end where its body begins, or of an `impl`."""
        code = text(path)
        end = r"^}" if function.startswith("impl") else r"^\s*\{$"
        head = re.split(end, re.split(rf"\b{function}\b", code)[1], maxsplit=1, flags=re.M)[0]
        clauses = dict(re.findall(r"^\s*(?:ensures|ghost) (\w+) (?:= )?\{(.*?)\};?$(?=\s*(?:ensures|ghost|fn|$))", head, re.M | re.S))
        for name in names:
            if name in clauses:
                self.look(clauses[name], imports_of(code))
            else:
                self.missing.append(f"{path}: {function} has no clause {name}")

    def look(self, code, imports):
        """Takes up what the words of some text stand for, and gives the words."""
        words = words_of(code)
        for word, (path, name) in imports.items():
            if name and words.intersection(parts_of(word)):
                self.left.append((path, name))
        for word in WORD.findall(code):
            first, _, rest = word.partition(".")
            if first in imports and not imports[first][1]:
                self.left.append((imports[first][0], rest.split(".")[0] or None))
        return words

    def take(self, path, name):
        crate, kind, *rest = path.split(".")
        if not os.path.isdir(f"crates/{crate}"):
            self.kit.add(f"{crate}.{rest[0]}" if rest[0] != "declared" else f"{crate}.{rest[1]}")
        elif kind == "specs" and rest[0] in ("declared", "contracts"):
            modules = [word for word in rest[1:] if word[0].islower()]
            named = [word for word in [*rest, name or ""] if word[:1].isupper() and not word.startswith("The")]
            self.take_type(f"crates/{crate}/src/{'/'.join(modules)}.rt", re.sub("PartialEq$", "", named[0]) if named else name)
        else:
            self.take_definition(f"crates/{crate}/{kind}/{rest[0]}.antt", name)

    def take_type(self, path, name):
        """A type, and those that show in it. A constant, which is no type, is on no list of types."""
        if (path, name) not in self.declared or name in self.types.get(path, ()):
            return
        self.types.setdefault(path, []).append(name)
        crate = path.split("/")[1]
        others = {word: owner for owner, listed in re.findall(r"^use (rp_\w+)::([^;]*);", text(path), re.M) for word in re.findall(r"\w+", listed)}
        for word in re.findall(r"\b[A-Z]\w*", self.declared[path, name]):
            src = f"crates/{others.get(word, crate)}/src/"
            places = [at for at, named in self.declared if named == word and at.startswith(src)]
            self.take_type(path if path in places else next(iter(places), ""), word)

    def take_definition(self, path, name):
        if path not in self.files:
            self.files[path], self.read[path] = Definitions(path), []
        file = self.files[path]
        definition = file.find(name)
        if not definition and name in file.passed_on:
            self.left.append((file.passed_on[name][0], file.passed_on[name][1] or name))
        elif not definition and name:
            self.missing.append(f"{path} has no {name}")
        elif definition and definition not in self.read[path]:
            self.read[path].append(definition)
            words = self.look(definition.code(), file.names)
            for other in file.by_name:
                if words.intersection(parts_of(other)):
                    self.left.append((path.removeprefix("crates/").removesuffix(".antt").replace("/", "."), other))

    def lines(self, path):
        """How many lines the definitions of a file have that are reached."""
        return sum(len(definition.lines) for definition in self.read[path])

    def insides(self):
        """The files of insides on which it rests."""
        return [path for path in self.read if text(path).startswith(INSIDE)]

    def counted(self):
        """How much there is to read."""
        return f"{sum(self.lines(path) for path in self.read):,} lines in {len(self.read)} files"


def purpose(path):
    """The first sentence of a file of definitions."""
    sentence = re.match(r"-- (.*?[.:])(\s|$)", text(path).replace("\n-- ", " "))
    return sentence.group(1)[:-1] if sentence else ""


def short(path):
    return path.removeprefix("crates/")


SAID = [
    "Of each file the lines of the definitions that are needed, with the comments before them; of the types how many. `whole` and both of the",
    "others begin at the text of the clause. The pages of the kit are those that are named directly.",
]


@functools.cache
def readings():
    return {name: Reading(clauses) for name, clauses in PROMISES.items()}


def listed(name):
    """The list of a promise: how many lines of each file, and which definitions; then the types, and the pages of the kit."""
    reading = readings()[name]
    lines = []
    for path, read in reading.read.items():
        names = [definition.name for definition in reading.files[path].all if definition in read]
        lines.append(f"{reading.lines(path):5} {short(path)}: {' '.join(names)}")
    lines += [f"types {short(path)}: {' '.join(types)}" for path, types in reading.types.items()]
    lines.append(f"the kit: {' '.join(sorted(reading.kit))}")
    lines.append(f"{name}: {reading.counted()}")
    return "\n".join(lines) + "\n"


def page():
    """The last part of docs/PROMISE.md: how much there is to read for each promise, and what."""
    lines = ["## The lists", "", *SAID, "", "| promise | definitions | types of the code | pages of the kit |", "|---|---|---|---|"]
    for name, reading in readings().items():
        types = f"{sum(len(types) for types in reading.types.values())} in {len(reading.types)} files"
        lines.append(f"| {name} | {reading.counted()} | {types} | {', '.join(sorted(reading.kit))} |")
    lines += table("file", "what it says", lambda reading, path: str(reading.lines(path)), purpose, "read")
    lines += table("types", "which", lambda reading, path: str(len(reading.types[path])), names_of_types, "types")
    return "\n".join(lines) + "\n"


def table(first, last, count, said, places):
    """A row for each file that is on a list: how much of it each promise needs, and what is said of it."""
    lines = ["", f"| {first} | {' | '.join(readings())} | {last} |", f"|---|{'---|' * len(readings())}---|"]
    for path in dict.fromkeys(path for reading in readings().values() for path in getattr(reading, places)):
        counts = [count(reading, path) if path in getattr(reading, places) else "" for reading in readings().values()]
        lines.append(f"| `{short(path)}` | {' | '.join(counts)} | {said(path)} |")
    return lines


def names_of_types(path):
    return ", ".join(dict.fromkeys(name for reading in readings().values() for name in reading.types.get(path, [])))
