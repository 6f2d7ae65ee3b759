#!/usr/bin/env python3
"""Checks the references of docs/headline.md: that each definition is at the file and line that the page says, that each
definition on the page's path is on the page, below one that uses it, and that the way down to them is as it says.
Then of docs/definitions.md: that it has, in bold, each definition on that path, under a heading or beside a mention of
its file, and each word of this project in the contracts of `replay` and `run`.

usage: check_headline.py [--fix | --path]

--fix puts the right line numbers into the page first; --path prints the path, and checks nothing.
The last line is 'N passed, M failed', and the status is 1 where one failed.

A reference on the page is a name in its file, and behind it a bar and the line:

    `crates/sql_keeper/specs/Fresh.antt: Fresh` | 44

The path begins at ROOTS. From each definition it goes on to those that its text uses, by the `use` lines of its
file, as far as they are this project's own. It ends at STOPS.

What this can't see:
- whether a sentence of the page says what its definition means. A reader has to judge that.
- which is meant where one equation uses a definition's name for a variable of its own too. A name that the
  equation binds (in its pattern, or by a colon, a lambda or `let`) is taken for the variable everywhere in it. A
  constructor is never taken so.
- a `use` that takes several lines, or brings in all of a file (`*`). None does as yet.
- what is behind a field: `quar.mode` leads to nothing by itself. It is met by the type of `quar`.
- what is inside a type that contracts see by a view of its own (`impl Model for`), as `Value` and `Txn`, which are
  lists to them. Of any other type of a source file the types of its fields are followed.
- clauses, laws and proofs. Of those that the page cites the line alone is checked. Of the public
  call `replay` it is also checked that its contract has the word `Ended`.
"""
import os
import re
import sys

PAGE = "docs/headline.md"
WORDS = "docs/definitions.md"
SPEC = "crates/%s/specs/%s.antt"
SOURCE = "crates/%s/src/%s.rt"

# Where the path begins: the words of the clause that carry the headline, and of the law on sets that are void.
ROOTS = [
    ("crates/sql_keeper/specs/Fresh.antt", "Fresh"),
    ("crates/sql_keeper/specs/Fresh.antt", "Covered"),
    ("crates/core_history/specs/Freshness.antt", "AreQuarantined"),
    ("crates/core_history/specs/Freshness.antt", "histories_of"),
    ("crates/core_history/specs/Events.antt", "log_of"),
    ("crates/key_shard/specs/Answers.antt", "Legal"),
    ("crates/core_history/specs/Machine.antt", "terms_of"),
    ("crates/core_history/specs/Voids.antt", "VoidsAreInert"),
]
# And where that of a server's hits begins: the word of the clause on the calls that a desk answered.
SERVED = ("crates/callers/specs/Desks.antt", "AreServed")
ROOTS.append(SERVED)
# The way from the public call down to them: each is in the text of the one in front. (Not all that these use is followed.)
RUNS = "crates/top_run/specs/Runs.antt"
WAY = [
    (("crates/top_run/src/runs.rt", "replay"), (RUNS, "Ended")),
    ((RUNS, "Ended"), (RUNS, "IsWhole")),
    ((RUNS, "Ended"), (RUNS, "IsCutOff")),
    ((RUNS, "IsWhole"), (RUNS, "IsBegun")),
    ((RUNS, "IsCutOff"), (RUNS, "IsBegun")),
    ((RUNS, "IsBegun"), (RUNS, "Keeps")),
] + [((RUNS, "Keeps"), root) for root in ROOTS[:-2]] + [
    (("crates/callers/src/desks.rt", "desk_served"), SERVED),
    (("crates/callers/src/desks.rt", "desks_served"), SERVED),
]
# Where it isn't followed further: the page says why.
STOPS = [
    ("crates/session_client/src/replies.rt", "Wanted"),
    ("crates/session_client/src/replies.rt", "Reply"),
    ("crates/expiry_sweeper/src/replies.rt", "SweepWanted"),
    ("crates/expiry_sweeper/src/replies.rt", "SweepReply"),
]

WORD = re.compile(r"[A-Za-z_][A-Za-z0-9_']*(?:\.[A-Za-z0-9_'][A-Za-z0-9_']*)*")
HEAD = re.compile(r"^(?:(?:abbrev|unfoldable) (?:pub )?|pub record |record |pub data |data |pub )([A-Za-z_][\w'-]*)(?= |$)")
ITEM = r"^\s*(?:pub(?:\([a-z]+\))? )?(?:const |unsafe )?(?:struct|enum|trait|type|fn|const) %s\b"
REFERENCE = re.compile(r"`(crates/[\w/]+\.(?:antt|rt)): ([\w'-]+)`( \| )(\d+)")


def read(path):
    with open(path, encoding="utf-8") as file:
        return file.read().split("\n")


class Spec:
    """A file of definitions: what it defines, and what its `use` lines bring in."""

    def __init__(self, path):
        self.path = path
        self.lines = read(path)
        self.defined = {}  # name -> (line, lines of its text)
        self.makers = {}  # constructor -> the data type that has it
        self.used = {}  # name -> path of a module and a name in it
        self.modules = {}  # alias -> path of a module
        self.read_uses()
        self.read_definitions()

    def read_uses(self):
        for line in self.lines:
            whole = re.match(r"^(?:pub )?use (Rattle\.[\w.]+)\.\{(.*)\}$", line)
            alias = re.match(r"^use (Rattle\.[\w.]+) as (\w+)$", line)
            if whole:
                for part in whole.group(2).split(","):
                    names = part.strip().split(" as ")
                    self.used[names[-1]] = (whole.group(1), names[0])
            elif alias:
                self.modules[alias.group(2)] = alias.group(1)

    def read_definitions(self):
        name = None
        for number, line in enumerate(self.lines, 1):
            head = HEAD.match(line)
            if head:
                name = head.group(1)
                self.defined[name] = (number, [])
            elif line.startswith(("use ", "pub use ", "--")):
                name = None
            if name:
                self.defined[name][1].append(line.split("--")[0])
                maker = re.match(r"^  (\w+) :", line)
                if maker and re.match(r"^(pub )?data ", self.lines[self.defined[name][0] - 1]):
                    self.makers[maker.group(1)] = name


class Path:
    """The definitions that are met from some on."""

    def __init__(self):
        self.specs = {}
        self.met = []

    def spec(self, path):
        if path not in self.specs:
            self.specs[path] = Spec(path) if os.path.isfile(path) else None
        return self.specs[path]

    def follow(self, roots):
        todo = list(roots)
        for at in todo:
            if at not in STOPS:
                todo += [next for next in self.uses(*at) if next not in todo]
        self.met = todo
        return todo

    def uses(self, path, name):
        """What the text of a definition uses, of this project's own."""
        if path.endswith(".rt"):
            return self.source_uses(path, name)
        spec = self.spec(path)
        if spec is None or name not in spec.defined:
            return []
        found = []
        for equation in equations(spec.defined[name][1]):
            bound = {word for word in bound_in(equation, name) if not self.is_maker(spec, word)}
            for word in WORD.findall(equation):
                parts = word.split(".")
                if parts[0] not in bound and parts[0] != name:
                    found += self.meant(spec, parts)
        return [one for one in dict.fromkeys(found) if one != (path, name)]

    def is_maker(self, spec, word):
        if word in spec.makers:
            return True
        module, name = spec.used.get(word, (None, None))
        if module is None:
            return False
        if module.endswith("TheVariants"):
            return True
        other = self.spec(spec_path(module)) if spec_path(module) else None
        return other is not None and name in other.makers

    def meant(self, spec, parts):
        head = parts[0]
        if head in spec.makers:
            return [(spec.path, spec.makers[head])]
        if head in spec.defined:
            return [(spec.path, head)]
        if head in spec.used:
            return self.in_module(*spec.used[head])
        if head in spec.modules and len(parts) > 1:
            return self.in_module(spec.modules[head], parts[1])
        return []

    def in_module(self, module, name):
        declared = re.match(r"^Rattle\.(\w+)\.specs\.declared\.(.+)\.(\w+?)(\.TheVariants)?$", module)
        if declared:
            path = SOURCE % (declared.group(1), declared.group(2).replace(".", "/"))
            return [(path, declared.group(3))] if os.path.isfile(path) else []
        path = spec_path(module)
        spec = self.spec(path) if path else None
        if spec is None:
            return []
        if name in spec.makers:
            return [(path, spec.makers[name])]
        return [(path, name)] if name in spec.defined else []

    def source_uses(self, path, name):
        """The types of this project that the fields of a type in a source file name."""
        lines = read(path)
        start = line_of(path, name)
        if start is None or not re.search(r"\b(struct|enum)\b", lines[start - 1]):
            return []
        if any(re.match(r"^impl(<.*>)? Model for %s\b" % name, line) for line in lines):
            return []
        indent = re.match(r" *", lines[start - 1]).group(0)
        text = []
        for line in lines[start - 1:]:
            text.append(re.sub(r"//.*", "", line))
            if line == indent + "}" or line.rstrip().endswith(";"):
                break
        found = []
        for word in dict.fromkeys(re.findall(r"\b[A-Z]\w*\b", re.sub(r"\b\w+ \{|^\s*[A-Z]\w*,", "", "\n".join(text[1:]), flags=re.M))):
            for other in [path] + used_sources(path, lines, word):
                if line_of(other, word) and word != name:
                    found.append((other, word))
                    break
        return found


def spec_path(module):
    parts = module.split(".")
    if len(parts) < 4 or parts[2] != "specs" or parts[3] in ("declared", "contracts"):
        return None
    path = SPEC % (parts[1], "/".join(parts[3:]))
    return path if os.path.isfile(path) else None


def used_sources(path, lines, word):
    """The files that may define a word that a source file takes from elsewhere."""
    crate = path.split("/")[1]
    found = []
    for line in lines:
        whole = re.match(r"^use (\w+)(?:::[\w:]+?)?(?:::\{(.*)\}|::(\w+));$", line)
        if whole and re.search(r"\b%s\b" % word, whole.group(2) or whole.group(3) or ""):
            other = crate if whole.group(1) == "crate" else whole.group(1)
            folder = "crates/%s/src" % other
            if os.path.isdir(folder):
                found += [folder + "/" + file for file in sorted(os.listdir(folder)) if file.endswith(".rt")]
    return found


def equations(lines):
    """A definition's parts in which a variable lives: its type, and each of its equations; or all of a record or data."""
    if re.match(r"^(pub )?(record|data) ", lines[0]):
        return ["\n".join(lines)]
    parts = []
    for line in lines:
        if line and not line.startswith(" "):
            parts.append(line)
        elif parts:
            parts[-1] += "\n" + line
    return parts


def bound_in(text, name):
    """The names that a part of a definition binds."""
    bound = set(re.findall(r"λ \(?([\w']+)", text)) | set(re.findall(r"\blet ([\w']+) ", text))
    for names in re.findall(r"[({]([\w' ]+) :", text):
        bound |= set(names.split())
    bound |= set(re.findall(r"^  pub ([\w']+) :", text, re.M))
    if not HEAD.match(text) and " =" in text:
        left = re.split(r" =(?: |$|\n)", text, maxsplit=1)[0]
        bound |= {word for word in re.findall(r"(?<![.\w])[a-z_][\w']*", left) if word != name}
    if re.match(r"^(pub )?record ", text):
        # (a record's value is written `record { field = .. }`, and a field's name is no definition's)
        bound |= set(re.findall(r"^  pub ([\w']+)", text, re.M))
    bound |= set(re.findall(r"(?:[{;]|^)\s*([\w']+) = ", text, re.M)) & set(re.findall(r"[{;]\s*([\w']+) = ", text))
    return bound


def line_of(path, name):
    """The line at which a file defines a name, if it does."""
    if not os.path.isfile(path):
        return None
    item = re.compile(ITEM % re.escape(name))
    for number, line in enumerate(read(path), 1):
        if path.endswith(".rt"):
            if item.match(line):
                return number
            continue
        head = HEAD.match(line) or re.match(r"^([\w'-]+) :", line)
        if head and head.group(1) == name:
            return number
    return None


def is_on_way(path, upper, lower):
    """Whether the text of a definition, or the contract of a function, uses another."""
    if upper[0].endswith(".antt"):
        return lower in path.uses(*upper)
    lines = read(upper[0])
    start = line_of(*upper)
    if start is None:
        return False
    contract = lines[start:lines.index("{", start)]
    comes = any(re.match(r"ghost use Rattle\..*\.%s\.\{.*\b%s\b" % (os.path.basename(lower[0])[:-5], lower[1]), line) for line in lines)
    return comes and any(re.search(r"\b%s\b" % lower[1], line) for line in contract)


def sections_of(page):
    """Of each section of the page of definitions: the files that it names, and the words that it has in bold."""
    sections = []
    for text in re.split(r"^## ", page, flags=re.M)[1:]:
        crate, files = None, set()
        for name, folder, file in re.findall(r"(?<![\w/])(?:crates/)?(\w+/)?(specs|src)/([\w/]+\.(?:antt|rt))", text):
            crate = name[:-1] or crate
            files.add("crates/%s/%s/%s" % (crate, folder, file))
        sections.append((files, set(re.findall(r"\*\*([\w'-]+)\*\*", text))))
    return sections


def contract_words(path, name):
    """The words of this project in the contract of a function."""
    lines = read(path)
    start = line_of(path, name)
    contract = "\n".join(lines[start:lines.index("{", start)])
    words = []
    for line in lines:
        whole = re.match(r"^ghost use (Rattle\.(\w+)\.[\w.]+)\.\{(.*)\};$", line)
        if whole and whole.group(2) != "std":
            words += [word.strip() for word in whole.group(3).split(",") if re.search(r"\b%s\b" % word.strip(), contract)]
    return words


def misplaced(path, met, order):
    """The definitions on the path that the page names above all that use them."""
    users = {}
    for at in met:
        for other in path.uses(*at) if at not in STOPS else []:
            users.setdefault(other, []).append(at)
    roots = set(ROOTS)
    return [
        at
        for at in met
        if at not in roots and at in order and not any(order.get(user, len(order)) < order[at] for user in users.get(at, []))
    ]


def main(words):
    os.chdir(os.path.join(os.path.dirname(os.path.abspath(__file__)), ".."))
    path = Path()
    met = path.follow(ROOTS)
    if words == ["--path"]:
        for file, name in met:
            print("%s: %s | %s" % (file, name, line_of(file, name)))
        return 0
    if words not in ([], ["--fix"]):
        sys.stderr.write(__doc__)
        return 2
    with open(PAGE, encoding="utf-8") as file:
        page = file.read()
    if words:
        page = REFERENCE.sub(
            lambda at: "`%s: %s`%s%s" % (at.group(1), at.group(2), at.group(3), line_of(at.group(1), at.group(2)) or at.group(4)),
            page,
        )
        with open(PAGE, "w", encoding="utf-8") as file:
            file.write(page)
    passed = failed = 0
    wrong = []
    named = {}
    for file, name, _, line in REFERENCE.findall(page):
        named.setdefault((file, name), len(named))
        there = line_of(file, name)
        if there is None:
            wrong.append("%s: no definition of %s is there" % (file, name))
        elif there != int(line):
            wrong.append("%s: %s is at line %d, and the page says %s" % (file, name, there, line))
        else:
            passed += 1
    for at in met:
        if line_of(*at) is None:
            wrong.append("%s: no definition of %s is there, and the path has it" % at)
        elif at in named:
            passed += 1
        else:
            wrong.append("%s: %s is on the path, and not on the page" % at)
    wrong += ["%s: %s is named above all that use it" % at for at in misplaced(path, met, named)]
    with open(WORDS, encoding="utf-8") as file:
        sections = sections_of(file.read())
    for file, name in met:
        if any(file in files and name in words for files, words in sections):
            passed += 1
        else:
            wrong.append("%s: %s is on the path, and not in %s" % (file, name, WORDS))
    for name in ("replay", "run"):
        for word in contract_words("crates/top_run/src/runs.rt", name):
            if any(word in words for _, words in sections):
                passed += 1
            else:
                wrong.append("%s is in the contract of %s, and not in %s" % (word, name, WORDS))
    for upper, lower in WAY:
        if is_on_way(path, upper, lower):
            passed += 1
        else:
            wrong.append("%s: %s has no %s of %s" % (*upper, lower[1], lower[0]))
    for what in wrong:
        print("headline: " + what)
    print("%d passed, %d failed" % (passed, len(wrong)))
    return 1 if wrong else 0


if __name__ == "__main__":
    sys.exit(main(sys.argv[1:]))
