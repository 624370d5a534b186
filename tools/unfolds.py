#!/usr/bin/env python3
"""What has to be read to know what the contract of a function says.

    tools/unfolds.py                       of the program's one call, `edison` of crates/edi_main/src/top.rt
    tools/unfolds.py FILE FUNCTION         of another public function
    tools/unfolds.py --check               and says where docs/developer/CLAIMS.md or the first lines of the files say otherwise
    tools/unfolds.py --why NAME            the way from `edison` to a definition

From each name in the contract it goes to the definition, by the imports of the file, and on to the names in that. It prints the files that
it reaches, with their lines and those of them that are used (without comments), and then what they and the contract take from the code,
by the file that declares it: types, traits with the ghost members that the contract names, and what it sees of a struct. It reads words and not terms, so a local variable that is named as a definition counts as one; the fields of
a record do not, since whoever names one has a value whose type is named where it comes from.
"""
import os
import re
import subprocess
import sys
from collections import defaultdict

CLAIMS = "docs/developer/CLAIMS.md"
USE = re.compile(r"\buse\s+Rattle\.([^\s{;]+?)(?:\.\{([^}]*)\}|\s+as\s+([^\s;]+))", re.S)
WORD = re.compile(r"[^\s(){}\[\];,:|\"]+")
HEAD = re.compile(r"^(\s*)(?:(?:abbrev|unfoldable|pub|record|data)\s+)*([^\s(:]+)(?:\s+[({].*)?\s*:\s")
ROW = re.compile(r"^\| \[`(crates/[^`]+)`\]\([^)]*\) \| (\d+) \|", re.M)
# Definitions of laws and of commands to come.
APART = re.compile(r"\(no clause of `edison` speaks of it yet\):\n\n(?:\|.*\n)+")
# What a single line of a single command reaches. These files are words of contracts for all else, and their first lines say so.
NARROW = re.compile(r"\(reached through (?:a code|one line) alone\):\n\n(?:\|.*\n)+")
MOST_LINES = 8440
TYPES = re.compile(r"^\| \[`(crates/[^`]+\.rt)`\]\([^)]*\) \| ([^|]*) \|", re.M)


def imports(text):
    names, aliases = {}, {}
    for module, listed, alias in USE.findall(text):
        if alias:
            aliases[alias] = module
        for item in listed.split(","):
            m = re.match(r"^\s*(\S+)(?:\s+as\s+(\S+))?\s*$", item)
            if m:
                names[m.group(2) or m.group(1)] = (module, m.group(1))
    return names, aliases


def indent(line):
    return len(line) - len(line.lstrip())


def head_of(line):
    """The name that a line begins to define, or none: a line that goes on with a type defines nothing."""
    m = HEAD.match(line)
    return m.group(2) if m and m.group(2) not in "→×=" else None


class Module:
    """A file of definitions: what it imports, and from which line to which each of its names is defined."""

    def __init__(self, path):
        self.lines = open(path, encoding="utf-8").read().split("\n")
        self.names, self.aliases = imports("\n".join(self.lines))
        self.defined, self.fields = defaultdict(list), set()
        items = [(i, l) for i, l in enumerate(self.lines) if l.strip() and not l.strip().startswith(("--", "use "))]
        heads = [(i, indent(l), head_of(l)) for i, l in items]
        owner = []  # (indent, is a record) of the heads around
        for k, (i, deep, name) in enumerate(heads):
            while owner and owner[-1][0] >= deep:
                owner.pop()
            if re.match(r"^\s*(?:(?:abbrev|unfoldable|pub)\s+)*(record|data|module|mutual)\b", self.lines[i]) or " mutual" in self.lines[i]:
                kind = re.search(r"\b(record|data|module|mutual)\b", self.lines[i]).group(1)
            else:
                kind = "name"
            if name and owner and owner[-1][1] == "record":
                self.fields.add((i, name))
            owner.append((deep, kind))
            if not name:
                continue
            end = len(self.lines)
            for j, other, named in heads[k + 1:]:
                own = named is None and (name in self.lines[j].split("=")[0] or not self.lines[j].strip(" )}];"))
                if other <= deep and not own:
                    end = j
                    break
            if (i, name) not in self.fields:
                self.defined[name].append((i, end))


class Closure:
    def __init__(self, top="."):
        self.top, self.modules, self.seen, self.left = top, {}, set(), []
        self.reached, self.types = defaultdict(set), defaultdict(set)
        self.parent, self.now = {}, None

    def module(self, name):
        if name not in self.modules:
            path = os.path.join(self.top, "crates", *name.split(".")) + ".antt"
            self.modules[name] = Module(path) if os.path.exists(path) else None
        return self.modules[name]

    def ask(self, module, name):
        if not module.startswith("edi_"):
            return
        if ".declared." in module:
            crate, path = module.split(".specs.declared.")
            path = re.sub(r"\.TheVariants$", "", path)
            file, _, of = path.rpartition(".")
            self.types[source(self.top, crate, file)].add(of)
        elif (module, name) not in self.seen:
            self.seen.add((module, name))
            self.parent[(module, name)] = self.now
            self.left.append((module, name))

    def words(self, lines, names, aliases, module=None, own=()):
        for line in lines:
            code = re.sub(r"(^|\s)(--|//)\s.*", "", line)
            for word in WORD.findall(code):
                first, _, rest = word.partition(".")
                if rest and first in aliases:
                    self.ask(aliases[first], rest.split(".")[0])
                elif first in names:
                    self.ask(*names[first])
                elif first in own:
                    self.ask(module, first)
            for name in [n for n in names if "◌" in n] + [n for n in own if "◌" in n]:
                if all(piece in code for piece in name.split("◌")):
                    self.ask(*(names[name] if name in names else (module, name)))

    def definition(self, name, word):
        module = self.module(name)
        for start, end in module.defined.get(word, []) if module else []:
            self.reached[name].update(range(start, end))
            self.words(module.lines[start:end], module.names, module.aliases, name, module.defined)
            deep = indent(module.lines[start])
            for line in reversed(module.lines[:start]):
                if deep and line.strip() and indent(line) < deep:
                    deep = indent(line)
                    m = re.match(r"^\s*(?:(?:abbrev|unfoldable|pub)\s+)*(?:record|data)\s+([^\s(:]+)", line)
                    if m:
                        self.ask(name, m.group(1))
                    if line.strip().startswith("module"):
                        self.words([line], module.names, module.aliases, name, module.defined)

    def all(self):
        while self.left:
            self.now = self.left.pop()
            self.definition(*self.now)
        return self.reached

    def of(self, path, function):
        lines, (names, aliases) = contract(os.path.join(self.top, path), function)
        self.words(lines, names, aliases)
        self.code(" ".join(re.sub(r"//.*", "", line) for line in lines))
        self.all()
        return self

    def code(self, text):
        """The traits that the contract asks for, with their ghost members, and the structs that it looks into, with what it sees."""
        for variable, trait in re.findall(r"\b([A-Z]\w*): ([A-Z]\w+)", text.split("(")[0]):
            members = set(re.findall(r"\b%s\.(\w+)" % variable, text))
            self.types[declaring(self.top, "trait", trait)] |= {trait} | members
        for name, struct in re.findall(r"\b(\w+): &(?:mut )?([A-Z]\w+)", text):
            members = set(re.findall(r"\b%s\.(?:old|new|now)\.(\w+)" % name, text))
            if members:
                self.types[declaring(self.top, "struct", struct)] |= {struct} | members

    def files(self):
        """Each file that is reached: its path, its lines, and how many of them are used."""
        for name, reached in sorted(self.reached.items()):
            lines = self.module(name).lines
            used = sum(1 for i in reached if lines[i].strip() and not lines[i].strip().startswith("--"))
            yield f"crates/{name.replace('.', '/')}.antt", len(lines) - 1, used


def source(top, crate, module):
    """The file of a module of code."""
    path = f"crates/{crate}/src/{module.replace('.', '/')}.rt"
    return path if os.path.exists(os.path.join(top, path)) else f"crates/{crate}/src/lib.rt"


def declaring(top, kind, name):
    """The file that declares a trait or a struct."""
    for folder, _, files in sorted(os.walk(os.path.join(top, "crates"))):
        if "/src" in folder and "/out" not in folder:
            for file in sorted(files):
                path = os.path.join(folder, file)
                if file.endswith(".rt") and re.search(r"^pub %s %s\b" % (kind, name), open(path, encoding="utf-8").read(), re.M):
                    return os.path.relpath(path, top)
    return f"?/{name}"


def contract(path, function):
    """The lines of a function from its name to its body."""
    text = open(path, encoding="utf-8").read()
    lines = text.split("\n")
    start = next(i for i, l in enumerate(lines) if re.match(r"^\s*pub fn %s\b" % re.escape(function), l))
    end = next(i for i in range(start, len(lines)) if lines[i].rstrip() in ("{", "{}"))
    return lines[start:end], imports(text)


def wrong(closure):
    """What CLAIMS.md and the first lines of the files say otherwise than what is reached."""
    claims = open(CLAIMS, encoding="utf-8").read()
    apart = {path for part in APART.findall(claims) for path, lines in ROW.findall(part)}
    narrow = {path for part in NARROW.findall(claims) for path, lines in ROW.findall(part)}
    listed = {path for path, lines in ROW.findall(claims) if path.endswith(".antt")} - apart
    reached = {path for path, lines, used in closure.files()}
    tracked = subprocess.run(["git", "ls-files", "crates/*/specs/*.antt"], capture_output=True, text=True, check=True).stdout.split()
    marked = {path for path in tracked if os.path.exists(path) and open(path, encoding="utf-8").readline().startswith("-- Definition. ")}
    for path in sorted(reached - listed):
        yield f"{path} is reached, and {CLAIMS} does not list it"
    for path in sorted(listed - reached):
        yield f"{CLAIMS} lists {path}, which is not reached"
    for path in sorted((reached | apart) - marked - narrow):
        yield f"the first line of {path} does not say that it is a definition, and {CLAIMS} lists it"
    for path in sorted(marked - reached - apart):
        yield f"{path} says that it is a definition, and {CLAIMS} does not list it"
    for path in sorted(apart & reached):
        yield f"{CLAIMS} says that no clause of `edison` speaks of {path}, which is reached"
    used = sum(used for path, lines, used in closure.files())
    if used >= MOST_LINES:
        yield f"the definitions that are reached have {used} lines; the most are {MOST_LINES}"
    told = {path: set(re.findall(r"`([^`]+)`", names)) for path, names in TYPES.findall(claims)}
    for path in sorted(set(told) | set(closure.types)):
        if told.get(path, set()) != closure.types.get(path, set()):
            yield f"of {path} {CLAIMS} lists {sorted(told.get(path, []))}, and reached are {sorted(closure.types.get(path, []))}"


def main(words):
    if words[:1] == ["--why"]:
        closure = Closure().of("crates/edi_main/src/top.rt", "edison")
        for item in [k for k in closure.parent if k[1] == words[1]]:
            way = []
            while item:
                way.append("%s of %s" % (item[1], item[0]))
                item = closure.parent[item]
            print("\n  from ".join(way))
        return 0
    path, function = words[:2] if len(words) == 2 else ("crates/edi_main/src/top.rt", "edison")
    closure = Closure().of(path, function)
    if words == ["--check"]:
        found = list(wrong(closure))
        for line in found:
            print(line)
        return 1 if found else 0
    total = used = 0
    for name, lines, some in closure.files():
        total, used = total + lines, used + some
        print("| `%s` | %d | used %d |" % (name, lines, some))
    for name, types in sorted(closure.types.items()):
        print("| `%s` | %s |" % (name, ", ".join(f"`{t}`" for t in sorted(types))))
    print("%d lines in %d files, %d of them used; %d types in %d files of code"
          % (total, len(closure.reached), used, sum(len(t) for t in closure.types.values()), len(closure.types)))
    return 0


sys.exit(main(sys.argv[1:])) if __name__ == "__main__" else None
