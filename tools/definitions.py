"""Read the crates and their definitions: which there are, and which are reached from those that a text names.

For the tools that make pages of them (headline, word-index, gate-table). Wanted is Python 3.9 or later.
"""
import os
import re
import sys

TOP = os.path.realpath(os.path.join(os.path.dirname(__file__), ".."))
START = "crates/nl_cli/src/top.rt"
CALL = "run"
HEADER = re.compile(r"^(?:(?:abbrev|pub|unfoldable|opaque|data|record|mutual)\s+)*(?:pub )?(\S+)")
ITEM = re.compile(r"^(?:abbrev|pub(?! mod\b)|unfoldable|opaque|data|record)\b")
IMPORT = re.compile(r"^\s*(?:pub\s+|ghost\s+)?use\s+([^\s{;]+?)(?:\.\{([^}]*)\})?(?:\s+as\s+(\S+?))?;?\s*$")
MEMBER = re.compile(r"^\s+(?:pub )?(\S+) :(?= |$)")
WORDS = re.compile(r"[^\s(){},;@\"]+")


class File:
    """A file of definitions: its blocks, each with the names that it defines, and what it imports."""

    def __init__(self, path, text):
        self.path = path
        lines = text.split("\n")
        self.about = first_sentence(lines)
        self.names, self.modules, self.blocks, self.defined = {}, {}, [], {}
        block = None
        for line in lines:
            code = line.split("--")[0].rstrip() if line.lstrip().startswith("--") else line.rstrip()
            imported = IMPORT.match(line)
            if imported:
                self.take_import(*imported.groups())
            elif ITEM.match(line):
                block = [code]
                self.blocks.append(block)
            elif code and block is not None:
                block.append(code)
        for at, block in enumerate(self.blocks):
            for name in defined_in(block):
                self.defined.setdefault(name, at)

    def crate(self):
        """Returns the name of the crate that the file belongs to."""
        return self.path.split("/")[1]

    def is_inner(self):
        """Returns whether the file is for the proofs of its crate alone."""
        return "/inner/" in self.path

    def take_import(self, path, names, alias):
        """Notes the names, or the module, of one import."""
        if names is None:
            self.modules[alias or path.rpartition(".")[2]] = path
            if not alias:
                self.names[path.rpartition(".")[2]] = (path.rpartition(".")[0], path.rpartition(".")[2])
            return
        for name in filter(None, (it.strip() for it in names.split(","))):
            own, _, other = name.partition(" as ")
            self.names[(other or own).strip()] = (path, own.strip())


def first_sentence(lines):
    """Returns the first sentence of the comment with which a file begins, or nothing."""
    begun = []
    for line in lines:
        if not line.startswith("--") or not line[2:].strip():
            break
        begun.append(line[2:].strip())
    return re.split(r"(?<=[^.]\.)\s", " ".join(begun))[0].rstrip(".")


def defined_in(block):
    """Yields the names that a block defines: its own, and those of its constructors or fields, or of the definitions that it joins."""
    head = HEADER.match(block[0])
    if head and head[1] != "mutual":
        yield head[1]
    for line in block[1:]:
        inner = MEMBER.match(re.sub(r"^(\s+)(?:(?:abbrev|pub|data|record|unfoldable)\s+)+", r"\1", line))
        if inner:
            yield inner[1]


def read_crates():
    """Returns the crates as crates.txt has them: of each its room, its name and the names of those that it stands on."""
    found, room = [], ""
    with open(f"{TOP}/crates.txt", encoding="utf-8") as file:
        for line in file:
            name, colon, below = line.partition(":")
            if line.startswith("#"):
                room = line[1:].strip().rstrip(".")
            elif colon:
                found.append((room, name.strip(), below.split()))
    return found


def is_of_tests(crate):
    """Returns whether a crate has tests alone, by its name."""
    return crate.startswith("trial_") or crate == "nlspace_trials"


def module_of(path):
    """Returns the module that a file of specs/ or proofs/ is."""
    return "Rattle." + path[len("crates/"):-len(".antt")].replace("/", ".")


def read_files():
    """Returns all files of definitions by their modules."""
    found = {}
    for at, folders, names in os.walk(f"{TOP}/crates"):
        folders[:] = sorted(it for it in folders if it not in ("out", "src", "must-fail", "data"))
        for name in sorted(names):
            if name.endswith(".antt"):
                path = os.path.relpath(f"{at}/{name}", TOP)
                with open(f"{TOP}/{path}", encoding="utf-8") as file:
                    found[module_of(path)] = File(path, file.read())
    return found


def code_file(module):
    """Returns the file of code that a module of declared types stands for, or None."""
    found = re.match(r"Rattle\.(\w+)\.specs\.declared\.(.+)", module)
    if not found:
        return None
    parts = found[2].split(".")
    for length in range(len(parts), 0, -1):
        path = f"crates/{found[1]}/src/{'/'.join(parts[:length])}.rt"
        if os.path.isfile(f"{TOP}/{path}"):
            return path
    return f"crates/{found[1]}/src/lib.rt"


class Reach:
    """What was reached so far."""

    def __init__(self, files):
        self.files = files
        self.blocks = {}
        self.types = {}
        self.left = []

    def add(self, module, name):
        """Reaches a name of a module, through what the module passes on."""
        if ".specs.declared." in module:
            path = code_file(module)
            self.types.setdefault(path, set()).add(re.sub(r"\.TheVariants$", "", module).rpartition(".")[2])
            return
        file = self.files.get(module)
        if not file:
            return
        if name in file.defined:
            at = file.defined[name]
            if at not in self.blocks.setdefault(module, set()):
                self.blocks[module].add(at)
                self.left.append((module, at))
        elif name in file.names:
            self.add(*file.names[name])

    def add_words(self, file, module, words):
        """Reaches whatever these words of a file name."""
        for word in words:
            if word in file.defined:
                self.add(module, word)
            if word in file.names:
                self.add(*file.names[word])
            head, _, rest = word.partition(".")
            if rest and head in file.modules:
                self.add(file.modules[head], rest)
        for names in (file.names, file.defined):
            for name in names:
                if "◌" in name and all(piece in words for piece in name.split("◌") if piece):
                    self.add(module, name) if names is file.defined else self.add(*file.names[name])

    def go_on(self):
        """Reaches all that is named by what was reached."""
        while self.left:
            module, at = self.left.pop()
            file = self.files[module]
            self.add_words(file, module, set(WORDS.findall("\n".join(file.blocks[at]))))


def headline():
    """Returns what the headline reaches: what the clauses of the top call name, and whatever those definitions name."""
    reach = Reach(read_files())
    with open(f"{TOP}/{START}", encoding="utf-8") as file:
        text = file.read()
    top = File(START, "\n".join(line for line in text.split("\n") if line.startswith("ghost use")))
    head = re.search(rf"^pub fn {CALL}\b.*?^\{{$", text, re.M | re.S)[0]
    clauses = re.sub(r"//[^\n]*", "", head[re.search(r"^ +(requires|ensures)\b", head, re.M).start():])
    reach.add_words(top, "", set(WORDS.findall(clauses)))
    reach.go_on()
    return reach


def write_page(path, text):
    """Writes a page of this repository."""
    with open(f"{TOP}/{path}", "w", encoding="utf-8") as file:
        file.write(text)


def is_written(path, text):
    """Returns whether a page of this repository is there and has this text."""
    if not os.path.isfile(f"{TOP}/{path}"):
        return False
    with open(f"{TOP}/{path}", encoding="utf-8") as file:
        return file.read() == text


def write_or_check(tool, pages, words):
    """Writes pages, or with --check tells which of them haven't these texts. Returns the status of the tool."""
    if words not in ([], ["--check"]):
        print(f"{tool}: the only word is --check", file=sys.stderr)
        return 1
    status = 0
    for path, text in pages.items():
        if not words:
            write_page(path, text)
        elif not is_written(path, text):
            print(f"{tool}: {path} is out of date; tools/{tool} writes it", file=sys.stderr)
            status = 1
    return status
