"""A part of the crates: some functions of one, whole, and of all else what they name. For tests/stubs.py.

Types and definitions are taken whole, of lemmas those that are named. A function that may fail for want of memory gets a body that
does, where all that it is handed is let go by itself; a law becomes an axiom (`unsafe extern "C"`); any other function is taken
whole, with its proof. The files are read by their layout (`rattle fmt`), names by the `use` items of their module.
"""
import glob
import os
import re
import shutil

WORD = re.compile(r"[A-Za-z_]\w*")
NAME = re.compile(r"[\w'?-]+")
OF_ANTT = re.compile(r"\b(?:Rattle\.(cad_\w+)|(crate|cad_\w+)::)\.?(specs|proofs)((?:(?:\.|::)[^\s.:{},;()]+)+)")
LET_GO = set("bool char str String Global Vec Option Box Rc mut usize u8 u16 u32 u64 u128 i64 i128".split())


def read(path):
    with open(path, encoding="utf-8") as it:
        return it.read()


def items_of(text):
    """The items of a laid out file or block, as (attributes, item)."""
    lead, item, found = [], [], []
    for line in text.split("\n"):
        if not item and (not line or line.startswith(("//", "#!"))):
            continue
        (item if item or not line.startswith(("#[", " ", ")]")) else lead).append(line)
        is_whole = "\n".join(item).count('r#"') == "\n".join(item).count('"#')
        if item and is_whole and (line in ("}", "{}") or (line and line[0] != " " and line.endswith((";", "{}")))):
            found.append(("\n".join(lead), "\n".join(item)))
            lead, item = [], []
    return found


def head_of(item):
    """The trait of an impl, if it has one, and its type."""
    head = item.split("{")[0][4:].replace("->", "")
    while "<" in head:
        head = re.sub(r"<[^<>]*>", "", head)
    trait, _, name = head.split(" where")[0].rpartition(" for ")
    return trait.split("::")[-1].strip(), WORD.search(name)[0]


def name_of(item):
    """The kind of an item and its name; of an impl its type."""
    head = re.sub(r"^(pub(\([a-z]+\))? )?((unsafe|const) (?=fn))?", "", item)
    kind = WORD.match(head)[0]
    return kind, head_of(head)[1] if kind == "impl" else WORD.search(head, len(kind))[0]


def parts_of(text):
    """The parts between the commas of a text that aren't in brackets."""
    parts, depth = [""], 0
    for letter in text.replace("->", "  "):
        depth += (letter in "<([{") - (letter in ">)]}")
        parts = [*parts, ""] if letter == "," and depth == 0 else [*parts[:-1], parts[-1] + letter]
    return [it.strip() for it in parts if it.strip()]


def names_in(item):
    """What an item `use` brings in: for each name the path that it comes from, its name there, and here."""
    line = re.sub(r"\s+", " ", re.sub(r"^(pub |ghost )*use ", "", item)).rstrip(";").strip()
    path, mark, inner = line.partition("{")
    path, inner = (path, inner.rstrip("} ")) if mark else re.match(r"(.*?)((?:[\w«»]|[^\x00-\x7f])+(?: as .+)?)$", line).groups()
    for one in filter(None, re.split(r",\s*", inner.strip())):
        own, _, called = one.partition(" as ")
        yield path.rstrip(":."), own, called or own


def with_names(item, is_used):
    """An item `use` with the names alone that are used; nothing where none is."""
    used = [own if own == called else f"{own} as {called}" for path, own, called in names_in(item) if is_used(path, own, called)]
    head, mark, tail = re.sub(r"\s+", " ", item).partition("{")
    return (f"{head}{{{', '.join(used)}}}{';' * tail.endswith(';')}" if mark else item) if used else ""


def has(text, words, name):
    """Whether a name occurs in a text that has these words; of an operator all its parts."""
    return all(it in words or not NAME.fullmatch(it) and it in text for it in name.split("◌") if it)


def lemmas_of(text, wanted):
    """A file of lemmas with those of these names alone, and what they name; all of it where None is among the names."""
    if None in wanted or "mutual" in text:
        return text
    blocks = []
    for block in re.split(r"\n\n+(?! {4})", text):
        block = "\n".join(it for it in block.split("\n") if it and not it.startswith(("use ", "--")))
        names = re.findall(r"^(?:(?:pub|abbrev|data|record|unfolding) )*([^\s:]+)|^ +(?:(?:pub|abbrev) )*([^\s:]+) :", block, re.M)
        blocks.append((block, {one or two for one, two in names}, set(NAME.findall(block))))
    if not wanted <= set().union(*(it[1] for it in blocks)):
        return text
    kept, left = [], set(wanted)
    while left:
        name = left.pop()
        for one in blocks:
            if name in one[1] and one not in kept:
                head = [it for it in blocks[: blocks.index(one)] if it[0].startswith("module ")][-1:] if one[0].startswith(" ") else []
                kept += [it for it in (*head, one) if it not in kept]
                left = left.union(*(it[2] for it in (*head, one)))
    kept = [it for it in blocks if it in kept]
    body, words = "\n\n".join(it[0] for it in kept), set().union(*(it[2] for it in kept))
    uses = [with_names(it, lambda _, __, called: has(body, words, called)) for it in text.split("\n") if it.startswith("use ")]
    return "\n".join([*filter(None, uses), "", body, ""])


class Slice:
    """What is kept of each crate, but of those that are proved: `names` are modules of a crate, or functions as MODULE::f."""

    def __init__(self, top, crate, names, proved):
        self.top, self.crate, self.own, self.proved = top, crate, names, proved
        self.files, self.items, self.scopes = {}, {}, {}
        self.let_go, self.held, self.memory = set(LET_GO), set(), {"AllocError": "AllocError"}
        self.kept, self.antt, self.wanted, self.called, self.exports = {}, {}, {}, set(), set()
        for path in sorted(glob.glob(f"{top}/crates/*/src/*.rt")):
            crate, module = path.split("/")[-3], os.path.basename(path)[:-3]
            if not crate.endswith("_tests") and module != "tests":
                self.load(crate, module, items_of(read(path)))
        self.let_go -= self.held
        for key in list(self.items):
            if self.is_own(*key) or self.has_own(*key):
                self.keep(key)
        size = -1
        while size != sum(map(len, self.kept.values())):
            size = sum(map(len, self.kept.values()))
            self.keep_impls()

    def load(self, crate, module, items):
        scope = self.scopes[crate, module] = {}
        self.files.setdefault(crate, {})[module] = []
        for lead, item in items:
            kind, name = name_of(item)
            if kind in ("use", "ghost"):
                scope.update({called: (path, own) for path, own, called in names_in(item)})
            key = (crate, module, item if kind in ("impl", "use", "ghost") else name)
            self.files[crate][module].append((kind, name, key))
            if "#[cfg(test)]" not in lead:
                self.items[key] = (kind, lead, item)
            if kind in ("struct", "enum"):
                (self.let_go if re.search(r"derive\([^)]*\b(Drop|Copy)\b", lead) else self.held).add(name)
            if kind == "enum" and re.search(r"^    Memory,$", item, re.M):
                self.memory[name] = f"{name}::Memory"

    # ---- names

    def target(self, crate, path, own):
        """The item behind a name that is brought in by a path; None where it isn't of the repository."""
        first, _, module = path.partition("::")
        low = crate if first == "crate" or first in self.files[crate] else first
        module = (first if first in self.files[crate] else module) or "lib"
        if (low, module) not in self.scopes:
            return None
        if (low, module, own) in self.items and self.items[low, module, own][0] != "mod":
            return low, module, own
        self.exports.add((low, module, own))
        return self.target(low, *self.scopes[low, module][own]) if own in self.scopes[low, module] else None

    def see(self, crate, module, text):
        """All that a text of a module names is kept."""
        text, scope = re.sub(r"//[^\n]*", "", text), self.scopes[crate, module]
        self.called.update(re.findall(r"(?:\.|::)(\w+)", text))
        for word in set(WORD.findall(text)):
            path, own = scope.get(word, ("", ""))
            self.keep((crate, module, word))
            self.keep(self.target(crate, path, own) if path else None)
            self.see_antt(crate, f"{path}.{own}")
        for path, own in re.findall(r"\b(crate::\w+|cad_\w+|cad_\w+::\w+|[a-z]\w*)::(\w+)", text):
            self.keep(self.target(crate, path, own))
        self.see_antt(crate, text)

    def see_antt(self, crate, text):
        """The definitions and lemmas that a text names are kept, and the types."""
        for low, word, part, path in OF_ANTT.findall(text):
            low, names, more = low or (crate if word == "crate" else word), re.split(r"::|\.", path)[1:], []
            if names[0] == "declared":
                self.keep((low, *names[1:3]))
            while names and not os.path.isfile(f"{self.top}/crates/{low}/{part}/{'/'.join(names)}.antt"):
                more = [names.pop()]
            if names:
                self.keep_file(low, f"{part}/{'/'.join(names)}.antt", set(more) or {None})

    # ---- what is kept

    def keep_file(self, crate, path, names):
        """A file of definitions; of one of lemmas those of these names."""
        wanted = self.wanted.setdefault((crate, path), set())
        if crate in self.proved or (crate, path) in self.antt and (None in wanted or names <= wanted):
            return
        wanted |= names if re.match(r"proofs/[A-Z]", path) else {None}
        text = self.antt[crate, path] = lemmas_of(read(f"{self.top}/crates/{crate}/{path}"), wanted)
        for line in text.split("\n"):
            if line.startswith("use "):
                for it, own, _ in names_in(line):
                    self.see_antt(crate, f"{it}.{own}")
            else:
                self.see_antt(crate, line)

    def keep(self, key):
        if key is None or key in self.kept or key not in self.items or key[0] in self.proved:
            return
        kind, lead, item = self.items[key]
        if kind not in ("mod", "use", "ghost", "impl"):
            self.kept[key] = self.function(*key, lead, item) if kind == "fn" else f"{lead}\n{item}"
            self.see(*key[:2], self.kept[key])

    def keep_impls(self):
        """The impls of the kept types, with the methods that are named."""
        types = {(crate, name) for crate, _, name in self.kept}
        for (crate, module, item), (kind, lead, _) in list(self.items.items()):
            trait, name = head_of(item) if kind == "impl" else ("", "")
            if (crate, name) not in types:
                continue
            head, _, inner = item.partition("{\n")
            block = []
            for more, one in items_of("\n".join(line[4:] for line in inner.split("\n")[:-1])):
                kind, method = name_of(one)
                if kind != "fn":
                    block.append(f"{more}\n{one}")
                elif trait or method in self.called or self.is_own(crate, module, f"{name}/{method}"):
                    block.append(self.function(crate, module, f"{name}{trait}/{method}", more, one))
            text = f"{lead}\n{head}{{\n" + "\n".join(block) + "\n}"
            if block and self.kept.get((crate, module, item)) != text:
                self.kept[crate, module, item] = text
                self.see(crate, module, text)

    def function(self, crate, module, path, lead, item):
        """A function as it is kept: whole, or with a body that fails."""
        lines = item.split("\n")
        at = next(i for i, line in enumerate(lines) if line and line[0] != " " and line.endswith(("{", "{}")))
        head = re.split(r"\n(?:    (?:requires\b|ensures\b|//)|where\b)", "\n".join(lines[: at + 1]))[0].rstrip("{} \n")
        given, result = re.match(r".*?\((.*)\)(?: -> (.*))?$", head, re.S).groups()
        fails = re.fullmatch(r"Result<(.*)>", result or "", re.S)
        error = self.memory.get(parts_of(fails[1])[-1]) if fails else None
        is_own = self.is_own(crate, module, path)
        if error and not is_own and all(map(self.is_let_go, parts_of(given))):
            return "\n".join([*lines[:at], re.sub(r"\{\}?$", "{", lines[at]), f"    Err({error})", "}"])
        if not given and result is None and not is_own:
            axiom = ["unsafe extern \"C\" {", f"    safe fn believed_{path}()", *[f"    {it}" for it in lines[1:at] if "//" not in it]]
            return "\n".join([*axiom, "    ;", "}", *lines[:at], "{", f"    believed_{path}()", "}"])
        for folder in [path, *[f"+{it}" for it in re.findall(r"#\[cycle\((\w+)\)\]", lead)]]:
            for file in glob.glob(f"{self.top}/crates/{crate}/proofs/{module}/{folder}/*.antt"):
                self.keep_file(crate, os.path.relpath(file, f"{self.top}/crates/{crate}"), {None})
        return f"{lead}\n{item}"

    def is_own(self, crate, module, path):
        return crate == self.crate and (module in self.own or f"{module}::{path.replace('/', '::')}" in self.own)

    def has_own(self, crate, module, name):
        """Whether a method of this type is asked for."""
        return crate == self.crate and any(it.startswith(f"{module}::{name}::") for it in self.own)

    def is_let_go(self, parameter):
        kind = re.sub(r"'\w+", "", parameter.split(":", 1)[-1]).strip()
        return kind.startswith("&") or all(it in self.let_go for it in WORD.findall(kind))

    # ---- the files

    def file_of(self, crate, module):
        """The text of a module; nothing where nothing of it is kept."""
        kept = {key: self.kept[key] for _, _, key in self.files[crate][module] if key in self.kept}
        if module != "lib" and not kept:
            return ""
        text = "\n".join(kept.values())
        words = set(NAME.findall(text))
        cycles = re.findall(r"#\[cycle\((\w+)\)\]", "\n".join(it for key, it in self.kept.items() if key[0] == crate))
        lines = re.findall(r"^#!\[.*\]$", read(f"{self.top}/crates/{crate}/src/{module}.rt"), re.M)
        for kind, name, key in self.files[crate][module]:
            item = self.items.get(key, ("", "", ""))[2]
            if kind in ("use", "ghost"):
                lines.append(with_names(item, lambda *it: self.is_used(crate, module, *it, text, words)))
            elif key in kept or kind == "mod" and any(it in self.kept for _, _, it in self.files[crate].get(name, [])):
                lines.append(re.sub(r"#\[cycle\((\w+)\)\]\n", lambda it: it[0] if cycles.count(it[1]) > 1 else "", kept.get(key, item)))
        return "\n".join(it.strip("\n") for it in lines if it) + "\n"

    def is_used(self, crate, module, path, own, called, text, words):
        first = re.match(r"(?:Rattle\.)?(\w*)", path)[1]
        if path.startswith("Rattle.") or first not in self.files and first not in self.files[crate] and first != "crate":
            return first == "std" or has(text, words, called)
        found = self.target(crate, path, own)
        is_there = found is not None and (found in self.kept or found[0] in self.proved)
        return is_there and (called in words or (crate, module, called) in self.exports)

    def write(self, folder, crate):
        """Writes what is kept of a crate; the crates that it names, and its text."""
        files = {f"src/{module}.rt": self.file_of(crate, module) for module in self.files[crate]}
        files.update({path: text for (it, path), text in sorted(self.antt.items()) if it == crate})
        for path in [it for it in files if it.endswith(".antt")]:
            names = path[:-5].split("/")
            while len(names) > 1:
                name = names.pop()
                above = "/".join(names) + ("/Lib.antt" if len(names) == 1 else ".antt")
                if name[0].isupper() and name != "Lib" and os.path.isfile(f"{self.top}/crates/{crate}/{above}"):
                    files.setdefault(above, "")
        for path in [it for it in files if it.endswith(".antt")]:
            own, is_kept = os.path.dirname(path) if path.endswith("/Lib.antt") else path[:-5], (crate, path) in self.antt
            lines = (self.antt[crate, path] if is_kept else read(f"{self.top}/crates/{crate}/{path}")).split("\n")
            is_mod = re.compile(r"(?:pub )?mod (\S+)")
            files[path] = "\n".join(it for it in lines if (f"{own}/{is_mod.match(it)[1]}.antt" in files if is_mod.match(it) else is_kept)) + "\n"
        shutil.rmtree(f"{folder}/{crate}", ignore_errors=True)
        for path, text in files.items():
            if text.strip():
                os.makedirs(os.path.dirname(f"{folder}/{crate}/{path}"), exist_ok=True)
                with open(f"{folder}/{crate}/{path}", "w", encoding="utf-8") as it:
                    it.write(text)
        text = "".join(files[path] for path in sorted(files))
        words = set(WORD.findall(text))
        libraries = [it for it in self.files if not os.path.isfile(f"{self.top}/crates/{it}/src/main.rt")]
        return [it for it in libraries if it != crate and it in words], text
