#!/usr/bin/env python3
"""Prints what must be believed for the clauses of `serve` to say what they seem to, and refuses a public clause that rests on
the code's own definitions.

  believed.py [--list]

A clause rests on the definitions that it names, on the types of the function's parameters, and on all that these rest on. Not
among them: std's, private ghost fields and what is always true of a type, since these are proved and say nothing of what a
clause means. Names are found by their imports, without types, so what is printed is an upper bound.
What stands in a crate's specs/Code/ follows its code and needs no belief. A public clause of a crate may not rest on it. What
a lib.rt offers under the comment `// For the crates above alone` isn't public: it is a part of what these offer.
"""
import pathlib
import re
import sys

CRATES = pathlib.Path(__file__).resolve().parent.parent / "crates"
ENTRY = ("cad_serve", "serving", "serve")
FOR_ABOVE = "// For the crates above alone"
TOKEN = re.compile(r"[^\s(){}\[\],;<>&|:]+|[<>&|:=]+")
# ghost members that say what is always true of a type
FACTS = {"invariant", "laws", "rising", "coded", "from_gives"}


class Module:
    """A file: what its names stand for, and its definitions, each as a key with its text."""

    def __init__(self, crate, name):
        self.crate, self.name = crate, name
        self.names = {}  # a name to the key of its definition
        self.modules = {}  # a name to (crate, module) of a module of definitions
        self.texts = {}  # the key of a definition to its text


def spec_key(path, name):
    """The key of `name` in the module at a path as Rattle.cad_x.specs.F, or None where it is std's."""
    words = path.split(".")
    if len(words) < 4 or words[1] == "std" or words[2] != "specs":
        return None
    if words[3] == "declared":
        at = next((i for i, word in enumerate(words) if i > 3 and word[:1].isupper()), len(words))
        return (words[1], "src/" + "/".join(words[4:at]), (words + [name])[at])
    return (words[1], ".".join(words[3:]), name)


def imports(module, text):
    """Takes the imports of definitions."""
    for line in re.findall(r"^\s*(?:ghost |pub )?use (Rattle\.[^;\n]*(?:\{[^}]*\})?)", text, re.M):
        listed = re.match(r"(\S+)\.\{([^}]*)\}", line)
        renamed = re.match(r"(\S+) as (\S+?);?$", line)
        if listed:
            for part in listed[2].split(","):
                name, _, local = part.strip().partition(" as ")
                key = spec_key(listed[1], name)
                if key:
                    bind(module, local or name, key)
        elif renamed:
            words = renamed[1].split(".")
            if words[1] != "std" and words[3] == "declared":
                bind(module, renamed[2], spec_key(renamed[1], ""))
            elif words[1] != "std":
                # a module or a definition of one
                module.modules[renamed[2]] = (words[1], ".".join(words[3:]))
                module.names[renamed[2]] = (words[1], ".".join(words[3:-1]), words[-1])


def bind(module, name, key):
    module.names[name] = key
    for part in name.split("◌"):
        if "◌" in name and part:
            module.names[part] = key


def read_specs(crate, path, name):
    """The definitions of a file of specs/."""
    text = re.sub(r"--.*", "", path.read_text())
    module = Module(crate, name)
    imports(module, text)
    head = re.compile(r"^\s*(?:mutual\s+)?(?:(?:unfoldable|abbrev|pub)\s+)*(data\s+|record\s+)?([^\s:({]+)[^:=]*:")
    key = None
    for line in text.split("\n"):
        found = head.match(line)
        starts = found and re.match(r"\s*(?:mutual\s+)?(?:pub )?(?:unfoldable|abbrev|data|record)\b|pub \S+ :", line)
        if not line.strip() or line.startswith(("use ", "pub use ", "pub mod ")):
            continue
        if starts:
            key = (crate, name, found[2])
            module.texts[key] = ""
            bind(module, found[2], key)
        elif key:
            member = re.match(r"\s+(?:pub )?([^\s:({]+) :", line)
            if member:  # a constructor or a field
                module.names.setdefault(member[1], key)
        if key:
            module.texts[key] += line + "\n"
    return module


def block(text, start):
    """The text from `start` to the end of its first item in braces, or to a `;` before one."""
    depth = 0
    for i in range(start, len(text)):
        if text[i] == "{":
            depth += 1
        elif text[i] == "}":
            depth -= 1
            if depth == 0:
                return text[start : i + 1]
        elif text[i] == ";" and depth == 0:
            return text[start : i + 1]
    return text[start:]


def read_code(crate, path, name):
    """The types, traits and constants of a file of src/, and its functions' clauses: (owner, name, whether `pub`, text)."""
    text = re.sub(r"//.*", "", path.read_text())
    module = Module(crate, name)
    imports(module, text)
    for used in re.findall(r"^\s*(?:pub )?use ((?:crate|cad_\w+)::[^;]*);", text, re.M):
        base = re.match(r"((?:\w+::)*)", used)[1].split("::")
        for part in re.findall(r"(\w+)(?: as (\w+))?(?=\s*[,}]|\s*$)", used):
            module.names.setdefault(part[1] or part[0], ("rt", crate if base[0] == "crate" else base[0], part[0]))
    for item in re.finditer(r"^(?:pub(?:\(crate\))? )?(?:struct|enum|trait|const|type) (\w+)", text, re.M):
        body = block(text, item.start())
        body = re.sub(r"^\s*ghost \w+: \{.*\},?$", "", body, flags=re.M) if " trait " not in " " + body[:30] else body
        key = (crate, name, item[1])
        module.texts[key] = body
        module.names[item[1]] = key
    owners = []
    for item in re.finditer(r"^impl[^{]*?(?:\bfor )?(\w+)(?:<[^{]*>)?\s*(?:where[^{]*)?\{", text, re.M):
        owners.append((item.start(), item[1], " for " in item[0]))
        key = (crate, name, item[1])
        for member, value in re.findall(r"^\s+ghost (\w+) = (\{.*\});$", block(text, item.start()), re.M):
            if member not in FACTS and key in module.texts:
                module.texts[key] += value + "\n"
    for item in re.finditer(r"^(?:pub )?trait (\w+)", text, re.M):
        owners.append((item.start(), item[1], True))
    owners.sort()
    module.functions = []
    for item in re.finditer(r"^( *)(pub )?fn (\w+)", text, re.M):
        within = [o for o in owners if o[0] < item.start()] if item[1] else []
        said = []
        for line in text[item.start() :].split("\n"):
            if line.strip() in ("{", "{}"):
                break
            said.append(line)
            if line.rstrip().endswith((" {", " {}", ";")):
                break
        owner = within[-1] if within else None
        module.functions.append((owner[1] if owner else None, item[3], bool(item[2]) or bool(owner and owner[2]), "\n".join(said)))
    return module


class Reader:
    def __init__(self):
        self.modules = {}
        self.code = {}
        self.offered = {}
        for folder in sorted(CRATES.iterdir()):
            if (folder / "src").is_dir():
                self.read(folder.name, folder)

    def read(self, crate, folder):
        for path in sorted((folder / "specs").rglob("*.antt")):
            name = ".".join(path.relative_to(folder / "specs").with_suffix("").parts)
            self.modules[crate, name] = read_specs(crate, path, name)
        root = next(p for p in (folder / "src/lib.rt", folder / "src/main.rt") if p.exists()).read_text()
        tests = set(re.findall(r"#\[cfg\(test\)\]\s*mod (\w+);", root))
        for path in sorted((folder / "src").rglob("*.rt")):
            name = "src/" + "/".join(path.relative_to(folder / "src").with_suffix("").parts)
            if path.stem not in tests:
                self.modules[crate, name] = read_code(crate, path, name)
        above = set()
        for part in re.findall(re.escape(FOR_ABOVE) + r"[^\n]*\n((?:pub (?:use|mod) [^;]*;\n)+)", root):
            above |= set(re.findall(r"(\w+)(?=\s*[,};])", part))
        shown = {n for part in re.findall(r"^pub use [^;]*;", root, re.M) for n in re.findall(r"(\w+)(?=\s*[,};])", part)}
        whole = {"src/" + m for m in re.findall(r"^pub mod (\w+);", root, re.M) if m not in above}
        if crate == ENTRY[0]:
            shown |= {ENTRY[2]}
            whole |= {"src/laws"}
        self.offered[crate] = (shown - above, whole)

    def public(self, crate):
        """The functions that a crate offers: (module, name, clauses with the signature)."""
        shown, whole = self.offered[crate]
        for (of, name), module in self.modules.items():
            if of == crate and name.startswith("src/"):
                for owner, function, is_pub, text in module.functions:
                    if is_pub and ((owner or function) in shown or name in whole):
                        yield module, (owner + "::" if owner else "") + function, text

    def resolve(self, module, token):
        head, _, tail = token.partition(".")
        key = module.names.get(token) or module.names.get(head)
        if tail and head in module.modules:
            target = self.modules.get(module.modules[head])
            if target:
                key = target.names.get(tail) or target.names.get(tail.split(".")[0])
        if key and key[0] == "rt":
            return next((k for (c, n), m in self.modules.items() if c == key[1] and n.startswith("src/") for k in m.texts if k[2] == key[2]), None)
        # a definition that another crate passes on stands where that one names it
        passed = set()
        while key and key[:2] in self.modules and key not in passed:
            target = self.modules[key[:2]]
            if key in target.texts:
                return key
            passed.add(key)
            key = target.names.get(key[2])
        return None

    def rests_on(self, module, text, seen):
        """Adds the keys of all definitions on which a text rests."""
        waiting = [(module, text)]
        while waiting:
            module, text = waiting.pop()
            for token in TOKEN.findall(text):
                key = self.resolve(module, token)
                if key and key not in seen and key[0] != "rt":
                    seen.add(key)
                    home = self.modules.get(key[:2])
                    if home and key in home.texts:
                        waiting.append((home, home.texts[key]))
        return seen


def main():
    reader = Reader()
    entry = next((m, t) for m, n, t in reader.public(ENTRY[0]) if n == ENTRY[2])
    needed = reader.rests_on(*entry, set())
    print("What must be believed, from the clauses of `serve` down:")
    lines = lambda key: sum(1 for line in reader.modules[key[:2]].texts[key].split("\n") if line.strip())
    needed = [k for k in sorted(needed) if k in reader.modules[k[:2]].texts]
    for crate in sorted({k[0] for k in needed}):
        keys = [k for k in needed if k[0] == crate]
        print(f"  {crate:22} {len(keys):4} definitions {sum(map(lines, keys)):5} lines")
        if "--list" in sys.argv:
            for name in sorted({k[1] for k in keys}):
                print(f"      {name}: " + ", ".join(k[2] for k in keys if k[1] == name))
    everything = [k for m in reader.modules.values() for k in m.texts]
    print(f"  {'in all':22} {len(needed):4} of {len(everything)}    {sum(map(lines, needed)):5} of {sum(map(lines, everything))} lines")
    wrong = []
    for crate in reader.offered:
        for module, name, text in reader.public(crate):
            for key in sorted(reader.rests_on(module, text, set())):
                if key[1].split(".")[0] == "Code":
                    wrong.append(f"{crate}: {name} rests on {key[0]} {key[1]}.{key[2]}, which is under Code")
    print("\n".join(wrong) or "No public clause rests on a definition under Code.")
    return 1 if wrong else 0


if __name__ == "__main__":
    sys.exit(main())
