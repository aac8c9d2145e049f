#!/usr/bin/env python3
"""Counts the definitions that a reader of a contract reaches: count_reached.py [ROOT] [-v] [--from CRATE.MODULE.NAME].. [--cut RECORD.FIELD]..

From the records of the top calls it follows the names in each definition's text (abbrevs, records, data, other definitions) by
the `use` lines of its file. Counted are the definitions in `specs` of the project's crates; types of the code that are named
(`specs.declared`) are counted apart, and what the toolchain has is not. A cut leaves the lines of one field out.
"""
import re
import sys
from collections import Counter, defaultdict
from pathlib import Path

NAME = r"[^\s(){}\[\],;:.λ→×=]+"
HEAD = re.compile(r"^(?:(?:abbrev|opaque|transparent|inductive|unfolding)\s+)*(?:pub\s+)?(?:(record|data)\s+)?(" + NAME + r")")
KEYWORDS = {"use", "module", "where", "mutual", "unfolding", "--"}


def read_uses(text):
    names, modules = {}, {}
    for target, rest in re.findall(r"^use Rattle\.(\S+?)(?:\.\{([^}]*)\})?(?=\s|$)(?: as \S+)?", text, re.M):
        if rest:
            for item in rest.split(","):
                item = item.strip()
                inner = re.match(r"(\S+) as (\S+)", item)
                path, dot, name = (inner.group(1) if inner else item).rpartition(".")
                names[inner.group(2) if inner else name] = (target + dot + path, name)
    for target, alias in re.findall(r"^use Rattle\.(\S+) as (\S+)", text, re.M):
        modules[alias] = target
    return names, modules


def read_definitions(text):
    """The definitions of a file: name -> its lines; and constructor -> its data."""
    found, made, name, kind = {}, {}, None, None
    for line in text.split("\n"):
        if not line.strip() or line.lstrip().startswith("--") or line.startswith("use "):
            continue
        if not line[0].isspace():
            head = re.match(r"^(?:abbrev |opaque |pub )*(record|data)? ?(?:pub )?(" + NAME + r")", line.replace("abbrev pub", "pub"))
            word = re.sub(r"^((abbrev|pub|opaque|record|data|unfolding|law) )+", "", line)
            first = re.match(NAME, word)
            if first and first.group(0) not in KEYWORDS and not line.startswith("unfolding"):
                name = first.group(0)
                kind = "data" if re.match(r"^(abbrev |pub )*data ", line) else "other"
                found.setdefault(name, [])
        elif kind == "data" and name:
            maker = re.match(r"^  (" + NAME + r") :", line)
            if maker:
                made[maker.group(1)] = name
        if name:
            found[name].append(line)
    return found, made


def cited(body, makers):
    """The names that a definition cites: no field, parameter or variable that it binds itself, and no field of a value."""
    bound = set(re.findall(r"^  (?:pub )?(" + NAME + r") :", body, re.M)) if re.match(r"(pub )?record ", body) else set()
    for group in re.findall(r"[({]([^(){}:=]+) :", body) + re.findall(r"λ ([^.()]+)\.", body) + re.findall(r"\blet (" + NAME + ")", body):
        bound |= set(group.split())
    for head in re.findall(r"^[^\s{:=]+ ([^=:\n]+) =(?=\s|$)", body, re.M):
        bound |= set(re.findall(NAME, re.sub(r"\w+\." + NAME, "", head))) - makers
    values = re.sub(r"(?<=[\w)])\." + NAME, " ", body)
    return set(re.findall(NAME, re.sub(r"(?<=[{;]) *" + NAME + " = ", " ", values))) - bound


class Specs:
    def __init__(self, root):
        self.files = {}
        for path in sorted(Path(root, "crates").glob("*/specs/**/*.antt")):
            crate = path.relative_to(Path(root, "crates")).parts[0]
            module = ".".join(path.relative_to(Path(root, "crates", crate, "specs")).with_suffix("").parts)
            text = path.read_text()
            self.files[(crate, module)] = (*read_definitions(text), *read_uses(text))

        self.makers = {maker for file in self.files.values() for maker in file[1]}

    def place(self, target):
        parts = target.split(".")
        if len(parts) > 2 and parts[1] == "specs":
            return parts[0], ".".join(parts[2:])
        return None

    def follow(self, start, cuts):
        """All that is reached, by (crate, module, name)."""
        reached, types, todo = set(), set(), list(start)

        def add(target, name):
            place = self.place(target)
            if place is None or place[0] in ("std", "clap", "logic"):
                return
            if place[1].startswith("declared."):
                types.add((place[0], place[1].removesuffix(".TheVariants"), name if not place[1].endswith("TheVariants") else ""))
            elif place in self.files:
                found, made = self.files[place][:2]
                known = name if name in found else made.get(name)
                if known:
                    todo.append((*place, known))

        while todo:
            item = todo.pop()
            if item in reached:
                continue
            reached.add(item)
            crate, module, name = item
            found, made, names, modules = self.files[(crate, module)]
            lines, keep = [], True
            for line in found[name]:
                field = re.match(r"^  (?:pub )?(" + NAME + r") :", line)
                if field or not line.startswith("   "):
                    keep = not (field and f"{name}.{field.group(1)}" in cuts)
                if keep:
                    lines.append(line.split(" -- ")[0])
            body = "\n".join(lines)
            for alias, word in re.findall(r"(?<![\w.])(\w+)\.(" + NAME + ")", body):
                if alias in modules:
                    add(modules[alias], word)
            for word in cited(body, self.makers):
                if word in names:
                    add(*names[word])
                elif word != name and (word in found or word in made):
                    todo.append((crate, module, word if word in found else made[word]))
        return reached, {(t[0], t[1]) for t in types}


def main():
    args, start, cuts, verbose, root = sys.argv[1:], [], set(), False, "."
    while args:
        word = args.pop(0)
        if word == "--from":
            start.append(args.pop(0))
        elif word == "--cut":
            cuts.add(args.pop(0))
        elif word == "-v":
            verbose = True
        else:
            root = word
    specs = Specs(root)
    start = start or ["script_cmd.Serves.Serves", "script_cmd.Serves.ServesByList"]
    reached, types = specs.follow([tuple(s.split(".")) for s in start], cuts)
    by_crate = Counter(crate for crate, _, _ in reached)
    by_module = defaultdict(list)
    for crate, module, name in reached:
        by_module[(crate, module)].append(name)
    print(f"{len(reached)} definitions, {len(types)} types of the code")
    for crate, count in by_crate.most_common():
        print(f"  {count:4} {crate}")
        if verbose:
            for (of, module), names in sorted(by_module.items()):
                if of == crate:
                    print(f"         {module}: {' '.join(sorted(names))}")


try:
    main()
except BrokenPipeError:
    pass
