#!/usr/bin/env python3
"""Spells this repository's own definitions and lemmas as Rattle's guides do: types and facts in upper camel case, all else in snake case.

    tools/respell.py             changes the files of the checkout
    tools/respell.py --list      prints each name with its new spelling, and what would fall together

It reads the names that specs/ and proofs/ define, and leaves alone what Rattle makes (goals and their parts), what the source names (functions,
fields, ghost fields) and what the library names. In comments and documents only legends and names in backticks change.
"""
import os
import re
import sys

CRATES = "crates"
# Names that a rule would not give: a function or a number that was spelled like a type.
BY_HAND = {
    ("floats", "N"): "units_at",
    ("floats", "U"): "units_in_one",
    ("glyph_key", "One"): "units_in_one",
    ("glyph_key", "R"): "rounded_fraction",
    ("grid_cache", "grid-cache"): "cache_of_grid",
    ("shelf_cache", "shelf-cache"): "cache_of_shelves",
}
TOKEN = re.compile(r"[^\s(){}\[\],;.\"`@:λ/|]+|/")
SIGNATURE = re.compile(r"^ *(?:abbrev |unfoldable )?(?:pub )?(?:abbrev )?(?:pub )?([A-Za-z_][^\s:(){}.,;]*) :(?: |$)(.*)$")
RECORD = re.compile(r"^(?:pub )?(?:record|data) ([A-Za-z_][^\s:(){}.,;]*)")
MEMBER = re.compile(r"^ +(?:pub )?([A-Za-z_][^\s:(){}.,;]*) :(?: |$)")
CONSTRUCTOR = re.compile(r"^ +\| ?([A-Za-z_][^\s:(){}.,;]*)")
GENERATED = re.compile(r"^(?:goal|given|need|choice)\.")


def files(ending, *folders):
    for top in folders:
        for folder, inner, names in os.walk(top):
            inner[:] = sorted(n for n in inner if n not in ("out", "target", ".git"))
            for name in sorted(names):
                if name.endswith(ending):
                    yield os.path.join(folder, name)


def camel(name):
    return "".join(part[:1].upper() + part[1:] for part in re.split(r"[-_]", name))


def snake(name):
    name = name.replace("-", "_")
    return re.sub(r"(?<=[a-z0-9])([A-Z])", lambda m: "_" + m[1].lower(), name)


def respelled(crate, name):
    if (crate, name) in BY_HAND:
        return BY_HAND[(crate, name)]
    return camel(name) if name[0].isupper() else snake(name)


def defined(path):
    """The names that one file of specs/ or proofs/ defines, and of each whether it is a record's field."""
    inside = False
    for line in open(path, encoding="utf-8"):
        found = RECORD.match(line)
        if found:
            inside = True
            yield found[1], False
            continue
        if inside:
            member = MEMBER.match(line) or CONSTRUCTOR.match(line)
            if member:
                yield member[1], True
                continue
            if line.strip() and not line.startswith((" ", "--")):
                inside = False
        found = SIGNATURE.match(line)
        if found and not GENERATED.match(found[2]):
            yield found[1], False


def crate_of(path):
    return path.split(os.sep)[1]


def collect():
    """For each crate, its own names that change, with their new spelling; and those of them that are fields."""
    own, fields = {}, {}
    for path in files(".antt", CRATES):
        crate = crate_of(path)
        for name, is_field in defined(path):
            new = respelled(crate, name)
            if new != name:
                own.setdefault(crate, {})[name] = new
                if is_field:
                    fields.setdefault(crate, set()).add(name)
    return own, fields


def imports(text):
    """The names that a file brings in, with the path that each is brought in from."""
    for path, names in re.findall(r"^(?:pub |ghost )?use ([^\s{;]+?)\.\{([^}]*)\}", text, re.M):
        for name in names.split(","):
            yield name.split(" as ")[0].strip(), path


def scope(path, text, own, fields):
    """What changes in one file: its crate's names, what it brings in from the other crates, and their fields; no name that the library gives it."""
    names = dict(own.get(crate_of(path), {}))
    for crate, more in fields.items():
        if re.search(r"Rattle\.%s\." % crate, text):
            for name in more:
                names.setdefault(name, own[crate][name])
    for name, source in imports(text):
        parts = source.split(".")
        if parts[0] == "Rattle" and len(parts) > 1 and parts[1] in os.listdir(CRATES):
            # from the crate that defines it, or from one that hands it on
            for crate in [parts[1]] + sorted(own):
                if name in own.get(crate, {}):
                    names[name] = own[crate][name]
                    break
        elif name in names:
            print(f"kept in {path}: {name}, of {source}", file=sys.stderr)
            del names[name]
    return names


def swap(text, names):
    return TOKEN.sub(lambda m: names.get(m[0], m[0]), text)


def aliases(text, own):
    """The modules of other crates that a file names whole, with the crate of each."""
    for path, alias in re.findall(r"^use (Rattle\.[^\s{;]+?)(?: as ([a-z_]+))?;?$", text, re.M):
        if path.split(".")[1] in own:
            yield alias or path.split(".")[-1], own[path.split(".")[1]]


def swap_quoted(text, names):
    return re.sub(r"`[^`\n]*`", lambda m: swap(m[0], names), text)


def swap_antt(text, names):
    lines = []
    for line in text.split("\n"):
        code, dashes, comment = line.partition("--") if re.search(r"(^|\s)--(\s|$)", line) else (line, "", "")
        legend = line.startswith("--     ")
        lines.append(swap(code, names) + dashes + (swap(comment, names) if legend else swap_quoted(comment, names)))
    return "\n".join(lines)


def swap_rust(text, names):
    lines = []
    for line in text.split("\n"):
        code, slashes, comment = line.partition("//")
        lines.append(swap(code, names) + slashes + swap_quoted(comment, names))
    return "\n".join(lines)


def main():
    os.chdir(os.path.join(os.path.dirname(os.path.abspath(__file__)), ".."))
    own, fields = collect()
    every = {}
    for names in own.values():
        every.update(names)
    if "--list" in sys.argv:
        used = {}
        for path in list(files(".antt", CRATES)) + list(files(".rt", CRATES)):
            for token in set(TOKEN.findall(open(path, encoding="utf-8").read())):
                used.setdefault(token, set()).add(path)
        for crate, names in sorted(own.items()):
            for name, new in sorted(names.items()):
                clash = [p for p in sorted(used.get(new, ())) if crate_of(p) == crate or name in open(p, encoding="utf-8").read()]
                print(crate, name, new, "FALLS TOGETHER IN " + " ".join(clash) if clash else "")
        return
    for path in files(".antt", CRATES):
        text = open(path, encoding="utf-8").read()
        new = swap_antt(text, scope(path, text, own, fields))
        for alias, names in aliases(text, own):
            for name, new_name in names.items():
                new = re.sub(r"\b%s\.%s(?![\w'-])" % (alias, re.escape(name)), f"{alias}.{new_name}", new)
        if new != text:
            open(path, "w", encoding="utf-8").write(new)
    for path in files(".rt", CRATES):
        text = open(path, encoding="utf-8").read()
        names = {n: v for n, v in scope(path, text, own, fields).items() if re.search(r"[-A-Z]", n)}
        new = swap_rust(text, names)
        if new != text:
            open(path, "w", encoding="utf-8").write(new)
    for path in files(".edit", CRATES):
        text = open(path, encoding="utf-8").read()
        new = swap(text, {n: v for n, v in own.get(crate_of(path), {}).items() if "-" in n})
        if new != text:
            open(path, "w", encoding="utf-8").write(new)
    for path in list(files(".md", "docs")) + ["README.md"]:
        text = open(path, encoding="utf-8").read()
        new = swap_quoted(text, {n: v for n, v in every.items() if len(n) > 1})
        if new != text:
            open(path, "w", encoding="utf-8").write(new)


main()
