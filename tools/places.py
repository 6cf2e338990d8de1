#!/usr/bin/env python3
"""Counts, in the sources of the crates, the forms of code that an older Rattle forced and today's does without.

    python3 tools/places.py [--list] [POINT..]

Each point is counted by the shape of the text alone; which of the lines found are places to change is said in docs/DESIGN-PASS.md.
Run it at any commit's tree: it reads crates/*/src and crates/*/proofs below the working directory.
"""
import collections
import glob
import re
import sys

NAME = r"[A-Za-z_][A-Za-z0-9_]*"


def sources():
    for path in sorted(glob.glob("crates/*/src/**/*.rt", recursive=True)):
        with open(path) as f:
            yield path, f.read()


def functions(text):
    """Each function: its line, name, parameters, result and clauses, and body."""
    for m in re.finditer(r"(?m)^( *)(?:pub(?:\(crate\))? )?fn (%s)" % NAME, text):
        at, depth = m.end(), 0
        start = text.find("(", at)
        i = start
        while i < len(text):
            c = text[i]
            depth += c == "("
            depth -= c == ")"
            i += 1
            if depth == 0:
                break
        params = text[start + 1:i - 1]
        # the body is the brace that opens a line, or ends the line of a head with no clause
        body = re.compile(r"(?m)(^%s\{$|[^;{}\n]*\{$|[^\n]*;$)" % m.group(1)).search(text, i)
        if not body:
            continue
        if body.group(0).rstrip().endswith(";"):
            yield text.count("\n", 0, m.start()) + 1, m.group(2), params, text[i:body.end()], ""
            continue
        end = text.find("\n%s}" % m.group(1), body.end())
        yield text.count("\n", 0, m.start()) + 1, m.group(2), params, text[i:body.start()], text[body.end():end]


def split_params(params):
    out, depth, word = [], 0, ""
    for c in params:
        depth += c in "<([{"
        depth -= c in ">)]}"
        if c == "," and depth == 0:
            out.append(word.strip())
            word = ""
        else:
            word += c
    if word.strip():
        out.append(word.strip())
    return [re.sub(r"\s+", " ", p) for p in out if ":" in p]


def shape(code):
    """The code with every name and number taken out."""
    code = re.sub(r"//[^\n]*", "", code)
    words = re.findall(r"[A-Za-z_0-9.]+|\S", code)
    keep = {"if", "else", "match", "for", "in", "let", "return", "Ok", "Err", "Some", "None", "self", "unreachable", "while", "mut"}
    return tuple(w if w in keep or not re.match(r"[A-Za-z_0-9.]", w) else "_" for w in words)


def point1():
    """enums; numbers told by a match on an enum; a flag beside a value; a number for a kind"""
    for path, text in sources():
        for m in re.finditer(r"(?m)^ *(?:pub(?:\(crate\))? )?enum (%s)" % NAME, text):
            yield path, text.count("\n", 0, m.start()) + 1, "enum " + m.group(1)
        for line, name, _, head, body in functions(text):
            if re.search(r"-> u(8|16|32)\b", head) and re.search(r"match ", body) and re.search(r"=> \d+,", body):
                yield path, line, "fn %s: a number for each variant" % name
            if re.search(r"-> (Option<|Result<)?\((bool, |[^()]*, bool\))", head):
                yield path, line, "fn %s: a flag beside a value" % name
        for m in re.finditer(r"(?m)^ *(?:pub(?:\(crate\))? )?(%s): u(8|16|32)," % NAME, text):
            if re.search(r"join|kind|code|style|mix|compose|bucket|subpixel", m.group(1)):
                yield path, text.count("\n", 0, m.start()) + 1, "number field " + m.group(1)


def point2():
    """functions of one crate with the same body but for names and numbers; types with the same fields but for names"""
    seen = collections.defaultdict(list)
    for path, text in sources():
        crate = path.split("/")[1]
        for line, name, _, _, body in functions(text):
            s = shape(body)
            if len(s) >= 6:
                seen[crate, s].append((path, line, "fn " + name))
        for m in re.finditer(r"(?m)^(?:pub(?:\(crate\))? )?struct (%s)[^{;(]*\{(.*?)^\}" % NAME, text, re.S):
            fields = tuple(re.findall(r"(?m)^ *(?:pub(?:\(crate\))? )?%s: ([^,{\n]+),$" % NAME, m.group(2)))
            if len(fields) > 1:
                seen["", fields].append((path, text.count("\n", 0, m.start()) + 1, "struct " + m.group(1)))
    for group in seen.values():
        # one name for all of them is a trait's method, which each type has to write
        if len({what for _, _, what in group}) > 1:
            for path, line, what in group:
                yield path, line, "%s, like %s" % (what, ", ".join(w for p, n, w in group if (p, n) != (path, line)))


def point3():
    """loops over a range of numbers, and loops that count beside their items"""
    for path, text in sources():
        lines = text.split("\n")
        for i, line in enumerate(lines):
            m = re.match(r"( *)for (%s) in (.*\.\..*) \{$" % NAME, line)
            if m:
                yield path, i + 1, line.strip()
                continue
            m = re.match(r"( *)(for|while|loop)\b.*\{$", line)
            if m and not re.match(r" *for<|.*\bfor [A-Z].*\{$", line):
                body = []
                for below in lines[i + 1:]:
                    if below.startswith(m.group(1) + "}"):
                        break
                    body.append(below)
                body = "\n".join(body)
                early = re.search(r"return (Some\(|true|false)", body)
                if re.search(r"\+= 1;|saturating_add\(1\)|wrapping_add\(1\)", body) or early or m.group(2) != "for" or "enumerate" in line:
                    yield path, i + 1, line.strip()


def point4():
    """names and texts told by a match, kinds told from a text, printing by functions, fields compared one by one"""
    for path, text in sources():
        for line, name, params, head, body in functions(text):
            if re.search(r"-> (Option<)?&'static str", head):
                yield path, line, "fn %s: an enum in words" % name
            elif re.search(r"&str", params) and re.search(r"-> (Option|Result)<", head) and re.search(r'"\w+" => ', body):
                yield path, line, "fn %s: an enum from words" % name
            elif re.search(r"Formatter", params) and name != "fmt":
                yield path, line, "fn %s: printing by a function" % name
            elif len(re.findall(r"\w+\.\w+ == \w+", body)) > 1:
                yield path, line, "fn %s: fields compared one by one" % name
            elif re.match(r"to_|into_|from_|.*_of$", name) and re.search(r"-> [A-Z]", head) and not re.search(r"->.*(Option|Result)<", head) and re.match(r"\s*[A-Z]\w+ \{", body):
                yield path, line, "fn %s: a conversion by hand" % name


def point5():
    """clauses that three functions or more have, and parameters that three or more take together"""
    clauses, groups = collections.defaultdict(list), collections.defaultdict(list)
    for path, text in sources():
        crate = path.split("/")[1]
        for line, name, params, head, _ in functions(text):
            for kind, clause in re.findall(r"(requires|ensures)(?: \w+)? \{ (.*) \}", head):
                clauses[crate, kind, clause].append((path, line, name))
            ps = split_params(params)
            for i in range(len(ps)):
                for j in range(i + 1, len(ps)):
                    groups[crate, ps[i], ps[j]].append((path, line, name))
    for (crate, kind, clause), where in sorted(clauses.items()):
        if len(where) > 2:
            yield where[0][0], where[0][1], "%d times %s { %s }" % (len(where), kind, clause)
    for (crate, a, b), where in sorted(groups.items()):
        if len(where) > 2:
            yield where[0][0], where[0][1], "%d times (%s, %s)" % (len(where), a, b)


def point6():
    """arrays and lists that a struct holds, counts beside them, and fields numbered by hand"""
    for path, text in sources():
        for s in re.finditer(r"(?m)^(?:pub(?:\(crate\))? )?struct %s[^{;(]*\{(.*?)^\}" % NAME, text, re.S):
            for m in re.finditer(r"(?m)^ *(?:pub(?:\(crate\))? )?(%s): ([^{\n]+),$" % NAME, s.group(1)):
                line = text.count("\n", 0, s.start(1) + m.start()) + 1
                if re.search(r"\[|Vec<|Bounded<", m.group(2)):
                    yield path, line, "%s: %s" % (m.group(1), m.group(2))
                elif re.match(r"(len|live|used|count|axes|standing)$", m.group(1)):
                    yield path, line, "%s: %s, a count" % (m.group(1), m.group(2))
                elif re.search(r"[a-z]{2,}0$", m.group(1)):
                    yield path, line, "%s and on: fields numbered by hand" % m.group(1)


def point7():
    """a match whose arms all call one function or another of the same arguments; function pointers; dyn"""
    for path, text in sources():
        for m in re.finditer(r"\bdyn \w+|: fn\(", text):
            yield path, text.count("\n", 0, m.start()) + 1, m.group(0)
        for line, name, _, _, body in functions(text):
            arms = re.findall(r"=> (\w+(?:\.\w+)?)\(([^()]*)\),", body)
            if len(arms) > 1 and len({a for a, _ in arms}) > 1 and len({b for _, b in arms}) == 1:
                yield path, line, "fn %s: %s" % (name, " or ".join(sorted({a for a, _ in arms})))


def point8():
    """answers by crate, and lines of lemmas"""
    answers, lemmas = collections.Counter(), collections.Counter()
    for path in sorted(glob.glob("crates/*/proofs/**/*.antt", recursive=True)):
        crate = path.split("/")[1]
        text = open(path).read()
        if path.endswith("Answers.antt") or path.endswith("Invariants.antt") or path.endswith("Proof.antt"):
            answers[crate] += len(re.findall(r"(?m)^(?:abbrev )?pub ", text))
        else:
            lemmas[crate] += text.count("\n")
    for crate in sorted(set(answers) | set(lemmas)):
        yield "crates/%s/proofs" % crate, 0, "%d answers, %d lines of lemmas" % (answers[crate], lemmas[crate])


def main():
    points = {str(n): f for n, f in enumerate([point1, point2, point3, point4, point5, point6, point7, point8], 1)}
    asked = [a for a in sys.argv[1:] if a in points] or list(points)
    for n in asked:
        found = list(points[n]())
        print("%s. %s: %d" % (n, points[n].__doc__, len(found)))
        if "--list" in sys.argv:
            for path, line, what in found:
                print("    %s:%d: %s" % (path, line, what))


if __name__ == "__main__":
    main()
