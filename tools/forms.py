#!/usr/bin/env python3
"""forms.py [--places] [COMMIT]: counts the places of docs/DESIGN-PASS.md, in the working tree or at a commit."""
import re
import subprocess
import sys


def files(commit):
    """The sources and the proofs, by name."""
    if commit:
        names = subprocess.run(["git", "ls-tree", "-r", "--name-only", commit, "crates"], capture_output=True, text=True, check=True).stdout.split("\n")
    else:
        names = subprocess.run(["git", "ls-files", "-co", "--exclude-standard", "crates"], capture_output=True, text=True, check=True).stdout.split("\n")
    wanted = [n for n in names if re.search(r"/src/.*\.rt$|/proofs/.*\.antt$", n)]
    found = {}
    for name in wanted:
        if commit:
            found[name] = subprocess.run(["git", "show", f"{commit}:{name}"], capture_output=True, text=True, check=True).stdout
        else:
            try:
                found[name] = open(name, encoding="utf-8").read()
            except FileNotFoundError:
                pass
    return found


def line_of(text, at):
    return text.count("\n", 0, at) + 1


def block(text, at):
    """What stands in the braces that open at or behind a place."""
    start = text.index("{", at)
    depth = 0
    for i in range(start, len(text)):
        depth += {"{": 1, "}": -1}.get(text[i], 0)
        if depth == 0:
            return text[start + 1 : i]
    return text[start + 1 :]


def parts(body):
    """The variants or fields in a block, comments left out."""
    body = re.sub(r"//.*", "", body)
    found, depth, part = [], 0, ""
    for c in body:
        depth += {"{": 1, "(": 1, "}": -1, ")": -1}.get(c, 0)
        if c == "," and depth == 0:
            found.append(part.strip())
            part = ""
        else:
            part += c
    return [p for p in found + [part.strip()] if p]


def enums(text):
    """Own enums of the shape of an Option or a Result: one variant for nothing or a refusal, others with values or for success."""
    for m in re.finditer(r"^\s*(?:pub(?:\(\w+\))? )?enum (\w+)", text, re.M):
        variants = parts(block(text, m.end()))
        bare = [v for v in variants if re.fullmatch(r"\w+(\s*=\s*\d+)?", v)]
        refused = [v for v in variants if re.match(r"(Refused|Fault)\b", v)]
        if refused or (bare and len(bare) < len(variants)):
            yield m.start(1)


def flags(text):
    for m in re.finditer(r"^\s*(?:pub(?:\(\w+\))? )?struct \w+", text, re.M):
        if "{" in text[m.end() : m.end() + 20]:
            for f in re.finditer(r"^\s+(?:pub )?\w+: bool,", block(text, m.end()), re.M):
                yield m.end() + f.start()


def numbers(text):
    """Refusals by number: literals in an answer, and variants that carry one."""
    for m in re.finditer(r"Refused\((?:\d+|[A-Z_]+|u64)\)|Fault \{\s*number|^\s*return (?:[5-9]|1[0-3]|UNFORMED|NODES_SPENT|ENTRIES_SPENT|HALVES|BLOCKS|ENTRIES|SHARED);", text, re.M):
        yield m.start()


def loops(text):
    for m in re.finditer(r"^\s*(?:while|loop)\b", text, re.M):
        yield m.start()


def counting(text):
    """Loops whose condition reads a variable that the body moves by a fixed step."""
    for m in re.finditer(r"^\s*while ([^{\n]*)\{", text, re.M):
        body = block(text, m.end() - 1)
        if any(re.search(rf"^\s*{name} [+-]= \w+;", body, re.M) for name in re.findall(r"\b[a-z_]\w*\b", m.group(1))):
            yield m.start(1)


def hand(text):
    for m in re.finditer(r"tables::(?:plus|minus|smaller|larger)\(", text):
        yield m.start()


def functions(text):
    for m in re.finditer(r"\bfn (\w+)(?:<[^>]*>)?\(([^{]*?)\)\s*(?:->[^{]*?)?(?=\s*(?:requires|ensures|\{|where))", text, re.S):
        yield m.start(), re.findall(r"(\w+):", m.group(2))


def tables_together(text):
    for at, names in functions(text):
        if {"blocks", "nodes", "entries"} <= set(names):
            yield at


def many(text):
    for at, names in functions(text):
        if 7 <= len(names):
            yield at


def switches(text):
    for m in re.finditer(r"(?:else )?if code (?:==|<=) ", text):
        yield m.start()


def shape(body):
    """A body with each name, number and type by the order in which it comes first: twins have one shape."""
    seen = {}
    tokens = re.findall(r"\w+|[^\w\s]", re.sub(r"//.*", "", body))
    words = {"if", "else", "while", "for", "in", "return", "let", "mut", "match", "loop", "break", "as", "true", "false"}
    return tuple(t if t in words or not re.match(r"\w", t) else seen.setdefault(t, len(seen)) for t in tokens)


def twins(sources):
    """Functions whose bodies differ in names, numbers and types alone from that of one before, of twelve tokens or more."""
    first = {}
    for name, text in sorted(sources.items()):
        for m in re.finditer(r"\bfn (\w+)(?:<[^>]*>)?\(", text):
            rest = text[m.end() :]
            start = re.search(r"\{\n|\{\}", rest)
            if not start or start.group() == "{}":
                continue
            body = block(rest, start.start())
            key = shape(body)
            if len(key) < 12:
                continue
            if key in first:
                yield name, line_of(text, m.start()), m.group(1), first[key]
            else:
                first[key] = f"{name} {m.group(1)}"


SOURCES = [
    ("1a own enums of the shape of Option or Result", enums),
    ("1b refusals by number", numbers),
    ("1c structs with a flag", flags),
    ("3  loops", loops),
    ("3a of these, that count by hand", counting),
    ("4  sums, differences, the smaller and the larger by own functions", hand),
    ("5a functions that take blocks, nodes and entries apart", tables_together),
    ("5b functions with seven parameters or more", many),
    ("7  tests of a code", switches),
]


def main():
    args = sys.argv[1:]
    places = "--places" in args
    commit = next((a for a in args if not a.startswith("-")), None)
    found = files(commit)
    sources = {n: t for n, t in found.items() if n.endswith(".rt")}
    for title, rule in SOURCES:
        hits = [(n, line_of(t, at)) for n, t in sorted(sources.items()) for at in rule(t)]
        print(f"{len(hits):6}  {title}")
        if places:
            for name, line in hits:
                print(f"        {name}:{line}")
    pairs = list(twins(sources))
    print(f"{len(pairs):6}  2  functions of the shape of one before")
    if places:
        for name, line, own, other in pairs:
            print(f"        {name}:{line} {own} ~ {other}")
    proofs = {n: t for n, t in found.items() if n.endswith(".antt")}
    old = [n for n, t in proofs.items() if n.endswith("/Proof.antt")]
    print(f"{len(old):6}  8a functions proved in the old form (Proof.antt)")
    print(f"{sum(len(re.findall(r'= search rules$|λ c. search rules', t, re.M)) for t in proofs.values()):6}  8b answers that only ask for a search")
    print(f"{sum(t.count(chr(10)) for t in proofs.values()):6}  8c lines of proof")
    print(f"{sum(t.count(chr(10)) for t in sources.values()):6}     lines of source")


main()
