#!/usr/bin/env python3
"""Places in src/ where a newer form of the language may serve, point by point (docs/DESIGN-PASS.md says which points).

    python3 tools/design_places.py [ROOT]         counts, and how many of the places have a line `// Kept: reason`
    python3 tools/design_places.py [ROOT] -v      each place, with a * where it has none

A place is something to look at, not a verdict. A line `// Kept:` stands over what it speaks of: an item, a statement or
a field. One that begins with "codes", "fields", "facts" or "rows" may also stand over an impl or at the head of a file;
it then speaks of the numbers of kinds, the parameters that travel together, the facts that several functions require, or
the rows that are reached by place.
"""
import collections
import glob
import re
import sys

args = [a for a in sys.argv[1:] if a != "-v"]
verbose = "-v" in sys.argv
root = args[0] if args else "."

LIBRARY = [p for p in sorted(glob.glob(f"{root}/crates/*/src/*.rt")) if not re.search(r"/\w+_tests/", p)]
TEXT = {p: open(p, encoding="utf-8").read() for p in LIBRARY}
SOURCE = {p: re.sub(r"//[^\n]*", lambda m: " " * len(m.group()), text) for p, text in TEXT.items()}
TOPICS = {"codes": ("1b", "7b"), "fields": ("5b",), "facts": ("5a",), "rows": ("6b", "6e")}


def name(path):
    return path[len(root) + len("/crates/"):].replace("/src/", "/")


def line(text, at):
    return text.count("\n", 0, at) + 1


def covers(text):
    """What each `// Kept:` of a file speaks of: first and last line, and the points (None for all)."""
    lines = text.split("\n")
    for i, text in enumerate(lines):
        m = re.match(r"\s*// Kept: (\w*)", text)
        if not m:
            continue
        first = i
        while re.match(r"\s*(//|#!?\[)", lines[first]):
            first += 1
        topics = TOPICS.get(m.group(1))
        head = not lines[first].strip() or re.match(r"(ghost )?use |mod ", lines[first])
        if head or re.match(r"\s*impl\b", lines[first]):
            topics = topics or ()
        if head:
            yield 1, len(lines), topics
            continue
        indent = re.match(" *", lines[first]).group()
        last = first
        if not re.search(r"[;,]$", lines[first]):
            while last + 1 < len(lines) and not re.match(indent + r"[})\]]", lines[last]):
                last += 1
            while lines[last].rstrip().endswith("{") and last + 1 < len(lines):
                last += 1
                while last + 1 < len(lines) and not re.match(indent + r"\}", lines[last]):
                    last += 1
        yield first + 1, last + 1, topics


COVERS = {p: list(covers(text)) for p, text in TEXT.items()}


def kept(point, path, at):
    return any(a <= at <= b and (points is None or point in points) for a, b, points in COVERS[path])


def report(title, places):
    """A place is a text, and the spots (path and line) at which it stands; it is kept if each of these is."""
    point = title.split()[0]
    places = [(text, all(kept(point, *spot) for spot in spots)) for text, spots in places]
    print(f"{title}: {len(places)}, kept {sum(k for _, k in places)}")
    if verbose:
        for text, k in places:
            print("   " if k else "  *", text)


def matches(pattern, flags=0, but=None):
    for path, text in SOURCE.items():
        for m in re.finditer(pattern, text, flags):
            whole = text[text.rfind("\n", 0, m.start()) + 1:text.find("\n", m.end())]
            if "ghost use" not in whole and not (but and re.search(but, whole)):
                yield path, line(text, m.start()), " ".join(m.group().split())


def found(pattern, flags=0, but=None):
    return ((f"{name(path)}:{at} {text}", [(path, at)]) for path, at, text in matches(pattern, flags, but))


class Function:
    def __init__(self, path, at, title, parameters, clauses, body):
        self.path, self.at, self.title, self.body = path, at, title, body
        self.parameters = [" ".join(p.split()) for p in re.split(r",(?![^<(\[]*[>)\]])", parameters) if p.strip()]
        self.requires = [" ".join(c.split()) for c in re.findall(r"requires(?: \w+)? \{(.*?)\}\n", clauses)]

    def __str__(self):
        return f"{name(self.path)}:{self.at} {self.title}"


def functions():
    head = re.compile(r"^( *)(?:pub(?:\(crate\))? )?(?:extern \"C\" )?fn (\w+)(?:<.*?>)?\(([^()]*(?:\([^()]*\)[^()]*)*)\)((?:\n|[^{};\[]|\[(?:[^\[\]]|\[[^\]]*\])*\])*?(?:(?:requires|ensures\*?)[^\n]*\n\s*)*)\{(.*?)^\1\}", re.M | re.S)
    for path, text in SOURCE.items():
        for m in head.finditer(text):
            yield Function(path, line(text, m.start()), m.group(2), m.group(3), m.group(4), m.group(5))


FUNCTIONS = list(functions())
KEYWORDS = set("if else for in while match return let mut fn self as true false break continue loop move ref Some None Ok Err".split())


def of(functions, title=None):
    functions = sorted(functions, key=str)
    return title or " = ".join(map(str, functions)), [(f.path, f.at) for f in functions]


def such(test):
    return (of([f]) for f in FUNCTIONS if test(f))


def shape(body):
    def word(m):
        return m.group() if m.group() in KEYWORDS else "x"
    body = re.sub(r"\b\d[\d_]*(?:u8|u32|u64|usize)?\b", "0", body)
    body = re.sub(r"[A-Za-z_]\w*", word, body)
    body = re.sub(r"x(?:::x)+", "x", body)
    return re.sub(r"\s+", "", body)


report("1a a cause answered as an Option", found(r"-> Option<\w*(?:Refusal|Unassigned|Fault)\w*>"))
report("1b a number for a kind (parameters and fields)", found(r"\b(?:kind|code|form|right|side|answer|role|method|reply|\w*_effect)\s*:\s*u(?:8|32|64)\b(?!::)", but=r"fn try_from\("))
report("1c a flag (parameters and fields)", found(r"\b\w+: bool\b"))
report("1d an enum of one plain variant and one with a value", found(r"enum \w+(?:<[^>]*>)? \{\s*(?:\w+,\s*\w+\([^)]*\),?|\w+\([^)]*\),\s*\w+,?)\s*\}"))
report("1e a match that turns an Option or a Result into a Result", found(r"(?:Some|Err)\((\w+)\) => Err\(|Ok\((\w+)\) => Ok\(\2\)"))

groups = collections.defaultdict(list)
for f in FUNCTIONS:
    s = shape(f.body)
    if len(s) >= 40:
        groups[s].append(f)
report("2a functions of one shape (groups)", (of(g) for g in groups.values() if len(g) > 1))
types = collections.defaultdict(list)
for path, at, text in matches(r"(?:pub(?:\(crate\))? )?struct \w+(?:<[^>]*>)? \{.*?\n\}", re.S):
    fields = re.sub(r"struct \w+", "struct", re.sub(r"\b\d[\d_]*\b|\b[A-Z]\w+\b(?=[;\]])|ghost \w+: \{.*?\}", "0", text))
    fields = re.sub(r"\b\w+: ", "", fields).replace("pub(crate) ", "").replace("pub ", "").replace("'a", "")
    fields = re.sub(r"\[[A-Za-z]\w*; 0\]", "[t; 0]", fields)
    if fields.count(",") > 1:
        title = re.search(r"struct (\w+)", text).group(1)
        types[fields.replace("u32, }", "n, }").replace("usize, }", "n, }")].append((f"{name(path)}:{at} {title}", (path, at)))
report("2b structs of one shape (groups)", ((" = ".join(t for t, _ in g), [spot for _, spot in g]) for g in types.values() if len(g) > 1))

report("3a for over a range of places", found(r"for \w+ in [^{\n]*\.\.[^{\n]*\{"))
report("3b while", found(r"while (?!let)[^{\n]*\{"))
report("3c for that adds up or looks for one", such(lambda f: re.search(r"for [^{]* in (?![^{]*\.\.)[^{]*\{\s*(?:\w+ \+= [^;]*;|if [^{]*\{\s*return [^;]*;\s*\})\s*\}", f.body)))

report("4a fields copied one by one", such(lambda f: len(re.findall(r"\b(\w+): \*?(?:\w+)\.\1\b", f.body)) >= 3))
report("4b equality by a match or field by field", such(lambda f: re.search(r"match (?:\(self, other\)|state|state\.stage) \{.*=> (?:true|false)", f.body, re.S) or len(re.findall(r"one\.\w+ == other\.", f.body)) > 1))
report("4c a conversion by a function of its own", such(lambda f: f.title in ("of_code", "of_form", "code", "reply", "reply_of", "of", "rest", "numbers_of", "said", "fault")))

facts = collections.defaultdict(set)
for f in FUNCTIONS:
    for clause in f.requires:
        for fact in re.split(r" × ", clause):
            plain = re.sub(r"\b(?:self|book|cells?|rows|s|terms)\.(?:now|old)\b", "it", fact.strip("() "))
            facts[plain].add(f)
report("5a a fact that three or more functions require", (of(fs, f"{len(fs)}: {fact}") for fact, fs in sorted(facts.items(), key=lambda p: -len(p[1])) if len(fs) >= 3))
together = collections.defaultdict(set)
for f in FUNCTIONS:
    plain = [re.sub(r"&mut |&|'\w+ ", "", p) for p in f.parameters if "self" not in p]
    for i in range(len(plain)):
        for j in range(i + 2, len(plain) + 1):
            together[tuple(plain[i:j])].add(f)
bundles = [(k, v) for k, v in together.items() if len(v) >= 3]
bundles = [(k, v) for k, v in bundles if not any(k != o and v == w and len(o) > len(k) for o, w in bundles)]
report("5b parameters that three or more functions take together", (of(v, f"{len(v)}: {', '.join(k)}") for k, v in sorted(bundles, key=lambda p: -len(p[1]))))

report("6a a table or buffer with a length beside it", found(r"struct \w+(?:<[^>]*>)? \{[^}]*: \[[^\]]*; \w+\],\s*(?:pub )?(?:count|len|used|at): (?:usize|u32)", re.S))
report("6b a place or length passed beside a slice or table", such(lambda f: any(re.match(r"(?:at|len|count|n|start): usize", p) for p in f.parameters) and any("[" in p or "&mut self" in p for p in f.parameters)))
report("6c two tables of one length side by side", such(lambda f: len([p for p in f.parameters if re.search(r"\[[^\];]*; ?\w+\]", p)]) >= 2))
report("6d a list with the place that is read next", found(r"struct \w+(?:<[^>]*>)? \{[^}]*: &'a (?:mut )?\[[^\]]*\],\s*(?:pub )?at: usize", re.S))
report("6e a row reached by its number less one", found(r"\w+ as usize - 1\b"))

report("7a function pointers, dyn, boxes", found(r"\bdyn \w|\bBox<|: fn\("))
report("7b a switch on a number of a kind", found(r"match (?:kind|code|form)\b[^{]*\{"))

files = glob.glob(f"{root}/crates/*/proofs/**/*.antt", recursive=True)
answers = [p for p in files if p.endswith(("Answers.antt", "Invariants.antt", "Proof.antt"))]
print(f"8a files that answer goals: {len(answers)}, lines: {sum(open(p, encoding='utf-8').read().count(chr(10)) for p in answers)}")
print(f"8b files of lemmas: {len(files) - len(answers)}, lines: {sum(open(p, encoding='utf-8').read().count(chr(10)) for p in files if p not in answers)}")
