#!/usr/bin/env python3
"""Counts, in crates/*/src of a commit or of the files as they stand, the places that docs/DESIGN-PASS.md speaks of.

    python3 tools/places.py [COMMIT] [--list]

One line a point: its number, a word, how many places. With --list each place: point, crate, line, text.
It goes by text: what it finds is read by a person, and the page says of each what became of it."""
import collections, pathlib, re, subprocess, sys


def files(commit):
    if commit:
        names = subprocess.run(["git", "ls-tree", "-r", "--name-only", commit, "crates"], capture_output=True, text=True, check=True).stdout.split("\n")
        for name in names:
            if "/src/" in name and name.endswith(".rt"):
                yield name, subprocess.run(["git", "show", commit + ":" + name], capture_output=True, text=True, check=True).stdout
    else:
        for path in sorted(pathlib.Path("crates").glob("*/src/**/*.rt")):
            yield str(path), path.read_text()


class Function:
    def __init__(self, name, file, line, header, body):
        self.name, self.file, self.line, self.header, self.body = name, file, line, header, body
        self.crate = file.split("/")[1]
        inside = header[header.index("(") + 1:]
        depth, text = 1, ""
        for c in inside:
            depth += (c in "([<{") - (c in ")]>}")
            if depth == 0:
                break
            text += c
        self.parameters = [p for p in re.split(r",\s*(?![^\[(<]*[\])>])", " ".join(text.split())) if p]
        self.requires = re.findall(r"\brequires\b[^{]*\{(.*)\}", header)


def functions(file, text):
    lines = text.split("\n")
    k = 0
    while k < len(lines):
        m = re.match(r"(\s*)(pub )?(extern \"C\" )?fn (\w+)", lines[k])
        if not m:
            k += 1
            continue
        # The header runs to the first line that is an opening brace alone, or ends in one; the body to the brace that closes it.
        first, header = k, []
        while not (lines[k].strip() == "{" or lines[k].rstrip().endswith(" {") and not re.search(r"\b(requires|ensures)\b", lines[k])):
            header.append(lines[k])
            k += 1
        header.append(lines[k].rstrip()[:-1])
        body = []
        k += 1
        while k < len(lines) and lines[k] != m.group(1) + "}":
            body.append(lines[k])
            k += 1
        yield Function(m.group(4), file, first + 1, "\n".join(header), body)


def bare(line):
    return re.sub(r"\s*//.*", "", line)


def shape(f):
    """The body with every name and number replaced: equal shapes are candidates for twins."""
    text = " ".join(bare(line).strip() for line in f.body)
    tokens = re.findall(r"[A-Za-z_]\w*|\d[\w]*|[^\sA-Za-z_0-9]", text)
    keep = {"if", "else", "for", "in", "while", "match", "return", "let", "mut", "as", "true", "false", "self", "Some", "None", "Ok", "Err"}
    names = {}
    out = []
    for t in tokens:
        if t in keep or not re.match(r"\w", t):
            out.append(t)
        elif t[0].isdigit():
            out.append("0")
        else:
            out.append("x%d" % names.setdefault(t, len(names)))
    return " ".join(out), len(tokens)


def main():
    args = [a for a in sys.argv[1:] if not a.startswith("--")]
    listing = "--list" in sys.argv
    sources = list(files(args[0] if args else None))
    found = collections.OrderedDict()

    def place(point, file, line, text):
        found.setdefault(point, []).append((file, line, " ".join(text.split())))

    def point(name):
        found.setdefault(name, [])

    every = []
    for file, text in sources:
        every += functions(file, text)

    # 1. enums of the shape of Option or Result, flags, sentinels, numbers for kinds
    point("1 enum like Option or Result")
    point("1 flag with a value")
    point("1 number for none")
    point("1 numbers for kinds")
    for file, text in sources:
        for m in re.finditer(r"^(pub )?enum (\w+) \{\n(.*?)^\}", text, re.M | re.S):
            variants = [v.strip() for v in m.group(3).split("\n") if v.strip() and not v.strip().startswith("//")]
            units = [v for v in variants if "(" not in v]
            refuses = any(re.match(r"\w+\(Fault\)", v) for v in variants)
            reasons = [v for v in variants if re.match(r"(TooMuch|NoRoom|NeedUnmet|Clashed)\b", v)]
            one_good = len(variants) - len(reasons) == 1 and len(reasons) > 1
            if refuses or one_good or (len(variants) == 2 and len(units) == 1):
                place("1 enum like Option or Result", file, text[:m.start()].count("\n") + 1, "enum %s: %s" % (m.group(2), " ".join(variants)))
        for n, line in enumerate(text.split("\n"), 1):
            if re.match(r"\s+(pub )?(found|ok|some|valid|there): bool,", line):
                place("1 flag with a value", file, n, line)
            if re.match(r"\s*// .*, or (n|0|8?400|800|801|65536)[.:,]", line):
                place("1 number for none", file, n, line)
            code = bare(line)
            if re.search(r"\b(kind|s|v|h|b|mark|st\[\w+(\([^)]*\))?\]|marks\[\w+\]|here\[\w+\]) (==|!=) \d\b", code) or re.search(r"const \w+: u8 = b'", code) \
                    or re.search(r"\b(OPEN|TRUE|FALSE)\b", code) and not re.match(r"(pub )?const |use ", code):
                place("1 numbers for kinds", file, n, line)

    # 2. functions of one shape, 12 tokens or more
    point("2 functions of one shape")
    shapes = collections.defaultdict(list)
    for f in every:
        s, size = shape(f)
        if size >= 12:
            shapes[s].append(f)
    for group in shapes.values():
        if len(group) > 1:
            for f in group:
                place("2 functions of one shape", f.file, f.line, "%s with %s" % (f.name, ", ".join(g.crate + "::" + g.name for g in group if g is not f)))

    # 3. loops that count an index by hand; ranges that only index
    point("3 while that counts")
    point("3 walk down a chain (counts nothing)")
    point("3 range that indexes")
    for f in every:
        for n, line in enumerate(f.body, 1):
            code = bare(line)
            m = re.match(r"(\s*)while (.*) \{", code)
            if m:
                inside = []
                for later in f.body[n:]:
                    if later.startswith(m.group(1) + "}"):
                        break
                    inside.append(later)
                chain = re.search(r"next\(|index\[65536 \+ i\]", "\n".join(inside))
                place("3 walk down a chain (counts nothing)" if chain else "3 while that counts", f.file, f.line, "%s: %s" % (f.name, code.strip()))
            m = re.match(r"(\s*)for (\w+) in .*\.\..* \{", code)
            if m and m.group(2) != "_":
                inside = []
                for later in f.body[n:]:
                    if later.startswith(m.group(1) + "}"):
                        break
                    inside.append(bare(later))
                if re.search(r"\[%s( as usize)?\]" % m.group(2), "\n".join(inside)):
                    place("3 range that indexes", f.file, f.line, "%s: %s" % (f.name, code.strip()))

    # 4. equality, order, copying, conversion, printing by hand
    point("4 conversion of one value by a cast alone")
    point("4 bytes of a number by hand")
    point("4 equality, least, kind by hand")
    point("4 a struct rebuilt field by field")
    for f in every:
        text = " ".join(bare(line).strip() for line in f.body).strip()
        if re.fullmatch(r"\(?\w+\)? as \w+", text) or re.fullmatch(r"if (\w+) \{ 1 \} else \{ 0 \}", text):
            place("4 conversion of one value by a cast alone", f.file, f.line, f.name)
        if re.search(r"256 \* |% 256\) as u8|/ 256", text):
            place("4 bytes of a number by hand", f.file, f.line, f.name)
        if re.fullmatch(r"if (\w+) < (\w+) \{ \1 \} else \{ \2 \}", text) or text.count("==") >= 3 and "&" in text and "if" not in text \
                or re.fullmatch(r"match \w+ \{( Row::\w+(\([_, ]*\))? => (true|false),)+ \}", text) or re.fullmatch(r"if (\w+) \{ (\w+) \} else \{ !\2 \}", text):
            place("4 equality, least, kind by hand", f.file, f.line, f.name)
        for m in re.finditer(r"(\w+): (\w+)\.\1\b", text):
            place("4 a struct rebuilt field by field", f.file, f.line, "%s: %s" % (f.name, m.group(0)))

    # 5. facts in three contracts or more, and three parameters that travel together through three functions or more
    point("5 fact in three contracts of a crate")
    point("5 three parameters together in three functions of a crate")
    facts = collections.defaultdict(list)
    together = collections.defaultdict(list)
    for f in every:
        for clause in f.requires:
            for fact in set(re.split(r" × ", clause.strip())):
                facts[(f.crate, fact.strip(" ()"))].append(f)
        names = [p for p in f.parameters if ":" in p]
        if len(names) >= 3:
            for i in range(len(names) - 2):
                together[(f.crate, " ".join(names[i:i + 3]))].append(f)
    for (crate, fact), fs in sorted(facts.items()):
        if len(fs) >= 3:
            place("5 fact in three contracts of a crate", fs[0].file, fs[0].line, "%s: %s (%d)" % (crate, fact, len(fs)))
    for (crate, names), fs in sorted(together.items()):
        if len(fs) >= 3:
            place("5 three parameters together in three functions of a crate", fs[0].file, fs[0].line, "%s: %s (%d)" % (crate, names, len(fs)))

    # 6. a buffer with a length beside it
    point("6 struct of an array and its length")
    point("6 slice or array parameter with its length beside it")
    for file, text in sources:
        for m in re.finditer(r"struct (\w+)[^{;]*\{(.*?)^\}", text, re.M | re.S):
            if re.search(r": \[\w+; \w+\]", m.group(2)) and re.search(r"\b(end|told|len|count|made): (usize|u32)", m.group(2)):
                place("6 struct of an array and its length", file, text[:m.start()].count("\n") + 1, m.group(1))
    for f in every:
        for a, b in zip(f.parameters, f.parameters[1:]):
            if re.search(r": (&('\w+ )?(mut )?)?(\[|Spread|State|Queue)", a) and re.match(r"(n|count|at|len): (usize|u32)", b):
                place("6 slice or array parameter with its length beside it", f.file, f.line, "%s: %s, %s" % (f.name, a, b))

    # 7. a value that says which step to run
    point("7 parameter that says which step to run")
    for f in every:
        for p in f.parameters:
            if re.match(r"(part: Part|kind: u8|ahead: bool|inside: bool)", p):
                place("7 parameter that says which step to run", f.file, f.line, "%s: %s" % (f.name, p))

    for name, places in found.items():
        print("%-70s %d" % (name, len(places)))
        if listing:
            for file, line, text in places:
                print("    %s:%d  %s" % (file, line, text))


main()
