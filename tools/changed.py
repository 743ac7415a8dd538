#!/usr/bin/env python3
"""Writes, old beside new, what changed since a commit: signatures and clauses of public functions, public types with their ghost fields,
definitions and records of specs/, and what of proofs/ a page (README, CONTRIBUTING, docs/) named at that commit, records whole.

    python3 tools/changed.py COMMIT [--moved FILE]
    python3 tools/changed.py COMMIT --went

It prints Markdown. FILE has lines `crate::old new`, for a function, type or definition that goes by another name now, in its crate or as crate::name,
or `crate::old GONE: what states its promise`; where two of a crate share a name, `crate::File::old` says which. `crate::lemma SHOWN` has it shown
though no page names it. With --went it prints, by crate, each lemma and record of proofs/ and each private function that went, and each of proofs/ that
lost `pub` or says something else.

Things of a name are told apart by their file, functions by their type too; what stands in another file of its crate now is found by its name. Variables
and premises of a module belong to the statements in it and stand before them."""
import pathlib, re, subprocess, sys

PAGES = r"README\.md$|CONTRIBUTING\.md$|docs/.*\.md$"
FILES = r"crates/[^/]+/(src|specs|proofs)/.*\.(rt|antt)$|" + PAGES


def tree(commit):
    """path -> text of crates/*/{src,specs,proofs}, README and docs/"""
    out = {}
    if commit:
        names = subprocess.run(["git", "ls-tree", "-r", "--name-only", commit], capture_output=True, text=True, check=True).stdout.split("\n")
        for n in names:
            if re.match(FILES, n):
                out[n] = subprocess.run(["git", "show", commit + ":" + n], capture_output=True, text=True, check=True).stdout
    else:
        for p in pathlib.Path(".").glob("**/*"):
            if re.match(FILES, str(p)):
                out[str(p)] = p.read_text()
    return out


def squeeze(text):
    return re.sub(r"\s+", " ", text).replace("( ", "(").replace(", )", ")").replace(",)", ")").strip()


class Item:
    """what stands at one place: its crate, file, name (a method's with its type), kind, names of its fields, whether it is pub, and its text"""

    def __init__(self, path, name, kind, public, text, fields=(), premises="", rest=""):
        self.crate, self.path, self.name, self.kind, self.public = path.split("/")[1], path, name, kind, public
        self.text, self.fields, self.premises, self.rest = text, fields, premises, rest

    def full(self):
        return self.crate + "::" + self.name

    def place(self):
        """the file within its crate, without what comes at its end"""
        return self.path.split("/", 3)[3].rsplit(".", 1)[0]

    def said(self):
        """what it says, premises before it; of a definition its text, of a lemma without the proof"""
        return squeeze((self.premises and "module _ %s where " % self.premises) + self.text)

    def same(self):
        """said, with premises of modules and of the name as parts of the statement, so that they may move between these"""
        t = re.sub(r"^(abbrev |unfoldable |pub )+", "", self.text)
        head, colon, tail = t.partition(" : ")
        m = re.match(r"([^\s(){}:]+)(.*)$", head)
        if not m or self.kind != "item":
            return squeeze(self.said())
        parts = [p.strip() for p in (self.premises, m.group(2), tail) if p.strip()]
        return squeeze(m.group(1) + " : " + re.sub(r"(?<=[)}]) → (?=[({])", " ", " → ".join(parts)))


def source(files, private=False):
    """public functions with their clauses, and public types with what they derive; or the private functions"""
    out = []
    for path, text in sorted(files.items()):
        if "/src/" not in path:
            continue
        text = "\n".join(re.sub(r"\s*//.*", "", line) for line in text.split("\n"))
        owner, traits = None, ""
        at = 0
        for line in text.split("\n"):
            start, at = at, at + len(line) + 1
            m = re.match(r"impl(<[^>]*>)? (?:[\w: <>']* for )?(\w+)", line)
            if m:
                owner = m.group(2)
            if line == "}":
                owner = None
            if re.match(r"#\[derive", line):
                traits = line + " "
            elif line.strip() and not line.startswith("#"):
                derived, traits = traits, ""
            m = re.match(r"\s*(?:#\[[^\]]*\]\s*)?(pub )?(?:const )?(?:extern \"C\" )?fn (\w+)", line)
            if m and bool(m.group(1)) != private:
                k = start
                while True:
                    k = re.compile(r"[{;]").search(text, k).start()
                    if text[k] == ";" and text[start:k].count("[") > text[start:k].count("]"):
                        k += 1
                        continue
                    if text[k] == ";" or not re.search(r"\b(requires|ensures)\s*\w*\s*$", text[start:k]):
                        break
                    k = closing(text, k)
                out.append(Item(path, (owner + "::" if owner else "") + m.group(2), "fn", bool(m.group(1)), squeeze(text[start:k])))
            m = re.match(r"pub (struct|enum) (\w+)", line)
            if m and not private:
                k = start + re.compile(r"[{;]").search(text[start:]).start()
                end = closing(text, k) if text[k] == "{" else k + 1
                out.append(Item(path, m.group(2), m.group(1), True, squeeze(derived + text[start:end])))
            m = re.match(r"pub (type|const) (\w+)", line)
            if m and not private:
                out.append(Item(path, m.group(2), m.group(1), True, squeeze(line)))
    return out


def closing(text, k):
    """where the brace at k is closed"""
    depth = 0
    while True:
        depth += {"{": 1, "}": -1}.get(text[k], 0)
        k += 1
        if depth == 0:
            return k


NAME = r"[^\s(){}:,]+"


def binders(text):
    """the groups of binders, brackets within brackets too, that stand in front; and the rest"""
    k = 0
    while True:
        m = re.match(r"\s*[({]", text[k:])
        if not m:
            return text[:k].strip(), text[k:]
        depth, j = 0, k
        while j < len(text):
            depth += {"(": 1, "{": 1, ")": -1, "}": -1}.get(text[j], 0)
            j += 1
            if depth == 0 and text[j - 1] in ")}":
                break
        k = j


def antt(path, text):
    """the items of an .antt file, those in modules too; what stands under a `where` in a proof is none"""
    raw = [re.sub(r"(^|\s)--(\s.*|$)", "", line).rstrip() for line in text.split("\n")]
    items = []

    def chunks(lines):
        base = min([len(l) - len(l.lstrip()) for l in lines if l.strip()] or [0])
        out = []
        for l in lines:
            if not l.strip():
                continue
            if len(l) - len(l.lstrip()) == base and not re.match(r"[)\]}]", l.strip()):
                out.append([l])
            elif out:
                out[-1].append(l)
        return out

    def block(lines, premises):
        current = None
        for chunk in chunks(lines):
            whole = squeeze(" ".join(chunk))
            m = re.match(r"(pub )?module (%s)" % NAME, whole)
            if m:
                k = next(i for i, l in enumerate(chunk) if re.search(r"(^|\s)where$", l))
                head = squeeze(" ".join(chunk[:k + 1]))
                more = re.sub(r"^(pub )?module %s" % NAME, "", head)[:-5].strip()
                block(chunk[k + 1:], squeeze(premises + " " + more))
                current = None
                continue
            if re.match(r"(pub )?(use|mod|open|ruleset)\b", whole):
                current = None
                continue
            m = re.match(r"((?:abbrev |unfoldable |pub )*)(record |data )(%s)" % NAME, whole)
            if m:
                fields = [m2.group(1) for m2 in (re.match(r"\s*(?:pub )?(%s)[^:]* : " % NAME, l) for l in chunk[1:]) if m2]
                body = [squeeze(" ".join(c)) for c in chunks(chunk[1:])]
                items.append(Item(path, m.group(3), m.group(2).strip(), "pub" in m.group(1), squeeze(chunk[0] + " " + " ; ".join(body)), fields, premises))
                current = None
                continue
            m = re.match(r"((?:abbrev |unfoldable |pub )*)(%s)" % NAME, whole)
            if m:
                rest = binders(whole[m.end():])[1]
                if rest.lstrip().startswith(": "):
                    current = Item(path, m.group(2), "item", "pub" in m.group(1), whole, (), premises)
                    items.append(current)
                    continue
            if current:
                current.rest = squeeze(current.rest + " ; " + whole)

    block(raw, "")
    return items


def definitions(files, part):
    out = []
    for path, text in sorted(files.items()):
        if "/%s/" % part in path and path.endswith(".antt") and not re.search(r"/proofs/.+/(Answers|Invariants|Proof)\.antt$", path):
            for i in antt(path, text):
                if part == "specs":
                    i.text, i.rest = squeeze(i.text + i.rest), ""
                out.append(i)
    return out


def pairs(old, new, moved):
    """each of old with what it is now, if anything: that of its file and name, then by `moved`, then the one of its name that nothing else of old is"""
    now, taken = {}, set()

    def take(a, found):
        found = [b for b in found if id(b) not in taken]
        if found:
            now[id(a)] = found[0]
            taken.add(id(found[0]))
        return bool(found)

    left = []
    for a in old:
        here = [b for b in new if (b.path, b.name) == (a.path, a.name)]
        take(a, [b for b in here if b.same() == a.same()] + here) or left.append(a)
    for a in list(left):
        to = target(a, moved)
        if to and not to.startswith("GONE"):
            crate, name = to.split("::", 1) if re.match(r"[a-z_]+::", to) else (a.crate, to)
            if take(a, [b for b in new if (b.crate, b.name) == (crate, name)]):
                left.remove(a)
    for far in (lambda a, b: a.name == b.name, lambda a, b: a.kind == "fn" and a.name.split("::")[-1] == b.name.split("::")[-1]):
        for a in list(left):
            found = [b for b in new if b.crate == a.crate and b.kind == a.kind and far(a, b) and id(b) not in taken]
            if found and not (target(a, moved) or "").startswith("GONE"):
                found.sort(key=lambda b: (b.same() != a.same(), b.path.split("/")[2] != a.path.split("/")[2]))
                if take(a, found):
                    left.remove(a)
    return now, taken


def target(a, moved):
    return moved.get("%s::%s::%s" % (a.crate, a.place(), a.name)) or moved.get(a.full())


def show(title, a, b, lang=""):
    print("- " + title)
    print("  ```" + lang)
    print("  old  " + a)
    print("  new  " + b)
    print("  ```")


def lay(old, new, moved, lang, also=lambda a: True, where=False, fresh=True, elsewhere=()):
    """prints those of old that changed or went, of which `also` holds, and those that are new"""
    now, taken = pairs(old, list(new) + list(elsewhere), moved)
    for a in sorted(old, key=lambda a: (a.full(), a.path)):
        if not also(a):
            continue
        b = now.get(id(a))
        title = "`%s`" % a.full() + (" (%s)" % a.path if where else "")
        if b is None:
            show(title, a.said(), target(a, moved) or "GONE", lang)
        elif b.said() != a.said():
            if b.full() != a.full():
                title += ", now `%s`" % b.full()
            if where and b.path != a.path:
                title += ", now in %s" % b.path
            show(title, a.said(), b.said(), lang)
    for b in sorted(new, key=lambda b: (b.full(), b.path)):
        if fresh and id(b) not in taken:
            print("- new `%s`%s" % (b.full(), " (%s)" % b.path if where else ""))
            print("  ```%s\n  %s\n  ```" % (lang, b.said()))


def went(old, new):
    """by crate, what is gone of proofs/ and of the private functions, what lost pub, and what says something else"""
    proofs, now_proofs = definitions(old, "proofs"), definitions(new, "proofs")
    now, _ = pairs(proofs, now_proofs + definitions(new, "specs"), {})
    for crate in sorted({i.crate for i in proofs + source(old, True)}):
        mine = [i for i in proofs if i.crate == crate]
        gone = [i for i in mine if id(i) not in now]
        less = [i for i in mine if id(i) in now and i.public and not now[id(i)].public]
        other = [i for i in mine if id(i) in now and now[id(i)].same() != i.same()]
        private = [i for i in source(old, True) if i.crate == crate]
        there = {i.name.split("::")[-1] for i in source(new, True) + source(new) if i.crate == crate}
        for title, some in (("gone", gone), ("lost pub", less), ("changed", other), ("private functions gone", [i for i in private if i.name.split("::")[-1] not in there])):
            if some:
                print("%s, %s (%d): %s" % (crate, title, len(some), ", ".join("%s (%s)" % (i.name, i.place()) for i in some)))


def main():
    commit = sys.argv[1]
    moved, shown = {}, set()
    if "--moved" in sys.argv:
        for line in pathlib.Path(sys.argv[sys.argv.index("--moved") + 1]).read_text().split("\n"):
            if line.strip() and not line.startswith("#"):
                a, b = line.split(" ", 1)
                if b.strip() == "SHOWN":
                    shown.add(a)
                else:
                    moved[a] = b.strip()
    old, new = tree(commit), tree(None)
    if "--went" in sys.argv:
        return went(old, new)
    print("### Public functions and types\n")
    lay(source(old), source(new), moved, "rust")
    print("\n### Definitions of specs/\n")
    lay(definitions(old, "specs"), definitions(new, "specs"), moved, "", where=True, elsewhere=definitions(new, "proofs"))
    print("\n### Statements of proofs/ that README or docs/ name, and narrower ones\n")
    named = set()
    for path, text in old.items():
        if re.match(PAGES, path):
            for m in re.finditer(r"`([^`]+)`", text):
                named.update(re.findall(r"[A-Za-z_◌][\w◌·?'-]*", m.group(1)))
    lay(definitions(old, "proofs"), definitions(new, "proofs"), moved, "", where=True, fresh=False, elsewhere=definitions(new, "specs"),
        also=lambda a: a.name in named or any(f in named for f in a.fields) or a.full() in shown)


main()
