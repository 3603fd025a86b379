#!/usr/bin/env python3
"""Lists the places in crates/*/src where an older form may stand, by the points of docs/DESIGN-PASS.md.

    python3 tools/forms.py [POINT ..] [--count]

Run it at the top of the repository. It goes by text: a place that it lists need not be one, and the page says which are.
"""
import glob
import re
import sys
from collections import defaultdict

KEYWORDS = set("as break const continue crate else enum false fn for if impl in let loop match mod move mut pub ref return "
               "self Self static struct super trait true type use where while Some None Ok Err".split())


def files():
    return sorted(glob.glob("crates/*/src/*.rt"))


def plain(text):
    """The text without comments and without what stands in texts."""
    text = re.sub(r'"(\\.|[^"\\])*"', lambda m: '"' + "_" * (len(m.group(0)) - 2) + '"', text)
    return re.sub(r"//[^\n]*", "", text)


def matching(text, at):
    depth = 0
    for i in range(at, len(text)):
        if text[i] == "{":
            depth += 1
        elif text[i] == "}":
            depth -= 1
            if depth == 0:
                return i + 1
    return len(text)


def functions():
    """Each function with a body: file, line, name, signature, clauses, body."""
    for path in files():
        text = plain(open(path, encoding="utf-8").read())
        for m in re.finditer(r"\bfn (\w+)", text):
            i = m.end()
            depth = 0
            while text[i] not in "{;" or depth:
                depth += {"(": 1, "[": 1, ")": -1, "]": -1}.get(text[i], 0)
                i += 1
            if text[i] == ";":
                continue
            head = text[m.start():i]
            clauses = []
            # clauses stand in braces after a word; the body is the first brace without one
            signature_end = re.search(r"\n\s*(requires|ensures|ghost)\b", head)
            signature = head[:signature_end.start()] if signature_end else head
            while True:
                before = text[:i].rstrip()
                word = re.search(r"\b(requires|ensures|ghost)(\s+\w+)?(\s*:)?$", before)
                end = matching(text, i)
                if not word:
                    break
                clauses.append(text[word.start():end])
                # a declaration in a trait ends here, without a body
                i = next((k for k in range(end, len(text)) if text[k] in "{;"), -1)
                if i < 0 or text[i] == ";":
                    i = -1
                    break
            if i < 0:
                continue
            if not clauses:
                signature = head
            yield path, text[:m.start()].count("\n") + 1, m.group(1), " ".join(signature.split()), clauses, text[i:matching(text, i)]


def own(path):
    return "_tests" not in path


def point1():
    """Types of the shape of Option, flags beside a value, numbers for kinds."""
    for path in files():
        text = plain(open(path, encoding="utf-8").read())
        for m in re.finditer(r"\b(struct|enum) (\w+)[^;{]*\{", text):
            body = text[m.end():matching(text, m.end() - 1) - 1]
            line = text[:m.start()].count("\n") + 1
            parts = [p.strip() for p in re.split(r",\s*\n", body) if p.strip()]
            if m.group(1) == "struct" and len(parts) == 1 and "Option<" in body:
                yield path, line, f"struct {m.group(2)} around an Option"
            if m.group(1) == "struct" and len(parts) == 2 and re.search(r": bool", body):
                yield path, line, f"struct {m.group(2)} of a flag and a value"
            if m.group(1) == "enum" and len(parts) == 2 and sum("(" in p or "{" in p for p in parts) == 1:
                yield path, line, f"enum {m.group(2)} of a value or nothing"
        for m in re.finditer(r"\((?:\w+), bool\)", text):
            yield path, text[:m.start()].count("\n") + 1, f"a value with a flag: {m.group(0)}"
        for m in re.finditer(r"\bconst (\w+): u(8|16|32|64|size) = ", text):
            yield path, text[:m.start()].count("\n") + 1, f"number {m.group(1)}"
    for path, line, name, signature, _, body in functions():
        if re.search(r"-> (Option<)?(u8|u16|u32|u64)>?$", signature) and "match" in body:
            yield path, line, f"fn {name}: a kind as a number"
        if re.search(r"\b(port|kind|code|state|role): u8", signature):
            yield path, line, f"fn {name}: a number for a kind as parameter"


def shape(body):
    tokens = re.findall(r"[A-Za-z_]\w*|\d[\w.]*|\S", body)
    out = []
    for t in tokens:
        if t in KEYWORDS:
            out.append(t)
        elif re.match(r"[A-Za-z_]", t):
            out.append("i")
        elif t[0].isdigit():
            out.append("n")
        else:
            out.append(t)
    return " ".join(out)


def point2():
    """Functions with bodies of one shape, of eight tokens or more; arms and blocks of one function are read by eye."""
    groups = defaultdict(list)
    for path, line, name, signature, _, body in functions():
        s = shape(body)
        if len(s.split()) >= 8:
            groups[s].append((path, line, name))
    for members in groups.values():
        if len(members) > 1:
            names = ", ".join(f"{n} ({p.split('/', 1)[1]}:{l})" for p, l, n in members)
            yield members[0][0], members[0][1], names


def point3():
    """Loops over a range, and while."""
    for path in files():
        text = plain(open(path, encoding="utf-8").read())
        for m in re.finditer(r"\bfor (\w+) in ([^{\n]*\.\.[^{\n]*) \{", text):
            body = text[m.end():matching(text, m.end() - 1)]
            used = "indexes" if m.group(1) != "_" and re.search(r"[\[(,] *&?[^\]\n]*\b" + m.group(1) + r"\b", body) else "counts"
            yield path, text[:m.start()].count("\n") + 1, f"for {m.group(1)} in {m.group(2)}: {used}"
        for m in re.finditer(r"\b(while|loop)\b", text):
            yield path, text[:m.start()].count("\n") + 1, m.group(1)


def point4():
    """Equality, order, copying, conversion and printing by hand."""
    for path in files():
        text = plain(open(path, encoding="utf-8").read())
        for m in re.finditer(r"\bimpl(<[^>]*>)? (PartialEq|Eq|PartialOrd|Ord|Hash|Clone|Copy|Debug|Ranked) for (\w+)", text):
            yield path, text[:m.start()].count("\n") + 1, m.group(0)
        for m in re.finditer(r"#\[derive\(([^)]*)\)\]\s*(?:pub |pub\(crate\) )?(struct|enum) (\w+)", text):
            if "PartialEq" not in m.group(1):
                yield path, text[:m.start()].count("\n") + 1, f"{m.group(3)} derives no equality"
    for path, line, name, signature, _, body in functions():
        inner = body.strip()[1:-1].strip()
        if re.fullmatch(r"!?matches!\([^{}]*\)", inner):
            yield path, line, f"fn {name}: a test of a kind by matches!"
        elif re.search(r"\.number\(\) (==|<|<=|>|>=) |(==|<) \w+(\.\w+)*\.number\(\)", inner):
            yield path, line, f"fn {name}: compares by number()"
        elif re.search(r"\(?\w+(\.\w+)+ == \w+(\.\w+)+\)? &", inner):
            yield path, line, f"fn {name}: equality field by field"
        if re.search(r"-> &'static str", signature):
            yield path, line, f"fn {name}: a name as text"
        if re.match(r"fn (number|octet_of|number_of|flag_of|id_of|port_of|at|request_of|code_of|body_of|kind_of|held|nowhere|side|claim_of|sent_number)\(", signature):
            yield path, line, f"fn {name}: a conversion"


def point5():
    """Clauses that stand in three contracts or more, and parameters that travel together in three or more functions."""
    seen = defaultdict(list)
    pairs = defaultdict(list)
    for path, line, name, signature, clauses, _ in functions():
        for c in clauses:
            seen[(path.split("/")[1], " ".join(c.split()))].append((path, line, name))
        parameters = re.findall(r"(\w+): ([^,()]+(?:<[^>]*>)?)", signature[signature.find("("):signature.rfind("->") if "->" in signature else None])
        names = sorted({f"{a}: {b.strip()}" for a, b in parameters if a not in ("self", "rt", "heap", "f")})
        for i, a in enumerate(names):
            for b in names[i + 1:]:
                pairs[(path.split("/")[1], a, b)].append((path, line, name))
    for (crate, clause), where in sorted(seen.items()):
        if len(where) >= 3:
            yield where[0][0], where[0][1], f"{len(where)} times in {crate}: {clause}"
    for (crate, a, b), where in sorted(pairs.items()):
        if len(where) >= 3:
            yield where[0][0], where[0][1], f"{len(where)} functions of {crate} take {a} and {b}"


def point6():
    """Arrays of a fixed length, and searches by hand."""
    for path in files():
        text = plain(open(path, encoding="utf-8").read())
        for m in re.finditer(r"\[[^\[\]\n;]+; [^\[\]\n]+\]", text):
            yield path, text[:m.start()].count("\n") + 1, m.group(0)
        for m in re.finditer(r"\b(\w+)0: ([^,\n]+),\s*(?:pub )?\1(1): \2", text):
            yield path, text[:m.start()].count("\n") + 1, f"{m.group(1)}0 and {m.group(1)}1 beside one another"


def point7():
    """A match with three arms or more that call functions, in a function that takes what it switches on."""
    for path, line, name, signature, _, body in functions():
        arms = re.findall(r"=> (?:\{\s*)?(?:[\w.]+::)?[\w.]+\((?![^)]*\)\s*=>)", body)
        calls = [a for a in arms if not re.search(r"(Some|Ok|Err|Outcome)\($", a)]
        if len(calls) >= 3:
            yield path, line, f"fn {name}: {len(calls)} arms that call"


def point8():
    """Proofs: files and lines by crate; answers and lemmas."""
    by = defaultdict(lambda: [0, 0, 0, 0])
    for path in sorted(glob.glob("crates/*/proofs/**/*.antt", recursive=True)):
        crate = path.split("/")[1]
        text = open(path, encoding="utf-8").read()
        by[crate][0] += 1
        by[crate][1] += text.count("\n")
        if path.endswith("Answers.antt"):
            by[crate][2] += len(re.findall(r"^pub \S+ : goal", text, re.M))
        elif not path.endswith(("Invariants.antt", "Lib.antt")):
            by[crate][3] += len(re.findall(r"^(?:abbrev |unfoldable )?(?:pub )?(?!use|mod|import)[\w'-]+ :", text, re.M))
    for crate, (n, lines, answers, lemmas) in sorted(by.items()):
        yield f"crates/{crate}/proofs", 0, f"{n} files, {lines} lines, {answers} answers, {lemmas} lemmas and words"


POINTS = {str(i): f for i, f in enumerate([point1, point2, point3, point4, point5, point6, point7, point8], 1)}

if __name__ == "__main__":
    wanted = [a for a in sys.argv[1:] if a in POINTS] or list(POINTS)
    for p in wanted:
        found = list(POINTS[p]())
        mine = [f for f in found if own(f[0])]
        print(f"point {p}: {len(mine)} in the product, {len(found) - len(mine)} in the test crates")
        if "--count" not in sys.argv:
            for path, line, what in found:
                print(f"  {path}:{line}: {what}")
