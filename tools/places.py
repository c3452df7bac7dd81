#!/usr/bin/env python3
"""Lists the places of docs/DESIGN-PASS.md's points 1 to 8, by crate: python3 tools/places.py [POINT ..] (all points with no argument).

A place is found by its form alone; docs/DESIGN-PASS.md says which were changed and which are kept, and why."""
import collections
import glob
import re
import sys


class Function:
    def __init__(self, crate, file, line, name, generics, params, result, contract, body):
        self.crate, self.file, self.line, self.name = crate, file, line, name
        self.params, self.result, self.contract, self.body = params, result, contract, body
        self.place = f"{file}:{line} {name}"


def balanced(text, at, open_, close):
    depth = 0
    for i in range(at, len(text)):
        if text[i] == open_:
            depth += 1
        elif text[i] == close:
            depth -= 1
            if depth == 0:
                return i
    return len(text)


def split(params):
    parts, depth, start = [], 0, 0
    for i, c in enumerate(params):
        depth += c in "([{<"
        depth -= c in ")]}>"
        if c == "," and depth == 0:
            parts.append(params[start:i])
            start = i + 1
    parts.append(params[start:])
    return [p.strip() for p in parts if p.strip()]


def functions():
    found = []
    for file in sorted(glob.glob("crates/*/src/*.rt")):
        text = open(file).read()
        crate = file.split("/")[1]
        for m in re.finditer(r'^[ ]*(?:pub(?:\(crate\))? )?(?:extern "C" )?fn (\w+)(<[^(]*>)?\(', text, re.M):
            end = balanced(text, m.end() - 1, "(", ")")
            params = split(text[m.end():end])
            rest = text[end + 1:]
            r = re.match(r"\s*->\s*([^\n{]+)", rest)
            result = r.group(1).strip() if r else ""
            b = re.search(r"^[ ]*\{$|\{$", rest, re.M)
            at = end + 1 + (b.start() if b else 0)
            brace = text.index("{", at)
            # clauses have braces of their own, on lines that begin with requires or ensures
            while True:
                line = text.rfind("\n", 0, brace) + 1
                if re.match(r"\s*(requires|ensures)", text[line:brace]):
                    brace = text.index("{", balanced(text, brace, "{", "}") + 1)
                else:
                    break
            contract = text[end + 1:brace]
            body = text[brace:balanced(text, brace, "{", "}") + 1]
            found.append(Function(crate, file, text.count("\n", 0, m.start()) + 1, m.group(1), m.group(2), params, result, contract, body))
    return found


def structs():
    for file in sorted(glob.glob("crates/*/src/*.rt")):
        text = open(file).read()
        for m in re.finditer(r"struct (\w+)[^{;]*\{([^}]*)\}", text):
            yield file, m.group(1), m.group(2)


def point1(fs):
    for file, name, fields in structs():
        flags = re.findall(r"(?:pub )?(\w+): (bool|u8|u16)\b", fields)
        flags = [f for f, _ in flags if f in ("refusal", "ok", "part", "call", "kind") or f.startswith("is_")]
        if flags:
            yield file, f"{file} struct {name}: {', '.join(flags)}"
    for f in fs:
        if f.result == "u16" and re.search(r"refusal|^coding$|^rebuilding$|^answer|^lepsarvu_|^first_of$|^give", f.name):
            yield f.file, f"{f.place}: a refusal's number"
        if f.result in ("usize", "u16", "u8") and re.search(r"difference|first_changed|first_other|^digit_at$|^put_decimal$|pixel_place|^read_head$", f.name):
            yield f.file, f"{f.place}: a number for none"
        if f.result == "usize" and f.file.endswith("/comparing.rt") and f.name != "least":
            yield f.file, f"{f.place}: a number for none"
        for p in f.params:
            if re.match(r"(call|part|kind|setting|group|number|refusal|answer): (u8|u16)$", p):
                yield f.file, f"{f.place}: {p}"
    for file in sorted(glob.glob("crates/*/src/*.rt")):
        for n, line in enumerate(open(file), 1):
            m = re.match(r"\s*(?:pub |pub\(crate\) )?const (\w+): u16 = \d+;", line)
            if m:
                yield file, f"{file}:{n} const {m.group(1)}: a number for a kind"


def shape_of(body):
    body = re.sub(r"//.*", "", body)
    body = re.sub(r"\b[ui](8|16|32|64|size)\b", "T", body)
    body = re.sub(r"\b\d[\d_]*\b", "N", body)
    body = re.sub(r"\b[A-Z][A-Z_0-9]+\b", "N", body)
    body = re.sub(r"b?\"[^\"]*\"", "S", body)
    body = re.sub(r"\b[a-z_][a-z_0-9]*\b", "v", body)
    return re.sub(r"\s+", "", body)


def point2(fs):
    groups = collections.defaultdict(list)
    for f in fs:
        if len(f.body) > 40:
            groups[(shape_of(f.body), len(f.params), bool(f.result))].append(f)
    for group in groups.values():
        if len(group) > 1:
            for f in group:
                yield f.file, f"{f.place}: as {', '.join(g.name for g in group if g is not f)}"
    for f in fs:
        if f.name in ("lesser", "greater", "least", "most", "both", "one_more", "one_less", "byte_at", "clamped"):
            yield f.file, f"{f.place}: the library's"


def point3(fs):
    for f in fs:
        for m in re.finditer(r"while ([^{]*)\{", f.body):
            loop = f.body[m.start():balanced(f.body, m.end() - 1, "{", "}")]
            step = re.search(r"\b(\w+) (?:\+=|-=) 1;", loop)
            if step and step.group(1) in m.group(1):
                yield f.file, f"{f.place}: counts {step.group(1)}"
            else:
                yield f.file, f"{f.place}: while, no count"


def point4(fs):
    names = (r"^(joined|u16_at|u32_at|u16_in|put_u16|index_word|word_index|unsigned16_at|unsigned32_at|signed16_at|signed32_at|digit|hexadecimal|number|"
             r"put_digits|digit_count|print_name|is_equal|bytes|levels|work|slots|settings)$")
    for f in fs:
        if re.search(names, f.name):
            yield f.file, f"{f.place}: by hand"


def point5(fs):
    heads = collections.defaultdict(set)
    for f in fs:
        for clause in re.findall(r"requires[^{]*\{(.*?)\}\s*(?=requires|ensures|$)", f.contract, re.S):
            for head in re.findall(r"\b([A-Z][A-Za-z]+ ?[a-z0-9_.]*)", clause):
                heads[(f.crate, head.split()[0])].add(f)
    for (crate, head), group in sorted(heads.items(), key=lambda x: x[0]):
        if len(group) >= 3 and head not in ("T",):
            for f in group:
                yield f.file, f"{f.place}: {head}"
    together = collections.defaultdict(set)
    for f in fs:
        if f.crate == "lepsarvu_c":
            continue
        names = [p.split(":")[0].replace("mut ", "").strip() for p in f.params]
        for i in range(len(names) - 2):
            together[(f.crate, tuple(names[i:i + 3]))].add(f)
    for (crate, names), group in sorted(together.items()):
        if len(group) >= 3:
            yield f"crates/{crate}/", f"crates/{crate}: {', '.join(names)} in {len(group)} functions: {', '.join(sorted(f.name for f in group))}"


def point6(fs):
    for f in fs:
        slices = [p for p in f.params if re.search(r": &(mut )?\[", p)]
        places = [p for p in f.params if re.match(r"(at|from|n|count|end|places|nodes|columns|to): usize$", p)]
        if slices and places:
            yield f.file, f"{f.place}: {', '.join(slices)} with {', '.join(places)}"


def point7(fs):
    for f in fs:
        if re.search(r"(match|if) (call|kind|setting|group)\b", f.body):
            yield f.file, f"{f.place}: which step"


def point8(fs):
    for file in sorted(glob.glob("crates/*/proofs/**/*.antt", recursive=True)):
        text = open(file).read()
        if file.endswith("/Answers.antt"):
            yield file, f"{file}: {len(re.findall(r'^pub [^ ]+ : goal', text, re.M))} answers, {text.count(chr(10))} lines"


def main():
    fs = functions()
    points = {"1": point1, "2": point2, "3": point3, "4": point4, "5": point5, "6": point6, "7": point7, "8": point8}
    wanted = [a for a in sys.argv[1:] if a in points] or list(points)
    short = "-n" in sys.argv
    for p in wanted:
        found = list(points[p](fs))
        by = collections.Counter(f.split("/")[1] for f, _ in found)
        print(f"point {p}: {len(found)} places: " + ", ".join(f"{c} {n}" for c, n in sorted(by.items())))
        if not short:
            for _, line in found:
                print("  " + line)


main()
