#!/usr/bin/env python3
"""Counts, in the sources of all crates, the places that docs/DESIGN-PASS.md speaks of.

    tools/places.py            the count of each kind
    tools/places.py KIND       the places of one kind, each with its file and line
    tools/places.py --at DIR   the same in another checkout

It goes by text, so it finds candidates: the page says of each what became of it.
"""
import re
import sys
from collections import defaultdict
from pathlib import Path

KEYWORDS = set("""as break const continue crate else enum false fn for if impl in let loop match mod mut
pub ref return self Self static struct super trait true type unsafe use where while u8 u16 u32 u64 usize bool
Some None Ok Err Option Result Vec""".split())


def sources(root):
    for path in sorted(root.glob("crates/*/src/*.rt")):
        yield path, path.read_text()


def line_of(text, at):
    return text.count("\n", 0, at) + 1


def closing(text, at, opening, close):
    """The place after the bracket that closes the one at `at`."""
    depth = 0
    for i in range(at, len(text)):
        if text[i] == opening:
            depth += 1
        elif text[i] == close:
            depth -= 1
            if depth == 0:
                return i + 1
    return len(text)


def functions(text):
    """Each function with a body: where it stands, its name, its parameters, its clauses and its body."""
    for m in re.finditer(r"\bfn (\w+)", text):
        start = text.find("(", m.end())
        if text.startswith("<", m.end()):
            # over the type parameters, in which brackets of their own may stand
            start = text.find("(", m.end())
            while text[m.end():start].count("<") > text[m.end():start].replace("->", "").count(">"):
                start = text.find("(", start + 1)
        end = closing(text, start, "(", ")")
        rest = re.compile(r"\n[ \t]*\{\n|\{\}|[ ;]\{?\n").search(text, end)
        at = end
        body = None
        # clauses hold braces too: the body is the brace that begins a line, or the one that ends the signature's line
        line_end = text.find("\n", end)
        if text[end:line_end].rstrip().endswith("{"):
            body = text.find("{", end)
            while closing(text, body, "{", "}") <= line_end:
                body = text.find("{", body + 1)
        else:
            b = re.compile(r"\n[ \t]*\{[\n}]").search(text, end)
            stop = re.compile(r";\n|\n\n").search(text, end)
            if b and (not stop or b.start() < stop.start()):
                body = text.find("{", b.start())
        clauses = text[end:body] if body else text[end:end + 2000].split("\n\n")[0]
        yield m.start(), m.group(1), text[start + 1:end - 1], clauses, text[body:closing(text, body, "{", "}")] if body else ""


def shape(body):
    """A body with its own names taken out."""
    seen = {}

    def name(m):
        word = m.group(0)
        if word in KEYWORDS or word[0].isdigit():
            return word
        return seen.setdefault(word, f"n{len(seen)}")

    body = re.sub(r"//.*", "", body)
    return re.sub(r"\s+", " ", re.sub(r"[A-Za-z_]\w*|\d+", name, body))


def parameters(text):
    out, depth, piece = [], 0, ""
    for c in text:
        if c in "<([{":
            depth += 1
        elif c in ">)]}":
            depth -= 1
        if c == "," and depth == 0:
            out.append(piece.strip())
            piece = ""
        else:
            piece += c
    if piece.strip():
        out.append(piece.strip())
    return out


def by_pattern(pattern, flags=re.M):
    def find(root):
        for path, text in sources(root):
            for m in re.finditer(pattern, text, flags):
                yield path, line_of(text, m.start()), m.group(0).strip().split("\n")[0]
    return find


def option_shaped(root):
    for path, text in sources(root):
        for m in re.finditer(r"^(?:pub(?:\(crate\))? )?enum (\w+)[^{]*\{", text, re.M):
            body = re.sub(r"//.*", "", text[m.end():closing(text, m.end() - 1, "{", "}") - 1])
            variants = [v for v in parameters(body) if v]
            holding = [v for v in variants if re.search(r"[({]", v)]
            if len(variants) == 2 and holding:
                yield path, line_of(text, m.start()), f"enum {m.group(1)}: " + ", ".join(v.split("\n")[0] for v in variants)


def twins(root):
    groups = defaultdict(list)
    for path, text in sources(root):
        for at, name, _, _, body in functions(text):
            if body.count("\n") >= 3 and "#[test]" not in text[max(0, at - 30):at]:
                groups[shape(body)].append((path, line_of(text, at), name))
    for places in groups.values():
        if len(places) > 1:
            for path, line, name in places:
                yield path, line, f"{name}, like " + ", ".join(n for _, _, n in places if n != name or len(set(x[2] for x in places)) == 1)


def many_parameters(root):
    for path, text in sources(root):
        for at, name, ps, _, _ in functions(text):
            count = len(parameters(ps))
            if count >= 6:
                yield path, line_of(text, at), f"{name}: {count} parameters"


def repeated_clauses(root):
    groups = defaultdict(list)
    for path, text in sources(root):
        for at, name, _, clauses, _ in functions(text):
            for m in re.finditer(r"requires(?: \w+)? \{(.*)\}\s*$", clauses, re.M):
                key = re.sub(r"\.(?:old|now)", "", re.sub(r"\s+", " ", m.group(1).strip()))
                groups[(path.parts[-3], key)].append((path, line_of(text, at), name))
    for (_, key), places in groups.items():
        if len(set(places)) >= 3:
            path, line, _ = places[0]
            yield path, line, f"{key}: in {len(set(places))} functions"


def length_beside(root):
    for path, text in sources(root):
        for m in re.finditer(r"^(?:pub(?:\(crate\))? )?struct (\w+)[^{;]*\{", text, re.M):
            body = text[m.end():closing(text, m.end() - 1, "{", "}")]
            if re.search(r": \[\w+; ", body) and re.search(r"\blen: usize", body):
                yield path, line_of(text, m.start()), f"struct {m.group(1)}: an array with its length beside it"
            if re.search(r"Vec<(Place|usize)>", body):
                yield path, line_of(text, m.start()), f"struct {m.group(1)}: places in a text"
        for at, name, ps, _, _ in functions(text):
            if re.search(r"(?:at|base): usize", ps) and re.search(r"&mut \[", ps):
                yield path, line_of(text, at), f"{name}: a slice with a place beside it"


KINDS = {
    "1 enums of two variants, one of which holds something": option_shaped,
    "1 numbers and constants that stand for none": by_pattern(r"^.*(?:\bNO_[A-Z]+\b|ranks\[[^\]]*\] == 0|\brank == 0|== held|one past the last where).*$"),
    "1 an Option or a bool beside the value that it is about": by_pattern(r"^\s*(?:pub(?:\(crate\))? )?refused: Option.*$"),
    "1 functions that answer a number that means nothing": by_pattern(r"-> u8\n\s+ensures[^\n]*\n\s*\{\n\s*0\n"),
    "1 results and options passed on by hand": by_pattern(
        r"Err\(Stop::Memory\) => (?:return )?Err\((?:Stop::Memory|AllocError)\)|Err\(_\) => (?:\{$|Err\()|None => None|else \{\n\s*return None;|Err\(refusal\) => return|return Err\(AllocError\)"),
    "2 functions with one body but for names": twins,
    "3 for loops over a range of numbers": by_pattern(r"^\s*for \w+ in [^{\n]*\.\.[^{\n]*\{"),
    "3 while loops": by_pattern(r"^\s*while [^{\n]*\{"),
    "3 loops over items that only look for one": by_pattern(r"^\s*for [^{\n]* in (?!\d|[^{\n]*\.\.)[^{\n]*\{\n\s*if [^{\n]*\{\n\s*return"),
    "4 widening casts": by_pattern(r"\b(?:word|category|left|right|part|rule|place|begin|kind|top|a|m|CELLS\[[^\]]*\]\[[^\]]*\]|\)) as (?:usize|u32)\b"),
    "4 narrowing casts": by_pattern(r"[\w)] as u(?:8|16)\b"),
    "4 text written piece by piece": by_pattern(r"extend_from_slice\("),
    "4 comparisons and conversions by hand": by_pattern(r"fn (?:alike|same|figure|is_word|number)\b[^\n]*"),
    "5 functions of six parameters or more": many_parameters,
    "5 facts required by three functions of a crate or more": repeated_clauses,
    "6 buffers with a length or a place beside": length_beside,
    "7 a switch on which step to run": by_pattern(r"^\s*(?:Ok\()?match (?:direction|side|sought|head|kind|node\.kind|scale) \{"),
}


def main():
    args = sys.argv[1:]
    root = Path(__file__).resolve().parent.parent
    if "--at" in args:
        i = args.index("--at")
        root = Path(args[i + 1])
        del args[i:i + 2]
    for kind, find in KINDS.items():
        if args and args[0] not in kind:
            continue
        places = sorted(set(find(root)))
        print(f"{len(places):4}  {kind}")
        if args:
            for path, line, what in places:
                print(f"        {path.relative_to(root)}:{line}: {what}")


if __name__ == "__main__":
    main()
