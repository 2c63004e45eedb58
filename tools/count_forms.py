#!/usr/bin/env python3
"""Lists the places of src/ that docs/DESIGN-PASS.md counts, point by point.

    python3 tools/count_forms.py [POINT..]     at the top of a checkout

It goes by the text: what it lists are candidates, and the page says of each kind what it is. Each point ends with a line
`point N: M`. Tests (`mod tests`, the crates *_tests) are left out.
"""
import collections
import glob
import re
import sys

FILES = sorted(f for f in glob.glob("crates/*/src/**/*.rt", recursive=True)
               if not re.search(r"_tests/|/tests\.rt$", f))
TOKEN = re.compile(r"[A-Za-z_][A-Za-z_0-9]*|[0-9][0-9_a-z]*|\"[^\"]*\"|b?'[^']*'|::|=>|->|[-+*/%&|<>=!]=|&&|\|\||\.\.=?|\S")
KEEP = set("fn if else match for in while loop let mut return Ok Err Some None self Self true false as break continue".split())


def read(path):
    text = open(path).read()
    cut = text.find("#[cfg(test)]")
    return text if cut < 0 or path.endswith("lib.rt") and "\nmod tests;" in text[cut:] else text[:cut]


def strip(text):
    """The text without comments and ghost lines, line for line."""
    return "\n".join("" if l.strip().startswith(("//", "ghost use")) else l for l in text.split("\n"))


def block(text, start):
    """The braces that open at or after `start`: their inside, and where they end."""
    i = text.index("{", start)
    depth = 0
    for j in range(i, len(text)):
        depth += {"{": 1, "}": -1}.get(text[j], 0)
        if depth == 0:
            return text[i + 1:j], j
    return text[i + 1:], len(text)


def functions():
    """Each function: where it stands, its name, its head (signature and clauses), its body."""
    for path in FILES:
        text = strip(read(path))
        for m in re.finditer(r"^[ ]*(?:pub(?:\(crate\))? )?(?:extern \"C\" )?fn (\w+)", text, re.M):
            head_end = re.compile(r"^ *\{(?:\}|$)|\{$|;$", re.M).search(text, m.end())
            if head_end is None or head_end.group().endswith(";"):
                continue
            head = text[m.start():head_end.start()]
            body, _ = block(text, head_end.start())
            yield path, text.count("\n", 0, m.start()) + 1, m.group(1), head, body


def shape(body):
    """The body with its names and literals numbered in the order of their first coming."""
    seen = {}
    out = []
    for t in TOKEN.findall(body):
        if t in KEEP or not re.match(r"[A-Za-z_0-9\"']|b'", t):
            out.append(t)
        else:
            out.append("N%d" % seen.setdefault(t, len(seen)))
    return out


def point_1():
    """Enums with a case for nothing; numbers and flags that stand for a kind; numbers that stand for none."""
    for path in FILES:
        text = strip(read(path))
        for m in re.finditer(r"\benum (\w+)", text):
            inside, _ = block(text, m.end())
            if re.search(r"\b(Nothing|Nowhere|None|Missing|Empty)\b", inside):
                yield path, text.count("\n", 0, m.start()) + 1, "enum %s" % m.group(1)
        for n, l in enumerate(text.split("\n"), 1):
            if re.search(r"\b(number|cause|kind|stop): &?(mut )?u8\b|\bk: u32\b|-> u8\b", l):
                yield path, n, l.strip()
            elif re.search(r"\w+: &?(mut )?bool\b", l):
                yield path, n, l.strip()
            elif re.search(r"i(32|64)::M(AX|IN)\b|200_000_000", l):
                yield path, n, l.strip()


def point_2():
    """Functions of one shape."""
    groups = collections.defaultdict(list)
    for path, n, name, head, body in functions():
        s = shape(body)
        if len(s) >= 12:
            groups[tuple(s)].append((path, n, name))
    for s, places in groups.items():
        for place in places if len(places) > 1 else []:
            yield place[0], place[1], "%s (one of %d of a shape)" % (place[2], len(places))


def point_3():
    """Loops over an index, and loops that a method of the library says."""
    for path, n, name, head, body in functions():
        for m in re.finditer(r"\b(while|for)\b([^{]*)\{", body):
            inside, _ = block(body, m.end() - 1)
            what = m.group(2).strip()
            kind = None
            if m.group(1) == "while":
                kind = "while" if "while let" not in m.group(0) else "while let"
            elif re.match(r"_ in", what):
                continue
            elif ".." in what and re.search(r"\[%s\b" % re.escape(what.split(" in ")[0].strip()), inside):
                kind = "index"
            elif re.search(r"\breturn\b|\bpush\(|\+= 1\b", inside) or re.search(r"= \w+\.(max|min)\(|= match", inside):
                kind = "written out"
            elif ".." in what:
                kind = "range"
            if kind:
                yield path, n, "%s: %s %s" % (name, kind, what)


def point_4():
    """Conversions by hand: matches over Option and Result, functions that only say a value in other words."""
    for path, n, name, head, body in functions():
        for m in re.finditer(r"\bmatch\b", body):
            try:
                inside, _ = block(body, m.end())
            except ValueError:
                continue
            arms = re.findall(r"(Ok|Err|Some|None)(\([^=]*\))? =>", inside)
            if len(arms) == 2 and {a for a, _ in arms} in ({"Ok", "Err"}, {"Some", "None"}):
                yield path, n, "%s: match over %s and %s" % (name, arms[0][0], arms[1][0])
        if re.search(r"_(of|for)$", name) and re.match(r"\s*(\w+(::\w+)* \{|match \w+ \{)", body) \
                and len(re.findall(r"\w+: ", head.split("->")[0])) == 1 and body.count(";") == 0 \
                and not re.search(r"\bif\b|ghost", body):
            yield path, n, "%s: a conversion" % name


def conjuncts(clause):
    parts = re.split(r" × ", clause)
    return [re.sub(r"^\(+|\)+$", "", p.strip()) for p in parts]


def point_5():
    """Facts that three or more functions of a crate require, and parameters that three or more take together."""
    facts = collections.defaultdict(set)
    pairs = collections.defaultdict(set)
    for path, n, name, head, body in functions():
        crate = path.split("/")[1]
        for m in re.finditer(r"requires(?: \w+)? \{ (.*) \}$", head, re.M):
            for c in conjuncts(m.group(1)):
                facts[crate, c].add((path, n, name))
        sig = head.split("requires")[0].split("ensures")[0]
        params = re.findall(r"(\w+): ([^,()]+(?:<[^()]*>)?)", sig)
        params = [p.strip() + ": " + t.strip() for p, t in params
                  if not re.search(r"Global|HostRuntime|String|Chance|Formatter|Gauge|^&?(mut )?[A-Z]\\b|Args", t)]
        for i in range(len(params)):
            for j in range(i + 1, len(params)):
                pairs[crate, params[i], params[j]].add((path, n, name))
    for (crate, c), places in sorted(facts.items()):
        if len(places) >= 3:
            yield "crates/" + crate, 0, "%d functions require %s" % (len(places), c)
    for (crate, a, b), places in sorted(pairs.items()):
        if len(places) >= 3:
            yield "crates/" + crate, 0, "%d functions take %s beside %s" % (len(places), a, b)


def point_6():
    """Structs that hold a list beside a count or a place, and functions that take both."""
    for path in FILES:
        text = strip(read(path))
        for m in re.finditer(r"\bstruct (\w+)", text):
            try:
                inside, _ = block(text, m.end())
            except ValueError:
                continue
            if re.search(r"\[[^\]]+\]", inside) and re.search(r"\b(count|at|len|place|used): (usize|u\d+)", inside):
                yield path, text.count("\n", 0, m.start()) + 1, "struct %s" % m.group(1)
    for path, n, name, head, body in functions():
        sig = head.split("requires")[0].split("ensures")[0]
        if re.search(r": &(mut )?\[", sig) and re.search(r"\b(count|at|start|end|from|n|room): usize", sig):
            yield path, n, name + sig[sig.find("("):].strip().replace("\n", " ")


def point_7():
    """Flags that pick what a function does, and matches on a kind that only pick a call."""
    for path, n, name, head, body in functions():
        sig = head.split("requires")[0].split("ensures")[0]
        if re.search(r"\b\w+: bool\b", sig):
            yield path, n, name + ": a flag"
        m = re.search(r"match (\w+\.)?(what|stack|kind|shape|damage|stop|call)\b", body)
        if m:
            yield path, n, name + ": " + m.group(0)


def point_8():
    """Files of proofs, and their lines."""
    for crate in sorted(glob.glob("crates/*/")):
        files = glob.glob(crate + "proofs/**/*.antt", recursive=True)
        if files:
            lines = sum(len(open(f).read().split("\n")) for f in files)
            yield crate.rstrip("/"), 0, "%d files of proofs, %d lines" % (len(files), lines)


def main():
    for point in sys.argv[1:] or "12345678":
        places = list(globals()["point_" + point]())
        for path, n, what in places:
            print("%s:%d: %s" % (path, n, what) if n else "%s: %s" % (path, what))
        print("point %s: %d" % (point, len(places)))
        print()


main()
