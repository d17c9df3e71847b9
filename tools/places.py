#!/usr/bin/env python3
"""Lists the places in src/ that a form of the language could serve, by point, and counts them.

    tools/places.py [POINT..]     at the top of the repository

A line is a place to look at, by its shape alone; docs/DESIGN-PASS.md says what became of each.
"""
import collections
import pathlib
import re
import sys

ROOT = pathlib.Path(__file__).resolve().parent.parent
PATTERNS = {
    # 1: errors and absences passed on by hand, enums of Option's shape, numbers for kinds and refusals
    "1": [
        r"Err\(\w+\) => (return )?Err\(",
        r"None => (return )?(Err|None)\b",
        r"else \{\s*return (None|Err\()",
        r"\b(number|kind|direction|refusal): u(8|32|64)\b,",
        r"^\s*(Equal|Ok\(\w*\)|Comparison::\w+) => [01],",
        r"^\s*(Nothing|None|Empty|Absent|Level)\b(\([^)]*\))?,\n",
    ],
    # 4: impls that a derive may write, conversions and printing by hand
    "4": [
        r"^impl(<[^>]*>)? (PartialEq|Eq|PartialOrd|Ord|Clone|Copy|Debug|Default|fmt::Display|From<[^\n]*>|TryFrom<[^\n]*>) for",
        r"^\s*(pub )?(pub\(crate\) )?fn (number|line|word|words|is_before|tell|reply_to|blame|(fault|answer|listing_answer"
        r"|sheet_answer|weights|call|obstacle|word|size|length)_of|put_digits|put_decimal|put_number|put_signed|width|signed_width)\b[^\n]*",
    ],
    # 6: arrays, and lengths beside them
    "6": [
        r"\w+: &?(mut )?\[[^\]\n]+; [\w]+\]",
        r"^\s*(pub )?(len|count): usize,",
        r"= \[[^\]\n]+; \w+\];",
    ],
    # 7: switches on a step
    "7": [r"fn dispatch\b", r"\bdyn \w+", r"\bfn\(", r"Box<"],
}
KEYWORDS = set("fn let mut for in if else match return while loop break as ref pub impl self Self struct enum true false".split())


def code(text):
    """The text without comments and ghost lines, line for line."""
    blank = lambda m: re.sub(r"[^\n]", " ", m.group())
    text = re.sub(r"//[^\n]*", blank, text)
    return re.sub(r"^ *(ghost use|ghost|requires|ensures)\b[^\n]*", blank, text, flags=re.M)


def sources():
    for path in sorted(ROOT.glob("crates/*/src/**/*.rt")):
        yield str(path.relative_to(ROOT / "crates")), code(path.read_text())


def matches(patterns):
    for path, text in sources():
        for pattern in patterns:
            for match in re.finditer(pattern, text, flags=re.M):
                start = match.start() + len(match.group()) - len(match.group().lstrip())
                yield path, text.count("\n", 0, start) + 1, " ".join(match.group().split())


def block(text, start):
    """The text from the brace at or after start to the one that closes it."""
    start = text.find("{", start)
    end, depth = start, 0
    while 0 <= start and end < len(text):
        depth += {"{": 1, "}": -1}.get(text[end], 0)
        end += 1
        if depth == 0:
            break
    return text[start:end]


def loops():
    """3: loops that count by hand, and those whose body is what a library method does: a sum, a test of all, a push."""
    for path, text in sources():
        for match in re.finditer(r"^ *(?:\w+ = )?(for (.+) in (.+) |while [^\n]*|loop )(?=\{)", text, flags=re.M):
            body = " ".join(block(text, match.end())[1:-1].split())
            header = match.group(1)
            counts = not header.startswith("for") or (".." in match.group(3) and match.group(2) != "_") or "enumerate()" in header
            alone = re.fullmatch(r"[\w.*]+ [-+*|^]= [^;]+;|if [^{]+\{ return (true|false); \}|(\w+\.push|put\w*)\([^;]*\)\??;", body)
            if counts or alone:
                yield path, text.count("\n", 0, match.start(1)) + 1, f"{header}{{ {body} }}"


def functions():
    """Each function's place, name and body."""
    for path, text in sources():
        for match in re.finditer(r"\bfn (\w+)", text):
            yield path, text.count("\n", 0, match.start()) + 1, match.group(1), block(text, match.end())


def shape(body):
    """The body with its names, numbers and texts taken away."""
    tokens = re.findall(r"b?\"[^\"]*\"|b?'.'|\w+|[^\w\s]", body)
    return " ".join("s" if t[-1] in "\"'" else "0" if t[0].isdigit() else t if t in KEYWORDS or not t[0].isalpha() else "x" for t in tokens)


def twins():
    """Functions whose bodies are alike but for names, numbers and texts."""
    alike = collections.defaultdict(list)
    for path, line, name, body in functions():
        alike[shape(body)].append(f"{path}:{line} {name}")
    for form, names in sorted(alike.items()):
        if len(form.split()) >= 18 and len(names) > 1:
            yield names


def main():
    wanted = sys.argv[1:] or ["1", "2", "3", "4", "6", "7"]
    for point in wanted:
        if point == "2":
            rows = [", ".join(names) for names in sorted(twins())]
        else:
            found = loops() if point == "3" else matches(PATTERNS[point])
            rows = [f"{path}:{line}: {text[:100]}" for path, line, text in sorted(set(found))]
        for row in rows:
            print(f"{point}  {row}")
        print(f"point {point}: {len(rows)}")


main()
