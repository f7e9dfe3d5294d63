"""Counts, in src/ of every crate, the forms that today's Rattle has a better form for.

    python3 tools/design_count.py [COMMIT] [-v]

reads the files of a commit (or of the working tree), leaves tests and comments out, and prints for each
pattern how many places it finds; with -v each place. Patterns find candidates: docs/DESIGN-PASS.md says
which of them are places, and what became of each.
"""
import glob
import re
import subprocess
import sys

args = [a for a in sys.argv[1:] if a != "-v"]
VERBOSE = "-v" in sys.argv[1:]


def sources():
    if args:
        names = subprocess.run(["git", "ls-tree", "-r", "--name-only", args[0], "crates"], capture_output=True, text=True, check=True).stdout.split("\n")
        for name in sorted(n for n in names if "/src/" in n and n.endswith(".rt")):
            yield name, subprocess.run(["git", "show", f"{args[0]}:{name}"], capture_output=True, text=True, check=True).stdout
    else:
        for name in sorted(glob.glob("crates/*/src/**/*.rt", recursive=True)):
            yield name, open(name).read()


def bare(text):
    """The text without tests and comments, lines kept."""
    at = text.find("#[cfg(test)]")
    if at >= 0:
        text = text[:at]
    return re.sub(r"//[^\n]*", "", text)


TEXTS = {name: bare(text) for name, text in sources()}

PATTERNS = [
    ("1 an error handed on by a match", r"Err\((\w+)\) => (?:return )?Err\(\1\)"),
    ("1 a none handed on by let-else", r"else \{\s*return (?:Ok\()?None\)?;\s*\}"),
    ("1 a malformed answer by let-else", r"else \{\s*return malformed\(heap\);\s*\}"),
    ("1 an error that is dropped for a value", r"Err\(_\) => (?!Err|\{|return)"),
    ("1 a number that means nothing", r"-> u8\s*ensures \{[^{}]*\}\s*\{\s*0\s*\}"),
    ("1 results or options in one another", r"(?:Result|Option)<(?:Result|Option)<"),
    ("1 a change that answers a flag", r"fn \w+\(\s*&mut self[^)]*\) -> bool"),
    ("1 a variant for none or for refused", r"(?m)^    (?:Refused|Nothing|Absent|Unset|Blank)\b"),
    ("1 a place in place of none", r"fn put\w*(?:<[^>]*>)?\([^)]*\) -> usize"),
    ("1 a match on the number of a kind", r"match (?:\*kind|c\.kind|\*self \{\s*Message::Quiet \{ \.\. \} => 0x01)"),
    ("1 a tag by its number", r"\btag: u8"),
    ("3 a range counted from 0 or 1", r"for \w+ in [01]u?\w*\.\."),
    ("3 a count kept by hand", r"\b(\w+) = \1\.saturating_add\(1\)|\b(?:n|i|number) \+= 1"),
    ("3 a loop that only tests or finds", r"for \w+ in [^{]*\{\s*if [^{]*\{\s*return [^;]*;\s*\}\s*\}\s*(?:true|false|None|&\[\])\s*\}"),
    ("3 a loop that only sums", r"for \w+ in [^{]*\{\s*\w+ \+= [^;]*;\s*\}"),
    ("3 a difference or a bound by an if", r"if \w+ < \w+ \{ 0 \} else"),
    ("3 a range tested by two comparisons", r"(\w+(?:\.\w+)?) && \1 <= |<= (\w+(?:\.\w+)?)\s*&& \2 <= "),
    ("4 yes or no by a match", r"=> true,\s*_ => false"),
    ("4 words of an enum outside it", r"fn \w+\(\w+: \w+\) -> &'static str"),
    ("4 equality by hand", r"fn same_\w+"),
    ("4 a refusal printed by hand", r"refused \{number\}: \{words\}"),
    ("4 a notice made a message by hand", r"fn (?:telling|message_of)\(day: u32"),
    ("4 hexadecimal digits by hand", r"fn (?:digit|hex_of|bytes_of|print_hex|hex|bytes)\("),
    ("6 a length beside an array", r"(?:: \[[^\]]+; \w+\],\s*(?:\w+: \w+,\s*)?(?:len|count): \w+|(?:len|count): (?:u8|usize),\s*(?:pub )?\w+: \[)"),
    ("6 a position beside a buffer", r"buffer: &mut \[u8\], at: usize"),
    ("6 the first taken out of a vector", r"\.remove\(0\)"),
    ("6 a span of another list by two indices", r"from: usize,\s*(?:pub )?to: usize"),
    ("7 a word passed on to be matched again", r"(?:kind|command): &str"),
]


def places(pattern):
    found = []
    for name, text in TEXTS.items():
        for m in re.finditer(pattern, text):
            found.append((name, text.count("\n", 0, m.start()) + 1))
    return found


def functions():
    for name, text in TEXTS.items():
        for m in re.finditer(r"(?m)^ *(?:pub(?:\(crate\))? )?fn (\w+)", text):
            at = text.find("{\n", m.end())
            depth, i = 0, text.find("\n{" if text[m.start()] == "f" or text[m.start()] == "p" else "{", m.end())
            nxt = re.search(r"(?m)^ *(?:pub(?:\(crate\))? )?fn \w+|^impl|^#\[|^struct|^pub struct|^pub enum|^}", text[m.end():])
            end = m.end() + (nxt.start() if nxt else len(text) - m.end())
            yield name, m.group(1), text.count("\n", 0, m.start()) + 1, text[m.start():end]


TYPES = {"u8", "u16", "u32", "u64", "usize", "i64", "i32", "bool"}
WORDS = {"fn", "pub", "crate", "let", "mut", "match", "if", "else", "for", "in", "return", "self", "Self", "Some", "None", "Ok", "Err", "Option", "Result", "ensures", "requires", "result", "true", "false", "as", "impl", "where"}


def shape(text):
    names = {}
    out = []
    for t in re.findall(r"\w+|[^\w\s]", text):
        if t in WORDS:
            out.append(t)
        elif t in TYPES:
            out.append("TYPE")
        elif re.match(r"^[0-9]", t):
            out.append("NUM")
        elif re.match(r"^\w+$", t):
            out.append(names.setdefault(t, f"n{len(names)}"))
        else:
            out.append(t)
    return " ".join(out)


def twins():
    groups = {}
    for name, fn, line, text in functions():
        if text.count("\n") >= 3:
            groups.setdefault(shape(text), []).append((name, line, fn))
    return [g for g in groups.values() if len(g) > 1]


def facts():
    """Clauses of requires that stand in three functions or more."""
    seen = {}
    for name, fn, line, text in functions():
        for m in re.finditer(r"requires (?:\w+ )?\{ ([^{}]*) \}", text):
            seen.setdefault(m.group(1), []).append((name, line))
    return {k: v for k, v in seen.items() if len(v) >= 3}


def together():
    """Pairs of parameters that stand in six signatures or more."""
    seen = {}
    for name, fn, line, text in functions():
        head = text[text.find("("):]
        depth = 0
        for i, ch in enumerate(head):
            depth += ch == "("
            depth -= ch == ")"
            if depth == 0:
                break
        params = sorted(set(re.findall(r"(\w+): [&\w]", head[:i])))
        for a in range(len(params)):
            for b in range(a + 1, len(params)):
                seen.setdefault((params[a], params[b]), []).append((name, line))
    return {k: v for k, v in seen.items() if len(v) >= 6}


for label, pattern in PATTERNS:
    found = places(pattern)
    print(f"{len(found):4}  {label}")
    if VERBOSE:
        for name, line in found:
            print(f"        {name}:{line}")

groups = twins()
print(f"{sum(len(g) for g in groups):4}  2 functions of one shape, in {len(groups)} groups")
if VERBOSE:
    for g in groups:
        print("        " + ", ".join(f"{n}:{l} {f}" for n, l, f in g))

same = facts()
print(f"{sum(len(v) for v in same.values()):4}  5 contracts with a fact that stands in three or more, {len(same)} facts")
if VERBOSE:
    for k, v in same.items():
        print(f"        {len(v)} times {k}")

pairs = together()
print(f"{len(pairs):4}  5 pairs of parameters in six signatures or more")
if VERBOSE:
    for k, v in pairs.items():
        print(f"        {len(v)} times {k[0]}, {k[1]}")
