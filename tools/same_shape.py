"""Lists functions whose bodies have one shape (names, numbers and texts apart), and all loops, in a checkout: same_shape.py FOLDER."""
import collections
import glob
import re
import sys

WORDS = {"if", "else", "match", "for", "in", "let", "mut", "return", "Some", "None", "Ok", "Err", "self", "while", "loop", "true", "false"}


def body_after(text, start):
    """The body of the function whose name ends at start, without its clauses; none where a trait only declares it."""
    for found in re.finditer(r"(?m)^(.*)([{;])$", text[start:]):
        line = found.group(1)
        if "requires" in line or "ensures" in line:
            if found.group(2) == ";":
                return None
            continue
        if found.group(2) == ";":
            return None
        begin = start + found.end() - 1
        depth = 0
        for at in range(begin, len(text)):
            depth += {"{": 1, "}": -1}.get(text[at], 0)
            if depth == 0:
                return text[begin:at + 1]
    return None


def shape(body):
    body = re.sub(r'"[^"]*"', "S", re.sub(r"\b\d[\d_]*\b", "N", body))
    body = re.sub(r"\b[A-Za-z_]\w*\b", lambda word: word.group(0) if word.group(0) in WORDS else "i", body)
    return re.sub(r"\s+", " ", body)


def main(root):
    shapes = collections.defaultdict(list)
    loops = []
    for path in sorted(glob.glob(root + "/crates/*/src/*.rt")):
        text = re.sub(r"//[^\n]*", "", open(path).read())
        place = path[len(root) + 8:]
        for name in re.finditer(r"\bfn (\w+)", text):
            body = body_after(text, name.end())
            if body and body.count("\n") > 2:
                shapes[shape(body)].append((place, name.group(1)))
        loops += [(place, line.strip()) for line in re.findall(r"(?m)^(\s*(?:for|while|loop)\b.*)$", text)]
    for group in shapes.values():
        if len(group) > 1:
            print("one shape:", *group)
    print(len(loops), "loops")
    for loop in loops:
        print("   ", *loop)


main(sys.argv[1])
