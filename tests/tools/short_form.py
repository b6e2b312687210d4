"""The short form of what the program dump_tree prints, which README.md beside this file tells."""

import re

WIDTH = 120
DEEPEST_INDENT = 40
TOKEN = re.compile(r"Token { kind: (.*), start: (\d+), end: (\d+), line: (\d+), column: (\d+) }")
CLOSING = {"(": ")", "[": "]"}


def letters_of(numbers):
    return "".join(chr(int(it)) if 32 <= int(it) < 127 else f"\\x{int(it):02x}" for it in numbers[1:])


def short_node(name, fields):
    """A node in its short form: a word, or a list whose first element is its bracket."""
    values = dict(fields)
    at = values.pop("place", "")
    parts = [*values.values()]
    match name:
        case "Place":
            return f"@{parts[0]}:{parts[1]}"
        case "Name":
            return letters_of(parts[0]) + at
        case "Number" if at:
            return parts[0] + at
        case "Bit" if at:
            return f"'{int(parts[0] == 'true')}'B{at}"
        case "Text" if parts[0] != "-" and parts[0][0] == "[":
            text = f"'{letters_of(parts[0])}'"
            return text + at if at else ["(", name, text]
        case "Refers" | "Plain" | "Listed" | "Some" | "Tree":
            return parts[0]
        case "None" | "Absent":
            return "-"
        case "End" if not fields:
            return ["["]
        case "More":
            rest = parts.pop()
            return ["[", parts[0] if len(parts) == 1 else ["(", "Times" + at, *parts], *rest[1:]]
        case "Last" | "Of" if parts[1] != "-":
            return short_node(name, [("name", ["(", parts[0], parts[1]]), ("arguments", "-"), *fields[2:]])
        case "Of":
            return ["(", name, parts[0], parts[2]]
        case "Last":
            return parts[0]
        case "Extent" | "DeclaredName" if parts[1] in ("-", ["["]):
            return parts[0]
        case "Statement" if parts[0] == ["["]:
            return parts[1]
        case "Procedure" if fields:
            return ["(", name + parts[0][1].removeprefix("ProcedureHead"), *parts[0][2:], parts[1]]
    return ["(", name + at, *parts] if fields else name


def short(debug):
    """The short form of what Debug prints of a tree."""
    around, word, field = [("", "", [], None)], None, None
    for part in re.findall(r"-?\w+|[{}()\[\],:]", debug):
        if part == ":":
            field, word = word, None
        elif part in "{([":
            around.append((part, word, [], field))
            word = field = None
        elif part in "})],":
            if word is not None:
                leaf = short_node(word, []) if word[0].isupper() else word
                around[-1][2].append((field or len(around[-1][2]), leaf))
                word = field = None
            if part != ",":
                bracket, name, fields, field_of_it = around.pop()
                node = ["[", *(it for _, it in fields)] if bracket == "[" else short_node(name, fields)
                around[-1][2].append((field_of_it or len(around[-1][2]), node))
        else:
            word = part
    return around[0][2][0][1]


def flat(node):
    return node if isinstance(node, str) else node[0] + " ".join(map(flat, node[1:])) + CLOSING[node[0]]


def lay_out(node, depth, lines):
    """Puts a node behind the last line; where it doesn't fit, each node of a list begins a line."""
    if isinstance(node, str) or len(lines[-1]) + len(flat(node)) <= WIDTH:
        lines[-1] += flat(node)
        return
    indent = " " * min(depth, DEEPEST_INDENT)
    lines[-1] += node[0]
    for at, part in enumerate(node[1:]):
        length = len(flat(part))
        fits = len(lines[-1]) + 1 + length <= WIDTH and (node[0] == "(" or isinstance(part, str))
        fits_nowhere = len(indent) + length > WIDTH and node[0] == "(" and len(lines[-1]) < WIDTH - 30
        if at and (fits or fits_nowhere):
            lines[-1] += " "
        elif at:
            lines.append(indent)
        lay_out(part, depth + 1, lines)
    lines[-1] += CLOSING[node[0]]


def tokens_or_tree(wanted, dumped):
    """The tokens in short form, or the tree; the refusal where there is none."""
    *tokens, last = dumped.splitlines()
    if wanted == "=> tokens" and (tokens or last.startswith("Tree")):
        return [wanted, *(TOKEN.sub(r"\1 \2..\3 \4:\5", it) for it in tokens)]
    if not last.startswith("Tree"):
        return [f"=> {last}"]
    lines = [""]
    lay_out(short(last), 1, lines)
    return [wanted, *lines]
