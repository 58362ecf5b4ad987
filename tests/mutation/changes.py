"""The changes that the mutation run tries: one operator, constant, comparison, argument order or statement of a Rattle source at a time.

Comments, imports, attributes and contracts stay as they are: only what runs is changed.
"""
import collections
import re

# A change of a source: the bytes from `start` to `end` become `new`. `shown` is its line (or lines) with the change marked: [old => new].
Change = collections.namedtuple("Change", "crate path start end new shown")
Token = collections.namedtuple("Token", "text start end")

TOKEN = re.compile(
    r"""b'(?:\\.|[^'])' | b"[^"]*" | '[a-z]+\b | [A-Za-z_]\w* | \d[\w]*
    | <<= | >>= | \.\.= | << | >> | <= | >= | == | != | && | \|\| | \+= | -= | \*= | /= | %= | => | -> | :: | \.\. | \S""",
    re.X,
)
OPERATORS = {
    "+": "-", "-": "+", "*": "+", "/": "*", "%": "/", "<<": ">>", ">>": "<<", "&": "|", "|": "&", "^": "|", "&&": "||", "||": "&&",
    "+=": "-=", "-=": "+=", "*=": "+=", "/=": "*=",
    "<": "<=", "<=": "<", ">": ">=", ">=": ">", "==": "!=", "!=": "==",
}
BOTH_WAYS = {"&", "*", "-"}  # a sign before one operand, or an operator between two
TABLE = 32  # an array with more entries is a table: one rule holds of all entries, so that some of them are tried
STRIDE = 31  # every so many
NO_STATEMENT = {"let", "return", "use", "const", "pub", "fn", "struct", "enum", "impl", "mod", "ghost", "if", "while", "for", "loop", "match", "else"}


def blanked(text, pattern):
    return re.sub(pattern, lambda m: re.sub(r"[^\n]", " ", m.group()), text)


def without_contracts(text):
    """The source with spaces for each `requires {..}` and `ensures NAME {..}`: contracts hold no braces but their own."""
    return blanked(text, r"\b(?:requires|ensures)\b[^{}]*\{[^{}]*\}")


def code_of(source):
    text = blanked(source, r"//[^\n]*")
    text = blanked(text, r"(?m)^ *#!?\[[^\n]*\]$")
    text = blanked(text, r"(?m)^(?:ghost )?use [^;]*;")
    return without_contracts(text)


def tokens_of(source):
    return [Token(m.group(), m.start(), m.end()) for m in TOKEN.finditer(code_of(source))]


def is_operand(token):
    return bool(re.match(r"\w", token.text)) and token.text not in NO_STATEMENT | {"in", "mut"} or token.text in (")", "]")


def operators(tokens):
    """An operator or a comparison for another, and a negation taken out. A `<` before a lifetime opens a parameter list."""
    for before, t, after in zip(tokens, tokens[1:], tokens[2:]):
        lifetime = re.match(r"'[a-z]", before.text) or re.match(r"'[a-z]", after.text)
        if t.text in OPERATORS and (t.text not in BOTH_WAYS or is_operand(before)) and not lifetime:
            yield t.start, t.end, OPERATORS[t.text]
        if t.text == "!":
            yield t.start, t.end, ""


def other_number(text):
    m = re.fullmatch(r"(0x[0-9a-fA-F_]+|[0-9_]+)([ui]\w+)?", text)
    if not m:
        return None
    digits, suffix = m.group(1), m.group(2) or ""
    if digits.startswith("0x"):
        return "0x%x%s" % (int(digits[2:].replace("_", ""), 16) + 1, suffix)
    return "%d%s" % (int(digits.replace("_", "")) + 1, suffix)


def left_out(tokens):
    """The places of the entries of tables that are not tried."""
    found = set()
    for i, t in enumerate(tokens):
        entries = arguments(tokens, i, closing(tokens, i)) if t.text == "[" else []
        if len(entries) > TABLE:
            found.update(tokens[a].start for k, (a, _) in enumerate(entries) if k % STRIDE)
    return found


def numbers(tokens):
    """A number one more, a byte the next one, a truth value the other one."""
    skipped = left_out(tokens)
    for t in tokens:
        if t.start in skipped:
            continue
        if t.text in ("true", "false"):
            yield t.start, t.end, "false" if t.text == "true" else "true"
        elif re.fullmatch(r"b'[a-z0-9 ]'", t.text):
            yield t.start, t.end, "b'%s'" % chr(ord(t.text[2]) + 1)
        elif t.text[0].isdigit() and other_number(t.text):
            yield t.start, t.end, other_number(t.text)


def depths(tokens):
    """How many braces are open at each token."""
    found, depth = [], 0
    for t in tokens:
        depth -= t.text == "}"
        found.append(depth)
        depth += t.text == "{"
    return found


def declared_constants(tokens):
    """The constants of a file by their type, those of an `impl` by their path."""
    found, owner, depth = collections.defaultdict(list), "", depths(tokens)
    for i, t in enumerate(tokens):
        if t.text == "impl":
            owner = tokens[i + 1].text
        if t.text == "const":
            name, kind = tokens[i + 1].text, tokens[i + 3].text
            found[kind].append(owner + "::" + name if depth[i] else name)
    return found


def constants(tokens):
    """A constant of the file for the next one of its type."""
    declared = declared_constants(tokens)
    following = {}
    for names in declared.values():
        for a, b in zip(names, names[1:] + names[:1]):
            if a != b:
                following[a] = b
    for i, t in enumerate(tokens):
        if i and tokens[i - 1].text == "const":
            continue
        if i > 1 and tokens[i - 1].text == "::":
            path = tokens[i - 2].text + "::" + t.text
            if path in following:
                yield tokens[i - 2].start, t.end, following[path]
        elif t.text in following:
            yield t.start, t.end, following[t.text]


def variants(tokens):
    """A variant without values for the next one of its enum that the file names."""
    named = collections.defaultdict(list)
    places = []
    for i in range(2, len(tokens)):
        enum, colons, variant = tokens[i - 2 : i + 1]
        after = tokens[i + 1].text if i + 1 < len(tokens) else ""
        if colons.text == "::" and re.fullmatch(r"[A-Z]\w*[a-z]\w*", variant.text) and enum.text[0].isupper() and after != "(":
            if variant.text not in named[enum.text]:
                named[enum.text].append(variant.text)
            places.append((enum.text, variant))
    for enum, t in places:
        names = named[enum]
        if len(names) > 1:
            yield t.start, t.end, names[(names.index(t.text) + 1) % len(names)]


def closing(tokens, i):
    """The place of the bracket that closes the one at i."""
    depth = 0
    for j in range(i, len(tokens)):
        depth += (tokens[j].text in "([{") - (tokens[j].text in ")]}")
        if depth == 0:
            return j
    return None


def arguments(tokens, i, end):
    """The arguments of the call whose brackets are at i and end, as first and last tokens."""
    parts, first, depth = [], i + 1, 0
    for j in range(i + 1, end + 1):
        text = tokens[j].text
        if depth == 0 and (text == "," or j == end):
            if j > first:
                parts.append((first, j - 1))
            first = j + 1
        depth += (text in "([{") - (text in ")]}")
    return parts


def argument_orders(source, tokens):
    for i in range(2, len(tokens)):
        if tokens[i].text != "(" or not re.match(r"[A-Za-z_]", tokens[i - 1].text) or tokens[i - 2].text == "fn" or tokens[i - 1].text in NO_STATEMENT:
            continue
        parts = arguments(tokens, i, closing(tokens, i))
        for (a, b), (c, d) in zip(parts, parts[1:]):
            one = source[tokens[a].start : tokens[b].end]
            two = source[tokens[c].start : tokens[d].end]
            if one != two:
                yield tokens[a].start, tokens[d].end, two + source[tokens[b].end : tokens[c].start] + one


def statements(tokens):
    """A statement taken out: an assignment or a call, or an `if` with no `else` that returns."""
    depth = depths(tokens)
    for i in range(1, len(tokens)):
        if tokens[i - 1].text not in ("{", "}", ";") or tokens[i].text in ";}" or depth[i] == 0:
            continue
        j = i
        while j < len(tokens) and tokens[j].text not in ";{}":
            j = closing(tokens, j) + 1 if tokens[j].text in "([" else j + 1
        if tokens[i].text == "if" and tokens[j].text == "{":
            end = closing(tokens, j)
            inside = [t.text for t in tokens[j:end]]
            if tokens[end + 1].text not in ("else", "}") and "return" in inside:
                yield tokens[i].start, tokens[end].end, ""
        elif tokens[j].text == ";" and tokens[i].text not in NO_STATEMENT:
            yield tokens[i].start, tokens[j].end, ""


def shown(source, start, end, new):
    first = source.rfind("\n", 0, start) + 1
    last = source.find("\n", end)
    text = "%s[%s => %s]%s" % (source[first:start], source[start:end], new, source[end:last])
    return re.sub(r"\s+", " ", text).strip()


def changes_of(crate, path, source):
    """All changes of a source, by their place."""
    tokens = tokens_of(source)
    found = set()
    for kind in (operators, numbers, constants, variants, statements):
        found.update(kind(tokens))
    found.update(argument_orders(source, tokens))
    return [Change(crate, path, a, b, new, shown(source, a, b, new)) for a, b, new in sorted(found)]
