"""The rules of texts, bundles, books and profiles once more, in plain Python, written from docs/ and sharing nothing with the library.

Each reading answers the verdict as the tables of crates/samples have it: three numbers. Of a text the cause, 0 and the place; of the others the
number of the refusal, the cause of a text's fault inside it, and the place; of what is accepted 0, a count (of pairs or clauses) and 0.
"""

LONGEST = 1048576
WHITE = b" \t\n\r"
DIGITS = b"0123456789"
HEX = b"0123456789abcdefABCDEF"


class Fault(Exception):
    """A refusal: its number, the cause of a text's fault, the place."""

    def __init__(self, number, cause, place):
        super().__init__(number, cause, place)
        self.verdict = (number, cause, place)


def malformed(place):
    return Fault(2, 0, place)


# ---- texts


def skip(s, i):
    while i < len(s) and s[i] in WHITE:
        i += 1
    return i


def expect(s, i, allowed):
    if i >= len(s) or s[i] not in allowed:
        raise malformed(i)
    return i + 1


def string_end(s, i):
    """The place of the closing quote of the string that has to begin at i."""
    i = expect(s, i, b'"')
    while True:
        if i >= len(s) or s[i] < 32:
            raise malformed(i)
        if s[i] == 34:
            return i
        if s[i] != 92:
            i += 1
            continue
        i += 1
        if s[i : i + 1] == b"u":
            i += 1
            for _ in range(4):
                i = expect(s, i, HEX)
        else:
            i = expect(s, i, b'"\\/bfnrt')


def digits_end(s, i):
    while i < len(s) and s[i] in DIGITS:
        i += 1
    return i


def number_end(s, i):
    if s[i : i + 1] == b"-":
        i += 1
    if s[i : i + 1] == b"0":
        i += 1
    else:
        i = digits_end(s, expect(s, i, b"123456789"))
    if s[i : i + 1] == b".":
        i = digits_end(s, expect(s, i + 1, DIGITS))
    if s[i : i + 1] in (b"e", b"E"):
        i += 1
        if s[i : i + 1] in (b"+", b"-"):
            i += 1
        i = digits_end(s, expect(s, i, DIGITS))
    return i


class Value:
    """kind, first place, place past the last, and what is inside: bytes, items, or members (place of the quote, name, value)."""

    def __init__(self, kind, start, end, inside):
        self.kind, self.start, self.end, self.inside = kind, start, end, inside

    def get(self, name):
        for _, other, value in self.inside:
            if other == name:
                return value
        return None


def value_at(s, i, depth):
    if i >= len(s):
        raise malformed(i)
    first = s[i : i + 1]
    if first == b'"':
        close = string_end(s, i)
        return Value("string", i, close + 1, s[i + 1 : close])
    if first in (b"[", b"{"):
        if depth >= 16:
            raise Fault(3, 0, i)
        return nested_at(s, i, depth, first == b"{")
    for word in (b"null", b"true", b"false"):
        if first == word[:1]:
            end = i
            for letter in word:
                end = expect(s, end, bytes([letter]))
            return Value(word.decode(), i, end, word)
    if s[i] in b"-0123456789":
        end = number_end(s, i)
        return Value("number", i, end, s[i:end])
    raise malformed(i)


def nested_at(s, start, depth, is_object):
    kind, close = ("object", b"}") if is_object else ("array", b"]")
    inside, names = [], set()
    i = skip(s, start + 1)
    if s[i : i + 1] == close:
        return Value(kind, start, i + 1, inside)
    while True:
        quote = i
        if is_object:
            end = string_end(s, i)
            name = s[i + 1 : end]
            if name in names:
                raise Fault(4, 0, end)
            names.add(name)
            i = skip(s, expect(s, skip(s, end + 1), b":"))
        value = value_at(s, i, depth + 1)
        inside.append((quote, name, value) if is_object else value)
        i = skip(s, value.end)
        past = expect(s, i, b"," + close)
        if s[i : i + 1] == close:
            return Value(kind, start, past, inside)
        i = skip(s, past)


def text_value(s):
    if len(s) > LONGEST:
        raise Fault(1, 0, 0)
    value = value_at(s, skip(s, 0), 0)
    end = skip(s, value.end)
    if end < len(s):
        raise malformed(end)
    return value


def text(s):
    try:
        text_value(s)
        return (0, 0, 0)
    except Fault as fault:
        return fault.verdict


def text_inside(s, number):
    """The value of a text, or its fault carried under a number."""
    try:
        return text_value(s)
    except Fault as fault:
        raise Fault(number, fault.verdict[0], fault.verdict[2]) from None


# ---- stores


def is_path(p):
    return 2 <= len(p) <= 255 and all(33 <= b <= 126 and b not in b'"\\' for b in p) and p[:1] == b"/" and p[-1:] != b"/"


def bundle(s):
    if len(s) > 16777216:
        return (1, 0, 0)
    if len(s) < 7 or s[:5] != b"CAP\x00\x01":
        return (2, 0, 0)
    count = int.from_bytes(s[5:7], "big")
    if count > 1024:
        return (3, 0, 0)
    place, met = 7, set()
    for _ in range(count):
        if place >= len(s) or place + 1 + s[place] > len(s):
            return (4, 0, place)
        behind = place + 1 + s[place]
        path = s[place + 1 : behind]
        if not is_path(path):
            return (5, 0, place)
        if path in met:
            return (6, 0, place)
        met.add(path)
        if behind + 4 > len(s):
            return (4, 0, place)
        size = int.from_bytes(s[behind : behind + 4], "big")
        if size > 1048576:
            return (7, 0, place)
        if behind + 4 + size > len(s):
            return (4, 0, place)
        place = behind + 4 + size
    return (8, 0, place) if place < len(s) else (0, count, 0)


def book(s):
    try:
        value = text_inside(s, 9)
    except Fault as fault:
        return fault.verdict
    if value.kind != "object":
        return (10, 0, 0)
    if len(value.inside) > 1024:
        return (3, 0, 0)
    for quote, name, _ in value.inside:
        if not is_path(name):
            return (5, 0, quote)
    return (0, len(value.inside), 0)


# ---- profiles

LEVELS = b"Mandatory Recommended IfImplemented Conditional None".split()
OPERATORS = b"AnyOf AllOf Equal NotEqual GreaterThan GreaterThanOrEqual LessThan LessThanOrEqual".split()
PRESENCE = [b"Present", b"Absent"]
SKIPPED = b"Purpose WriteRequirement MinSupportValues".split()
SKIPPED_OF_SCHEMA = b"Repository Purpose CreateResource DeleteResource UpdateResource".split()


def demand(kept, number, place):
    if not kept:
        raise Fault(number, 0, place)


def whole(value):
    digits = value.inside.removeprefix(b"-") if value.kind == "number" else b""
    return int(value.inside) if digits.isdigit() and len(digits) <= 18 else None


def is_scalar(value):
    return value.kind in ("string", "true", "false", "null") or whole(value) is not None


def check_word(value, words):
    demand(value.kind == "string", 14, value.start)
    demand(value.inside in words, 15, value.start)


def check_property(value):
    demand(value.kind == "string", 14, value.start)
    demand(value.inside[:1] != b"/", 15, value.start)


def check_array(value, least, most, check):
    demand(value.kind == "array" and least <= len(value.inside) <= most, 14, value.start)
    for item in value.inside:
        check(item)


def check_scalar(value):
    demand(is_scalar(value), 14, value.start)


def check_string(value):
    demand(value.kind == "string", 14, value.start)


def check_count(value):
    demand(whole(value) is not None and 0 <= whole(value) <= 65535, 14, value.start)


def check_version(value):
    parts = value.inside.split(b".") if value.kind == "string" else []
    demand(len(parts) in (2, 3) and all(p.isdigit() and len(p) <= 5 and int(p) <= 65535 for p in parts), 14, value.start)


def takes(word, values):
    if word in (b"AnyOf", b"AllOf"):
        return True
    return len(values) == 1 and (word in (b"Equal", b"NotEqual") or whole(values[0]) is not None)


def check_common(quote, name, value):
    if name == b"ReadRequirement":
        check_word(value, LEVELS)
    elif name == b"MinCount":
        check_count(value)
    elif name == b"Comparison":
        check_word(value, OPERATORS)
    elif name == b"Values":
        check_array(value, 1, 16, check_scalar)
    else:
        demand(name in SKIPPED, 15, quote)


def check_comparison(entry):
    word, values = entry.get(b"Comparison"), entry.get(b"Values")
    demand(word is None or values is not None and takes(word.inside, values.inside), 14, entry.start)


def check_condition(value):
    demand(value.kind == "object", 14, value.start)
    kind = value.get(b"CompareType")
    presence = kind is not None and kind.kind == "string" and kind.inside in PRESENCE
    for quote, name, inner in value.inside:
        if name == b"SubordinateToResource":
            check_array(inner, 1, 8, check_string)
        elif name == b"CompareProperty":
            check_property(inner)
        elif name == b"CompareType":
            check_word(inner, OPERATORS + PRESENCE)
        elif name == b"CompareValues":
            if not presence:
                check_array(inner, 1, 16, check_scalar)
        else:
            check_common(quote, name, inner)
    compared, values = value.get(b"CompareProperty"), value.get(b"CompareValues")
    demand(compared is not None or value.get(b"SubordinateToResource") is not None, 14, value.start)
    demand((compared is None) == (kind is None), 14, value.start)
    demand(values is None or kind is not None, 14, value.start)
    if kind is not None and not presence:
        demand(values is not None and takes(kind.inside, values.inside), 14, value.start)
    check_comparison(value)


def check_entry(value, nested):
    demand(value.kind == "object", 14, value.start)
    for quote, name, inner in value.inside:
        if name in (b"ReplacedByProperty", b"ReplacesProperty"):
            check_property(inner)
        elif name == b"ConditionalRequirements":
            check_array(inner, 0, 16, check_condition)
        elif name == b"PropertyRequirements" and not nested:
            check_properties(inner, True)
        else:
            check_common(quote, name, inner)
    check_comparison(value)


def check_properties(value, nested):
    demand(value.kind == "object", 14, value.start)
    for quote, name, inner in value.inside:
        demand(name[:1] != b"/", 15, quote)
        check_entry(inner, nested)


def check_schema(value):
    demand(value.kind == "object", 14, value.start)
    for quote, name, inner in value.inside:
        if name == b"MinVersion":
            check_version(inner)
        elif name == b"ReadRequirement":
            check_word(inner, LEVELS)
        elif name == b"PropertyRequirements":
            check_properties(inner, False)
        else:
            demand(name in SKIPPED_OF_SCHEMA, 15, quote)


def clauses(schema):
    count = 1 + (schema.get(b"MinVersion") is not None)
    properties = schema.get(b"PropertyRequirements")
    for _, _, entry in properties.inside if properties else []:
        nested = entry.get(b"PropertyRequirements")
        count += 1 + (len(nested.inside) if nested else 0)
    return count


def profile(s):
    try:
        value = text_inside(s, 13)
        demand(value.kind == "object", 14, value.start)
        resources = value.get(b"Resources")
        schemas = []
        if resources is not None:
            demand(resources.kind == "object", 14, resources.start)
            schemas = [schema for _, _, schema in resources.inside]
        for schema in schemas:
            check_schema(schema)
        count = sum(clauses(schema) for schema in schemas)
        return (16, 0, 0) if count > 1024 else (0, count, 0)
    except Fault as fault:
        return fault.verdict
