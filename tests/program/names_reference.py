"""Gives names to the declared ids of a session, as `dapnorm name` does, without the program."""
import json
import re
from typing import NamedTuple, Optional

ACTIONS = ("blank", "digits", "hex", "long", "uuid")
STRING = r'"(?:[^"\\]|\\.)*"'
COMMENTED = re.compile(rf'(?:{STRING}|[^#"])*')
WORD = re.compile(rf'(?:{STRING}|[^\s"])+')
STEP = re.compile(rf'\.?({STRING}|[\w$-]+)|\[({STRING})?\]')
# A text that an action takes for a token. Only `digits` starts one after a literal hexadecimal digit.
TOKENS = {
    "digits": re.compile("[0-9]+"),
    "hex": re.compile("0[xX][0-9a-fA-F]+"),
    "long": re.compile("(?=[a-fA-F]*[0-9])[0-9a-fA-F]{6,}"),
    "uuid": re.compile("[0-9a-fA-F]{8}(?:-[0-9a-fA-F]{4}){3}-[0-9a-fA-F]{12}(?![0-9a-fA-F])"),
}
# The order in which the actions for one place are tried at each character. Beside `uuid`, `digits` is not tried.
TRIED = ("uuid", "hex", "long", "digits")
DIGITS = "0123456789abcdefABCDEF"
# Values of tokens that are not ids.
NOTHING = ("", "0", "0x0", "00000000-0000-0000-0000-000000000000")


class Declared(NamedTuple):
    """A rule that ends in `as LABEL`. A step of its place is the name of a member, `()` for each element of a list, or `(TEXT,)` for those
    that have this name."""
    action: str
    kind: str
    name: Optional[str]
    category: Optional[str]
    place: tuple
    label: str


def text_of(word):
    return json.loads(word) if word.startswith('"') else word


def place_of(word):
    return tuple(text_of(step[1]) if step[1] else (text_of(step[2]),) if step[2] else () for step in STEP.finditer(word))


def declarations(rules):
    """Returns the rules of a file that end in `as LABEL`."""
    found = []
    for line in rules.splitlines():
        words = WORD.findall(COMMENTED.match(line)[0])
        if words[:1] and words[0] in ACTIONS and words[-2:-1] == ["as"]:
            action, kind, name, *category, place, _, label = words
            limit = text_of(category[0].split("=", 1)[1]) if category else None
            found.append(Declared(action, kind, None if name == "*" else text_of(name), limit, place_of(place), text_of(label)))
    return found


def applies(rule, message):
    if not isinstance(message, dict) or message.get("type") != rule.kind:
        return False
    body = message.get("body")
    has_category = rule.category is None or isinstance(body, dict) and body.get("category") == rule.category
    return has_category and rule.name in (None, message.get("event" if rule.kind == "event" else "command"))


def name_pattern(label):
    return re.compile(rf"<{label} ([1-9][0-9]*)>")


def rule_of(action, rules):
    return next((rule for rule in rules if rule.action == action), None)


def token_at(rules, text, at, after_digit):
    """Returns the token that starts here, and its rule. A name comes first."""
    tried = [rule for rule in (rule_of(action, rules) for action in TRIED) if rule]
    patterns = [(name_pattern(rule.label), rule) for rule in rules] + [
        (TOKENS[rule.action], rule) for rule in tried
        if rule.action == "digits" and not rule_of("uuid", rules) or rule.action != "digits" and not after_digit
    ]
    found = ((pattern.match(text, at), rule) for pattern, rule in patterns)
    return next(((match[0], rule) for match, rule in found if match), (text[at], None))


def parts(rules, text):
    """Returns the text in parts, from left to right: each is a token with its rule, or a character that belongs to none."""
    whole = rule_of("blank", rules)
    if whole:
        return [(text, whole)]
    found, at, after_digit = [], 0, False
    while at < len(text):
        part, rule = token_at(rules, text, at, after_digit)
        found.append((part, rule))
        at, after_digit = at + len(part), not rule and part in DIGITS
    return found


def value_of(rule, token):
    """Returns the text of the value of a token. Two tokens with one label are the same id if these texts are equal."""
    name = name_pattern(rule.label).fullmatch(token)
    if name:
        return name[1]
    return {
        "blank": lambda: token, "uuid": token.lower, "digits": lambda: token.lstrip("0") or "0",
        "hex": lambda: "0x" + (token[2:].lower().lstrip("0") or "0"), "long": lambda: "0x" + (token.lower().lstrip("0") or "0"),
    }[rule.action]()


def replaced(doc, rules, replace):
    """Returns the document with each id replaced by what `replace` makes of its rule, its value and its token, in the order of the canonical
    text. The integer of an id is its own token."""
    here = [rule for rule in rules if not rule.place]
    if isinstance(doc, dict):
        below = {key: [rule._replace(place=rule.place[1:]) for rule in rules if rule.place[:1] == (key,)] for key in doc}
        return {key: replaced(doc[key], below[key], replace) for key in sorted(doc, key=str.encode)}
    if isinstance(doc, list):
        return [replaced(element, [rule._replace(place=rule.place[1:]) for rule in rules if leads_to(rule, element)], replace) for element in doc]
    if here and isinstance(doc, str):
        return "".join(token_replaced(rule, part, replace) if rule else part for part, rule in parts(here, doc))
    whole = rule_of("blank", here)
    return replace(whole, str(doc), doc) if whole and type(doc) is int and doc != 0 else doc


def leads_to(rule, element):
    """The first step of the place of the rule is to this element of a list."""
    step = rule.place[:1]
    return step == ((),) or bool(step) and isinstance(step[0], tuple) and isinstance(element, dict) and element.get("name") == step[0][0]


def token_replaced(rule, token, replace):
    value = value_of(rule, token)
    return token if value in NOTHING else replace(rule, value, token)


def session_replaced(declared, found, replace):
    """Returns the messages, each with its side, with their ids replaced."""
    return [(side, replaced(message, [rule for rule in declared if applies(rule, message)], replace)) for side, message in found]


def ids(declared, found):
    """Returns the ids of the messages in order: for each its label and its value."""
    listed = []

    def note(rule, value, token):
        listed.append((rule.label, value))
        return token

    session_replaced(declared, found, note)
    return listed


def named(declared, found):
    """Returns the messages with names in the place of their ids: the values of each label are numbered from 1, by first appearance."""
    numbers = {}

    def name(rule, value, token):
        known = numbers.setdefault(rule.label, {})
        number = known.setdefault(value, len(known) + 1)
        return number if isinstance(token, int) else f"<{rule.label} {number}>"

    return session_replaced(declared, found, name)
