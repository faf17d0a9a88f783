#!/usr/bin/env python3
"""Tells of tokens that the files in editors/ don't colour as what they are.

A plain tokenizer, by docs/LANGUAGE.md ("Tokens") and docs/CODE.md ("Listing"), gives each token its
class. The TextMate grammars have to give each token of each source and listing in cases/, examples/
and docs/tutorial/ the scope of its class, and may give nothing else a scope. If a source has a fault
of its tokens, it has to be where the stored answer says; the rest then holds up to the fault, and
what stands there is `invalid`, unless it is a number that is too large. A listing that is refused at a
line counts up to that line. The words and signs are those of crates/loft_lex, and the keywords of the
Vim file have to be exactly these words, class by class.

The grammars are read by a small interpreter. It knows rules with `match`, with a `name` or
`captures`, and `include` of another grammar. The patterns may use only what means the same in
Python's `re`. Lines end at line feeds."""

import json
import pathlib
import re
import sys

TOP = pathlib.Path(__file__).resolve().parent.parent
VSCODE = TOP / "editors/vscode"
VIM = TOP / "editors/vim/syntax/loft.vim"
LEX = TOP / "crates/loft_lex/src"
SOURCES = ["cases/*/*.loft", "examples/*.loft", "docs/tutorial/*.loft", "examples/*.locks", "docs/tutorial/*.locks"]
LISTINGS = ["cases/*/*.listing", "cases/compile/*.stdout"]
SPELLING = re.compile(r'(?:Word|Sign)::\w+ => b"([^"]+)"')
TOKEN_FAULT = re.compile(rb"source: (bad byte|bad number|long name|long text|open text) at (\d+)\n")
WRONG_LINE = re.compile(rb"listing: line (\d+)\n")
VIM_KEYWORDS = re.compile(r"^syntax keyword loft(\w+) (.+)$", re.M)

BLANKS = b" \t\r\n"
DIGITS = b"0123456789"
LETTERS = b"abcdefghijklmnopqrstuvwxyzABCDEFGHIJKLMNOPQRSTUVWXYZ_"
ALONE = {bytes([byte]) for byte in BLANKS + DIGITS + LETTERS}
TEXT = set(range(0x20, 0x7F)) - set(b'"\\')
PUNCTUATION = set(b";,.(){}")
HEADER = b"loft-listing 1"
WITH_TARGET = {b"branch", b"turn", b"jump"}
OPERATIONS = WITH_TARGET | {b"enter", b"count"}

# The classes of words; each other word of the language is a statement's.
WORDS = {
    "declaration": "scheduler event shared module start outside local in to as unlinked",
    "control": "if then else while do repeat end",
    "kind": "int thread",
    "value": "self code mask",
}
# The class of a scope without its last part.
SCOPES = {
    "comment.line.double-slash": "comment",
    "string.quoted.double": "text",
    "constant.numeric": "number",
    "keyword.declaration": "declaration",
    "keyword.other": "statement",
    "keyword.control": "control",
    "storage.type": "kind",
    "variable.language": "value",
    "variable.other": "name",
    "entity.name.function": "module",
    "keyword.operator": "operator",
    "punctuation": "punctuation",
    "keyword.directive": "header",
    "entity.name.label": "label",
    "constant.other.stop": "stop",
    "invalid.illegal": "invalid",
}


class Language:
    """The words of the language with their classes, and its signs."""

    def __init__(self):
        self.words = {word.encode(): "statement" for word in self.spelled("word.rt")}
        self.signs = {sign.encode() for sign in self.spelled("sign.rt")}
        for kind, words in WORDS.items():
            for word in words.encode().split():
                if word not in self.words:
                    sys.exit(f"{word.decode()} is no word of the language")
                self.words[word] = kind

    @staticmethod
    def spelled(file):
        """The words or the signs that a file of the lexer spells, in its order."""
        return SPELLING.findall((LEX / file).read_text(encoding="utf-8"))


class Fault(Exception):
    """A fault of the tokens: its offset, and whether it is that a number is too large."""


def after(source, at, allowed):
    """The offset after the bytes of a set that stand at an offset."""
    while at < len(source) and source[at] in allowed:
        at += 1
    return at


def name_class(language, source, at, end):
    """The class of the name or word between two offsets."""
    is_called = source.startswith(b"(", after(source, end, b" \t"))
    return language.words.get(source[at:end]) or ("module" if is_called else "name")


def token_at(language, source, at):
    """The offset after the token or comment that begins at an offset, and its class."""
    if source.startswith(b"//", at):
        return (source + b"\n").index(b"\n", at), "comment"
    if source[at] in LETTERS:
        end = after(source, at, LETTERS + DIGITS)
        if end - at > 64:
            raise Fault(at, False)
        return end, name_class(language, source, at, end)
    if source[at] in DIGITS:
        end = after(source, at, DIGITS)
        is_last = end == len(source) or source[end] not in LETTERS
        digits = source[at:end].lstrip(b"0")
        if not is_last or len(digits) > 19 or int(digits or b"0") >= 2**63:
            raise Fault(at, is_last)
        return end, "number"
    if source[at] == ord('"'):
        end = after(source, at + 1, TEXT)
        is_short, then = end - at <= 121, source[end:end + 1]
        if is_short and then == b'"':
            return end + 1, "text"
        raise Fault(end if is_short and then not in (b"", b"\n") else at, False)
    for sign in (source[at:at + 2], source[at:at + 1]):
        if sign in language.signs:
            return at + len(sign), "punctuation" if source[at] in PUNCTUATION else "operator"
    raise Fault(at, False)


def tokens(language, source, at=0):
    """The tokens and comments of a source from an offset on: begin, end and class."""
    while (at := after(source, at, BLANKS)) < len(source):
        end, kind = token_at(language, source, at)
        yield at, end, kind
        at = end


def operation_tokens(language, line):
    """The tokens of the line of an operation."""
    number, place, depth, does = line.split(b" ", 3)
    first, then = (does.split(b" ") + [b""])[:2]
    heads = [(number, "label"), (place, language.words.get(place, "name")), (depth, "number")]
    if first.startswith(b"@"):
        heads.append((first, "stop"))
    elif first in OPERATIONS and then != b"=":
        heads.append((first, "control"))
        if first in WITH_TARGET:
            heads.append((then, "label"))
    at = 0
    for text, kind in heads:
        yield at, at + len(text), kind
        at += len(text) + 1
    yield from tokens(language, line, at)


def listing_tokens(language, listing):
    """The tokens of a listing."""
    start = 0
    for line in listing.split(b"\n"):
        if line == HEADER:
            found = [(0, len(line), "header")]
        elif line[:1].isdigit():
            found = operation_tokens(language, line)
        else:
            found = tokens(language, line)
        for at, end, kind in found:
            yield start + at, start + end, kind
        start += len(line) + 1


class Rule:
    """A rule of a grammar: its pattern, and the scope of each group, 0 for the whole match."""

    def __init__(self, rule):
        if "match" not in rule or not set(rule) <= {"match", "name", "captures"}:
            sys.exit(f"a rule of a grammar has other parts than those that are read: {rule}")
        self.pattern = re.compile(rule["match"])
        self.scopes = {int(group): it["name"] for group, it in rule.get("captures", {}).items()}
        if "name" in rule:
            self.scopes[0] = rule["name"]

    def spans(self, found):
        """The scoped spans of a match, with their classes."""
        for group, scope in sorted(self.scopes.items()):
            if found[group] is not None:
                yield *found.span(group), SCOPES.get(scope.rpartition(".")[0], scope)


def rules_of(grammars, scope):
    """The rules of a grammar, with those that it includes."""
    for rule in grammars[scope]["patterns"]:
        if set(rule) == {"include"}:
            yield from rules_of(grammars, rule["include"])
        else:
            yield Rule(rule)


def line_spans(rules, line):
    """The scoped spans of a line: the first match counts, and of several the first rule's."""
    at, matches = 0, [rule.pattern.search(line) for rule in rules]
    while at < len(line):
        for index, found in enumerate(matches):
            if found and found.start() < at:
                matches[index] = rules[index].pattern.search(line, at)
        starts = [(found.start(), index) for index, found in enumerate(matches) if found]
        if not starts:
            return
        _, first = min(starts)
        yield from rules[first].spans(matches[first])
        at = max(matches[first].end(), at + 1)


def spans(rules, source):
    """The scoped spans of a text, with their classes."""
    start = 0
    for line in source.decode("latin-1").split("\n"):
        for at, end, kind in line_spans(rules, line + "\n"):
            yield start + at, start + end, kind
        start += len(line) + 1


def difference(source, found, wanted, fault):
    """What sets the spans of a text apart from its tokens up to its fault, if anything does."""
    for got, want in zip(found, wanted):
        if got != want:
            return f"{source[want[0]:want[1]][:60]!r} at {want[0]} has the class {want[2]}, and not {got}"
    rest = found[len(wanted):]
    if len(found) < len(wanted):
        return f"{wanted[len(found)]} has no colour"
    if fault is None:
        return f"{rest[0]} is no token" if rest else None
    at, is_too_large = fault.args
    is_marked = bool(rest) and rest[0][0] <= at < rest[0][1] and rest[0][2] == "invalid"
    return None if is_too_large or is_marked else f"the fault at {at} isn't marked"


def compare(rules, source, wanted, refused_at=None):
    """The number of tokens of a text, and what is wrong with its spans, if anything is.

    `refused_at` is the offset of the fault of its tokens by the stored answer."""
    expected, fault = [], None
    try:
        expected.extend(wanted)
    except Fault as why:
        fault = why
    if refused_at != (fault.args[0] if fault else None):
        return len(expected), f"the fault of the tokens isn't at {refused_at}, as this check reads them"
    return len(expected), difference(source, list(spans(rules, source)), expected, fault)


def answer_to(file):
    """The stored answer to a case, or nothing."""
    answer = file.with_name(file.name + ".stdout")
    return answer.read_bytes() if answer.is_file() else b""


def sources(language):
    """Each source, and short ones of the words, the signs and each byte: its name, its text, and where its
    tokens have a fault."""
    yield "all words and signs", b" ".join([*language.words, *sorted(language.signs)]), None
    for byte in (bytes([value]) for value in range(256)):
        yield f"the byte {byte!r}", byte, None if byte in {*language.signs, *ALONE} else 0
    for file in sorted(file for files in SOURCES for file in TOP.glob(files)):
        refused = TOKEN_FAULT.fullmatch(answer_to(file))
        yield file.relative_to(TOP), file.read_bytes(), int(refused[2]) if refused else None


def listings():
    """Each listing, up to the line at which it is refused: its name and its text."""
    for file in sorted(file for files in LISTINGS for file in TOP.glob(files)):
        text, wrong = file.read_bytes(), WRONG_LINE.fullmatch(answer_to(file))
        lines = text.split(b"\n")[:int(wrong[1]) - 1] if wrong else text.split(b"\n")
        if lines and lines[0] == HEADER:
            yield file.relative_to(TOP), b"\n".join(lines)


def wrong_keywords(language):
    """The classes of words that the Vim file has otherwise."""
    vim = {}
    for kind, words in VIM_KEYWORDS.findall(VIM.read_text(encoding="utf-8")):
        vim.setdefault(kind.lower(), []).extend(words.encode().split())
    for kind in sorted({*vim, *language.words.values()}):
        words = sorted(word for word, its in language.words.items() if its == kind)
        if sorted(vim.get(kind, [])) != words:
            yield f"{VIM.relative_to(TOP)}: the {kind} words aren't {b' '.join(words).decode()}"


def read_grammars():
    """The grammars that the extension names, by their scopes."""
    grammars = {}
    for named in json.loads((VSCODE / "package.json").read_text())["contributes"]["grammars"]:
        grammar = json.loads((VSCODE / named["path"]).read_text())
        if grammar["scopeName"] != named["scopeName"]:
            sys.exit(f"{named['path']} is no grammar of {named['scopeName']}")
        grammars[named["scopeName"]] = grammar
    return grammars


def comparisons(language):
    """The name of each text, the number of its tokens, and what is wrong with their colours."""
    grammars = read_grammars()
    rules = list(rules_of(grammars, "source.loft"))
    for name, text, refused_at in sources(language):
        yield name, *compare(rules, text, tokens(language, text), refused_at)
    rules = list(rules_of(grammars, "source.loft.listing"))
    for name, text in listings():
        yield name, *compare(rules, text, listing_tokens(language, text))


def main():
    language = Language()
    wrong, count, texts = list(wrong_keywords(language)), 0, 0
    for name, length, differs in comparisons(language):
        count, texts = count + length, texts + 1
        if differs:
            wrong.append(f"{name}: {differs}")
    for line in wrong:
        print(line)
    print(f"tokens of {texts} texts for editors: {count}, of which coloured otherwise: {len(wrong)}")
    return 1 if wrong else 0


if __name__ == "__main__":
    sys.exit(main())
