#!/usr/bin/env python3
"""Finds the places of the design pass (docs/DESIGN-PASS.md) in crates/*/src, by patterns over the text.

usage: python3 tools/design-places.py [--tree DIR]          the table: places found, kept and open, by point and crate
       python3 tools/design-places.py POINT [--tree DIR]    the places of a point, 1 to 8: crate, file:line, name, pattern, what was found
       python3 tools/design-places.py all [--tree DIR]      the places of every point
       python3 tools/design-places.py kept [--tree DIR]     each line `// Kept (..)`, with the places that it covers
       python3 tools/design-places.py names [--tree DIR]    the places by point, pattern and crate, names alone, as the page has them

A place is kept where a line `// Kept (REASON): why` stands in the comment right above it or above its function, or inside it. What a
pattern finds that is no such place is listed in NOT_A_PLACE below with its reason, and printed as `not a place`. Comments and the text
of strings are no code: patterns see blanks there, but for the patterns that read a comment on purpose. Standard library alone.
"""

import collections
import difflib
import glob
import os
import re
import signal
import sys

REASONS = ("C interface", "may not change", "project rule", "speed", "proof", "no plainer")
KEPT = re.compile(r"^\s*// Kept \((%s)\)" % "|".join(REASONS))
ORDER = (
    "octets checksum compression wire mac keys columns prepared digests vectors tables rules traffic states checks tcpao boundary "
    "recording packets rollover embankery desk"
).split()
INTEGER = r"(?:u8|u16|u32|u64|usize|i32|i64)"
FAILURE = r"(?:Wrong|Malformed|Refused|Nowhere|Nothing|Invalid|Bad|Fault|Failed|Drop|Missing|Absent|Err|Error|Empty|No[A-Z]\w*)"

POINTS = {
    1: "Own Option and Result, flags with a value, numbers for kinds and refusals",
    2: "Twins",
    3: "Loops that count an index by hand",
    4: "Equality, copying, conversion and printing by hand",
    5: "Facts in three contracts or more, parameters that travel together",
    6: "Buffers with a length, parallel arrays, searches by hand",
    7: "Switches on which step to run",
}

# Point, pattern of `PATTERN FILE NAME: TEXT`, reason. What matches is printed as `not a place`.
NOT_A_PLACE = [
    (1, r"number-for-kind crates/embankery/", "C's number, met in the export itself"),
    (1, r"number-for-kind .* const (CLIENT|SERVER)_(\d|ID)", "a KeyID: a value of the protocol, not a kind"),
    (1, r"number-for-kind .* const (SYN|ACK|SYN_ACK):", "bits of a header's byte"),
    (1, r"number-for-kind .* const LAST:", "how many segments there are"),
    (1, r"refusal-handed-on .* (of_\w+|verdict_of|Verdict::from):", "a conversion: it stands under point 4"),
    (1, r"answer-with-values-beside .* Begun:", "its way says how the MAC is made: no answer, and the other fields hold on both ways"),
    (1, r"refusal-number .* reason:", "an index into a table of words"),
    (1, r"answer-with-values-beside .* Header:", "the rest of a header is there whether or not its options can be read"),
    (1, r"sentinel crates/wire/src/bytes\.rt byte_at:", "document 01's rule, that a byte which is not there counts as 0"),
    (2, r"twins .* table: .*md5\.rt table ~ \S+sha256\.rt table$", "each standard's own constants"),
    (2, r"twin-types .*Ids ~ (Fault ~ )?Tally ~ Index ~ Answer$", "pairs of numbers that have nothing in common"),
    (2, r"twin-types .*Hit ~ Index$", "the field `entry` is an entry of one, and of the other a place among entries"),
    (2, r"twin-types .*Meeting ~ SynJudged$", "an index each, of other things"),
    (2, r"twins .*width_of ~ \S+ family_of ~ \S+ most_bits$", "one number or another by the family: other numbers, of other things"),
    (2, r"near-twins .*(front_agrees|zero_from|octet_sum|block_close) ~ \S+ (zero_from|octet_sum|block_close)$",
     "folds of other things; their loops stand under point 3"),
    (2, r"near-twins .*words\.rt load ~ \S+ head_of$", "an array's elements by number, of other things: point 4 has both"),
    (2, r"twins .*ends\.rt \S*local ~ \S+ remote$", "each reads a field of its own"),
    (2, r"near-twins crates/(packets|rollover)/src/\w+\.rt \S*judge_syn: .*judge_syn ~ \S+ open_passive", "each makes a call of its own"),
    (2, r"twins .*key_tables\.rt id ~ \S+ state$", "one of two by the end: a KeyID, and a state"),
    (2, r"twins .*mac_place ~ \S+ port$", "two numbers by an enum of two, of other things"),
    (2, r"near-twins .*from ~ \S+ verdict_line ~ \S+ from$", "each makes another type of a verdict"),
    (2, r"near-twins .*secret_number ~ \S+ md5_number$", "each table's own tests"),
    (2, r"twins .*kind_listed ~ \S+ secret_of$", "both ask which table it is, and no more"),
    (2, r"twins .*is_hmac ~ \S+ is_family$", "two tests of two numbers, of other things"),
    (2, r"twins .*hex\.rt print ~ \S+ order$", "print each of a list, one in hexadecimal and one in decimal"),
    (2, r"twins .*report\.rt place ~ \S+ sized$", "print four things, other ones"),
    (2, r"twins crates/rollover/src/(report|rows)\.rt (columns|opening_title|same):", "each prints words of its own"),
    (2, r"near-twins .*report\.rt counts ~ \S+ ends$", "each prints words of its own"),
    (5, r"parameters-together .* \((a, b, c|a, b, c, d|x, y, z)\):",
     "the arguments of the standards' own functions, and bytes side by side"),
    (2, r"near-twins .*lib\.rt from ~ \S+ verdict_line ~ \S+ from$", "each is one match over three answers, and gives another type"),
    (4, r"conversion .* \w+::from:", "it is the `From` that the point asks for"),
    (3, r"while-with-counter .*hex\.rt pairs:", "takes a slice apart by its pattern: there is no index"),
    (4, r"conversion crates/packets/src/answers\.rt ", "it stands in `From`"),
    (4, r"conversion crates/rollover/src/runs\.rt ", "one of two fields, no conversion"),
    (4, r"equality .* ended_alike:", "equality of a part of two states"),
    (4, r"equality .* shares:", "asks whether one of two IDs is shared, which is no equality"),
    (4, r"equality .* selectors_overlap:", "asks whether two selectors overlap, which is no equality"),
    (4, r"equality .* front_agrees:", "equality of a part of two strings"),
    (7, r"match-chooses-function .*: match (self\.form:|kind: TableKind) ->", "an enum's own match over its two variants"),
    (7, r"flag-selects-step .* (refuse_where|syn_missing|syn_unknown):", "the flag is what is tested, and the answer a value: no step is chosen"),
    (6, r"array-with-zeros-behind crates/octets/src/lib\.rt padded:", "the one function that puts zeros behind a string"),
    (6, r"array-with-zeros-behind .* with_checksum:", "a header as long as its room"),
    (7, r"match-chooses-function crates/packets/src/answers\.rt ", "constructors of one type, by a `Result`: a conversion, in `From`"),
    (7, r"flag-selects-step crates/(vectors|rollover)/src/report\.rt (result|same):", "what a comparison gave, and the words for it"),
]


class Item:
    """A function, struct, enum, constant or loop: its lines, its comment and its parts."""

    def __init__(self, kind, file, name, start, end, **more):
        self.kind, self.file, self.name, self.start, self.end = kind, file, name, start, end
        self.__dict__.update(more)


def blank(text):
    """The text with blanks for comments and for the text of strings, of the same length and lines; and each line's comment."""
    out, i, n = list(text), 0, len(text)

    def wipe(a, b):
        for k in range(a, b):
            if out[k] != "\n":
                out[k] = " "

    while i < n:
        if text.startswith("//", i):
            e = text.find("\n", i)
            e = n if e < 0 else e
            wipe(i, e)
            i = e
        elif text.startswith("/*", i):
            e = text.find("*/", i)
            e = n if e < 0 else e + 2
            wipe(i, e)
            i = e
        elif text[i] == '"':
            e = i + 1
            while e < n and text[e] != '"':
                e += 2 if text[e] == "\\" else 1
            wipe(i + 1, min(e, n))
            i = e + 1
        elif text[i] == "'":
            m = re.match(r"'(\\.[^']*|[^'\\\n])'", text[i:])
            if m:
                wipe(i + 1, i + m.end() - 1)
                i += m.end()
            else:
                i += 1
        else:
            i += 1
    return "".join(out)


def close(text, at, pair="{}"):
    """Behind the bracket that closes the one at `at`."""
    depth = 0
    for k in range(at, len(text)):
        if text[k] == pair[0]:
            depth += 1
        elif text[k] == pair[1]:
            depth -= 1
            if depth == 0:
                return k + 1
    return len(text)


def parts(text, sign=","):
    """Cut at a sign that stands in no bracket."""
    out, depth, last = [], 0, 0
    for k, c in enumerate(text):
        if c in "([{<" and not text.startswith("<=", k):
            depth += 1
        elif c in ")]}" or (c == ">" and text[k - 1 : k + 1] != "->" and depth > 0 and text[k - 1] != "="):
            depth -= 1
        elif c == sign and depth <= 0:
            out.append(text[last:k])
            last = k + 1
    out.append(text[last:])
    return [p.strip() for p in out if p.strip()]


FN = re.compile(r"^[ \t]*((?:pub(?:\([^)]*\))?\s+)?(?:extern\s+\"[^\"]*\"\s+)?(?:const\s+)?)fn\s+(\w+)", re.M)
WORDS = re.compile(r"\s*(\w+)(?:\s+(\w+))?\s*\{")


class File:
    def __init__(self, path, crate, text):
        self.path, self.crate, self.text = path, crate, text
        self.code = re.sub(r"(?m)^ghost use .*$", lambda m: " " * len(m.group(0)), blank(text))
        self.lines, self.marks, self.odd = text.split("\n"), [], []
        self.fns, self.structs, self.enums, self.consts, self.impls = [], [], [], [], []
        for k, line in enumerate(self.lines):
            m = KEPT.match(line)
            if m:
                self.marks.append((k + 1, m.group(1), line.strip()))
            elif re.match(r"^\s*//.*\bKept\b", line):
                self.odd.append((k + 1, line.strip()))
        for m in re.finditer(r"^impl\b([^{;]*)\{", self.code, re.M):
            self.impls.append((m.group(1).strip(), m.start(), close(self.code, m.end() - 1)))
        for m in FN.finditer(self.code):
            self.fn(m)
        for m in re.finditer(r"^[ \t]*(?:pub(?:\([^)]*\))?\s+)?(struct|enum)\s+(\w+)(<[^{;(]*>)?\s*(\{|;|\()", self.code, re.M):
            self.type(m)
        for m in re.finditer(r"^[ \t]*(?:pub(?:\([^)]*\))?\s+)?const\s+(\w+)\s*:\s*([^=]+?)\s*=\s*([^;]*);", self.code, re.M):
            line = self.line(m.start(1))
            self.consts.append(
                Item("const", self, m.group(1), line, line + m.group(0).count("\n"), type=m.group(2), value=m.group(3),
                     comment=self.above(line), at=m.start(1), attrs="")
            )

    def line(self, at):
        return self.code.count("\n", 0, at) + 1

    def above(self, line):
        """The comment that ends right above a line; attributes may stand between."""
        k, out = line - 2, []
        while k >= 0 and self.lines[k].strip().startswith("#["):
            k -= 1
        while k >= 0 and self.lines[k].strip().startswith("//"):
            out.append(self.lines[k].strip()[2:].strip())
            k -= 1
        return " ".join(reversed(out))

    def first(self, line):
        """The first line of the comment and attributes above a line; of a loop, above what is declared right before it."""
        k = line - 2
        if re.match(r"\s*(while|for|loop)\b", self.lines[line - 1]):
            while k >= 0 and re.match(r"\s*let\b.*;\s*$", self.lines[k]):
                k -= 1
        while k >= 0 and self.lines[k].strip().startswith(("#[", "//")):
            k -= 1
        return k + 2

    def fn(self, m):
        code, at = self.code, m.end()
        generics = ""
        if code[at : at + 1] == "<":
            e, depth = at, 0
            while e < len(code):
                depth += (code[e] == "<") - (code[e] == ">" and code[e - 1] != "-")
                e += 1
                if depth == 0:
                    break
            generics, at = code[at:e], e
        at = re.compile(r"\s*\(").match(code, at)
        if not at:
            return
        open_at = at.end() - 1
        shut = close(code, open_at, "()")
        params = parts(code[open_at + 1 : shut - 1])
        at, ret = shut, ""
        r = re.compile(r"\s*->\s*").match(code, at)
        if r:
            e = r.end()
            depth = 0
            while e < len(code):
                if code[e] in "[(<":
                    depth += 1
                elif code[e] in "])>":
                    depth -= 1
                elif depth == 0 and (code[e] in "{;" or re.compile(r"\b(requires|ensures|modifies|where)\b").match(code, e)):
                    break
                e += 1
            ret, at = code[r.end() : e].strip(), e
        contract = []
        while True:
            w = WORDS.match(code, at)
            if not w or w.group(1) not in ("requires", "ensures", "modifies", "decreases", "invariant"):
                break
            e = close(code, w.end() - 1)
            contract.append((w.group(1), code[w.end() : e - 1]))
            at = e
        b = re.compile(r"\s*[{;]").match(code, at)
        if not b:
            return
        end = close(code, b.end() - 1) if code[b.end() - 1] == "{" else b.end() + 1
        line = self.line(m.start(2))
        owner = next((i[0] for i in self.impls if i[1] <= m.start() < i[2]), "")
        pairs = []
        for p in params:
            if ":" in p:
                n, t = p.split(":", 1)
                pairs.append((re.sub(r"^mut\s+", "", n.strip()), re.sub(r"\s+", " ", t.strip())))
            else:
                pairs.append((p, "Self"))
        self.fns.append(
            Item("fn", self, m.group(2), line, self.line(end - 1), head=m.group(1), params=pairs, ret=ret, contract=contract,
                 body=code[b.end() : end - 1], at=b.end(), owner=owner, generics=generics, comment=self.above(line))
        )

    def type(self, m):
        end = close(self.code, m.end() - 1) if m.group(4) == "{" else m.end()
        line = self.line(m.start(2))
        body = self.code[m.end() : end - 1] if m.group(4) == "{" else ""
        item = Item(m.group(1), self, m.group(2), line, self.line(end - 1), comment=self.above(line), at=m.end(), body=body)
        if m.group(1) == "enum":
            item.variants = []
            for p in parts(body):
                v = re.match(r"(\w+)\s*(.*)", p, re.S)
                item.variants.append((v.group(1), v.group(2).strip()))
            self.enums.append(item)
        else:
            item.fields = []
            for p in parts(body):
                v = re.match(r"(?:pub(?:\([^)]*\))?\s+)?(\w+)\s*:\s*(.*)", p, re.S)
                if v:
                    item.fields.append((v.group(1), v.group(2).strip()))
            self.structs.append(item)


class Place:
    def __init__(self, point, pattern, item, text, start=None, end=None, name=None, others=()):
        self.point, self.pattern, self.item, self.text = point, pattern, item, re.sub(r"\s+", " ", text).strip()
        self.file, self.crate = item.file, item.file.crate
        self.start, self.end = start or item.start, end or item.end
        owner = re.sub(r"^.* for ", "", getattr(item, "owner", "") or "")
        owner = re.sub(r"<.*?>", "", owner).strip()
        self.name = name or (owner + "::" if owner else "") + item.name
        self.others, self.word = list(others), None
        self.reason, self.kept = None, None

    def where(self):
        return "%s:%d" % (self.file.path, self.start)

    def spans(self):
        """The lines in which a mark keeps this place: the comment above it or above its function, and its own lines. A twin, a fact and
        a group are kept above one of their functions; a value that stands for none above its function. Where many functions share a
        place (point 5, and a number for a kind), the mark has to speak of it by one of the words of `word`."""
        above = self.point in (2, 5) and self.start == self.item.start or self.pattern in ("sentinel", "refusal-number", "empty-success")
        out = [(self.file, self.file.first(self.start), self.start if above else self.end)]
        for it in [self.item] + self.others:
            if it.kind == "fn" or it is not self.item:
                out.append((it.file, it.file.first(it.start), it.start))
        return out


def tokens(text):
    return re.findall(r"[A-Za-z_]\w*|\d\w*|[^\sA-Za-z0-9_]", text)


KEYWORDS = set(
    "if else while for in let mut return match as fn pub self Self true false break continue loop impl struct enum usize u8 u16 u32 "
    "u64 i32 i64 bool str len".split()
)


def shape(text, names=True):
    """Tokens with names numbered by their first place, numbers as N and integer types as T."""
    out, seen = [], {}
    for t in tokens(text):
        if re.match(r"\d", t) or re.fullmatch(r"[A-Z][A-Z0-9_]+", t):
            out.append("N")
        elif re.fullmatch(INTEGER, t):
            out.append("T")
        elif t in KEYWORDS or not re.match(r"[A-Za-z_]", t):
            out.append(t)
        elif names:
            out.append("n%d" % seen.setdefault(t, len(seen)))
        else:
            out.append(re.sub(r"\d+", "N", t))
    return out


def loops(fn):
    """The loops of a function: kind, what stands before the block, the block, first and last line."""
    for m in re.finditer(r"\b(while|for|loop)\b([^{;]*)\{", fn.body):
        if m.group(1) == "for" and " in " not in m.group(2):
            continue
        end = close(fn.body, m.end() - 1)
        a = fn.file.line(fn.at + m.start())
        yield m.group(1), m.group(2).strip(), fn.body[m.end() : end - 1], a, fn.file.line(fn.at + end - 1), fn.body[end:]


def point1(files):
    out, failing = [], set()
    for f in files:
        for e in f.enums:
            names = [v[0] for v in e.variants]
            carried = [v for v in e.variants if v[1]]
            if len(e.variants) == 2 and carried:
                out.append(Place(1, "own-option-or-result", e, "enum %s { %s }" % (e.name, ", ".join(a + b for a, b in e.variants))))
                failing.add(e.name)
            elif any(re.fullmatch(FAILURE, n) for n in names):
                out.append(Place(1, "own-failure-variant", e, "enum %s { %s }" % (e.name, ", ".join(a + b for a, b in e.variants))))
                failing.add(e.name)
    said = re.compile(
        r"mean(?:s)? nothing where|else these mean nothing|[Ww]here nothing is there|all 0 where|all zero where|whether there is more"
    )
    for f in files:
        for s in f.structs:
            bools = [n for n, t in s.fields if t == "bool" and re.fullmatch(r"there|more|ok|found|valid|some|present|is_\w+|has_\w+", n)]
            own = [n for n, t in s.fields if t in failing]
            if bools and len(s.fields) > 1:
                beside = [n for n, _ in s.fields if n not in bools]
                out.append(Place(1, "flag-with-value", s, "struct %s: %s: bool with %s" % (s.name, bools[0], beside)))
            elif said.search(s.comment):
                out.append(Place(1, "value-with-meaning-elsewhere", s, "struct %s: %s" % (s.name, said.search(s.comment).group(0))))
            elif own and len(s.fields) > 1:
                beside = [n for n, _ in s.fields if n not in own]
                out.append(Place(1, "answer-with-values-beside", s, "struct %s: %s with %s" % (s.name, own, beside)))
    none = re.compile(
        r"[^.;:]*(?:\b0 (?:if|where)\b|\b0 stands for|\b0 for (?:any|none)|\bor 0 for none|\bthe length where\b|"
        r"`\w+` if there is none|gives 0\b|"
        r"gives \w+'s length|counts as 0|reads as 0|has 0 for each|where there is none|zeros, where)[^.;]*"
    )
    bad = re.compile(r"\breturn (\d\d)\s*;")
    for f in files:
        for fn in f.fns:
            number = re.fullmatch(INTEGER, fn.ret or "")
            m = none.search(fn.comment)
            named = fn.name.endswith("_number") or fn.name.startswith("number_")
            given = bad.search(fn.body) and re.search(r"(?m)^\s*0\s*$", fn.body)
            or_0 = (
                re.fullmatch(r"\s*if [^{]*\.len\(\) \{[^{}]*\} else \{\s*0\s*\}\s*", fn.body)
                or re.search(r"_\s*=>\s*0\s*,|\b\w+::" + FAILURE + r"(?:\([^)]*\))?\s*=>\s*0\b", fn.body)
                or re.search(r"\breturn 0\s*;", fn.body) and "len()" in fn.body
            )
            if re.fullmatch(r"u8|u16", fn.ret or "") and (named or given):
                out.append(Place(1, "refusal-number", fn, "-> %s, 0 for none" % fn.ret))
            elif m and (number or "0 stands for" in m.group(0) or fn.ret.startswith(("[", "Ids", "&"))) and "Option" not in fn.ret:
                out.append(Place(1, "sentinel", fn, m.group(0)))
            elif fn.ret == "usize" and re.search(r"\bFirst \(", str(fn.contract)):
                out.append(Place(1, "sentinel", fn, "the end where there is none"))
            elif number and or_0:
                out.append(Place(1, "sentinel", fn, "0 where there is none"))
            for q in re.finditer(r"let\s+(\w+::)*(\w+)(\([^)]*\))?\s*=\s*([^;{]*?)\s*else\s*\{\s*return\b([^;]*);", fn.body):
                if q.group(2) in ("Some", "Ok") and q.group(5).strip() not in ("None", q.group(4).strip()):
                    continue
                a = f.line(fn.at + q.start())
                out.append(Place(1, "question-mark-by-hand", fn, q.group(0), a, a + q.group(0).count("\n")))
            if re.search(r"\b\w+::\w+\(0, 0\)", fn.body) and fn.ret in failing:
                out.append(Place(1, "empty-success", fn, re.search(r"\b\w+::\w+\(0, 0\)", fn.body).group(0)))
            for q in re.finditer(r"if (\w+) != 0 \{\s*return (?:\w+::\w+\()?\1\b[^;]*;", fn.body):
                a = f.line(fn.at + q.start())
                out.append(Place(1, "question-mark-by-hand", fn, q.group(0), a, a + q.group(0).count("\n")))
            for q in re.finditer(r"\bErr\((\w+)\)\s*=>\s*(?:return\s+)?Err\(\1\)", fn.body):
                a = f.line(fn.at + q.start())
                out.append(Place(1, "question-mark-by-hand", fn, q.group(0), a, a))
            for q in re.finditer(r"\bmatch\b[^{]*\{", fn.body):
                e = close(fn.body, q.end() - 1)
                arms = fn.body[q.end() : e]
                r = re.search(r"\b\w+::(%s)(\([^)]*\))?\s*=>\s*(?:return\s+)?(?:\w+::(%s)|refused|bad)\b" % (FAILURE, FAILURE), arms)
                if r and "match" not in arms[: r.start()]:
                    a = f.line(fn.at + q.start())
                    out.append(Place(1, "refusal-handed-on", fn, r.group(0), a, f.line(fn.at + e)))
    kind = re.compile(r"^(form|way|stage|family|algorithm|kind|event|setting|table|code)$")
    for f in files:
        for s in f.structs:
            for n, t in s.fields:
                if kind.match(n) and re.fullmatch(r"u8|u16|u32|u64", t):
                    out.append(Place(1, "number-for-kind", s, "%s: %s" % (n, t), name="%s.%s" % (s.name, n)))
        taken = collections.OrderedDict()
        for fn in f.fns:
            for n, t in fn.params:
                if kind.match(n) and re.fullmatch(r"u8|u16|u32|u64", t):
                    taken.setdefault(n, []).append(fn)
        for n, fns in taken.items():
            said_of = "in %d: %s" % (len(fns), ", ".join(fn.name for fn in fns))
            p = Place(1, "number-for-kind", fns[0], said_of, name="parameter " + n, others=fns[1:])
            p.end, p.word = p.start, n + "|number"
            out.append(p)
        for c in f.consts:
            if re.match(r"NO_|NONE|EMPTY|NOTHING", c.name) and not c.type.startswith("Option"):
                out.append(Place(1, "sentinel", c, "const %s: %s" % (c.name, c.type)))
            if c.type == "u8" and re.fullmatch(r"\d+|0x[0-9a-f]+", c.value.strip()):
                out.append(Place(1, "number-for-kind", c, "const %s: u8 = %s" % (c.name, c.value)))
    return out


def listed(items, sign=", "):
    """Functions by crate or file and name."""
    if sign == ", ":
        return sign.join("%s %s" % (it.file.crate, it.name) for it in items)
    return sign.join("%s %s" % (it.file.path.split("/", 1)[1], it.name) for it in items)


def point2(files):
    out, fns = [], [(fn, shape(fn.body)) for f in files for fn in f.fns]
    groups = collections.OrderedDict()
    for fn, s in fns:
        if len(s) >= 8 and "extern" not in fn.head:
            key = (" ".join(s), len(fn.params))
            groups.setdefault(key, []).append(fn)
    used = set()
    one = r"(\w+(?:\.len\(\))?)"
    cast = r"(?: as \w+)?"
    least = re.compile(r"if %s < %s \{\s*%s%s\s*\} else \{\s*%s%s\s*\}" % (one, one, one, cast, one, cast))
    for fn, s in fns:
        for m in least.finditer(fn.body):
            if {m.group(1), m.group(2)} == {m.group(3), m.group(4)}:
                a = fn.file.line(fn.at + m.start())
                out.append(Place(2, "min-or-max-by-hand", fn, m.group(0), a, a + m.group(0).count("\n")))
                if len(s) < 16:
                    used.add(id(fn))
    for fns_of in groups.values():
        fns_of = [fn for fn in fns_of if id(fn) not in used]
        if len(fns_of) > 1:
            for fn in fns_of:
                used.add(id(fn))
            text = "same body but for names, numbers and types: " + listed(fns_of, " ~ ")
            out.append(Place(2, "twins", fns_of[0], text, others=fns_of[1:]))
    rest = [(fn, shape(fn.body)) for fn, s in fns if len(s) >= 40 and "extern" not in fn.head]
    parent = list(range(len(rest)))

    def root(k):
        while parent[k] != k:
            k = parent[k]
        return k

    for a in range(len(rest)):
        for b in range(a):
            x, y = rest[a][1], rest[b][1]
            if not 0.7 <= len(x) / len(y) <= 1.43:
                continue
            m = difflib.SequenceMatcher(None, x, y, False)
            if m.real_quick_ratio() >= 0.78 and m.quick_ratio() >= 0.78 and m.ratio() >= 0.78:
                parent[root(a)] = root(b)
    near = collections.OrderedDict()
    for k, (fn, _) in enumerate(rest):
        near.setdefault(root(k), []).append(fn)
    for fns_of in near.values():
        if len(fns_of) > 1 and not all(id(fn) in used for fn in fns_of):
            out.append(Place(2, "near-twins", fns_of[0], "nearly the same body: " + listed(fns_of, " ~ "), others=fns_of[1:]))
    types = collections.OrderedDict()
    for f in files:
        for s in f.structs:
            if len(s.fields) > 1:
                types.setdefault(tuple(shape(t, False) for _, t in s.fields).__repr__(), []).append(s)
    for same in types.values():
        if len(same) > 1:
            text = "same fields but for names and sizes: " + " ~ ".join(s.name for s in same)
            out.append(Place(2, "twin-types", same[0], text, others=same[1:]))
    rows = collections.OrderedDict()
    for f in files:
        for s in f.structs:
            if len(s.fields) > 1:
                rows.setdefault(tuple(n for n, _ in s.fields[1:]), []).append(s)
    for same in rows.values():
        if len(same) > 1 and len(set(tuple(t for _, t in s.fields) for s in same)) > 1:
            text = "same fields behind the first: " + " ~ ".join(s.name for s in same)
            out.append(Place(2, "twin-types", same[0], text, others=same[1:]))
    tables = collections.OrderedDict()
    for f in files:
        for head, a, b in f.impls:
            names = tuple(re.findall(r"const (\w+):", f.code[a:b]))
            if names and " for " not in head:
                it = next((s for s in f.structs if s.name == head), Item("impl", f, head, f.line(a), f.line(b)))
                tables.setdefault(f.path, []).append(it)
    for same in tables.values():
        if len(same) > 1:
            text = "types that differ in constants: " + " ~ ".join(s.name for s in same)
            out.append(Place(2, "types-of-constants", same[0], text, others=same[1:]))
    return out


def point3(files):
    out = []
    for f in files:
        for fn in f.fns:
            for kind, head, body, a, b, _ in loops(fn):
                if kind == "while":
                    set_in = set(re.findall(r"(?<![\w.\[])(?<!let )(?<!let mut )(\w+)\s*[-+]?=(?!=)", body))
                    if set_in & set(re.findall(r"[a-z_]\w*", head)):
                        out.append(Place(3, "while-with-counter", fn, "while " + head, a, b))
                    continue
                if kind == "loop":
                    if set(re.findall(r"\b(\w+)\s*\+=", body)) & set(re.findall(r"[\[.(]\s*(\w+)\s*[\].,)]", body)):
                        out.append(Place(3, "loop-with-counter", fn, "loop", a, b))
                    continue
                m = re.match(r"(\w+) in (.*\.\..*)", head, re.S)
                if not m:
                    continue
                names = {m.group(1)}
                for x, e in re.findall(r"let (?:mut )?(\w+)\s*=\s*([^;]*);", body):
                    if any(re.search(r"\b%s\b" % n, e) for n in names) and "[" not in e:
                        names.add(x)
                if any(re.search(r"\[[^\]]*\b%s\b[^\]]*\]" % n, body) for n in names):
                    out.append(Place(3, "for-with-index", fn, "for " + head, a, b))
    return out


def point4(files):
    out = []
    enums = {e.name for f in files for e in f.enums}
    for f in files:
        for head, a, b in f.impls:
            m = re.search(r"\b(Clone|Copy|PartialEq|Eq|PartialOrd|Ord|Default|Hash)\b(?:<[^>]*>)? for (\w+)", head)
            if m:
                it = Item("impl", f, m.group(2), f.line(a), f.line(b))
                out.append(Place(4, "derivable-impl", it, "impl " + head))
        for fn in f.fns:
            others = [n for n, t in fn.params if n not in ("self", "&self", "&mut self")]
            types = [t for n, t in fn.params]
            if fn.ret == "bool" and len(types) - len(set(types)) >= 1:
                m = (
                    re.search(r"(\w+)\[(\w+)\] (?:[!=]=|\^) (\w+)\[\2\]", fn.body)
                    or re.search(r"\b(\w+)\.(\w+) [!=]= (\w+)\.\2\b", fn.body)
                    or (re.fullmatch(INTEGER, types[0]) and re.fullmatch(r"\s*(\w+) == (\w+)\s*", fn.body))
                )
                if m:
                    out.append(Place(4, "equality", fn, m.group(0)))
            if not fn.params and fn.ret and re.search(r"\{", fn.body):
                left = re.sub(r"\b[A-Z]\w*(?:::[A-Z]\w*)?\b|\b\w+\s*:", " ", fn.body)
                left = re.sub(r"\[\s*0(?:u\d+|usize)?\s*;[^\]]*\]|\b0(?:u\d+)?\b|\bfalse\b|\blet\b|\w+\(\)", " ", left)
                names = set(re.findall(r"let (\w+)", fn.body))
                left = [w for w in re.findall(r"\w+", left) if w not in names and not re.search(r"\b%s\s*:" % w, fn.body)]
                if not left:
                    out.append(Place(4, "default-by-hand", fn, "-> " + fn.ret))
            m = re.fullmatch(r"\s*match (\w+) \{.*\}\s*", fn.body, re.S)
            if m and m.group(1) in others:
                source = dict(fn.params)[m.group(1)].lstrip("&")
                named = re.match(r"of_|\w+_of$|to_|from_|as_|coded", fn.name)
                if source in enums and (named and len(others) <= 2 or len(others) == 1 and re.match(r"[A-Z]", fn.ret)) and fn.ret != "bool":
                    out.append(Place(4, "conversion", fn, "match %s: %s -> %s" % (m.group(1), source, fn.ret)))
            m = re.search(
                r"% 256\)? as u8|as u(?:16|32|64) \* (?:256|65536|16777216|4294967296)\b|\b\w+\[3\], \w+\[2\], \w+\[1\], \w+\[0\]|"
                r"\[\w+ \+ 3\], \w+\[\w+ \+ 2\]", fn.body)
            if m:
                out.append(Place(4, "bytes-of-a-number", fn, m.group(0)))
            then = r"(?:\)|\s|[^,;\w])*,\s*[^;]*?\1"
            m = re.search(r"(\w+)\[0\]" + then + r"\[1\]" + then + r"\[2\]" + then + r"\[3\]", fn.body)
            if m:
                out.append(Place(4, "copied-element-by-element", fn, m.group(1) + "[0], [1], [2], [3] .."))
            if fn.owner or re.match(r"[A-Z]", fn.ret or ""):
                for q in re.finditer(r"\b([A-Z]\w*) \{([^{}]*)\}", fn.body):
                    copied = re.findall(r"(?:^|,)\s*(\w+)\s*(?:,|$)", q.group(2).replace(",", ",,"))
                    copied = [c for c in copied if re.search(r"let %s = \w+\.%s;" % (c, c), fn.body)]
                    copied += [x for x, y in re.findall(r"(\w+): \w+\.(\w+)\b(?=\s*,|\s*$)", q.group(2)) if x == y]
                    own = q.group(1) in fn.owner or q.group(1) in fn.ret or q.group(1) in types or "Self" in fn.ret
                    if len(copied) >= 2 and own:
                        a = f.line(fn.at + q.start())
                        out.append(Place(4, "fields-copied", fn, "%s { %s }" % (q.group(1), ", ".join(copied)), a, f.line(fn.at + q.end())))
            raw = f.text[fn.at : fn.at + len(fn.body)]
            words = (
                len(re.findall(r"(?:=>|\{)\s*(?:\w+::)*\w+\((?:rt, )?b\"[^\"]*\"", raw)) >= 2
                or len(re.findall(r"=>\s*(?:\w+::)*\w+\(rt, b\"", raw)) >= 2
                or re.search(r"if [^{]*\{\s*text\(rt, b\"[^\"]*\"\);\s*\} else \{\s*text\(rt, b\"[^\"]*\"\);", raw)
            )
            m = (
                re.search(r"% 10\b|48 \+|- 48\b|- 87\b", fn.body)
                or re.search(r"if \w+ < 1?0+ \{\s*text\(", fn.body)
                or re.search(r"part\(&[A-Z_]+,", fn.body)
            )
            if m:
                out.append(Place(4, "printing", fn, m.group(0)))
            elif words:
                out.append(Place(4, "printing", fn, "words for a value chosen by hand"))
    return out


def point5(files):
    out = []
    facts = collections.OrderedDict()
    for f in files:
        for fn in f.fns:
            types = {n.lstrip("&").split()[-1]: t for n, t in fn.params}
            seen = set()
            for word, text in fn.contract:
                if word != "requires":
                    continue
                for fact in parts(re.sub(r"\s+", " ", text), "×"):
                    while fact.startswith("(") and close(fact, 0, "()") == len(fact):
                        fact = fact[1:-1].strip()
                    fact = re.sub(r"\b[A-Z]\w*\.(?=[A-Z])", "", fact).replace("«", "").replace("»", "")
                    plain = fact
                    for n, t in types.items():
                        t = "self" if t == "Self" else t
                        plain = re.sub(r"(?<![\w.])%s(?!\w)" % re.escape(n), "<%s>" % t.replace("&mut ", "&").replace("'_ ", ""), plain)
                    if plain not in seen:
                        seen.add(plain)
                        # A fact about numbers alone is the same one only inside a crate.
                        spoken = re.search(r"<[^<>]*[^\w<>][^<>]*>|[a-z]{4}", re.sub(r"<%s>" % INTEGER, "", plain))
                        facts.setdefault((plain, "" if spoken else f.crate), []).append(fn)
    for (fact, _), fns in facts.items():
        if len(fns) >= 3:
            text = "%s, in %d: %s" % (fact, len(fns), listed(fns))
            out.append(Place(5, "fact-in-contracts", fns[0], text, name="fact " + fact, others=fns[1:]))
            out[-1].word = "fact|requires|contract|invariant|bound|length|asks"
    fns = [fn for f in files for fn in f.fns if "extern" not in fn.head]
    taken = {id(fn): [False] * len(fn.params) for fn in fns}
    while True:
        runs = collections.OrderedDict()
        for fn in fns:
            free = taken[id(fn)]
            for i in range(len(fn.params)):
                for j in range(i + 3, len(fn.params) + 1):
                    if any(free[i:j]) or any(n.endswith("self") or n == "rt" for n, _ in fn.params[i:j]):
                        break
                    runs.setdefault(tuple(fn.params[i:j]), []).append((fn, i, j))
        runs = [(len(v) * (len(k) - 1), len(k), k, v) for k, v in runs.items() if len({id(x[0]) for x in v}) >= 3]
        if not runs:
            break
        _, _, k, v = max(runs, key=lambda r: (r[0], r[1], r[2]))
        for fn, i, j in v:
            for x in range(i, j):
                taken[id(fn)][x] = True
        fns_of = [x[0] for x in v]
        text = "(%s), in %d: %s" % (", ".join("%s: %s" % p for p in k), len(v), listed(fns_of))
        out.append(Place(5, "parameters-together", fns_of[0], text, name="(%s)" % ", ".join(n for n, _ in k), others=fns_of[1:]))
        out[-1].word = "parameter|together|struct|group|one by one"
    return out


def point6(files):
    out = []
    length = re.compile(r"^(len|length|held|from|count|used|added|n|end|size)$|_(len|length|bytes|count|end)$")
    for f in files:
        for s in f.structs:
            arrays = [n for n, t in s.fields if t.startswith("[")]
            lengths = [n for n, t in s.fields if re.fullmatch(INTEGER, t) and length.search(n)]
            if arrays and lengths:
                out.append(Place(6, "array-with-length", s, "%s with %s" % (", ".join(arrays), ", ".join(lengths))))
        by_size = collections.OrderedDict()
        for c in f.consts:
            if c.type.startswith("["):
                by_size.setdefault((c.type, c.name.split("_")[0]), []).append(c)
        for same in by_size.values():
            if len(same) > 1:
                out.append(Place(6, "parallel-arrays", same[0], " ~ ".join(c.name for c in same), others=same[1:]))
        for fn in f.fns:
            lent = [n for n, t in fn.params if t in ("&mut [u8]",)]
            counts = re.fullmatch(r"usize|u64|u32", fn.ret or "") and "IsPrefixLen" in str(fn.contract)
            if lent and (counts or re.search(r"gives how many|how many bytes (?:it|were)", fn.comment)):
                out.append(Place(6, "buffer-and-count", fn, "%s -> %s" % (lent[0], fn.ret)))
            behind = re.search(r"[Zz]eros (?:stand )?behind|in an array that has room|room that there is for all", fn.comment)
            if behind and fn.ret.startswith("["):
                out.append(Place(6, "array-with-zeros-behind", fn, "-> " + fn.ret))
            for kind, head, body, a, b, behind in loops(fn):
                index = collections.defaultdict(set)
                for x, i in re.findall(r"\b(\w+)\[(\w+)\]", body):
                    if not i.isdigit():
                        index[i].add(x)
                for i, xs in index.items():
                    if len(xs) > 1:
                        out.append(Place(6, "parallel-arrays", fn, "%s by %s" % (", ".join(sorted(xs)), i), a, b))
                        break
                step = re.search(r"\b(\w+)\s*(?:\+=\s*|=\s*\1\s*\+\s*)([a-z_]\w*(?:\([^;]*\))?(?:\.\w+)?)\s*;", body)
                step = step or re.search(r"\b(at|i)\s*=\s*(e\b(?:\s*\+\s*1)?|past\([^;]*\))\s*;", body)
                if kind == "while" and step and re.search(r"\b%s\b" % step.group(1), head + body):
                    out.append(Place(6, "walked-by-hand", fn, "while %s .. %s" % (head, step.group(0)), a, b))
                hits = re.finditer(r"\bif ([^{]*)\{\s*return\s+(?:true|\w+\s*;|[A-Z]\w*\s*\{|Some\()", body)
                hits = [h for h in hits if "return false" not in h.group(0)]
                r = next((h for h in hits if not re.match(r"!|\w+ [!=]= (?:0|limit)\b", h.group(1))), None)
                if r:
                    out.append(Place(6, "search", fn, re.sub(r"\s+", " ", r.group(0)), a, b))
    return out


def point7(files):
    out = []
    call = r"(?:\w+(?:::|\.))*([a-z_]\w*)\("
    for f in files:
        for fn in f.fns:
            bools = [n for n, t in fn.params if t == "bool" and re.search(r"\bif !?%s\b" % n, fn.body)]
            for m in re.finditer(r"\bmatch (\w+(?:\.\w+)*)(?:\(.*?\))? \{", fn.body):
                arms = fn.body[m.end() : close(fn.body, m.end() - 1) - 1]
                called = [c for c in re.findall(r"=>\s*(?:\{\s*)?" + call, arms)]
                type_of = dict((n.lstrip("&"), t) for n, t in fn.params).get(m.group(1), "")
                if len(set(called)) >= 2 and not re.search(r"\b\w+::%s\b" % FAILURE, arms):
                    a = f.line(fn.at + m.start())
                    text = "match %s: %s -> %s" % (m.group(1), type_of, ", ".join(dict.fromkeys(called)))
                    out.append(Place(7, "match-chooses-function", fn, text, a, a + arms.count("\n")))
            chain = re.findall(r"if (\w+(?:\.\w+)*) (?:==|<|<=|>) [\w:\.]+ \{\s*return " + call, fn.body)
            if len({c for _, c in chain}) >= 2:
                out.append(Place(7, "if-chain-chooses-function", fn, ", ".join(dict.fromkeys(c for _, c in chain))))
            elif len(chain) == 1 and re.search(r"\b(form|way|stage|kind|event|algorithm)\b", chain[0][0]):
                out.append(Place(7, "if-chain-chooses-function", fn, "by %s: %s" % chain[0]))
            if bools:
                out.append(Place(7, "flag-selects-step", fn, ", ".join(bools)))
            table = re.search(r"\[\s*(?:fn\b|\w+ as fn)", fn.body)
            if table:
                out.append(Place(7, "table-of-functions", fn, table.group(0)))
    return out


def point8(tree):
    rows = []
    for crate in crates(tree):
        base = os.path.join(tree, "crates", crate, "proofs")
        count = collections.Counter()
        for path in glob.glob(base + "/**/*.antt", recursive=True):
            name = os.path.basename(path)
            kind = name[:-5] if name in ("Proof.antt", "Answers.antt", "Invariants.antt") else "lemmas"
            count[kind] += 1
            with open(path, encoding="utf-8") as it:
                lines = it.read().count("\n")
            count[kind + " lines"] += lines
            count["lines"] += lines
        rows.append((crate, count))
    return rows


def crates(tree):
    there = sorted(os.path.basename(os.path.dirname(p)) for p in glob.glob(os.path.join(tree, "crates", "*", "src")))
    return [c for c in ORDER if c in there] + [c for c in there if c not in ORDER]


def load(tree):
    files = []
    for crate in crates(tree):
        for path in sorted(glob.glob(os.path.join(tree, "crates", crate, "src", "**", "*.rt"), recursive=True)):
            with open(path, encoding="utf-8") as it:
                files.append(File(os.path.relpath(path, tree), crate, it.read()))
    return files


def judged(files):
    """The places of points 1 to 7, with what keeps each or says that it is none."""
    places = []
    for number, point in enumerate((point1, point2, point3, point4, point5, point6, point7), 1):
        found = point(files)
        found.sort(key=lambda p: (ORDER.index(p.crate) if p.crate in ORDER else 99, p.file.path, p.start, p.pattern))
        places += found
    for p in places:
        said = "%s %s %s: %s" % (p.pattern, p.file.path, p.name, p.text)
        p.reason = next((why for point, sign, why in NOT_A_PLACE if point == p.point and re.search(sign, said)), None)
        for file, a, b in p.spans():
            for line, why, text in file.marks:
                if a <= line <= b and not p.kept and (not p.word or re.search(r"\b(?:%s)" % p.word, text)):
                    p.kept = (why, "%s:%d %s" % (file.path, line, text))
    return places


def table(places, tree):
    names = crates(tree)
    print("%-12s" % "crate" + "".join("%14s" % ("point %d" % n) for n in range(1, 8)) + "   (found/kept/open)")
    total = collections.Counter()
    for crate in names:
        row = []
        for n in range(1, 8):
            mine = [p for p in places if p.point == n and p.crate == crate and not p.reason]
            kept = sum(1 for p in mine if p.kept)
            row.append("%d/%d/%d" % (len(mine), kept, len(mine) - kept))
            total.update({(n, "found"): len(mine), (n, "kept"): kept})
        print("%-12s" % crate + "".join("%14s" % r for r in row))
    row = ["%d/%d/%d" % (total[n, "found"], total[n, "kept"], total[n, "found"] - total[n, "kept"]) for n in range(1, 8)]
    print("%-12s" % "all" + "".join("%14s" % r for r in row))
    print("not a place: " + ", ".join("point %d: %d" % (n, sum(1 for p in places if p.point == n and p.reason)) for n in range(1, 8)))


def proofs(tree):
    rows = point8(tree)
    print("%-12s %22s %22s %22s %22s %9s" % ("crate", "Proof.antt", "Answers.antt", "Invariants.antt", "lemma files", "lines"))
    total = collections.Counter()
    for crate, count in rows:
        total.update(count)
    for crate, count in rows + [("all", total)]:
        cells = ["%d files %d lines" % (count[k], count[k + " lines"]) for k in ("Proof", "Answers", "Invariants", "lemmas")]
        print("%-12s %22s %22s %22s %22s %9d" % (crate, *cells, count["lines"]))


def main(args):
    tree = "."
    if "--tree" in args:
        k = args.index("--tree")
        tree = args[k + 1]
        del args[k : k + 2]
    point = args[0] if args else ""
    if point == "8":
        return proofs(tree)
    files = load(tree)
    places = judged(files)
    if point == "kept":
        for f in files:
            for line, why, text in f.marks:
                mine = [p for p in places if p.kept and p.kept[1].startswith("%s:%d " % (f.path, line))]
                covers = "; ".join("%d %s %s" % (p.point, p.pattern, p.name) for p in mine) or "NOTHING"
                print("%s:%d  %s\n    covers: %s" % (f.path, line, text, covers))
            for line, text in f.odd:
                print("%s:%d  %s\n    IN ANOTHER FORM" % (f.path, line, text))
        return None
    if point == "names":
        for n in range(1, 8):
            mine = [p for p in places if p.point == n and not p.reason]
            print("### %d. %s: %d\n" % (n, POINTS[n], len(mine)))
            for pattern in dict.fromkeys(p.pattern for p in mine):
                rows = []
                for crate in crates(tree):
                    these = [p for p in mine if p.pattern == pattern and p.crate == crate]
                    whole = n == 2 and not pattern.startswith("min")
                    names = collections.Counter(p.text.split(": ", 1)[1] if whole else p.name for p in these)
                    short = [(re.sub(r"(\w+)/src/(\S+)\.rt ", r"\1/\2 ", x), c) for x, c in names.items()]
                    names = ["`%s`" % x + (" (%d)" % c if c > 1 else "") for x, c in short]
                    if names:
                        rows.append("%s: %s" % (crate, ", ".join(names)))
                print("- %s (%d). %s." % (pattern, sum(1 for p in mine if p.pattern == pattern), "; ".join(rows)))
            print()
        return None
    if point == "" or point == "all":
        table(places, tree)
        print()
        proofs(tree)
    for p in places:
        if point == "all" or point == str(p.point):
            state = "not a place (%s)" % p.reason if p.reason else "kept (%s)" % p.kept[0] if p.kept else "open"
            print("%d  %-12s %s  %s  [%s]  %s  %s" % (p.point, p.crate, p.where(), p.name, p.pattern, state, p.text[:300]))
    return None


if __name__ == "__main__":
    signal.signal(signal.SIGPIPE, signal.SIG_DFL)
    main(sys.argv[1:])
