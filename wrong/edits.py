"""The edits that make wrong bodies, and the positions of the bodies in a text."""
import functools
import os
import re
import sys
from pathlib import Path

CRATES = Path(__file__).resolve().parent.parent / "crates"

class Edit:
    """An edit of the files of a crate, which are in a folder with the crate's name."""

    def __init__(self, file, crate):
        self.file, self.name, self.crate, self.is_apart = file, file.stem, crate, False
        self.pairs, self.refused, self.proved = [], [], []
        path = after = old = None
        for line in file.read_text().split("\n"):
            if line.startswith("file: "):
                path = f"{crate}/{line[6:].strip()}"
            elif line.startswith("after: "):
                after = line[7:]
            elif line.startswith("old: "):
                old = line[5:]
            elif line.startswith("new:") and path and old:
                self.pairs.append((path, after, old, line[4:].removeprefix(" ")))
                after = old = None
            elif line.startswith(("# refused: ", "# proved: ")):
                kind, _, names = line[2:].partition(": ")
                getattr(self, kind).extend(it.strip() for it in names.split(","))
            elif line == "# apart":
                self.is_apart = True
            elif line:
                sys.exit(f"{file}: a line that is not read: {line}")
        if not self.pairs or bool(self.refused) == bool(self.proved):
            sys.exit(f"{file}: an edit has pairs of lines, and either '# refused: FUNCTION' or '# proved: FUNCTION'")
        self.stated, self.files = {*self.refused, *self.proved}, {it[0] for it in self.pairs}
        # (the functions of a cycle of calls are proved together, so all of them fail if one does)
        self.functions = self.stated.union(*(it for it in cycles_of(crate).values() if it & self.stated))

    def put(self, texts, folder):
        """The texts with this edit applied, or None if it can't be applied together with the earlier ones."""
        made = dict(texts)
        for path, after, old, new in self.pairs:
            before, found, text = ("", "", made.get(path) or (folder / path).read_text())
            if after:
                if text.count(after) != 1:
                    return None
                before, found, text = text.partition(after)
            if old not in text or old == new or not after and text.count(old) != 1:
                return None
            made[path] = before + found + text.replace(old, new, 1)
        return made

    def leaves_open(self, texts, goals):
        """Whether one of these open goals belongs to a function that the edit names, in a file that it changes."""
        for path in self.files:
            text, last = texts[path], 0
            for name, _, end in bodies_of(text):
                lines = range(text.count("\n", 0, last) + 1, text.count("\n", 0, end) + 2)
                if name in last_names(self.stated) and any(file == path and line in lines for file, line in goals):
                    return True
                last = end
        return False

    def kept_names(self):
        """The names of the functions whose right bodies stay in a round of this edit."""
        return last_names(self.functions if self.is_apart else self.functions - self.stated)

    def strays(self, folder):
        """The error of this edit: it can't be applied, or changes more than the bodies that it names, unless it is apart. None if it has
        none."""
        texts = self.put({}, folder)
        if texts is None:
            return "it cannot be applied: each 'old:' text stands once in its file, or behind an 'after:' text that does"
        if self.is_apart:
            return None
        changed = set()
        for path, wrong in texts.items():
            text = (folder / path).read_text()
            bodies, others = bodies_of(text), bodies_of(wrong)
            if around(text, bodies) != around(wrong, others):
                return f"it changes more of {path} than bodies: mark it '# apart'"
            changed |= {name for (name, start, end), (_, begin, stop) in zip(bodies, others) if text[start:end] != wrong[begin:stop]}
        return None if changed == last_names(self.stated) else f"it changes {', '.join(sorted(changed))}, and names {', '.join(sorted(self.stated))}"


def last_names(functions):
    return {it.rpartition("::")[2] for it in functions}


@functools.cache
def cycles_of(crate):
    """The functions of each cycle of calls that the attribute `cycle` names, by the folder of their proofs."""
    files = {file: file.read_text() for file in sorted((CRATES / crate / "src").rglob("*.rt"))}
    module = {file: [it for it in file.relative_to(CRATES / crate / "src").with_suffix("").parts if it not in ("lib", "main")] for file in files}
    home = {it: module[file] for file, text in files.items() for it in re.findall(r"^(?:pub(?:\(crate\))? )?(?:struct|enum) (\w+)", text, re.M)}
    cycles = {}
    for file, text in files.items():
        type = None
        for it in re.finditer(r"^impl(?:<[^>]*>)? (\w+)|^\}()|^ *#\[cycle\((\w+)\)\]\n(?: *#.*\n)* *(?:pub(?:\(crate\))? )?fn (\w+)", text, re.M):
            type = it[1] if it[1] or it[2] is not None else type
            if it[3]:
                above = [*home[type], type] if type else module[file]
                cycles.setdefault(it[3], []).append((*above, it[4]))
    # (the folder is that of the module, or of the type if all functions of the cycle are of one)
    return {"/".join([crate, "proofs", *os.path.commonprefix([it[:-1] for it in functions]), f"+{name}"]):
            {"::".join([crate, *it]) for it in functions} for name, functions in cycles.items()}


TOKENS = re.compile(r"//[^\n]*|/\*.*?\*/|\"(?:\\.|[^\"\\])*\"|b?'(?:\\.[^']*|[^'\\])'|\bfn\s+\w+|\w+|\s+|.", re.S)


def bodies_of(text):
    """The name, start and end of the body of each outermost function in this text."""
    found, name, is_clause, depth, outside, start, at = [], None, False, 0, 0, None, 0
    for token in TOKENS.findall(text):
        if token == "{" and name and depth == outside and start is None and not is_clause:
            start = at
        at += len(token)
        if token in ("{", "(", "["):
            depth += 1
        elif token in ("}", ")", "]"):
            depth -= 1
            if name and depth == outside and token == "}":
                is_clause = False
                if start is not None:
                    found.append((name, start, at))
                    name = start = None
        elif name is None and token.startswith("fn "):
            name, outside = token.split()[1], depth
        elif start is None and token in ("requires", "ensures", "ghost", "decreases"):
            is_clause = name is not None
        elif start is None and token == ";" and depth == outside:
            name = None
    return found


def around(text, bodies):
    ends = [0, *(end for _, _, end in bodies)]
    starts = [*(start for _, start, _ in bodies), len(text)]
    return [text[end:start] for end, start in zip(ends, starts)]


# A body that the prover refuses at once: it claims that it is never reached, and the prover doesn't try to prove that.
CUT_OFF = "{ #[tactic(none)] unreachable!(); }"
# The proof files of a function.
OWN_FILES = ("Answers.antt", "Invariants.antt", "Proof.antt")


def cut(text, wrong, kept):
    """The wrong text with all bodies cut off, except those that differ from the right text and those of the kept names; and the names of
    the functions whose bodies were cut off."""
    pairs = zip(bodies_of(text), bodies_of(wrong))
    off = [it for (_, start, end), it in pairs if it[0] not in kept and text[start:end] == wrong[it[1] : it[2]]]
    return CUT_OFF.join(around(wrong, off)), {name for name, _, _ in off}


def cut_off(crate, texts, place, named, kept):
    """The texts of this crate, whose files are below `place`, with all bodies cut off, except those that these texts change and those of
    the kept names. The proof files of the cut-off functions are deleted, except those of the named functions."""
    made, off = {}, set()
    # (functions that are cut off call nothing, so they are in no cycle)
    ended = "|".join(folder.rpartition("+")[2] for folder, functions in cycles_of(crate).items() if not functions & named)
    for file in (place / crate / "src").rglob("*.rt"):
        path, text = str(file.relative_to(place)), file.read_text()
        made[path], names = cut(text, texts.get(path, text), kept)
        if ended:
            made[path] = re.sub(rf"^ *#\[cycle\((?:{ended})\)\]$", "", made[path], flags=re.M)
        off |= names
    for file in (place / crate / "proofs").rglob("*.antt"):
        # (the folder of a function in a cycle of calls begins with +)
        *above, own = file.parent.relative_to(place / crate / "proofs").parts or [""]
        own = own.removeprefix("+")
        proved = cycles_of(crate).get(str(file.parent.relative_to(place)), {"::".join([crate, *above, own])})
        if file.name in OWN_FILES and (own in off or len(proved) > 1) and not proved & named:
            file.unlink()
    return made


# A text, with the names and bodies of its functions.
PARTED = [
    ("fn a(b: [u8; 2]) -> u8 where B: C\n    requires { b }\n    ensures c { d } { 1 }", [("a", "{ 1 }")]),
    ("impl A { ghost b = { c }; fn d(self) { |e| requires { f } { g } } fn h(); } // fn i() {", [("d", "{ |e| requires { f } { g } }")]),
    ("fn a() { '{'; \"}\" } fn b<'a>(c: &'a C) {}", [("a", "{ '{'; \"}\" }"), ("b", "{}")]),
]
# A text, a wrong text, a kept name, and the expected result.
CUT = [
    ("fn a() {} fn b() { 2 } fn c() {}", "fn a() {} fn b() { 4 } fn c() {}", "c", f"fn a() {CUT_OFF} fn b() {{ 4 }} fn c() {{}}"),
    ("const A: u8 = 1; fn a() { A }", "const A: u8 = 2; fn a() { A }", "", f"const A: u8 = 2; fn a() {CUT_OFF}"),
]


def parts_wrongly():
    """The cases in which `bodies_of` and `cut` return a wrong result."""
    for text, want in PARTED:
        found = [(name, text[start:end]) for name, start, end in bodies_of(text)]
        if found != want:
            return f"{text!r}: {found}, and not {want}"
    for text, wrong, kept, want in CUT:
        found, _ = cut(text, wrong, {kept})
        if found != want:
            return f"{text!r}: {found}, and not {want}"
    return None
