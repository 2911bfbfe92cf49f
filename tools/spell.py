#!/usr/bin/env python3
"""Writes the repository's own names in antt as Rattle spells names: words in snake case, types in camel case.

usage: tools/spell.py [--list]      at the top of the repository, once, behind port.py

It goes over specs/, proofs/, the clauses of src/, the must-fail edits and the names in backquotes of README.md and docs/. Functions and types of src/,
exported names, strings, inputs and outputs keep theirs, and so does each name that a file takes from the kit. It prints the names of one file that
fall together, and with --list the names and writes nothing.
"""

import glob
import os
import re
import sys

ENDS = r"\s(){}\[\],;.:\"`⟦⟧⌜⌝"
TOKEN = re.compile(f"[^{ENDS}]+")
HEAD = re.compile(f"^([ \\t]*)((?:unfoldable|abbrev|pub|opaque|record|data) )*([^{ENDS}]+)(?: \\{{[^}}\\n]*\\}})*(?: \\([^\\n]*?\\))* :(?: |$)", re.M)
LOWER_CAMEL = re.compile(r"[a-z][a-z0-9_]*[A-Z][A-Za-z0-9_']*$")
OWN_TYPES = {}  # lower names whose value is a type
# A lemma that would have the name of what it is about gets `_lem`.
LEMMAS = """is-error may-read may-write crc-kept carried-out bench-takes may-remove tag-lines bit-from fields-listed is-none counts-line refused-line item-rows
drop-rows error-row waiting-row fill-by reason-count last-rows names-crc""".split()
EXCEPT = {name: name.replace("-", "_") + "_lem" for name in LEMMAS}
EXCEPT.update({
    "comes-to": "it_comes_to",
    "crc-word": "crc_word_is",
    "check-right": "check_is_right",
    "end-right": "end_is_right",
    "second-right": "second_is_right",
})
# The same for names that port.py has spelled already, in one file each.
IN_FILE = {
    "crates/embed/proofs/Machines.antt": ["listed_in"],
    "crates/machine/proofs/Choosing.antt": ["same_bit", "same_bits"],
    "crates/page/proofs/Pages.antt": ["too_long"],
    "crates/page/proofs/Sheets.antt": ["too_long"],
    "crates/failures/proofs/records/remove/Proof.antt": ["kept_of"],
}


def read(path):
    with open(path, encoding="utf-8") as f:
        return f.read()


def antt_files():
    return sorted(glob.glob("crates/*/specs/**/*.antt", recursive=True) + glob.glob("crates/*/proofs/**/*.antt", recursive=True))


def crates():
    return sorted(os.path.basename(p) for p in glob.glob("crates/*"))


def types():
    """The definitions whose value is a type and whose name is not written as one."""
    found = {}
    sig = re.compile(f"^(?:(?:unfoldable|abbrev|pub|opaque) )*([^{ENDS}]+)(?: \\{{[^}}\\n]*\\}})*(?: \\([^)\\n]*\\))* : ((?:.|\\n(?=[ \\t]))*)", re.M)
    for path in antt_files():
        for m in sig.finditer(read(path)):
            if re.search(r"Type\s*(0|ℓ|1)?\s*$", m[2].strip()) and not m[1][0].isupper():
                found[m[1]] = "".join(w[0].upper() + w[1:] for w in re.split("[-_]", m[1]))
    return found


def snake(name):
    """A name's parts between dashes, each in snake case unless it is a type's; joined by underscores."""
    parts = []
    for part in name.split("-"):
        if part[:1].islower():
            part = re.sub(r"(?<=[A-Za-z0-9])([A-Z])", lambda m: "_" + m[1].lower(), part)
        parts.append(part)
    return "_".join(parts)


def defined():
    """The names with a dash that the repository defines, and those that its lemmas bind."""
    names = set()
    for path in antt_files():
        if os.path.basename(path) == "Proof.antt":
            continue
        for m in HEAD.finditer(read(path)):
            names.add(m[3])
    return {n for n in names if "-" in n and re.match(r"[A-Za-z]", n)}


def foreign(text, own):
    """The names that a file takes from elsewhere than the repository's crates."""
    names = set()
    for m in re.finditer(r"^\s*(?:pub |ghost )*use ([^\s{;]+?)(?:\.\{([^}]*)\})?;?$", text, re.M):
        parts = m[1].split(".")
        if parts[0] == "Rattle" and len(parts) > 1 and parts[1] in own:
            continue
        if m[2]:
            names.update(re.split(r"\s+as\s+", n.strip())[-1] for n in m[2].split(","))
    return names


class Speller:
    def __init__(self):
        self.own = crates()
        self.types = types()
        self.dashed = defined()
        self.here = {}

    def new_name(self, token, kept):
        if token in kept:
            return token
        if token in self.here:
            return self.here[token]
        if token in self.types:
            return self.types[token]
        if token in EXCEPT:
            return EXCEPT[token]
        if token in self.dashed or LOWER_CAMEL.match(token):
            return snake(token)
        return token

    def code(self, text, kept, said):
        def turned(m):
            new = self.new_name(m[0], kept)
            said.setdefault(new, set()).add(m[0])
            return new
        return TOKEN.sub(turned, text)

    def quoted(self, text, kept, said):
        """In prose: names in backquotes, and names in lower camel case, which no word of English is."""
        text = re.sub(r"`([^`\n]*)`", lambda m: "`" + self.code(m[1], kept, said) + "`", text)
        return TOKEN.sub(lambda m: self.new_name(m[0], kept) if LOWER_CAMEL.match(m[0]) else m[0], text)

    def antt(self, text, kept, said):
        out = []
        for line in text.split("\n"):
            m = re.match(r"(.*?)((?:^|(?<=\s))--(?:\s.*)?)$", line)
            if m:
                out.append(self.code(m[1], kept, said) + self.quoted(m[2], kept, said))
            else:
                use = re.match(r"\s*(?:pub |ghost )*use ([^\s{;]+)", line)
                if use and not (use[1].split(".") + [""])[1] in self.own:
                    out.append(line)
                else:
                    out.append(self.code(line, kept, said))
        return "\n".join(out)

    def rt(self, text, kept, said):
        """Ghost items and clauses; elsewhere only comments, since Rust's names are in snake case."""
        out, clause = [], 0
        for line in text.split("\n"):
            stripped = line.lstrip()
            m = re.match(r"(.*?)((?:^|(?<=\s))//.*)$", line)
            body, comment = (m[1], m[2]) if m else (line, "")
            if clause or re.match(r"(ghost|requires|ensures)\b", stripped):
                use = re.match(r"\s*(?:pub |ghost )*use ([^\s{;]+)", body)
                if not (use and (use[1].split(".") + [""])[1] not in self.own):
                    clause += body.count("{") - body.count("}")
                    body = self.code(body, kept, said)
            out.append(body + (self.quoted(comment, kept, said) if comment else ""))
        return "\n".join(out)

    def edit(self, text):
        target = re.search(r"^file: (.*)$", text, re.M)[1]
        turn = self.rt if target.endswith(".rt") else self.antt
        out = []
        for line in text.split("\n"):
            m = re.match(r"(old: |new: )(.*)$", line)
            if not m:
                out.append(line if line.startswith("file:") else self.quoted(line, set(), {}))
            elif target.endswith(".rt"):
                out.append(m[1] + (self.rt(m[2], set(), {}) if re.match(r"\s*(ghost|requires|ensures)\b", m[2]) else m[2]))
            else:
                out.append(m[1] + turn(m[2], set(), {}))
        return "\n".join(out)


def main():
    s = Speller()
    if "--list" in sys.argv:
        for n in sorted(s.types):
            print("type", n, s.types[n])
        for n in sorted(s.dashed):
            print(n, snake(n))
        return
    paths = antt_files() + sorted(glob.glob("crates/*/src/**/*.rt", recursive=True)) + sorted(glob.glob("crates/*/must-fail/*.edit"))
    paths += ["README.md"] + sorted(glob.glob("docs/*.md"))
    for path in paths:
        old = read(path)
        said = {}
        kept = foreign(old, s.own)
        s.here = {name: name + "_lem" for name in IN_FILE.get(path, [])}
        if path.endswith(".edit"):
            new = s.edit(old)
        elif path.endswith(".rt"):
            new = s.rt(old, kept, said)
        elif path.endswith(".md"):
            new = re.sub(r"`([^`\n]*)`", lambda m: "`" + s.code(m[1], set(), {}) + "`" if m[1] in s.dashed or LOWER_CAMEL.match(m[1]) or m[1] in s.types else m[0], old)
        else:
            new = s.antt(old, kept, said)
        for name, olds in said.items():
            if len(olds) > 1:
                print(f"{path}: {' and '.join(sorted(olds))} both become {name}")
        if new != old:
            with open(path, "w", encoding="utf-8") as f:
                f.write(new)


if __name__ == "__main__":
    main()
