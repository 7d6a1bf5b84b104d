#!/usr/bin/env python3
"""Holds docs/READING.md and what it says of the sources to the sources.

- Every file of specs/ stands there with the lines that a reader must believe (blank lines, comments and imports aside), and their total.
- No public function has a `requires`, and each has an `ensures`; a conversion `From` counts as one, and its `from_gives` as its ensures.
- A library crate has methods, `From` and `Model`, and no other trait, whose functions and conditions none of this would see. Programs may have some.
- No public type of a library crate has a public field beside a fact that it keeps, a ghost field or its `Model`'s invariant: who writes such a field
  owes the fact. FIELDS_THAT_OWE has those that there are.
- Every public function has its uniqueness lemma, in a file Unique*.antt of some crate's proofs/: its premises are the function's own contract
  twice, and its conclusion equates all that the function's parameters and result say it gives back or leaves in what it was lent.
- No antt file has an axiom or a hole.
- No line of a source is over 160 characters, but for those that tests/long_lines.txt still counts.

Each of these is first tried on copies that are wrong, so that it is known to see. Prints what is wrong and exits 1, or one line.

    tests/reading.py            the checks
    tests/reading.py --print    the rows of READING.md as they should be
    tests/reading.py --long     tests/long_lines.txt as it should be; it may only become shorter
"""
import glob
import os
import re
import sys

os.chdir(os.path.join(os.path.dirname(os.path.abspath(__file__)), ".."))

LONGEST = 160
LONG_LINES = "tests/long_lines.txt"


def sources():
    """Every source of the crates, by its path."""
    found = {}
    for pattern in ("crates/*/src/**/*.rt", "crates/*/specs/**/*.antt", "crates/*/proofs/**/*.antt"):
        for path in sorted(glob.glob(pattern, recursive=True)):
            with open(path, encoding="utf-8") as f:
                found[path] = f.read()
    return found


def read(path):
    with open(path, encoding="utf-8") as f:
        return f.read()


def crate_of(path):
    return path.split("/")[1]


def is_library(files, crate):
    """Whether a crate is a library; the others are programs."""
    return "crates/%s/src/lib.rt" % crate in files


def libraries(files):
    """The code of each library crate."""
    code = {}
    for path, text in sorted(files.items()):
        if path.endswith(".rt") and is_library(files, crate_of(path)):
            code[crate_of(path)] = code.get(crate_of(path), "") + text
    return code


# ---- the lines that must be believed

def believed(text):
    return len([l for l in text.split("\n") if l.strip() and not l.startswith(("use ", "pub use ", "--")) and not re.match(r"\s+--", l)])


def believed_rows(files):
    crates = [l.split(":")[0].split()[0] for l in read("crates.txt").split("\n") if ":" in l and not l.startswith("#")]
    return [("%s/%s" % (crate, path.split("/")[-1][:-5]), believed(files[path]))
            for crate in crates for path in sorted(files)
            if path.startswith("crates/%s/specs/" % crate) and not path.endswith("/Lib.antt")]


def page_faults(files, page):
    rows = believed_rows(files)
    found = {m[0]: int(m[1]) for m in re.findall(r"(?m)^\| ([a-z]+/[A-Z]\w*) \| (\d+) \|", page)}
    total = sum(n for _, n in rows)
    faults = ["%s has %d believed lines, READING.md says %s" % (name, n, found.get(name)) for name, n in rows if found.get(name) != n]
    faults += ["READING.md names %s, which is not there" % name for name in sorted(set(found) - {r[0] for r in rows})]
    if not re.search(r"(?m)^\| total \| %d \|" % total, page):
        faults.append("the total is %d" % total)
    return faults


# ---- the public functions

class Function:
    """A public function by its source: what it is lent as `&mut`, by its place among the parameters, and whether it gives something back. A method
    has its type before its name, and `From::from` counts as one; holders are the structs that hold lent bytes, with their fields."""

    def __init__(self, crate, name, head, holders=None):
        self.crate, self.name, self.head = crate, name, head
        signature = re.match(r"(?s)\s*(?:<[^>]*>)?\s*\((.*?)\)\s*(?:->\s*(.*?))?\s*(?:requires\b.*|ensures\b.*|\Z)", head)
        parameters = [p.strip() for p in split_outside(signature[1], ",") if p.strip()]
        self.result = (signature[2] or "").strip()
        self.fields = (holders or {}).get(name.split("::")[0])
        self.method = any(re.search(r"\bself$", p) for p in parameters[:1])
        kept = "'a" if self.fields and self.result == "Self" else None  # what is lent so long stands in the result
        kinds = [p if re.search(r"\bself$", p) else p.split(":", 1)[1].strip() for p in parameters]
        self.lent = [k for k, m in enumerate(re.match(r"&(?:('\w+) )?mut\b", kind) for kind in kinds) if m and (not kept or m[1] != kept)]

    def full(self):
        return "%s::%s" % (self.crate, self.name)

    def owed(self):
        """The equations that a uniqueness lemma owes: of the answer, and of what is lent, the k-th parameter at `.1` k times and `.0`. Of a struct
        that holds lent bytes they are those of its fields, for whose bytes `.now` stands."""
        def equations(place, of_holder):
            return {"%s%s ≡ %s%s" % (place, field, place.replace(place[0], place[0] + "'", 1), field) for field in (self.fields if of_holder else [""])}

        owed = set()
        if self.result:
            of = ".now" if self.result.startswith("&") else ""
            owed |= equations("r" + of, self.fields and self.result == "Self")
        for k in self.lent:
            owed |= equations("s" + ".1" * k + ".0.now", self.fields and self.method and k == 0)
        return owed


def split_outside(text, mark):
    """The parts of a text between marks that stand in no bracket."""
    parts, depth, part = [], 0, ""
    for c in text:
        depth += (c in "([{<") - (c in ")]}>")
        if c == mark and depth == 0:
            parts.append(part)
            part = ""
        else:
            part += c
    return parts + [part]


def holders_of(text):
    """The structs of a source that hold lent bytes: each field by its name, that of the bytes with `.now` behind it; ghost fields aside."""
    holders = {}
    for name, body in re.findall(r"(?ms)^pub struct (\w+)<'a> \{\n(.*?)^\}", text):
        fields = re.findall(r"(?m)^    (?:pub )?(\w+): (.*),$", body)
        if any(kind.startswith("&'a mut ") for _, kind in fields):
            holders[name] = ["." + field + (".now" if kind.startswith("&") else "") for field, kind in fields]
    return holders


def impls_of(text):
    """Each impl block of a source: where it begins and ends, what a conversion `From` converts, the type, and what stands inside."""
    return [(m.start(), m.end(), m[1], m[2], m[3]) for m in re.finditer(
        r"(?ms)^impl(?:<[^>\n]*>)? (?:(?:From<(\w+)>|[\w:]+(?:<[^\n]*>)?) for )?(\w+)(?:<[^\n]*?>)? \{\n(.*?)^\}", text)]


def public_functions(files):
    """The public functions and methods, and the conversions `From` of libraries, which whoever has the types can call."""
    found = []
    for path, text in files.items():
        if not path.endswith(".rt"):
            continue
        holders = holders_of(text)
        impls = impls_of(text)
        for m in re.finditer(r"(?ms)^ *pub (?:(?:const|async|unsafe) )*(?:extern \"C\" )?fn (\w+)(.*?)(?:^\s*| )\{$", text):
            within = [kind for start, end, _, kind, _ in impls if start < m.start() < end]
            found.append(Function(crate_of(path), "::".join(within + [m[1]]), m[2], holders))
        for _, _, source, kind, body in impls:
            if source and is_library(files, crate_of(path)):
                head = re.search(r"(?s)\bfn from(\(.*?)\s*\{", body)[1]
                promise = " ensures from_gives" if re.search(r"(?m)^    ghost from_gives = ", body) else ""
                found.append(Function(crate_of(path), "%sFrom%s::from" % (kind, source), head + promise, holders))
    return found


def promise_faults(functions):
    faults = []
    for f in functions:
        if re.search(r"\brequires\b", f.head):
            faults.append("%s counts on its caller: it has a requires" % f.full())
        if not re.search(r"\bensures\b", f.head):
            faults.append("%s promises nothing: it has no %s" % (f.full(), "from_gives" if f.name.endswith("::from") else "ensures"))
    return faults


# ---- what would be seen by none of this

IMPL = r"impl(?:<[^>]*>)? (?:(?:From<\w+>|Model) for )?\w+(?:<[^>]*>)? \{"


def trait_faults(files):
    """In library crates: every impl but of methods, `From` and `Model`, every trait and macro of their own, and other things by those two names.
    What derives write is no text, and the toolchain's own."""
    return ["%s has %r: a library has methods, From and Model, and no other trait" % (crate, line.strip())
            for crate, text in libraries(files).items()
            for line in re.findall(r"(?m)^(?! *//).*\b(?:impl|trait|macro_rules|as From|as Model)\b.*|^\w+!.*", text)
            if not re.fullmatch(IMPL, line)]


# The public fields of types that keep a fact, and why each may be public.
FIELDS_THAT_OWE = {
    "writers::Writer.at": "who writes it owes at ≤ length out; callers read it, and none writes it",
}


def type_faults(files):
    """Each public field beside a fact that its type keeps, if the list has it not; and what the list has and is no such field."""
    found = set()
    for crate, text in libraries(files).items():
        held = {kind for _, _, _, kind, body in impls_of(text) if re.search(r"(?m)^    ghost invariant\b", body)}
        for _, kind, body in re.findall(r"(?ms)^( *)pub struct (\w+)([^;{(]*;|[^;{(]*\(.*?\)[^;{]*;|.*?^\1\})", text):
            if kind in held or re.search(r"(?m)^ *(?:pub )?ghost \w+:", body):
                fields = re.findall(r"(?m)^ *pub (\w+):", body) + re.findall(r"[(,]\s*pub (\S+?)[,)]", body)     # of a tuple the field's type
                found |= {"%s::%s.%s" % (crate, kind, field) for field in fields}
    listed = set(FIELDS_THAT_OWE)
    return (["%s can be written, and its type keeps a fact: that is a condition on the caller" % field for field in sorted(found - listed)]
            + ["FIELDS_THAT_OWE has %s, which is no public field of a type that keeps a fact" % field for field in sorted(listed - found)])


# ---- the uniqueness lemmas

def signatures(text):
    """Each public lemma of a Unique*.antt file: its name, its statement in one line, and whether it stands in no module."""
    return [(m[2], re.sub(r"\s+", " ", m[3]).strip(), m[1] == "")
            for m in re.finditer(r"(?m)^( *)pub (unique[-_]\S+) : (.*(?:\n(?! *(?:unfolding |unique[-_]|\n)).*)*)", text)]


def equations_of(conclusion):
    """The equations of a conclusion: one, or several in brackets with × between."""
    parts = [p.strip() for p in split_outside(conclusion, "×")]
    if len(parts) > 1:
        if not all(p.startswith("(") and p.endswith(")") for p in parts):
            return {conclusion}
        parts = [p[1:-1].strip() for p in parts]
    return set(parts)


def means_it(text):
    """Whether `≡` is the library's in a file. `.now` always is: it is a field of what is lent."""
    return (re.search(r"(?m)^use (?:mathlib\.Core\.Path|Rattle\.std\.specs\.Prelude|Rattle\.std\.proofs\.Common)\.\{(?:.*, )?◌≡◌(?:,.*)?\}$", text)
            and not re.search(r"(?m)^ *(?:pub |abbrev |unfoldable )*◌≡◌ ", text) and not re.search(r"\bas ◌≡◌", text))


GENERATED = "(κs : _) (a : _) (r r' : _) (s s' : _) → %s.Post κs a r s → %s.Post κs a r' s' → "


def generated_lemmas(files):
    """The conclusion of the lemma on each function's generated contract. It stands in no module, so that nothing more is presumed."""
    lemmas = {}
    for path, text in files.items():
        if not re.match(r"crates/\w+/proofs/Unique\w*\.antt$", path) or not means_it(text):
            continue
        for crate, function, alias in re.findall(r"(?m)^use Rattle\.(\w+)\.proofs\.((?:\w+\.)?\w+)\.Reads as (\S+)$", text):
            start = GENERATED % (alias, alias)
            for _, statement, alone in signatures(text):
                if alone and statement.startswith(start):
                    lemmas[crate, function.replace(".", "::")] = statement[len(start):]
    return lemmas


def unique_faults(files, functions):
    lemmas, faults = generated_lemmas(files), []
    for f in functions:
        conclusion = lemmas.get((f.crate, f.name))
        if conclusion is None:
            faults.append("no uniqueness lemma for %s" % f.full())
        elif equations_of(conclusion) != f.owed():
            faults.append("the uniqueness lemma for %s concludes %s, and owes %s" % (f.full(), conclusion, " × ".join(sorted(f.owed()))))
    return faults


# ---- axioms and holes

def bare(text):
    """An antt text without its comments and quoted texts."""
    return re.sub(r'(?s)\{-.*?-\}|"(?:\\.|[^"\\])*"|--(?= |-|\n|$)[^\n]*', " ", text)


def axiom_faults(files):
    """A name with a type and no definition is an `axiom`; `lem` and `ac` are those of Prim.Axiom; a hole is `?`, or a name behind one."""
    faults = []
    for path, text in files.items():
        if not path.endswith(".antt"):
            continue
        words = re.findall(r"[^\s(){}.;,@\"«»]+", bare(text))
        for what, there in (("an axiom", "axiom" in words), ("a postulate", "postulate" in words),
                            ("an axiom of Prim", "Axiom" in words or {"lem", "ac"} & set(words)), ("a hole", any(w[0] == "?" for w in words))):
            if there:
                faults.append("%s has %s" % (path, what))
    return faults


# ---- lines

def long_lines(files):
    counts = {path: sum(len(l) > LONGEST for l in text.split("\n")) for path, text in files.items()}
    return {path: n for path, n in sorted(counts.items()) if n}


def long_faults(files, allowed):
    found = long_lines(files)
    faults = ["%s has %d lines over %d characters, and %s allows %d" % (path, n, LONGEST, LONG_LINES, allowed.get(path, 0))
              for path, n in found.items() if n > allowed.get(path, 0)]
    return faults + ["%s allows %d long lines of %s, which has %d: write what --long prints" % (LONG_LINES, n, path, found.get(path, 0))
                     for path, n in allowed.items() if n > found.get(path, 0)]


def allowed_long_lines():
    if not os.path.exists(LONG_LINES):
        return {}
    return {path: int(n) for n, path in re.findall(r"(?m)^(\d+) (\S+)$", read(LONG_LINES))}


# ---- these checks on copies that are wrong

def seen(files, path, old, new, check):
    """Whether a check that finds nothing, or less, finds more once the text at a path is changed."""
    if files[path].count(old) != 1:
        sys.exit("reading: a wrong copy of %s cannot be made: it has not one %r" % (path, old))
    changed = dict(files)
    changed[path] = files[path].replace(old, new)
    return len(check(changed)) > len(check(files))


def blind(files, allowed):
    """The wrong copies that pass."""
    def unique(changed):
        return unique_faults(changed, public_functions(changed))

    def promises(changed):
        return promise_faults(public_functions(changed))

    words, seal, capi = "crates/words/proofs/Unique.antt", "crates/frames/proofs/Unique.antt", "crates/capi/proofs/Unique.antt"
    take = "take.Post κs a r s → take.Post κs a r' s' → r ≡ r'"
    sealed = "seal.Post κs a r s → seal.Post κs a r' s' → (r ≡ r') × (s.0.now ≡ s'.0.now)"
    wrote = "bytes.Post κs a r s → bytes.Post κs a r' s' → (s.0.now.out.now ≡ s'.0.now.out.now) ×\n    (s.0.now.at ≡ s'.0.now.at)"
    bare = "pub fn bare(v: u8) -> u8%s{\n    v\n}\n\npub fn seal("
    records, devices, layouts = "crates/records/src/lib.rt", "crates/devices/src/lib.rt", "crates/layouts/src/lib.rt"
    writers, pieces = "crates/writers/src/lib.rt", "crates/pieces/src/lib.rt"
    gives = "    ghost from_gives = { λ %s. %s };\n\n"
    queue, device = "impl From<Row> for Queue {\n", "impl Device {\n"
    other = "impl From<u8> for Queue {\n%s    fn from(v: u8) -> Queue {\n        Queue::from([0; 8])\n    }\n}\n\n" + queue
    tried = "impl TryFrom<u64> for Device {\n    fn try_from(id: u64) -> Result<Self, ()> {\n        Err(())\n    }\n}\n\n" + device
    read, written, answer = "    content: &'a [u8],\n    %sat: usize,\n", "    %sout: &'a mut [u8],\n    %sat: usize,\n", "    pub answer: u64,\n"
    passed = "pass.Post κs a r s → pass.Post κs a r' s' → (r ≡ r') × (s.0.now ≡ s'.0.now)"
    copies = [
        ("a lemma that concludes r ≡ r", words, take, take[:-1], unique),
        ("a lemma that presumes what it concludes", words, take, "r ≡ r' → " + take, unique),
        ("a lemma on one answer twice", words, take, take.replace("r' s'", "r s"), unique),
        ("a lemma without what is lent", seal, sealed, sealed.split(" × ")[0], unique),
        ("a lemma without the answer", seal, sealed, sealed.replace("(r ≡ r') × (", "")[:-1], unique),
        ("a lemma on another parameter", seal, sealed, sealed.replace(".0.now", ".1.0.now"), unique),
        ("a lemma that is not there", words, "pub unique-take :", "pub lemma-take :", unique),
        ("a lemma of the boundary without the board", capi, passed, passed.split(" × ")[0], unique),
        ("a lemma of the boundary on two calls", capi, passed, passed.replace("κs a r' s'", "κs b r' s'"), unique),
        ("a method's lemma that is not there", "crates/layouts/proofs/Unique.antt", "pub unique-u16 :", "pub lemma-u16 :", unique),
        ("a conversion's lemma that is not there", "crates/records/proofs/Unique.antt", "pub unique-input-in :", "pub lemma-input-in :", unique),
        ("a lemma on a writer without its place", "crates/writers/proofs/Unique.antt", wrote, wrote.split(" ×")[0], unique),
        ("an equality of one's own", words, "{◌≡◌, ", "{", unique),
        ("a function that is lent more", "crates/frames/src/lib.rt", "pub fn seal(", "pub fn seal(more: &mut [u8], ", unique),
        ("a function that promises nothing", "crates/frames/src/lib.rt", "pub fn seal(", bare % " ", promises),
        ("a function that counts on its caller", "crates/frames/src/lib.rt", "pub fn seal(",
         bare % "\n    requires { v ≤ 3 }\n    ensures { result ≡ v }\n", promises),
        ("a conversion without from_gives", records, gives % ("row i", "i ≡ input_in row"), "", promises),
        ("a conversion without from_gives, in front of one", records, queue, other % "", promises),
        ("a conversion without a lemma, in front of one", records, queue, other % gives % ("v q", "q.first ≡ v"), unique),
        ("a conversion that may fail", devices, device, tried, trait_faults),
        ("a trait of one's own", devices, device, "pub trait Model {}\n\n" + device, trait_faults),
        ("a macro that may write an impl", devices, device, "macro_rules! more {\n    () => {};\n}\n\n" + device, trait_faults),
        ("a public field under an invariant", layouts, read % "", read % "pub ", type_faults),
        ("a public field more over a ghost field", writers, written % ("", "pub "), written % ("pub ", "pub "), type_faults),
        ("a ghost field under public ones", pieces, answer, answer + "    pub ghost small: { answer < 256 },\n", type_faults),
        ("a list with a field that is private", writers, written % ("", "pub "), written % ("", ""), type_faults),
        ("an axiom", words, "\npub unique-take :", "\naxiom pub given : ⊥\n\npub unique-take :", axiom_faults),
        ("a hole", words, "unique-take κs a r r' s s' p q = p ∙ sym q", "unique-take κs a r r' s s' p q = ?", axiom_faults),
        ("a named hole", words, "unique-take κs a r r' s s' p q = p ∙ sym q", "unique-take κs a r r' s s' p q = ?h", axiom_faults),
        ("the axiom of choice", words, "\nuse Rattle.words.proofs.take.Reads as take", "\nuse Prim.Axiom.{ac as now-and-then}\nuse Rattle.words.proofs.take.Reads as take", axiom_faults),
        ("a long line", words, "\npub unique-take :", "\n-- %s\npub unique-take :" % ("x" * 158), lambda changed: long_faults(changed, allowed)),
    ]
    return [what for what, path, old, new, check in copies if not seen(files, path, old, new, check)]


def main():
    files = sources()
    rows, functions, allowed = believed_rows(files), public_functions(files), allowed_long_lines()
    total = sum(n for _, n in rows)
    if "--print" in sys.argv:
        print("\n".join("| %s | %d | |" % row for row in rows + [("total", total)]))
        return 0
    if "--long" in sys.argv:
        print("".join("%d %s\n" % (n, path) for path, n in long_lines(files).items()), end="")
        return 0
    wrong = page_faults(files, read("docs/READING.md")) + promise_faults(functions)
    wrong += trait_faults(files) + type_faults(files) + unique_faults(files, functions) + axiom_faults(files) + long_faults(files, allowed)
    wrong += ["this check does not see %s" % what for what in blind(files, allowed)]
    for line in wrong:
        print("reading:", line)
    if wrong:
        return 1
    print("reading: %d believed lines in %d files; %d public functions, each with its uniqueness lemma; no axiom, no hole; "
          "%d lines over %d characters" % (total, len(rows), len(functions), sum(allowed.values()), LONGEST))
    return 0


if __name__ == "__main__":
    sys.exit(main())
