#!/usr/bin/env python3
"""Holds the documents to the sources. It fails where one names a definition, as crate/specs/File.name, or a function, as
crate::name, that is not there; where docs/PROOFS.md lists other must-fail edits than there are; where docs/INDEX.md leaves out
a rule of docs/RULES.md; where a public function has a precondition, since they say that none has; where a definition has the
name of a word of std's Prelude; and where two have one name, or a definition and a type, and docs/DECISIONS.md does not say
why. 'rows' prints the list of edits."""
import collections
import pathlib
import re
import subprocess
import sys

ROOT = pathlib.Path(__file__).resolve().parent.parent
PROOFS = "docs/PROOFS.md"
INDEX = "docs/INDEX.md"
DECISIONS = "docs/DECISIONS.md"
NAMING = ["README.md", PROOFS] + [f"docs/{name}.md" for name in ("RULES", "SCRIPT", "REFUSALS", "GLOSSARY", "DECISIONS", "INDEX", "USING")]
DEFINITION = re.compile(r"`([a-z_]+)/specs/([A-Z]\w*)((?:\.\w+)?)`")
FUNCTION = re.compile(r"`([a-z_]+)((?:::\w+)+)`")
BLOCK = re.compile(r"^(?:pub )?(?:impl|trait)\b(.*)\{$")
FN = re.compile(r"^\s*(?:pub(?:\([a-z]+\))? )?(?:const )?fn (\w+)")
PUBLIC = re.compile(r"^\s*pub (?:const )?fn\b")
DEFINED = re.compile(r"^(?:abbrev |unfoldable )?pub (?:(record|data) )?(?!mod |use )(\S+)")
CONSTRUCTOR = re.compile(r"^(\S+) : ")
TYPE = re.compile(r"^(?:pub(?:\([a-z]+\))? )?(?:struct|enum|trait|type) (\w+)", re.M)
RULE = re.compile(r"\d+(?:\.\d+)?")


def has_word(text, word):
    return re.search(rf"(?<!\w){re.escape(word)}(?!\w)", text)


def missing_names(text):
    """The names in a document that are not there."""
    for crate, file, name in DEFINITION.findall(text):
        if crate == "crate":
            continue
        path = ROOT / "crates" / crate / "specs" / f"{file}.antt"
        body = re.sub(r"^use .*$", "", path.read_text(), flags=re.M) if path.exists() else ""
        if not body or (name and not has_word(body, name[1:])):
            yield f"{crate}/specs/{file}{name}"
    for crate, path in FUNCTION.findall(text):
        sources = ROOT / "crates" / crate / "src"
        if sources.is_dir():
            body = "\n".join(file.read_text() for file in sorted(sources.rglob("*.rt")))
            if not all(has_word(body, name) for name in path.split("::")[1:]):
                yield crate + path


def definitions(text):
    """The names that a file of specs/ defines: definitions, records, data types and their constructors, but no fields."""
    block, depth = None, 0
    for line in text.split("\n"):
        words = line.lstrip()
        if not words or words.startswith("--"):
            continue
        indent = len(line) - len(words)
        if block and indent > depth:
            if block == "data" and indent == depth + 2:
                yield from CONSTRUCTOR.findall(words)
            continue
        block, name = (DEFINED.match(words) or re.match("()()", "")).groups()
        depth = indent
        if name:
            yield name


def names_in_use():
    """Each name of a definition or of a type of code, with the files that define it. Those of tests are left out."""
    places = collections.defaultdict(set)
    for path in ROOT.glob("crates/*/specs/**/*.antt"):
        for name in definitions(path.read_text()):
            places[name].add(str(path.relative_to(ROOT / "crates")))
    for path in ROOT.glob("crates/*/src/**/*.rt"):
        file = str(path.relative_to(ROOT / "crates"))
        if "_tests/" not in file:
            for name in TYPE.findall(path.read_text()):
                places[name].add(file)
    return places


def prelude():
    """The words that std's Prelude passes on."""
    try:
        start = subprocess.run(["rt", "doc"], capture_output=True, text=True, check=True).stdout.strip()
    except (OSError, subprocess.CalledProcessError) as fault:
        raise SystemExit(f"documents: 'rt doc', which says where the kit is, does not run: {fault}")
    path = pathlib.Path(start).parent / "rattle/std/specs/Prelude.antt"
    if not path.is_file():
        raise SystemExit(f"documents: std's Prelude is not at {path}, beside the page that 'rt doc' prints")
    lists = re.findall(r"^pub use [^{]*\{([^}]*)\}", path.read_text(), re.M)
    return {word.strip() for words in lists for word in words.split(",")}


def faulty_names(places):
    """Words of the Prelude that are defined anew, and names that stand twice without a reason."""
    listed = re.findall(r"^\| `(\w+)` \|", (ROOT / DECISIONS).read_text(), re.M)
    for name in sorted(prelude() & set(places)):
        yield f"{name} is a word of std's Prelude, and {' and '.join(sorted(places[name]))} defines it anew"
    twice = {name for name, files in places.items() if len(files) > 1}
    for name in sorted(twice - set(listed)):
        yield f"{name} stands for two things, in {' and '.join(sorted(places[name]))}, and {DECISIONS} gives no reason"
    for name in sorted(set(listed) - twice):
        yield f"{DECISIONS} says of {name} why it stands twice, and it does not"


def number(rule, whole):
    """A rule's number as a pair; `whole` stands for the second number of a section that is told alone."""
    section, _, part = rule.partition(".")
    return int(section), int(part or whole)


def rules_left_out():
    """The numbered rules of RULES.md that no row of INDEX.md covers, and no sentence that begins with 'Rules'."""
    rules = re.findall(r"^- \*\*(\d+\.\d+)", (ROOT / "docs/RULES.md").read_text(), re.M)
    lists = re.findall(r"^(?:\| |Rules )([\d., toand]+?) (?:\||[a-z]{3,} )", (ROOT / INDEX).read_text(), re.M)
    spans = [RULE.findall(part) for told in lists for part in re.split(r",| and ", told)]
    ends = [(number(span[0], 0), number(span[-1], 99)) for span in spans]
    return [rule for rule in rules if not any(first <= number(rule, 0) <= last for first, last in ends)]


def owner(block):
    """The type that a block is for, and the trait that it meets."""
    text = re.sub(r"^<[^>]*>\s*", "", block.strip())
    text = re.sub(r"<[^<>]*(?:<[^<>]*>)?[^<>]*>", "", text)
    trait, _, name = text.rpartition(" for ")
    name = name.split(":")[0].strip()
    return name + (f" as {trait.strip()}" if trait else "")


def enclosing(source, old):
    """The function in whose text `old` stands, or the last one begun before it."""
    block, found = "", None
    for line in source.split("\n"):
        if line.startswith("}"):
            block = ""
        start = BLOCK.match(line)
        if start:
            block = owner(start.group(1))
        name = FN.match(line)
        if name:
            found = f"{block}::{name.group(1)}" if block else name.group(1)
        if old in line:
            return found or "a constant"
    raise SystemExit(f"documents: {old!r} stands nowhere")


def edit_rows():
    """A row for each crate: its functions that have must-fail edits, with the edits of each. An edit of several places stands
    with each function that it changes."""
    for crate in sorted((ROOT / "crates").iterdir()):
        pairs = {}
        for edit in sorted(crate.glob("must-fail/*.edit")):
            lines = edit.read_text().split("\n")
            file = next(line[6:] for line in lines if line.startswith("file: "))
            source = (crate / file).read_text()
            for where in {enclosing(source, line[5:]) for line in lines if line.startswith("old: ")}:
                pairs.setdefault(where, []).append(edit.stem)
        if pairs:
            yield f"| {crate.name} | " + "; ".join(f"`{w}`: {', '.join(e)}" for w, e in sorted(pairs.items())) + " |"


def preconditions():
    """The public functions that have a `requires`, those of public traits among them."""
    for path in sorted(ROOT.glob("crates/*/src/**/*.rt")):
        public, in_trait, name = False, False, None
        for line in path.read_text().split("\n"):
            if re.match(r"\S", line):
                in_trait = line.startswith("pub trait ")
            start = FN.match(line)
            if start:
                public, name = in_trait or bool(PUBLIC.match(line)), start.group(1)
            if public and re.match(r"\s*requires\b", line):
                yield f"{path.relative_to(ROOT)}: {name}"


def main():
    rows = list(edit_rows())
    if sys.argv[1:] == ["rows"]:
        print("\n".join(rows))
        return
    places = names_in_use()
    listed = (ROOT / PROOFS).read_text().split("| Crate | Function: its edits |\n|---|---|\n")[1].splitlines()
    failed = [f"{PROOFS} has not the row: {row}" for row in rows if row not in listed]
    failed += [f"{PROOFS} has a row for no edits: {row}" for row in listed if row not in rows]
    failed += [f"a public function has a precondition: {name}" for name in preconditions()]
    failed += [f"{doc} names {name}, which is not there" for doc in NAMING for name in missing_names((ROOT / doc).read_text())]
    failed += [f"{INDEX} leaves out rule {rule}" for rule in rules_left_out()] + list(faulty_names(places))
    for line in failed:
        print(f"documents: {line}", file=sys.stderr)
    if failed:
        sys.exit(1)
    print(f"documents: what {len(NAMING)} of them name is there; the wrong edits of {len(rows)} crates are listed, and all rules are;")
    print("documents: no public function has a precondition;")
    print(f"documents: of {len(places)} names of definitions and types each means one thing, and none is a word of std's Prelude")


main()
