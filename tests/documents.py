"""The documents name what is there: each path; each name that has its file in brackets, defined in that file; docs/PROMISES.md has every public function of a
library, and in the section of a crate its must-fail edits, and nothing else as ruled out."""

import pathlib
import re
import sys

DOCUMENTS = ["README.md", "CHANGELOG.md", *(str(path) for path in sorted(pathlib.Path("docs").rglob("*.md")))]
CRATES = pathlib.Path("crates")
texts = {name: pathlib.Path(name).read_text() for name in DOCUMENTS}
faults = []


def edits_of(crate):
    return {path.stem for path in (CRATES / crate / "must-fail").glob("*.edit")}


def functions_of(crate):
    """The public functions and methods of a library; a program has none."""
    if not (CRATES / crate / "src/lib.rt").exists():
        return set()
    sources = [path.read_text() for path in (CRATES / crate / "src").glob("*.rt")]
    return {name for source in sources for name in re.findall(r"^\s*pub (?:extern \"C\" )?fn (\w+)", source, re.M)}


def is_defined(name, source):
    """By a line that begins with the name, or a clause of a definition by that case, as `most GasLimits = ..`."""
    word = re.escape(name)
    return re.search(rf"^\s*(?:pub |abbrev |unfoldable |data |record |ruleset |const |fn |let )*{word}(?![\w-])|^\w+ {word} =", source, re.M)


# Paths, but for what the kit builds in a crate's out/ and those with NAME, FUNCTION or LABEL for any name. Behind a crate's name, as in "elements, src/lib.rt", a
# path lies in that crate. In docs/PROMISES.md those of a section's crates are looked at below.
for document, text in texts.items():
    text = re.sub(r"\b(\w+), (?=(?:specs|proofs|src)/)", lambda crate: f"crates/{crate[1]}/" if (CRATES / crate[1]).exists() else crate[0], text)
    for path in re.findall(r"(?<![\w./])(?:crates|docs|tests|include|specs|proofs|src)/[\w./+-]*\w", text):
        if re.search(r"NAME|FUNCTION|LABEL|/out/", path) or (document == "docs/PROMISES.md" and not path.startswith(("crates/", "docs/", "tests/"))):
            continue
        if not pathlib.Path(path).exists():
            faults.append(f"{document}: {path} does not exist")

# What is named with its file, as `name` (crates/FILE) or (`name`, crates/FILE), is defined there, but for pages of what was changed once, whose names are of that
# time. A file that is not there is told above.
for document, text in texts.items():
    if document == "docs/PORT.md" or document.startswith("docs/changes/"):
        continue
    named = re.findall(r"((?:`[^`\s]+`(?:,| at| and)?\s+)+)\((crates/[\w/.]+)\)", text) + re.findall(r"\((`[^`\s]+`),\s+(crates/[\w/.]+)\)", text)
    for names, file in named:
        if not pathlib.Path(file).is_file():
            continue
        for name in re.findall(r"`([^`]+)`", names):
            if not is_defined(name, pathlib.Path(file).read_text()):
                faults.append(f"{document}: {name} is not defined in {file}")

all_edits = {edit for crate in CRATES.iterdir() for edit in edits_of(crate.name)}
all_functions = {function for crate in CRATES.iterdir() for function in functions_of(crate.name)}
faults += [f"docs/PROMISES.md does not name {function}" for function in sorted(all_functions) if not re.search(rf"`(?:\w+::)?{function}`", texts["docs/PROMISES.md"])]
seen = set()
for heading, section in re.findall(r"^## (.*?)\n(.*?)(?=^## |\Z)", texts["docs/PROMISES.md"], re.M | re.S):
    crates = heading.split(", ")
    seen |= set(crates)
    for crate in crates:
        faults += [f"docs/PROMISES.md, {heading}: {edit} of {crate} is not named" for edit in sorted(edits_of(crate)) if f"`{edit}`" not in section]
    for path in re.findall(r"(?<![\w./])(?:specs|proofs|src)/[\w./+-]*\w", section):
        if not any((CRATES / crate / path).exists() for crate in crates):
            faults.append(f"docs/PROMISES.md, {heading}: {path} does not exist")
    for ruled_out in re.findall(r"Rules? out:? (.*?)(?=\n\n|\n-|\n#)", section, re.S):
        named = set(re.findall(r"`([a-z0-9]+(?:_[a-z0-9]+)+)`", ruled_out))
        faults += [f"docs/PROMISES.md, {heading}: {name} is no edit" for name in sorted(named - all_edits - all_functions)]
missing = {crate.name for crate in CRATES.iterdir() if edits_of(crate.name) | functions_of(crate.name)} - seen
faults += [f"docs/PROMISES.md has no section for {crate}" for crate in sorted(missing)]

for fault in faults:
    print(f"tests/documents.py: {fault}", file=sys.stderr)
print(f"tests/documents.py: {sum(len(edits_of(crate.name)) for crate in CRATES.iterdir())} edits, {len(all_functions)} public functions, {len(faults)} faults")
sys.exit(faults != [])
