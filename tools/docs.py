#!/usr/bin/env python3
"""Makes the tables of documents that follow from the sources, and compares what documents say with the sources.

    tools/docs.py             writes the tables
    tools/docs.py --check     tells what is not as in the sources, and ends with status 1 if something isn't

Made are, between two marks each: the table of layers in README.md, the list of the kit's crates that the program stands on there,
and the table of crates in docs/architecture.md. They come from crates.txt, from the crates' own first sentences and from their lines.
Made are also the words of docs/definitions.md: those of each row are the comments over the definitions that its first cell names, one
after another. A row of which a definition has no comment, or can't be told from another of its name, is written by hand.
So are the list of calls that wait in docs/refusals.md, and the calls in the last column of its table, by tools/calls.py.
Compared are: that each crate has its row in docs/crates.md, that the definitions of docs/definitions.md stand in specs/ or are
items of the code, that the files it names are there, that the edits, tests and examples of docs/gate.md are there, that links of
documents lead to files and headings that are there, and that what documents show of files and of calls stands in examples/. How the lines of a
document are broken is left open.
"""

import os
import re
import sys

import calls

TOP = os.path.dirname(os.path.dirname(os.path.abspath(__file__)))
TEST_LAYER = "examples and cases"


def text_of(path):
    with open(os.path.join(TOP, path), encoding="utf-8") as it:
        return it.read()


class Crates:
    """What crates.txt says: the layers with their crates, and what each crate stands on."""

    def __init__(self):
        self.layers, self.uses = [], {}
        for row in text_of("crates.txt").split("\n"):
            head = re.fullmatch(r"# ([a-z ]+): (.*)", row)
            if head:
                self.layers.append((head[1], head[2], []))
            elif row and not row.startswith("#"):
                name, uses = row.partition("#")[0].split(":")
                self.uses[name.split()[0]] = uses.split()
                self.layers[-1][2].append(name.split()[0])

    def below(self, name, found=None):
        """The crates that one stands on, and itself, the kit's too."""
        found = set() if found is None else found
        if name not in found:
            found.add(name)
            for it in self.uses.get(name, ()):
                self.below(it, found)
        return found

    def direct(self, name):
        """The crates that one stands on, but those that others of them stand on."""
        uses = self.uses[name]
        return [it for it in uses if not any(it != other and it in self.below(other) for other in uses)]

    def faults(self):
        """Crates of the program that use one of a higher layer, and crates that are listed and not there, or the other way round."""
        place = {name: number for number, (_, _, names) in enumerate(self.layers) for name in names}
        needed = self.below("erm_main")
        for name in self.uses:
            for it in self.uses[name]:
                if name in needed and it in place and place[it] < place[name]:
                    yield f"crates.txt: {name} uses {it}, which is in a higher layer"
        there = {it for it in os.listdir(os.path.join(TOP, "crates")) if os.path.isdir(os.path.join(TOP, "crates", it, "src"))}
        for name in sorted(there ^ set(self.uses)):
            yield f"crates.txt: {name} is only listed, or only there"


def root_of(name):
    """A crate's root file."""
    root = f"crates/{name}/src/lib.rt"
    return root if os.path.exists(os.path.join(TOP, root)) else f"crates/{name}/src/main.rt"


def sentence_of(name):
    """The first sentence that a crate says of itself; of one that isn't there, which is a fault, none."""
    said = []
    if not os.path.exists(os.path.join(TOP, root_of(name))):
        return ""
    for row in text_of(root_of(name)).split("\n"):
        if not row.startswith("//!"):
            break
        said.append(row[3:].strip())
    return re.match(r"(.*?)(?:\.(?: |$)|$)", " ".join(said))[1].replace("|", "\\|")


def files_of(name, folder, ending):
    for path, _, files in sorted(os.walk(os.path.join(TOP, "crates", name, folder))):
        for it in sorted(files):
            if it.endswith(ending):
                yield os.path.relpath(os.path.join(path, it), TOP)


def layers_table(crates):
    rows = ["| Layer | What it has | Crates | First file to open |", "|---|---|---|---|"]
    for layer, has, names in crates.layers:
        rows.append(f"| {layer} | {has} | {len(names)} | [{names[0]}]({root_of(names[0])}) |")
    return rows


def crates_table(crates):
    """Crates that the program doesn't stand on have a star, but those of examples."""
    needed = crates.below("erm_main")
    rows = ["| Layer | Crate | Has | Stands on |", "|---|---|---|---|"]
    for layer, _, names in crates.layers:
        for i, name in enumerate(names):
            uses = ", ".join(f"`{it}`" for it in crates.direct(name))
            mark = "" if name in needed or layer == TEST_LAYER else " *"
            rows.append(f"| {layer if i == 0 else ''} | `{name}`{mark} | {sentence_of(name)} | {uses} |")
    return rows


def kit_list(crates):
    kit = sorted(it for it in crates.below("erm_main") if it not in crates.uses)
    test = sorted({it for name in crates.uses for it in crates.below(name)} - set(crates.uses) - set(kit))
    return [f"The kit's crates in the program: {', '.join(f'`{it}`' for it in kit)}; in other crates: {', '.join(f'`{it}`' for it in test)}."]


def waits_list(crates):
    return [calls.names_of(calls.waiting(crates.uses)) + "."]


MADE = {
    "README.md": {"layers": layers_table, "kit": kit_list},
    "docs/architecture.md": {"crates": crates_table},
    "docs/refusals.md": {"waits": waits_list},
}


def made(path, crates):
    """A document with its tables as they are to be."""
    text = text_of(path)
    for mark, make in MADE[path].items():
        pattern = re.compile(rf"(<!-- {mark}: made by tools/docs.py -->\n).*?(<!-- end -->)", re.S)
        if not pattern.search(text):
            sys.exit(f"{path}: the marks of {mark} are gone")
        text = pattern.sub(lambda it: it[1] + "\n".join([*make(crates), ""]) + it[2], text)
    return text


def refusals_made(text, crates):
    """The document of refusals with its last column as it is to be."""
    by_type, rows = calls.refusals(crates.uses), []
    for row in text.split("\n"):
        cells = row.split(" | ")
        if row.startswith("| `") and len(cells) == 4:
            kinds = re.findall(r"`([\w:]+)`", cells[0])
            cells[3] = calls.cell_of([it for kind in kinds for it in by_type.get(kind, ())]) + " |"
            row = " | ".join(cells)
        rows.append(row)
    return "\n".join(rows)


def refusals_faults(crates):
    """Types by which public calls refuse and that docs/refusals.md has no row of, and the other way round."""
    told = {kind for row in text_of("docs/refusals.md").split("\n") if row.startswith("| `") for kind in re.findall(r"`([\w:]+)`", row.split(" | ")[0])}
    for kind in sorted(told ^ set(calls.refusals(crates.uses))):
        yield f"docs/refusals.md: {kind} has no row, or no call answers it"


def plain(text):
    """A text with no regard to how its lines are broken."""
    return " ".join(text.split())


def defined(crates):
    """The words that specs/, proofs/ and the code define."""
    found = set()
    word = r"[^\s(){}:;,.]+"
    for name in crates.uses:
        for path in [*files_of(name, "specs", ".antt"), *files_of(name, "proofs", ".antt")]:
            text = text_of(path)
            found.update(re.findall(rf"^(?:unfoldable |abbrev )?(?:pub )?(?:record |data |mod )?({word}) ?.*? ?:", text, re.M))
            found.update(re.findall(rf"^(?:unfoldable|abbrev|record|data)(?: pub)?(?: record| data)? ({word})", text, re.M))
            found.update(re.findall(rf"\bpub ({word})", text))
            found.add(os.path.basename(path)[:-5])
        for path in files_of(name, "src", ".rt"):
            text = text_of(path)
            found.update(re.findall(r"\b(?:fn|struct|enum|trait|const|type|mod|ghost) ([A-Za-z_][A-Za-z0-9_]*)", text))
            found.update(re.findall(r"^\s*([A-Za-z_][A-Za-z0-9_]*)(?:,| \{|\(|:)", text, re.M))
    return found


def comment_over(rows, at, mark):
    """The lines of a comment that ends over a line, as one text."""
    first = at
    while first > 0 and rows[first - 1].lstrip().startswith(mark):
        first -= 1
    return " ".join(it.lstrip()[len(mark) :].strip() for it in rows[first:at])


def comments_of(crates):
    """By the name of each definition in specs/, and of each type in src/: the files that have one, each with the comment over it."""
    found = {}
    word = r"([^\s(){}:;,]+)"
    kinds = {
        ("specs", ".antt", "--"): re.compile(rf"(?:unfoldable |abbrev |record |data |pub )+{word}.*? :"),
        ("src", ".rt", "///"): re.compile(r"\s*pub (?:struct|enum|trait|fn|const|type) (\w+)"),
    }
    for name in crates.uses:
        for (folder, ending, mark), pattern in kinds.items():
            for path in files_of(name, folder, ending):
                rows = [it for it in text_of(path).split("\n") if not it.lstrip().startswith("#[")]
                for at, row in enumerate(rows):
                    head = pattern.match(row)
                    if head:
                        found.setdefault(head[1], []).append((path, comment_over(rows, at, mark)))
    return found


def sentence(text):
    """A comment as a sentence of a table's cell."""
    text = text[:1].upper() + text[1:]
    return (text if text.endswith((".", ":")) else f"{text}.").replace("|", "\\|")


def words_of(names, files, places, comments):
    """The words of a row: the comment of each name, in the file that the row names or else in a crate of its section; none if one lacks."""
    told = []
    for name in names:
        bare = name.split("(")[0].split(".")[-1].split("::")[-1]
        there = comments.get(bare, ())
        near = [it for it in there if any(it[0].endswith(f"/{file}") for file in files) and any(it[0].startswith(f"crates/{at}/") for at in places)]
        near = near or [it for it in there if any(it[0].startswith(f"crates/{at}/") for at in places)] or there
        if len({it[1] for it in near}) != 1 or not near[0][1]:
            return None
        told.append(sentence(near[0][1]))
    return " ".join(told) if told else None


def definitions_made(crates):
    """The document of definitions with its words as they are to be."""
    comments, places, rows = comments_of(crates), [], []
    for row in text_of("docs/definitions.md").split("\n"):
        if row.startswith("## "):
            places = re.findall(r"`(erm_[a-z_]+)", row)
        cells = re.split(r"(?<!\\) \| ", row.removesuffix(" |"))
        if row.startswith("| `") and len(cells) > 1:
            files = re.findall(r"((?:specs|src)/[A-Za-z0-9_/]+\.(?:antt|rt))", " ".join(cells[2:]))
            near = [*places, *re.findall(r"(erm_[a-z_]+)/(?:specs|src)/", " ".join(cells[2:]))]
            told = words_of(re.findall(r"`([^`]+)`", cells[0]), files, near, comments)
            cells[1] = told or cells[1]
            row = " | ".join(cells) + (" |" if row.endswith(" |") else "")
        rows.append(row)
    return "\n".join(rows)


def definitions_faults(crates):
    """Words of definitions.md that are nowhere defined, and files that aren't there."""
    known = defined(crates)
    specs = {os.path.basename(path) for name in crates.uses for path in files_of(name, "specs", ".antt")}
    for row in text_of("docs/definitions.md").split("\n"):
        cells = row.split(" | ")
        if not row.startswith("| ") or cells[0] == "| Definition":
            continue
        for it in re.findall(r"`([^` ]+)`", cells[0]):  # the texts of answers have spaces
            bare = it.split("(")[0].split(".")[-1].split("::")[-1]
            if re.fullmatch(r"[A-Za-z_][A-Za-z0-9_]*", bare) and bare not in known:
                yield f"docs/definitions.md: {it} is defined nowhere"
        for it in re.findall(r"specs/([A-Za-z0-9_/]+\.antt)", row):
            if os.path.basename(it) not in specs:
                yield f"docs/definitions.md: there is no specs/{it}"


def contracts_faults(crates):
    """Crates of which docs/crates.md has nothing to say."""
    text = text_of("docs/crates.md")
    for name in crates.uses:
        if f"`{name}`" not in text:
            yield f"docs/crates.md: nothing is said of {name}"
    for it in sorted(set(re.findall(r"`(erm_[a-z_]+)`", text)) - set(crates.uses)):
        yield f"docs/crates.md: there is no crate {it}"


def gate_faults(crates):
    """Edits, tests and examples that docs/gate.md names and that aren't there, and a count of edits that isn't theirs."""
    text = text_of("docs/gate.md")
    edits = {f"{name}/{os.path.basename(it)[:-5]}" for name in crates.uses for it in files_of(name, "must-fail", ".edit")}
    examples = {os.path.basename(it).partition(".")[0] for it in files_of("erm_examples", "data", "")}
    known = edits | examples | set(crates.uses) | defined(crates)
    for it in sorted(set(re.findall(r"`([a-z0-9]+_[a-z0-9_]+(?:/[a-z0-9_]+)?)`", text)) - known):
        yield f"docs/gate.md: there is no {it}"
    said = f"There are {len(edits)} edits, in {len({it.split('/')[0] for it in edits})} crates"
    if said not in text:
        yield f"docs/gate.md: not said: {said}"


def anchors_of(path):
    heads = re.findall(r"^#+ (.*)$", re.sub(r"^```.*?^```", "", text_of(path), flags=re.S | re.M), re.M)
    return {re.sub(r"[^a-z0-9 _-]", "", it.lower()).replace(" ", "-") for it in heads}


def links_faults():
    """Links of documents that lead nowhere."""
    papers = ["README.md", "CHANGELOG.md", "examples/README.md"]
    papers += [f"docs/{it}" for it in sorted(os.listdir(os.path.join(TOP, "docs"))) if it.endswith(".md")]
    for paper in papers:
        if not os.path.exists(os.path.join(TOP, paper)):
            continue
        for link in re.findall(r"\]\(([^)\s]+)\)", text_of(paper)):
            path, _, anchor = link.partition("#")
            if "://" in link:
                continue
            to = os.path.normpath(os.path.join(os.path.dirname(paper), path)) if path else paper
            if not os.path.exists(os.path.join(TOP, to)):
                yield f"{paper}: {link} leads nowhere"
            elif anchor and to.endswith(".md") and anchor not in anchors_of(to):
                yield f"{paper}: {link}: there is no such heading"


def shown(paper):
    """What a document shows behind a command: the line of the command, the command, and the lines behind it."""
    found = []
    for number, row in enumerate(text_of(paper).split("\n"), 1):
        if row.startswith("    $ "):
            found.append((number, row[6:].removeprefix("./"), []))
        elif row.startswith("    ") and found and number == found[-1][0] + len(found[-1][2]) + 1:
            found[-1][2].append(row[4:])
    return found


def examples_faults():
    """What documents show that isn't so: a file, what a script of examples/ prints, and other lines of the program that no example prints."""
    outs = [it for it in os.listdir(os.path.join(TOP, "examples")) if it.endswith(".out")]
    printed = {row for it in outs for row in text_of(f"examples/{it}").split("\n")}
    for paper in ("README.md", "docs/tour.md"):
        for number, command, rows in shown(paper):
            whole = re.fullmatch(r"(?:cat|erm run <) (examples/[a-z_]+)\.erm", command)
            if whole:
                true = rows == text_of(f"{whole[1]}.{'erm' if command.startswith('cat') else 'out'}").rstrip("\n").split("\n")
            else:
                true = not re.match("erm (?:run|recover|audit|ship)", command) or set(rows) <= printed | {"..."}
            if not true:
                yield f"{paper}:{number}: {command} doesn't show that"


def main(words):
    crates = Crates()
    faults = [*crates.faults()]
    texts = {path: made(path, crates) for path in MADE}
    texts["docs/definitions.md"] = definitions_made(crates)
    texts["docs/refusals.md"] = refusals_made(texts["docs/refusals.md"], crates)
    for path, text in texts.items():
        if "--check" not in words:
            with open(os.path.join(TOP, path), "w", encoding="utf-8") as it:
                it.write(text)
        elif plain(text) != plain(text_of(path)):
            faults.append(f"{path}: a table isn't as tools/docs.py makes it")
    faults += [*definitions_faults(crates), *contracts_faults(crates), *refusals_faults(crates), *gate_faults(crates), *links_faults(), *examples_faults()]
    for it in faults:
        print(it)
    print(f"documents: {len(faults)} not as in the sources")
    return 1 if faults else 0


if __name__ == "__main__":
    sys.exit(main(sys.argv[1:]))
