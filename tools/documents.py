#!/usr/bin/env python3
"""Compares the documents with the sources, without a build: documents.py.

The codes of docs/FAULTS.md are those of `FaultCode`, in its order and with its words. Commands, options, limits and exit statuses of
the manual, and those of README, are the program's. The columns of FAULTS are those of the help. README and PROOFS state one
theorem, and PROOFS and the README of each crate name calls and clauses that there are. The choice of a recipe stands in REPAIR, and where README or the manual
repeat it, they do so word for word. Each section of a list is there, and each link leads somewhere. No document is longer than it may
be, and no line of specs or of a proof is wider than 160 columns. What fails is printed, and then the status is 1.
"""

import glob
import os
import re
import sys

TOP = os.path.dirname(os.path.dirname(os.path.abspath(__file__)))
WORDS = {"README.md": 1800}
ALL_WORDS = 38844
WIDTH = 160
# Sections that have to be there: what a reader acts on, and what a length must not take away.
SECTIONS = {
    "README.md": ["One damaged spot, many faults", "Install", "Usage", "What `ok` means", "A database in use", "A damaged database",
                  "Many databases", "Why to believe it", "Documents"],
    "CONTRIBUTING.md": ["Report a bug", "What is where", "Prove one crate", "Before a push", "Commits", "Read a goal that fails",
                        "Run a test, or the program on a file", "Try an edit", "Words"],
    "docs/DECISIONS.md": ["What is reported", "The program", "Names and forms"],
    "docs/DESIGN.md": ["Overview", "To add a fault", "To add a command", "To add a column to `stat`", "Decisions", "Limits of the tools", "The gate"],
    "docs/FAULTS.md": ["Fault lines", "Last lines of `check`", "Lines of `explain`", "Lines of `mend`", "The picture of `map`", "Rows of `stat`", "Shown names"],
    "docs/PROOFS.md": ["The theorem for every source", "Premises", "Which call promises what", "Tested, read, assumed"],
    "docs/SQLITE.md": ["The runs", "What the words mean", "What came of them", "Refused by dbck", "Faults by dbck alone",
                       "Faults by SQLite alone", "What quick_check says", "What the gate compares"],
    "docs/dbck.1": ["NAME", "SYNOPSIS", "DESCRIPTION", "A database beside its log", "Fault codes", "What to do about a fault",
                    "Signs of what happened", "EXIT STATUS", "EXAMPLES", "DIAGNOSTICS", "SEE ALSO", "CAVEATS"],
}
# Words in PROOFS and the crates' READMEs that look like names and are none of the sources.
OTHER_NAMES = {"rt", "plant", "FILE", "main", "stdin", "stdout", "drawn_pages"}

failed = []


def text_of(path):
    with open(os.path.join(TOP, path), encoding="utf-8") as it:
        return it.read()


def paths(pattern):
    found = glob.glob(os.path.join(TOP, pattern), recursive=True)
    return sorted(os.path.relpath(path, TOP) for path in found if "/out/" not in path)


def compare(what, there, here):
    """Says where two lists differ, of the program and of a document."""
    if there != here:
        failed.append(f"{what}:")
        failed.extend(f"    not in the document, or not in this place: {it}" for it in there if it not in here)
        failed.extend(f"    not in the program: {it}" for it in here if it not in there)
        if sorted(map(str, there)) == sorted(map(str, here)):
            failed.append("    the order differs")


def codes():
    """The codes, by the enum, by their texts, and by the table of FAULTS."""
    enum = re.search(r"pub enum FaultCode \{(.*?)\n\}", text_of("crates/dbformat/src/lib.rt"), re.S)[1]
    texts = text_of("crates/dblines/src/codes.rt").split("pub fn code_words")
    spelled = dict(re.findall(r'FaultCode::(\w+) => "([^"]*)"', texts[0]))
    words = dict(re.findall(r'FaultCode::(\w+) => "([^"]*)"', texts[1]))
    program = [(spelled.get(name, name), words.get(name, "")) for name in re.findall(r"^    (\w+),$", enum, re.M)]
    rows = re.findall(r"^\| ([A-Z]\d\d) \|.*\| `([^`]*)` \|$", text_of("docs/FAULTS.md"), re.M)
    compare("docs/FAULTS.md, the codes and their words", program, rows)


def plain(manual):
    """The text of a piece of the manual, on one line."""
    manual = re.sub(r"^\.Nm$", "dbck", manual, flags=re.M)
    return " ".join(re.sub(r"^\.\w+ ?", "", manual, flags=re.M).split())


def statuses():
    text = re.search(r'STATUSES: &str = "(.*?)";', text_of("crates/dbcli/src/help.rt"), re.S)[1]
    program = re.findall(r"^  (\d)  (.*)$", text, re.M)
    manual = re.search(r"^\.Sh EXIT STATUS\n\.Bl .*?\n(.*?)^\.El", text_of("docs/dbck.1"), re.S | re.M)[1]
    compare("docs/dbck.1, the statuses", program, [(it[0], plain(it[1:])) for it in re.split(r"^\.It ", manual, flags=re.M)[1:]])
    compare("README.md, the statuses", program, re.findall(r"^\| (\d) \| (.*?) \|$", text_of("README.md"), re.M))


def usage():
    """Commands with their options, by the functions that make them."""
    source = text_of("crates/dbcli/src/arguments.rt")
    bodies = dict(re.findall(r"^(?:pub\(crate\) )?fn (\w+)<.*?\n\{\n(.*?)^\}", source, re.M | re.S))
    names = re.findall(r"with_command\(command, (\w+)_command\(", bodies["dbck_command"])
    program = []
    for name in names:
        body = bodies[f"{name}_command"]
        flags = re.findall(r'flag_arg\(\s*alloc,\s*"(\w+)"', body)
        limit = ["limit N"] if "limited_command(" in body or "limit_arg(" in body else []
        for helper in ("limited_command", "with_file"):
            if f"{helper}(" in body:
                body += bodies[helper]
        log = ["recovered"] if "recovered_arg(" in body else []
        changes = ["with OFFSET=HEX"] if "changes_arg(" in body else []
        progress = ["no-progress"] if "no_progress_arg(" in body else []
        program.append((name, limit + flags + log + changes + progress))
    synopsis = re.search(r"^\.Sh SYNOPSIS\n(.*?)^\.Sh", text_of("docs/dbck.1"), re.S | re.M)[1]
    manual = []
    for part in re.findall(r"^\.Nm\n\.Cm (\w+)\n(.*?)\.Ar FILE", synopsis, re.M | re.S):
        options = re.findall(r"^\.Op Fl Fl (\S.*)$", part[1], re.M)
        manual.append((part[0], [it.replace(" Ns = Ns Ar ", "=").replace(" Ar ", " ") for it in options]))
    compare("docs/dbck.1, the synopsis", program, manual)
    lines = re.findall(r"^    dbck (\w+) (.*?)FILE ", text_of("README.md").split("## Usage")[1], re.M)
    readme = [(name, re.findall(r"\[--([^]]*)\]", options)) for name, options in lines]
    compare("README.md, the usage", [(name, [it for it in options if it != "no-progress"]) for name, options in program], readme)
    most = [re.search(rf"const {name}: u32 = (\d+);", source)[1] for name in ("MOST_SHOWN", "MOST_EXPLAINED", "MOST_CHANGED")]
    for path in ("README.md", "docs/dbck.1"):
        for number in most:
            if number not in text_of(path):
                failed.append(f"{path}: the limit {number} is not there")


def columns():
    text = re.search(r'STAT_EXAMPLES: &str = "(.*?)";', text_of("crates/dbcli/src/help.rt"), re.S)[1]
    program = re.search(r"^  (name .*)$", text, re.M)[1].split()
    table = text_of("docs/FAULTS.md").split("| Column |")[1].split("\n\n")[0]
    compare("docs/FAULTS.md, the columns", program, re.findall(r"^\| (\w+) \|", table, re.M))


def theorem():
    quotes = []
    for path in ("README.md", "docs/PROOFS.md"):
        lines = re.search(r"(?:^> .*\n)+", text_of(path), re.M)[0]
        quotes.append(" ".join(lines.replace("> ", "").split()))
    if quotes[0] != quotes[1]:
        failed.append("README.md and docs/PROOFS.md state two theorems")


def crate_pages():
    """The README of each crate."""
    return paths("crates/*/README.md")


def crates():
    """Each crate has a README, which says what the crate is for and which calls it has."""
    for name in re.findall(r"^(\w+):", text_of("crates.txt"), re.M):
        path = f"crates/{name}/README.md"
        if path not in crate_pages():
            failed.append(f"{path} is not there")
        elif not text_of(path).startswith(f"# {name}\n\n"):
            failed.append(f"{path} does not begin with its name")


def clauses():
    """The names in PROOFS and in the README of each crate: each is one of the sources, and a clause one of its call."""
    sources = "".join(text_of(path) for pattern in ("crates/*/src/**/*.rt", "crates/*/specs/**/*.antt", "crates/*/proofs/**/*.antt")
                      for path in paths(pattern))
    names = set(re.findall(r"\w+", sources)) | set(re.findall(r"^\w+", text_of("crates.txt"), re.M)) | OTHER_NAMES
    heads = {}
    for path in paths("crates/*/src/**/*.rt"):
        for name, head in re.findall(r"\bfn (\w+)\b(.*?)(?:^\s*\{$|\{\}$|;$|\{$)", text_of(path), re.M | re.S):
            heads.setdefault(name, set()).update(re.findall(r"^\s*(?:ensures|requires) (\w+) ", head, re.M))
    for path in ["docs/PROOFS.md", *crate_pages()]:
        for quoted in re.findall(r"`([^`\n]+)`", text_of(path)):
            if os.path.exists(os.path.join(TOP, quoted)) or os.path.exists(os.path.join(TOP, os.path.dirname(path), quoted)):
                continue
            for word in re.findall(r"[A-Za-z]\w+", quoted):
                if word not in names and not re.fullmatch(r"[0-9a-f]{16}", word):
                    failed.append(f"{path}: `{quoted}`: {word} is not in the sources")
            clause = re.fullmatch(r"(?:\w+::)*(\w+): (\w+)", quoted)
            if clause and clause[2] not in heads.get(clause[1], ()):
                failed.append(f"{path}: `{quoted}`: there is no such clause")


def links():
    for path in ["README.md", "CONTRIBUTING.md", *paths("docs/*.md"), *paths("*/README.md"), *crate_pages()]:
        for link in re.findall(r"\]\(([^)#:]+)\)", text_of(path)):
            if not os.path.exists(os.path.join(TOP, os.path.dirname(path), link)):
                failed.append(f"{path}: {link} is not there")
    page = text_of("docs/dbck.1")
    heads = set(re.findall(r"^\.S[hs] (.*)$", page, re.M))
    for head in re.findall(r"^\.Sx (.*?)(?: [.,;])?$", page, re.M):
        if head not in heads:
            failed.append(f"docs/dbck.1: there is no section {head}")


def table_of(text):
    """The rows of the first table of a text, but for the line below its head."""
    rows = re.search(r"(?:^\|.*\n)+", text, re.M)
    return [row for row in rows[0].splitlines() if not re.fullmatch(r"[|-]+", row)] if rows else []


def choice():
    """The choice of a recipe for a damaged database, which REPAIR has. README repeats it or refers to it; the manual refers to it, and has
    none of its conditions. Each recipe that it names has a heading there, and a name in tests/repair.py."""
    repair = text_of("docs/REPAIR.md")
    rows = table_of(repair.split("## Which recipe\n")[1])
    readme = text_of("README.md").split("## A damaged database\n")[1].split("\n## ")[0]
    if table_of(readme) and table_of(readme) != rows:
        failed.append("README.md, the choice of a recipe is not that of docs/REPAIR.md:")
        failed.extend(f"    {row}" for row in table_of(readme) if row not in rows)
    page = re.search(r"^\.S[sh] What to do about a fault\n(.*?)^\.S[sh] ", text_of("docs/dbck.1"), re.M | re.S)[1].split("\nWhat SQLite can no longer reach")[0]
    for path, text in ("README.md", readme), ("docs/dbck.1", page):
        if "REPAIR.md" not in text:
            failed.append(f"{path}: what it says of a damaged database does not name REPAIR.md")
    for condition in sorted({"without a fault", *re.findall(r"\b[A-Z]\d\d\b|looks like|in sqlite_schema|root of table", "".join(rows))}):
        if condition in plain(page):
            failed.append(f"docs/dbck.1: the choice of a recipe is that of docs/REPAIR.md, and is not repeated: {condition}")
    test = text_of("tests/repair.py")
    for recipe in re.findall(r"\*([^*]+)\*", "".join(row.split("|")[2] for row in rows[1:])):
        if f"\n### {recipe}\n" not in repair or f'"{recipe}"' not in test:
            failed.append(f"docs/REPAIR.md: the recipe {recipe} has no heading, or tests/repair.py does not know it")


def sections():
    for path, wanted in SECTIONS.items():
        heads = re.findall(r"^(?:##+|\.S[hs]) (.*)$", text_of(path), re.M)
        failed.extend(f"{path}: the section {head} is not there" for head in wanted if head not in heads)


def lengths():
    documents = ["README.md", "CONTRIBUTING.md", "CHANGELOG.md", "docs/dbck.1", *paths("docs/*.md"), *crate_pages()]
    count = {path: len(text_of(path).split()) for path in documents}
    for path, most in WORDS.items():
        if count[path] > most:
            failed.append(f"{path}: {count[path]} words, of at most {most}")
    if sum(count.values()) > ALL_WORDS:
        failed.append(f"all documents: {sum(count.values())} words, of at most {ALL_WORDS}")


def widths():
    for path in [*paths("crates/*/specs/**/*.antt"), *paths("crates/*/proofs/**/*.antt")]:
        wide = [number for number, line in enumerate(text_of(path).splitlines(), 1) if len(line) > WIDTH]
        if wide:
            failed.append(f"{path}: {len(wide)} lines are wider than {WIDTH} columns, the first is {wide[0]}")


def main():
    if sys.argv[1:]:
        sys.exit(__doc__)
    for check in (codes, statuses, usage, columns, theorem, crates, clauses, choice, sections, links, lengths, widths):
        check()
    print("\n".join(failed) if failed else "the documents are as the sources")
    sys.exit(1 if failed else 0)


if __name__ == "__main__":
    main()
