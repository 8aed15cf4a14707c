#!/usr/bin/env python3
"""Checks what the texts of this repository say of it: that what they name is there, in the place that they tell.

Prints what is wrong and ends with status 1, or else prints how many checks passed. It builds nothing. sources.py beside
this file reads the crates.
"""
import glob
import os
import re
import sys

sys.dont_write_bytecode = True
os.chdir(os.path.join(os.path.dirname(os.path.abspath(__file__)), ".."))

from sources import Sources, read  # noqa: E402

ROOTS = ("examples", "docs", "tools", "bench", "checks", "crates")
SUFFIXES = (".md", ".sh", ".py", ".antt", ".rt")
OF_AN_EXAMPLE = (".json", ".pcap", ".txt", ".sha256")
# The most columns of a line of prose. These two files had longer ones; no line of theirs may become longer still.
COLUMNS = {"docs/FORMATS.md": 177, "docs/DECISIONS.md": 213}
# Decisions that stand behind one with a higher number in their section.
OUT_OF_ORDER = {23, 63}


def texts():
    found = ["README.md", "CHANGELOG.md"]
    for folder in ("docs", "crates/*", "examples", "examples/*", "tools", "bench"):
        found += sorted(glob.glob(f"{folder}/*.md"))
    return found


def ticks(text):
    return re.findall(r"`([^`]+)`", text)


def rows(path, heading=None):
    """The cells of each table row of a text with the number of its line; of one section, where its heading is named."""
    section = ""
    for number, line in enumerate(read(path).split("\n"), 1):
        if line.startswith("#"):
            section = line.lstrip("# ")
        if line.startswith("|") and not line.startswith("|---") and heading in (None, section):
            yield number, [cell.strip().replace("\\|", "|") for cell in re.split(r"(?<!\\)\|", line)[1:-1]]


def words_of(name):
    """The words of a name: `Plan.kept` and `laws::one_cause` have two each."""
    return [word for word in re.split(r"[.:]+", name) if word]


# Links and paths


def anchors(path):
    heads = re.findall(r"^#+ (.*)$", read(path), re.M)
    return {re.sub(r"[^\w -]", "", head.lower()).replace(" ", "-") for head in heads}


def links():
    for path in texts():
        for target in re.findall(r"\]\(([^)\s]+)\)", read(path)):
            if "://" in target:
                continue
            name, _, anchor = target.partition("#")
            file = os.path.normpath(os.path.join(os.path.dirname(path), name)) if name else path
            if not os.path.exists(file):
                yield f"{path}: {target} is not there"
            elif anchor and anchor not in anchors(file):
                yield f"{path}: {target} has no such heading"


def is_path(token):
    """Whether a word is meant as a path of this repository. One with a part in capitals, as NAME, stands for many."""
    if not re.fullmatch(r"(\.\./)*[\w*-][\w.*-]*(/[\w.*-]+)*/?", token):
        return False
    parts = token.strip("/").split("/")
    if re.fullmatch(r"[\d.]+", parts[0]) or "out" in parts:
        return False
    if any(re.fullmatch(r"[A-Z]{2,}(\.(?!md$).*)?|NN-name", part) for part in parts):
        return False
    return len(parts) > 1 or token.endswith(SUFFIXES)


def named_paths(path):
    """What a text names: each word below a folder of the top, and each word in backticks that is a path."""
    text = read(path)
    pattern = r"(?<![\w/.-])(?:%s)/[\w./*-]*[\w*/]" % "|".join(ROOTS)
    found = {word for word in re.findall(pattern, text) if is_path(word)}
    found |= {token for token in ticks(re.sub(r"```.*?```", "", text, flags=re.S)) if is_path(token)}
    if re.fullmatch(r"examples/[^/]+/README.md", path):
        found |= {token for token in ticks(text) if token.endswith(OF_AN_EXAMPLE) and re.fullmatch(r"[\w.-]+", token)}
    return sorted(found)


def stands(token, folder, everything):
    """Whether a path is there: seen from the text, the top, crates/ or some crate, or as the name of any file."""
    token = token.rstrip("/")
    for base in (folder, ".", "crates", "crates/*", "crates/*/specs", "crates/*/proofs", "crates/*/src"):
        where = os.path.normpath(os.path.join(base, token))
        if glob.glob(where) or glob.glob(where + ".antt"):
            return True
    return token.endswith(SUFFIXES) and token in everything


def paths():
    everything = set()
    for top, folders, files in os.walk("."):
        folders[:] = [folder for folder in folders if folder not in (".git", "out")]
        everything.update(files)
    for path in texts():
        for token in named_paths(path):
            if not stands(token, os.path.dirname(path), everything):
                yield f"{path}: {token} is not there"


def targets():
    known = set(re.findall(r"^([a-z]+):", read("Makefile"), re.M))
    for path in texts() + ["docs/onvm.1"]:
        for name in re.findall(r"`make ([a-z]+)", read(path)):
            if name not in known:
                yield f"{path}: there is no make {name}"


# What is proved


def promises():
    """The rows of docs/PROOF_STATUS.md and README.md that name functions: where they are, cells and crates."""
    for number, cells in rows("docs/PROOF_STATUS.md"):
        if len(cells) == 5 and cells[0] != "Promise":
            crates = [name.strip() for name in cells[2].split(",") if name.strip() not in ("", "all")]
            yield f"line {number}", cells, crates
    for number, cells in rows("README.md", "What is proved"):
        crates = re.findall(r"\(`(\w+)`\)", cells[1])
        yield f"README.md, line {number}", [cells[0], re.sub(r"\(`\w+`\)", "", cells[1]), "", "", "proved"], crates


def proof_rows():
    for where, cells, crates in promises():
        for crate in crates:
            if crate not in sources.below:
                yield f"{where}: there is no crate {crate}"
        if not re.match(r"proved|tested|measured|open|by their signatures", cells[4]):
            yield f"{where}: the state {cells[4]}"


def names():
    """Each name of the second column is declared in the row's crates; a definition may stand below them."""
    for where, cells, crates in promises():
        for token in ticks(cells[1]):
            if "/" in token or " " in token or "*" in token or ".." in token:
                continue
            for word in words_of(token):
                if not sources.declares(crates or list(sources.below), word):
                    yield f"{where}: {word} of {token} is not in {', '.join(crates)}"


def clauses():
    """In `CLAUSE`, .. of `FUNCTION`, .. each of the first stands in the contract of one of the second."""
    for where, cells, crates in promises():
        for part in cells[1].split(";"):
            left, of, right = part.partition(" of ")
            holders = ticks(right)
            if not of or not holders:
                continue
            known = sources.contracts(crates or list(sources.below), holders)
            for token in ticks(left):
                word = words_of(token)[-1]
                if "/" not in token and not re.search(rf"\b{word}\b", known):
                    yield f"{where}: {word} stands in no contract of {', '.join(holders)}"


def edits():
    """The edits that a row names are there, in its crates or those in brackets; and each edit is named by some row."""
    named = set()
    for where, cells, crates in promises():
        for token in ticks(cells[3]):
            homes = crates + re.findall(r"\((\w+)\)", cells[3])
            named |= {(home, token) for home in homes}
            if not any(token in sources.edits(home) or sources.declares([home], token) for home in homes):
                yield f"{where}: there is no edit {token}"
    for crate in sources.below:
        for edit in sorted(sources.edits(crate)):
            if (crate, edit) not in named:
                yield f"{crate}: no row names the edit {edit}"


def wrong_bodies():
    for number, cells in rows("docs/PROOF_STATUS.md", "Wrong bodies"):
        for part in cells[1].split("(")[:-1] if "test" not in cells[1] else []:
            for token in ticks(part):
                if not any(token in sources.edits(crate) for crate in sources.below):
                    yield f"line {number}: there is no edit {token}"


# Crates and examples


def crates():
    folders = {os.path.basename(os.path.dirname(path)) for path in glob.glob("crates/*/src")}
    for name in sorted(folders ^ set(sources.below)):
        yield f"crates.txt and crates/ differ by {name}"
    architecture = read("docs/ARCHITECTURE.md")
    each = " ".join(cells[0] for _, cells in rows("docs/PROOF_STATUS.md", "Each crate"))
    heads = re.findall(r"^## (.*)$", read("docs/PROOF_STATUS.md"), re.M)
    for number, cells in rows("docs/PROOF_STATUS.md", "Each crate"):
        for section in cells[2].split("; ") if "`" in cells[0] and "`" not in cells[2] else ():
            if section not in heads:
                yield f"docs/PROOF_STATUS.md, line {number}: there is no section {section}"
    for name in sources.below:
        if f"**{name}**" not in architecture:
            yield f"docs/ARCHITECTURE.md has no paragraph on {name}"
        if f"`{name}`" not in each:
            yield f"docs/PROOF_STATUS.md, Each crate: {name} is not there"


def readmes():
    for name in sources.below:
        path = f"crates/{name}/README.md"
        lines = read(path).count("\n") if os.path.exists(path) else 0
        if not 15 <= lines <= 40:
            yield f"{path} has {lines} lines"


def examples():
    firsts = " ".join(cells[0] for _, cells in rows("examples/README.md"))
    listed = re.findall(r"\]\(([^)/]+)/README.md\)", firsts)
    there = sorted(os.path.basename(folder[:-1]) for folder in glob.glob("examples/*/"))
    for name in there:
        if listed.count(name) != 1:
            yield f"examples/README.md has {name} {listed.count(name)} times"
    if listed != sorted(listed):
        yield "examples/README.md isn't in order"


def owed(lines):
    """What of a report its README has to tell: counts but 0, how frames ended, posts, the first shares."""
    ticks_told = 0
    for words in map(str.split, lines):
        ticks_told += words[0] == "tick"
        if words[0] == "record" and words[3] != "sent":
            yield " ".join(words[3:])
        elif words[0] in ("post", "fault", "usage:"):
            yield " ".join(words)
        elif words[0] == "share" and ticks_told == 1:
            yield f"{words[1]} {words[2]}"
        elif len(words) == 2 and words[0] != "frames" and words[1] != "0" and words != ["ticks", "1"]:
            yield " ".join(words)


def reports():
    for folder in sorted(glob.glob("examples/*/")):
        lines = read(folder + "expected.txt").split("\n")[:-1]
        told = read(folder + "README.md").replace("\n", " ")
        # Only of few faults each is told by its line.
        faults = {line for line in lines if line.startswith(("fault", "usage"))}
        for line in dict.fromkeys(owed(lines)) if len(faults) < 4 and "38-refused-words" not in folder else ():
            if line not in told:
                yield f"{folder}README.md doesn't tell: {line}"


# Decisions, definitions, places


def numbers():
    found, last = [], 0
    for line in read("docs/DECISIONS.md").split("\n"):
        number = re.match(r"\*\*(\d+)\. ", line)
        if line.startswith("## "):
            last = 0
        elif number:
            found.append(int(number[1]))
            if found[-1] < last and found[-1] not in OUT_OF_ORDER:
                yield f"{found[-1]} stands behind {last}"
            last = found[-1]
    for number in range(1, max(found) + 1):
        if found.count(number) != 1:
            yield f"{number} is there {found.count(number)} times"


def references():
    known = set(re.findall(r"^\*\*(\d+)\. ", read("docs/DECISIONS.md"), re.M))
    for path in texts():
        pattern = r"(?:DECISIONS(?:\.md)?`?,?|[Dd]ecisions?) (\d+)"
        pattern += r"|\((\d{1,3})\)" if path == "docs/DECISIONS.md" else ""
        for pair in re.findall(pattern, read(path)):
            number = "".join(pair)
            if number not in known:
                yield f"{path}: there is no decision {number}"


def defined():
    """In the tables of words each word stands in the files that its row names."""
    for path, heading, column in (("docs/DEFINITIONS.md", None, 2), ("docs/ARCHITECTURE.md", "Where it stands", 1)):
        files = []
        for number, cells in rows(path, heading):
            tokens = ticks(" ".join(cells[column:]))
            named = [file for token in tokens if token.endswith((".antt", ".rt")) for file in sources.files(token)]
            files = named + (files if "same file" in cells[-1] else [])
            for token in tokens:
                if re.fullmatch(r"[\w.:]+", token) and not token.endswith((".antt", ".rt")):
                    for word in words_of(token):
                        if not sources.stands(word, files):
                            yield f"{path}, line {number}: {word} is not in {', '.join(files) or 'any crate'}"


# Lines


def fault_lines():
    """The lines of README's table are those of docs/FORMATS.md, with the same statuses."""
    told = {(cells[0], cells[1].strip("`")) for _, cells in rows("README.md", "How a run ends") if cells[0].isdigit()}
    wanted = set()
    for _, cells in rows("docs/FORMATS.md", "Fault lines"):
        line = ticks(cells[1] if cells[0].isdigit() else cells[0])[:1]
        status = cells[0] if cells[0].isdigit() else "3" if "`fault plan" in cells[0] else "4"
        if line and line[0] not in ("fault plan CAUSE PLACE", "fault capture PORT CAUSE"):
            wanted.add((status, line[0] if not line[0].startswith("usage") else "usage: onvm .."))
    for status, line in sorted(wanted ^ told):
        yield f"{status} {line}: only in {'README.md' if (status, line) in told else 'docs/FORMATS.md'}"


def usage():
    """The form of the command is the program's in each text that has it."""
    for form in set(re.findall(r'"usage: onvm (.*?)"', sources.text("onvm_top"))) or {"?"}:
        for path in ("README.md", "docs/FORMATS.md"):
            if f"./onvm {form}" not in read(path).replace("`", "\n").split("\n"):
                yield f"{path} has not: ./onvm {form}"


def lengths():
    for path in texts():
        is_code = False
        for number, line in enumerate(read(path).split("\n"), 1):
            is_code ^= line.startswith("```")
            if len(line) > COLUMNS.get(path, 140) and not line.startswith("|") and not is_code:
                yield f"{path}, line {number}, has {len(line)} columns"


CHECKS = {
    "links": links,
    "paths": paths,
    "make targets": targets,
    "rows of docs/PROOF_STATUS.md": proof_rows,
    "functions and clauses that are proved": names,
    "clauses of functions that are proved": clauses,
    "must-fail edits": edits,
    "wrong bodies": wrong_bodies,
    "crates": crates,
    "READMEs of crates, of 15 to 40 lines": readmes,
    "examples": examples,
    "reports of examples": reports,
    "docs/DECISIONS.md, numbers": numbers,
    "references to decisions": references,
    "words and the files that define them": defined,
    "fault lines": fault_lines,
    "the form of the command": usage,
    "lines of at most 140 columns": lengths,
}


def main():
    failed = 0
    for what, check in CHECKS.items():
        wrong = list(check())
        failed += bool(wrong)
        for place, line in enumerate(wrong):
            print(f"{what}:\n    {line}" if place == 0 else f"    {line}")
    print(f"texts: {len(CHECKS) - failed} passed, {failed} failed")
    return 1 if failed else 0


sources = Sources()
if __name__ == "__main__":
    sys.exit(main())
