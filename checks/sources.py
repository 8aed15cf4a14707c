"""What the sources of the crates declare, for texts.py: names, contracts, and the must-fail edits."""
import functools
import glob
import os
import re


@functools.lru_cache(maxsize=None)
def read(path):
    with open(path, encoding="utf-8") as file:
        return file.read()


def is_source(path):
    return "/out/" not in path


class Sources:
    """The crates of crates.txt, by name: `below` has for each the libraries that it stands on."""

    def __init__(self):
        lines = (line.split("#")[0].strip() for line in read("crates.txt").split("\n"))
        pairs = (line.split(":") for line in lines if line)
        self.below = {name: others.split() for name, others in pairs}
        self.handles = set(re.findall(r"\w+", read("HANDLES")))
        self.traits = {}
        for crate in self.below:
            for path in self.paths(crate, "rt"):
                for block in re.findall(r"^pub trait \w+.*?^}", self.code(path), re.M | re.S):
                    for name, contract in signatures(block):
                        self.traits.setdefault(name, []).append(contract)

    def paths(self, crate, kind="*"):
        kinds = ("rt", "antt") if kind == "*" else (kind,)
        found = [path for one in kinds for path in glob.glob(f"crates/{crate}/**/*.{one}", recursive=True)]
        return sorted(path for path in found if is_source(path))

    @functools.lru_cache(maxsize=None)
    def code(self, path):
        """A source without its comments."""
        return re.sub(r"//.*" if path.endswith(".rt") else r"--.*", "", read(path))

    @functools.lru_cache(maxsize=None)
    def text(self, crate):
        return "\n".join(self.code(path) for path in self.paths(crate))

    @functools.lru_cache(maxsize=None)
    def edits(self, crate):
        return {os.path.basename(path)[: -len(".edit")] for path in glob.glob(f"crates/{crate}/must-fail/*.edit")}

    @functools.lru_cache(maxsize=None)
    def declared(self, crate):
        """Functions, clauses, types, fields and variants, definitions, modules, and what is imported."""
        found = {crate} | {os.path.basename(path).split(".")[0] for path in self.paths(crate)}
        for path in self.paths(crate, "rt"):
            code = self.code(path)
            kinds = r"fn|ensures\*?|requires|invariant|ghost|struct|enum|trait|type|const|mod"
            found |= set(re.findall(rf"\b(?:{kinds}) (\w+)", code))
            found |= set(re.findall(r"^\s+(?:pub )?(\w+)(?:[:,({]|$)", code, re.M))
            found |= set(re.findall(r"\w+", " ".join(re.findall(r"^(?:pub )?use .*?;|^impl.*", code, re.M | re.S))))
        for path in self.paths(crate, "antt"):
            pattern = r"^\s*(?:(?:abbrev|record|data|pub|unfoldable|law) )*(\w+)\b[^=\n]*[:=]"
            found |= set(re.findall(pattern, self.code(path), re.M))
        return found

    def declares(self, crates, word):
        """Whether one of these crates declares it; a definition may stand below, and a clause in a trait."""
        if word in self.handles or any(word in self.declared(crate) for crate in crates):
            return True
        under = {other for crate in crates for other in self.below.get(crate, ()) if other in self.below}
        if word[:1].isupper() and any(word in self.declared(crate) for crate in under):
            return True
        return any(re.search(rf"\bensures {word}\b", contract) for every in self.traits.values() for contract in every)

    def contracts(self, crates, holders):
        """What is said by these functions, types and files of these crates: contracts, whole types and whole files."""
        found = []
        for holder in holders:
            word = re.split(r"[.:]+", holder)[-1]
            if "/" in holder:
                found += [self.code(path) for path in self.files(holder + ".antt")]
            found += self.traits.get(word, [])
            for crate in crates:
                found += self.said(crate).get(word, [])
        return "\n".join(found)

    @functools.lru_cache(maxsize=None)
    def said(self, crate):
        """For each name of a crate its contracts, as a function, and its blocks, as a type, a trait or a definition."""
        found = {}
        for path in self.paths(crate):
            pairs = signatures(self.code(path)) if path.endswith(".rt") else definitions(self.code(path))
            for name, contract in pairs:
                found.setdefault(name, []).append(contract)
            for block in re.findall(r"^(?:pub )?(?:impl|struct|enum|trait)\b.*?^}", self.code(path), re.M | re.S):
                for name in re.findall(r"\w+", block.split("\n", 1)[0]):
                    found.setdefault(name, []).append(block)
        return found

    def files(self, token):
        """The sources of this name or path, seen from the top, crates/ or any crate."""
        found = []
        for base in ("", "crates/", "crates/*/", "crates/*/specs/", "crates/*/src/", "crates/*/proofs/"):
            found += glob.glob(base + token)
        return sorted(set(filter(is_source, found)))

    def stands(self, word, files):
        """Whether a word stands in one of these files, or is declared somewhere, where there are none."""
        if not files:
            return any(word in self.declared(crate) for crate in self.below) or word in self.below
        return any(re.search(rf"\b{word}\b", self.code(path)) for path in files)


def signatures(code):
    """Each function's name with its words up to its body: its type and its clauses."""
    hits = list(re.finditer(r"\bfn (\w+)", code))
    ends = [hit.start() for hit in hits[1:]] + [len(code)]
    for hit, end in zip(hits, ends):
        whole = code[hit.start() : end]
        body = re.search(r"\n\s*\{\s*\n|\n\s*\{\}|\{\}\s*$|;\s*\n", whole)
        yield hit[1], whole[: body.start()] if body else whole


def definitions(code):
    """Each definition's name with its lines, up to the next empty one."""
    for block in re.split(r"\n\s*\n", code):
        for name in re.findall(r"^\s*(?:(?:abbrev|record|data|unfoldable|pub) )+(\w+)", block, re.M):
            yield name, block
