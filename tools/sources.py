"""What the tools of this folder know of the sources, and the words that they share."""
import argparse
import os
import re
import subprocess
import sys

TOP = os.path.dirname(os.path.dirname(os.path.realpath(__file__)))
OWNER = re.compile(r"(?:pub )?(trait|impl)\b(?:<.*?>)? ?(?:(.*) for )?(\w+)")
HEAD = re.compile(r"\s*(pub(?:\(crate\))? )?(?:const )?fn (\w+)")
CLAUSE = re.compile(r"\s*ensures (?:(\w+) )?\{")


def read(path):
    with open(os.path.join(TOP, path), encoding="utf-8") as file:
        return file.read()


def files_below(folder, suffix):
    for base, folders, names in os.walk(os.path.join(TOP, folder)):
        folders[:] = sorted(it for it in folders if it not in ("out", ".git"))
        for name in sorted(names):
            if name.endswith(suffix):
                yield os.path.relpath(os.path.join(base, name), TOP)


def crates():
    lines = (line.split("#")[0] for line in read("crates.txt").splitlines())
    return [re.split(r"[\s:]", line.strip())[0] for line in lines if line.strip()]


def without_comments(text, mark):
    return "\n".join(line.split(mark)[0] for line in text.splitlines())


def exported(crate):
    """The names that a library gives out; of a program all."""
    path = f"crates/{crate}/src/lib.rt"
    if not os.path.exists(os.path.join(TOP, path)):
        return None
    names = set()
    text = read(path)
    for group in re.findall(r"pub use [\w:]+::\{([^}]*)\}", text, re.S):
        names |= {it.split(" as ")[0].strip() for it in group.split(",")}
    names |= set(re.findall(r"pub use [\w:]+::(\w+);", text))
    for module in re.findall(r"pub mod (\w+);", text):
        text += read(f"crates/{crate}/src/{module}.rt")
    names |= set(re.findall(r"pub (?:struct|enum|trait|fn) (\w+)", text))
    return names - {""}


def calls_of(crate):
    """Each function of a crate, by `name` and by `Type::name`: whether it is public, its clauses, and the
    method of the trait that it is. A clause with no name is ''.
    """
    names, calls = exported(crate), {}
    for path in files_below(f"crates/{crate}/src", ".rt"):
        if "/tests" in path:
            continue
        owner = shared = trait = name = None
        for line in read(path).splitlines():
            if line and line[0] not in " \t){":
                found = OWNER.match(line)
                owner = found[3] if found else None
                shared = bool(found and (found[1] == "trait" or found[2]))
                trait = found[2] if found else None
            head, clause = HEAD.match(line), CLAUSE.match(line)
            if head:
                inner = owner and line[0].isspace()
                name = f"{owner}::{head[2]}" if inner else head[2]
                given = names is not None and (owner if inner else head[2]) in names
                of_trait = f"{trait}::{head[2]}" if inner and trait else ""
                calls.setdefault(name, [given and bool(head[1] or (inner and shared)), [], of_trait])
            elif clause and name:
                calls[name][1].append(clause[1] or "")
    return calls


def take_no_words(tool, says):
    """Refuses all words but --help."""
    argparse.ArgumentParser(prog=f"tools/{tool}", description=says).parse_args()


def add_s2(reader, text):
    """The one way in which tools are told the program s2. Some took it as --program before."""
    reader.add_argument("--s2", metavar="FILE", help=f"the program s2; {text}")
    reader.add_argument("--program", dest="s2", help=argparse.SUPPRESS)


def built_s2(given):
    """The program s2 that was given, or that of this repository, which is built first."""
    if given:
        return os.path.realpath(given)
    if subprocess.run([os.path.join(TOP, "tools", "build")]).returncode:
        sys.exit("s2 could not be built")
    return os.path.join(TOP, "crates", "s2", "out", "s2")
