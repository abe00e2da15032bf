"""The kit that rt belongs to, and the words by which its prover is called on a crate, as rt ci calls it: for tools/archive and tools/times."""
import os
import shutil

from facts import ROOT, archives, crates, folder

KIT = os.path.dirname(os.path.dirname(os.path.realpath(shutil.which("rt") or "/no/command/rt")))
RATTLE = os.path.join(KIT, "bin", "rattle")


def library(name):
    """Where the library of a crate stands once it is built."""
    return os.path.join(folder(name), "out", "rlib", name + ".rlib")


def below(name):
    """The crates of the repository that a crate is made of, lower ones first."""
    rows, wanted = crates(), {name}
    for other in reversed(list(rows)):
        if other in wanted:
            wanted.update(rows[other])
    return [other for other in rows if other in wanted and other != name]


def words(name):
    """The prover's words for a crate, run in its folder, over the libraries that are built."""
    rows = crates()
    found = ["--crate-name", name, "src/main.rt" if os.path.exists(os.path.join(folder(name), "src", "main.rt")) else "src/lib.rt"]
    for dep in ["std", *rows[name]]:
        found += ["--extern", "%s=%s" % (dep, library(dep) if dep in rows else os.path.join(KIT, "rlibs", dep + ".rlib"))]
    for place in [os.path.join(KIT, "rlibs"), *(os.path.dirname(library(dep)) for dep in below(name))]:
        found += ["-L", "dependency=" + place]
    found += ["--antt-project", os.path.join(KIT, "rattle", "logic", "antt-project.json"), "--logic-built", os.path.join(KIT, "logic_built")]
    return found + ["--links", name + "="] + (["--crate-type", "staticlib"] if name in archives() else [])
