"""What the prover said of a changed crate, and the crates of the repository: for tools/edits and tools/mutants."""
import os
import re
import subprocess

ROOT = os.path.dirname(os.path.dirname(os.path.abspath(__file__)))

# What the prover says where a fact no longer holds. Any other first error (a name, a field or a path that a proof no longer finds, a goal that it no
# longer has, a rewrite that finds nothing, a text that does not parse) may only mean that the proof does not fit, and shows nothing.
FACT = re.compile(
    # two values that had to be the same are not
    r"the two (?:types|sides|values) (?:first differ|differ only|are)\b"
    r"|^  does not hold\b|` ≟ `|computed as a goal is, one side reads\b"
    # what is left after a rewriting is no equation of a thing with itself
    r"|must be a path whose two ends are equal, and .*is none|give a proof of that as the last argument, `(?:rw|simp) L t`"
    # of numbers, mostly with a counterexample
    r"|`omega`: the goal does not follow from what it read"
    # what the code owes, where no tactic finds it any more
    r"|it is not proved that "
    # a proof of something else than what is asked; rt cuts its line where the type is long
    r"|expected type `.*(?:but this has type|\Z)",
    re.MULTILINE | re.DOTALL)


def rows():
    """The lines of crates.txt: the words before the colon, and those behind it."""
    for line in open(os.path.join(ROOT, "crates.txt"), encoding="utf-8"):
        name, colon, deps = line.split("#")[0].partition(":")
        if colon:
            yield name.split(), deps.split()


def crates():
    """The crates of crates.txt, lower ones first, each with those it depends on."""
    return {words[0]: deps for words, deps in rows()}


def archives():
    """The crates that are static libraries."""
    return [words[0] for words, _ in rows() if "staticlib" in words]


def folder(name):
    return os.path.join(ROOT, "crates", name)


def all_errors(text):
    """What the prover found wrong, in its order, each whole: its line and the indented ones behind it."""
    found, inside = [], False
    for line in text.split("\n"):
        if re.search(r": error\b|^error\b", line) or re.match(r"note: \S+:\d+:\d+: it is not proved that ", line):
            found.append(re.sub(r"^\./", "", line))
            inside = True
        elif inside and line.startswith("  "):
            found[-1] += "\n" + line
        else:
            inside = False
    return found


def errors(text):
    """The errors of a log, without those that only say that another proof is missing."""
    found = all_errors(text)
    return [error for error in found if not is_consequence(error)] or found


def is_consequence(error):
    return bool(re.search(r"(?:was|were) not (?:admitted|checked)", error))


def first_error(text):
    return (errors(text) or text.strip().split("\n")[-1:])[0]


def lost(error):
    """Whether an error says that a fact no longer holds."""
    return bool(FACT.search(error))


def said(place, *words):
    """Runs rt in a folder: its exit status and all that it printed."""
    done = subprocess.run(["rt", *words], cwd=place, stdin=subprocess.DEVNULL, capture_output=True, text=True, errors="replace")
    return done.returncode, done.stdout + done.stderr
