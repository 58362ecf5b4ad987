"""What the programs share that put changes to the checker: tests/edits/run, tests/wrong_machines/run, tests/definitions/run and tests/mutation/run.

Copies of the tree outside of the repository, edits of their files, commands with a limit of time, what the checker says, and where an edit has to be
refused.
"""
import collections
import contextlib
import fcntl
import hashlib
import os
import re
import shutil
import signal
import subprocess
import sys
import tempfile

ROOT = os.path.dirname(os.path.dirname(os.path.abspath(__file__)))
SOURCES = ("src", "specs", "proofs")  # what a check of a crate reads
NOT_PROVED = "logic=not-proved"
# First lines of errors that are about no fact: a name that is not in scope, a place of a proof file that is not there or is another, a proof that was
# not tried.
UNFIT = re.compile(
    r"is not in scope|is already a name|no `mod` line|has no `|has no field|one has `\S+\.After-|explicit argument patterns"
    r"|`, which was (?:not admitted|rejected)"
)

# A text of edits: what its comments say, its lines with a head of their own, and its edits, each a file, an old text and a new one.
Parts = collections.namedtuple("Parts", "about heads edits")


class Unreadable(Exception):
    """A line of a text of edits that says nothing."""


class Misfit(Exception):
    """An edit whose old text does not stand exactly once in its file."""


def read(path):
    with open(path, encoding="utf-8") as f:
        return f.read()


def write(path, text):
    os.makedirs(os.path.dirname(path), exist_ok=True)
    with open(path, "w", encoding="utf-8") as f:
        f.write(text)


def crates():
    """The crates in order, each with the crates it stands on."""
    found = {}
    for line in read(os.path.join(ROOT, "crates.txt")).split("\n"):
        name, colon, below = line.split("#")[0].partition(":")
        if colon:
            found[name.strip()] = below.split()
    return found


# ---- edits


def parts_of(text, heads=()):
    """The parts of a text of edits. A `file:` line holds for the pairs of `old:` and `new:` after it; further `new:` lines follow the first."""
    about, named, edits, path = [], {}, [], ""
    for line in text.split("\n"):
        head, rest = re.fullmatch(r"(#|[a-z ]+:|)(?: ?(.*))", line).groups()
        if head == "#":
            about.append(rest)
        elif head in heads:
            named[head] = rest.strip()
        elif head == "file:":
            path = rest.strip()
        elif head == "old:":
            edits.append((path, rest, None))
        elif head == "new:" and edits:
            before = edits[-1][2]
            edits[-1] = edits[-1][:2] + (rest if before is None else before + "\n" + rest,)
        elif line.strip():
            raise Unreadable("what is this line? " + line)
    if not (about and edits and set(named) == set(heads) and all(path and old and new is not None for path, old, new in edits)):
        raise Unreadable("it lacks a part")
    return Parts(" ".join(about), named, edits)


def put(folder, edits):
    """Applies edits to the files of a folder, and gives the files as they were. A misfit leaves all as it was."""
    before = {}
    for path, old, new in edits:
        at = os.path.join(folder, path)
        source = read(at) if os.path.isfile(at) else ""
        if source.count(old) != 1:
            restore(before)
            raise Misfit("stands %d times in %s: %s" % (source.count(old), path, old))
        before.setdefault(at, source)
        write(at, source.replace(old, new))
    return before


def restore(before):
    for at, source in before.items():
        write(at, source)


# ---- copies of the tree


def folder_of_copies(name):
    """Where a program has its copies: among the temporary files, for `rt ci` refuses a tree with another crates.txt in it. The same folder in each run, so
    that what `rt` notes of the places where it keeps work stays short."""
    return os.path.join(tempfile.gettempdir(), "checks-" + hashlib.sha256(ROOT.encode()).hexdigest()[:12], name)


@contextlib.contextmanager
def copies(folder):
    """A folder of copies, empty at first and gone afterwards. A second run waits for the first."""
    os.makedirs(os.path.dirname(folder), exist_ok=True)
    with open(folder + ".lock", "w") as lock:
        fcntl.flock(lock, fcntl.LOCK_EX)
        shutil.rmtree(folder, ignore_errors=True)
        os.makedirs(folder)
        try:
            yield folder
        finally:
            shutil.rmtree(folder, ignore_errors=True)


def linked(folder, to):
    """Makes `to` a copy of a folder, whatever it was. What the checker made has the same file under a second name, since it replaces such a file and writes
    into none."""

    def copied(one, other):
        if one.endswith(".oantt") or "/out/rlib/" in one:
            with contextlib.suppress(OSError):
                return os.link(one, other)
        return shutil.copy2(one, other)

    shutil.rmtree(to, ignore_errors=True)
    return shutil.copytree(folder, to, copy_function=copied)


def copied_sources(here, there):
    """Copies what a check of a crate reads."""
    for part in SOURCES:
        if os.path.isdir(os.path.join(here, part)):
            linked(os.path.join(here, part), os.path.join(there, part))


def copied_tree(copy):
    """A copy of the sources of all crates, without their edits."""
    for name in ("crates.txt", "HANDLES"):
        if os.path.exists(os.path.join(ROOT, name)):
            write(os.path.join(copy, name), read(os.path.join(ROOT, name)))
    for name in crates():
        copied_sources(os.path.join(ROOT, "crates", name), os.path.join(copy, "crates", name))
    return copy


def kept(copy, name):
    """What the checker keeps of a crate in a copy."""
    return os.path.join(copy, "crates", name, "out")


def proved_copy(copy):
    """A copy of the sources of all crates, and of what the checker keeps of them."""
    copied_tree(copy)
    put_back(copy, crates())
    return copy


def put_back(copy, names):
    """Puts what the checker keeps of these crates in a copy back to what is proved of the tree, so that it checks what an edit reaches and no more, whatever
    was tried before."""
    for name in names:
        if os.path.isdir(kept(ROOT, name)):
            linked(kept(ROOT, name), kept(copy, name))
        else:
            shutil.rmtree(kept(copy, name), ignore_errors=True)


# ---- the checker


def command(words, folder, limit, late=NOT_PROVED, env=None):
    """Exit status and output of a command. One that takes more seconds than the limit is ended with all that it started: status 1 and the text `late`."""
    told = {"stdin": subprocess.DEVNULL, "stdout": subprocess.PIPE, "stderr": subprocess.STDOUT}
    ran = subprocess.Popen(words, cwd=folder, env=env, start_new_session=True, **told)
    try:
        said = ran.communicate(timeout=limit)[0]
    except subprocess.TimeoutExpired:
        os.killpg(ran.pid, signal.SIGKILL)
        ran.communicate()
        return 1, late
    return ran.returncode, said.decode(errors="replace")


def check(copy, crate, limit, late=NOT_PROVED):
    """What `rt check` says of a crate in a copy. It runs on one processor, for other copies are checked meanwhile."""
    return command(["rt", "check", "--jobs", "1"], os.path.join(copy, "crates", crate), limit, late)[1]


def prove(names):
    """Has the checker prove crates of the tree, with those below them, over what it kept; what copies begin with."""
    whole = set(names) == set(crates())
    for words, folder in [(["rt", "all", "check"], ROOT)] if whole else [(["rt", "check"], os.path.join(ROOT, "crates", name)) for name in names]:
        status, said = command(words, folder, None)
        if status != 0:
            sys.exit("%s in %s does not pass:\n%s" % (" ".join(words), folder, said))


def verdict_of(said):
    """The last verdict, that of the crate: proved, not-proved, or nothing where the checker was not asked."""
    return (re.findall(r"(?m)^logic=(\S+)", said) or [""])[-1]


def errors_in(said):
    """Each error as the path of its file and its text, with the lines that step in."""
    return re.findall(r"(?m)^(\S+?)(?::\d+)*: error: (.*(?:\n  .*)*)", said)


def inside(path):
    """A path as it is inside a crate."""
    return path[2:] if path.startswith("./") else path


def first_refusal(said):
    """Path and text of the first error, or of the first note on a place where there is none: a function whose proof the checker itself did not find."""
    path, text = (errors_in(said) or re.findall(r"(?m)^note: (\S+?):\d+:\d+: (.*)", said) or [("", "")])[0]
    return inside(path), text.split("\n")[0]


def fault_at(found, text, place):
    """What is wrong where an edit is refused in a file, with the first line of what is said of it.

    It can't tell that an error is about a fact; it tells those that surely are not: the kinds of UNFIT, and an error in a definition before any proof."""
    if found.startswith("specs/") or UNFIT.search(text):
        return "refused at %s, and not because of a fact: %s" % (found, text)
    return "" if found == place else "refused at %s, and it names %s: %s" % (found or "no place", place, text)


def fault_of(said, place):
    """What is wrong where the checker does not refuse an edit in the file that it has to be refused at, because of a fact."""
    verdict = verdict_of(said)
    if verdict == "proved":
        return "not refused: the crate is still proved"
    if verdict != "not-proved":
        told = said.strip().split("\n")
        return "it does not reach the prover: " + ([line for line in told if ": error" in line] or told[-1:])[0]
    return fault_at(*first_refusal(said), place)


# ---- what `rt ci` and `rt must-fail` print of an edit
REFUSED = re.compile(r"refused, as it must be(?: \((?P<only>only [^)]*)\))?(?:: (?:note: )?(?P<path>[^:]+):\d+:\d+:(?: error:)? ?(?P<text>.*))?")


def told_of_edits(said):
    """What is said of each edit, by crate and name; every other line is another one's."""
    return {(m[1], m[2]): m[3] for m in re.finditer(r"(?m)^rt: must-fail (\w+)/([\w.-]+)\.edit: (.*)$", said)}


def fault_of_line(told, place):
    """The same by what rt says of an edit: its verdict, and the start of the first line that is not about a name that the edit took away."""
    refused = REFUSED.match(told or "")
    if not refused:
        return told or "nothing is said of it"
    if refused["only"]:
        return "refused, and not because of a fact: " + refused["only"]
    return fault_at(inside(refused["path"] or ""), refused["text"] or "", place)
