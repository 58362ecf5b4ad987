#!/usr/bin/env python3
"""Writes the data of the bench runs and of the examples: tests/runs/, the folders under examples/ and the run of the crate bench. The runs are
described in runs_of_any_map.py, runs_of_map1.py and runs_of_map2.py.

Each run is a folder: `about` (one line: what it shows), `script.bin`, `image.bin` and `constants.bin` (left out where the run has none) and
`expected`, the bytes that the bench program has to print. Expected lines that the papers fix are written by hand; those of the long runs, and
digests, come from the independent program, which was written from the papers: pass its path. Whatever is written by hand has to be its answer
too. The program under test is never asked. An example is the same, but its script comes from its `script.txt`, and what it prints stands in a
document.

With --check nothing is written: all is made anew and compared with what is stored, which must be that and no more.

usage: make_runs.py INDEPENDENT [--check]
"""
import importlib.machinery
import importlib.util
import os
import shutil
import subprocess
import sys
import tempfile

sys.dont_write_bytecode = True
from run_terms import EXAMPLE, GOOD, HASHES, MAP1, MAP2, RUNS, words

# Each adds the runs that it describes to RUNS.
import runs_of_any_map
import runs_of_map1
import runs_of_map2

HERE = os.path.dirname(os.path.abspath(__file__))
ROOT = os.path.dirname(HERE)
EXAMPLES = {"first": MAP1, "to_prod": MAP1, "map2": MAP2}


def script_of(example):
    """The bytes of an example's script.txt, by examples/bytes."""
    loader = importlib.machinery.SourceFileLoader("example_bytes", os.path.join(ROOT, "examples", "bytes"))
    module = importlib.util.module_from_spec(importlib.util.spec_from_loader("example_bytes", loader))
    loader.exec_module(module)
    with open(os.path.join(ROOT, "examples", example, "script.txt"), encoding="utf-8") as f:
        return module.bytes_of(f.read())


def agrees(line, wanted):
    """A line is the wanted one, whose value may be left to the independent program."""
    return line == wanted or wanted.endswith(b"?" * 16) and line[:-16] == wanted[:-16]


def answered(independent, name, script, image, consts, expected, last):
    """What a run has to print."""
    with tempfile.TemporaryDirectory() as folder:
        for file, data in (("image.bin", image), ("constants.bin", consts)):
            if data is not None:
                with open(os.path.join(folder, file), "wb") as f:
                    f.write(data)
        answer = subprocess.run([independent, "bench"], cwd=folder, input=script, stdout=subprocess.PIPE, check=True).stdout
    got = answer.split(b"\n")
    wanted = got if expected is None else expected.split(b"\n")
    if len(got) != len(wanted) or not all(map(agrees, got, wanted)) or not answer[: answer.index(b"end")].endswith(last):
        sys.exit("%s: the papers' lines and the independent program's differ:\n%s" % (name, answer.decode()))
    return answer


def look_at_hashes(independent):
    for token, stored in HASHES.items():
        if int(subprocess.run([independent, "hash", "%032x" % token], stdout=subprocess.PIPE, check=True).stdout, 16) != stored:
            sys.exit("the hash of the token %032x is not the independent program's" % token)


def frames(independent):
    """Three frames and the start of a fourth, and what comes of them: what `machine_steps` is run on."""
    four = subprocess.run([independent, "frames", "4", "53"], stdout=subprocess.PIPE, check=True).stdout
    cut = four[: 3 * 5120 + 1024]
    return {"stdin": cut, "stdout": subprocess.run([independent, "steps"], input=cut, stdout=subprocess.PIPE, check=True).stdout}


def made(independent):
    """All files, by their paths from the root."""
    if len({name for name, *_ in RUNS}) != len(RUNS):
        sys.exit("two runs have the same name")
    files = {}
    for name, about, script, image, consts, expected, last in RUNS:
        folder = os.path.join("tests", "runs", name)
        answer = answered(independent, name, script, image, consts, expected, last)
        data = {"script.bin": script, "image.bin": image, "constants.bin": consts, "about": about.encode() + b"\n", "expected": answer}
        files.update({os.path.join(folder, file): value for file, value in data.items() if value is not None})
    for example, m in EXAMPLES.items():
        data = {"script.bin": script_of(example), "image.bin": words(m.blank), "constants.bin": words(GOOD)}
        files.update({os.path.join("examples", example, file): value for file, value in data.items()})
    bench = os.path.join("crates", "bench")
    data = {"stdin": EXAMPLE, "stdout": runs_of_map1.EXAMPLE_LINES}
    data.update({os.path.join("data", "image.bin"): words(MAP1.blank), os.path.join("data", "constants.bin"): words(GOOD)})
    files.update({os.path.join(bench, file): value for file, value in data.items()})
    files.update({os.path.join("crates", "machine_steps", file): value for file, value in frames(independent).items()})
    return files


def stored():
    """The paths under the folders that are made here and nowhere else, and of an example the files that are made."""
    folders = [os.path.join("tests", "runs"), "examples", os.path.join("crates", "bench", "data")]
    found = [os.path.relpath(os.path.join(at, file), ROOT) for folder in folders for at, _, names in os.walk(os.path.join(ROOT, folder)) for file in names]
    return [path for path in found if not path.startswith("examples" + os.sep) or path.endswith(".bin")]


def differences(files):
    for path in sorted(set(stored()) - set(files)):
        yield "%s is stored, and nothing makes it" % path
    for path, data in sorted(files.items()):
        try:
            with open(os.path.join(ROOT, path), "rb") as f:
                if f.read() != data:
                    yield "%s is not what is made" % path
        except OSError:
            yield "%s is made, and not stored" % path


def main():
    if len(sys.argv) not in (2, 3) or sys.argv[2:] not in ([], ["--check"]):
        sys.exit("usage: make_runs.py INDEPENDENT [--check]")
    independent = os.path.abspath(sys.argv[1])
    look_at_hashes(independent)
    files = made(independent)
    if sys.argv[2:] == ["--check"]:
        found = list(differences(files))
        for difference in found:
            print(difference)
        print("%d files of runs and examples, %d differ from what is stored" % (len(files), len(found)))
        sys.exit(1 if found else 0)
    shutil.rmtree(os.path.join(HERE, "runs"), ignore_errors=True)
    for path, data in files.items():
        os.makedirs(os.path.join(ROOT, os.path.dirname(path)), exist_ok=True)
        with open(os.path.join(ROOT, path), "wb") as f:
            f.write(data)
    print("%d runs, %d examples" % (len(RUNS), len(EXAMPLES)))


if __name__ == "__main__":
    main()
