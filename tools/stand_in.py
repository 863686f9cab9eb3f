"""Runs a script of examples/ with a program in place of `amcover`. For each command, the program
writes what a file of cases says that the command writes."""
import json
import os
import pathlib
import shlex
import subprocess
import tempfile

from documents import ROOT

CASES = ROOT / "crates/am_cases/data"
PROGRAM = """#!/usr/bin/env python3
import json, os, sys
with open(os.environ["ANSWERS"], encoding="utf-8") as it:
    answers = json.load(it)
def value_of(path):
    with open(path, encoding="utf-8") as it:
        return json.load(it)
def name_of(word):
    # A file that the script has made is the one of the cases with the same value.
    if not os.path.isabs(word):
        return word
    return next((it for it in answers["files"] if value_of(it) == value_of(word)), word)
words = [name_of(it) for it in sys.argv[1:]]
if words not in answers["lines"]:
    sys.exit(f"no case has this command: {words}")
out, err, status = answers["answers"][answers["lines"].index(words)]
sys.stdout.write(out)
sys.stderr.write(err)
sys.exit(status)
"""


class Answer:
    """What a command of a file of cases writes, and its exit status."""

    def __init__(self, words):
        self.words, self.out, self.err, self.status = words, "", "", 0


def read_cases(name):
    """Returns the answers to the commands of a file of cases, and the texts of its files."""
    answers, files, lines = [], {}, (CASES / name).read_text(encoding="utf-8").split("\n")
    kind, text = None, ""
    for line in lines:
        if line.startswith("  ") and kind == "words":
            text += " " + line[2:].removesuffix("\\")
        elif line.startswith("  ") and kind == "out":
            answers[-1].out += line[2:] + "\n"
        elif line.startswith("  ") and kind == "file":
            files[text] += line[2:] + "\n"
        elif line.startswith("$ "):
            kind, text = "words", line[2:].removesuffix("\\")
        elif line.startswith("stderr: "):
            answers[-1].err = line.removeprefix("stderr: ") + "\n"
        elif line.startswith("status: "):
            answers[-1].status = int(line.removeprefix("status: "))
        elif line.startswith("file "):
            text, is_short, whole = line.removeprefix("file ").partition(" = ")
            kind, files[text] = "file", whole if is_short else ""
        else:
            kind = None
        if kind == "words" and not line.endswith("\\"):
            answers.append(Answer(shlex.split(text)[1:]))
            kind = "out"
    return answers, files


def run(script, words, answers, files, prepare=None):
    """Runs a script with these words, in a folder with these files, and returns its status, its
    output and its messages. `prepare` is called before with that folder, and returns what to add to
    the environment."""
    with tempfile.TemporaryDirectory(prefix="stand-in-") as name:
        room = pathlib.Path(name)
        for path, text in files.items():
            (room / path).write_text(text, encoding="utf-8")
        program = room / "amcover"
        program.write_text(PROGRAM, encoding="utf-8")
        program.chmod(0o755)
        said = {"files": [*files], "lines": [it.words for it in answers]}
        said["answers"] = [(it.out, it.err, it.status) for it in answers]
        (room / "answers").write_text(json.dumps(said), encoding="utf-8")
        env = dict(os.environ, AMCOVER=str(program), ANSWERS=str(room / "answers"))
        env.update(prepare(room) if prepare else {})
        done = subprocess.run(
            [str(script), *words], cwd=room, env=env, capture_output=True, text=True, timeout=60
        )
        return done.returncode, done.stdout, done.stderr
