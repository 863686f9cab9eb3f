"""The documents of this repository, and its files, for the checks beside this file."""
import os
import pathlib
import re
import sys

ROOT = pathlib.Path(__file__).resolve().parent.parent


class Block:
    """A fenced block: the word after its fence, the number of that line, and the lines below it."""

    def __init__(self, mark, line):
        self.mark, self.line, self.lines, self.is_closed = mark, line, [], False


class Document:
    """A document: its fenced blocks, and its text, in which the lines of the blocks are empty."""

    def __init__(self, file):
        self.name, self.blocks, self.text = str(file.relative_to(ROOT)), [], ""
        block, indent, ticks = None, 0, ""
        for number, line in enumerate(file.read_text(encoding="utf-8").split("\n"), 1):
            fence = re.fullmatch(r"(\s*)(`{3,}|~{3,})\s*(.*?)\s*", line)
            is_kept = not block and not fence
            if block and fence and fence[2].startswith(ticks) and not fence[3]:
                block.is_closed, block = True, None
            elif block:
                block.lines.append(line[min(indent, len(line) - len(line.lstrip())) :])
            elif fence:
                indent, ticks, block = len(fence[1]), fence[2], Block(fence[3], number)
                self.blocks.append(block)
            self.text += line + "\n" if is_kept else "\n"

    def line_at(self, place):
        return self.text.count("\n", 0, place) + 1


def documents():
    """Returns README.md and the documents beside it, in docs/, and in the folders of crates."""
    patterns = ("*.md", "docs/*.md", "crates/*/*.md")
    return [Document(it) for pattern in patterns for it in sorted(ROOT.glob(pattern))]


def files():
    """Returns the paths of all files and folders, except those that git and builds make."""
    found = []
    for folder, folders, names in os.walk(ROOT):
        folders[:] = sorted(it for it in folders if it not in (".git", "out"))
        found += [os.path.relpath(f"{folder}/{it}", ROOT) for it in [*folders, *sorted(names)]]
    return found


def end(what, wrong):
    """Prints a line for each thing that is wrong, then what was looked at, and ends the check."""
    print(*wrong, f"{what}: {len(wrong)} wrong", sep="\n")
    sys.exit(1 if wrong else 0)
