"""The commands and options of amcover, for the scripts beside this file. They are read from the
sources that define them, in crates/am_command_line/src: table.rt, reports.rt, options.rt, and the
version in commands.rt. A script ends if a source has another form than the one that is read here.
"""
import re
import sys

from documents import ROOT

FOLDER = ROOT / "crates/am_command_line/src"
TEXT = r'"((?:[^"\\]|\\.)*)"'
ARGUMENT = re.compile(
    rf"^pub\(crate\) const (\w+): Argument = Argument {{\n    id: {TEXT},\n    form: Form::(\w+)\((.*)\),\n"
    rf"    help: {TEXT},\n}};$",
    re.M,
)
COMMAND = re.compile(
    rf"CommandRow {{\s+name: {TEXT},\s+about: {TEXT},\s+help: {TEXT},\s+takes: &\[(.*?)\],\s+}}",
    re.S,
)
TAKEN = re.compile(rf"\((\w+), Need::(?:(Optional)|(Required)|Without\({TEXT}\))\)")


class Argument:
    """An option or, if it has no `name`, a positional argument."""

    def __init__(self, it, form, words, help_text):
        texts = [meant(word) for word in re.findall(TEXT, words)]
        forms = {
            "Flag": lambda name: (name, None),
            "Value": lambda name, value: (name, value),
            "Values": lambda name, value: (name, value),
            "Number": lambda name: (name, "N"),
            "Word": lambda value: (None, value),
            "Words": lambda value: (None, value),
        }
        self.id, self.help = it, meant(help_text)
        self.name, self.value = forms[form](*texts)
        self.is_repeated = form in ("Values", "Words")
        self.is_required, self.conflicts, self.excludes = False, [], set()

    def takes_file(self):
        return bool(self.name) and self.value in ("FILE", "UNIVERSE")


class Command:
    """A command: its name, what it is for, its help, and its arguments. `offered` are its options and
    those that every command takes."""

    def __init__(self, name, about, help_text, arguments, of_each):
        self.name, self.about, self.help, self.arguments = name, about, help_text, arguments
        self.options = [it for it in arguments if it.name]
        self.words = [it for it in arguments if not it.name]
        self.offered = [*self.options, *of_each]
        for option in self.offered:
            for other in [it for it in self.offered if it.id in option.conflicts]:
                option.excludes.add(other.name)
                other.excludes.add(option.name)


class Program:
    """The program: its version, what its own help says, and its commands in order."""

    def __init__(self):
        options = (FOLDER / "options.rt").read_text(encoding="utf-8")
        reports = (FOLDER / "reports.rt").read_text(encoding="utf-8")
        table = (FOLDER / "table.rt").read_text(encoding="utf-8")
        source = (FOLDER / "commands.rt").read_text(encoding="utf-8")
        self.version = re.search(rf"\.version\({TEXT}\)", source)[1]
        self.arguments = {name: parts for name, *parts in ARGUMENT.findall(options)}
        if len(self.arguments) != options.count(": Argument ="):
            stop("an argument of options.rt is not read")
        (_, about, example, _), *others = COMMAND.findall(table)
        rows = [*COMMAND.findall(reports), *others]
        if len(rows) + 1 != (reports + table).count(' name: "'):
            stop("a command of table.rt or reports.rt is not read")
        self.about, self.example = meant(about), meant(example)
        of_each = re.search(r"const OF_EACH_COMMAND: .*? = \[\n(.*?)\];", options, re.S)
        self.commands = [
            Command(name, meant(about), meant(help_text), self.taken(takes), self.taken(of_each[1]))
            for name, about, help_text, takes in rows
        ]

    def taken(self, takes):
        """Returns the arguments of a row of the table."""
        found = []
        for name, _, required, other in TAKEN.findall(takes):
            argument = Argument(*self.arguments[name])
            argument.is_required = bool(required)
            argument.conflicts = [other] if other else []
            found.append(argument)
        if len(found) != takes.count("Need::"):
            stop("what a command takes is not read")
        return found


def meant(text):
    """Returns what the text between the quotes of a literal stands for."""
    marks = {"\n": "", "n": "\n", '"': '"', "\\": "\\"}
    return re.sub(r"\\(\n|.)((?<=\n)\s*)?", lambda it: marks[it[1]], text)


def stop(why):
    sys.exit(f"tools/command_line.py: {why}")
