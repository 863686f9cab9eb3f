"""The fingerprint of the inputs of a run, by which a token knows them, and tokens that have one."""
import hashlib
import re

# A token up to its positions, with its digits as a group.
TOKEN = re.compile("[ts]2:([0-9a-f]{32}):")
# The options whose values are parts, in the order in which these are joined. The question is last.
FILES = ["--universe", "--config", "--silences", "--alerts"]
INSTANT = "--at"
# The options that take no value.
WITHOUT_VALUE = ["--notes", "--no-notes"]


def joined(parts):
    """Joins six parts: universe, configuration, silences, alerts, instant and question. A part that
    is absent is None."""
    texts = [b"\0" if it is None else b"\1" + len(it).to_bytes(8, "big") + it for it in parts]
    return b"".join(texts)


def fingerprint(parts):
    """Returns the 32 digits of six parts."""
    return hashlib.sha256(joined(parts)).digest()[:16].hex()


def options_of(words):
    """Returns the values of the options of a command line of `ask`, and its question, or None if it
    has none. The words `amcover ask` are left out."""
    values, question, rest = {}, None, list(words)
    while rest:
        word = rest.pop(0)
        if word == "--":
            return values, rest[0] if rest else question
        if word in WITHOUT_VALUE:
            continue
        if word.startswith("--"):
            name, sign, value = word.partition("=")
            values[name] = value if sign else rest.pop(0)
        else:
            question = word
    return values, question


def parts_of(values, question, read):
    """Returns the six parts of such a command line. `read` gives the bytes of a file."""
    parts = [read(values[it]) if it in values else None for it in FILES]
    texts = [values.get(INSTANT), question]
    return parts + [None if it is None else it.encode() for it in texts]
