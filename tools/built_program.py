"""The program that ./build makes, for the scripts beside this file."""
from documents import ROOT

PROGRAM = ROOT / "crates/amcover/out/amcover"


def is_up_to_date():
    """Whether there is a program, and no source is newer than it."""
    if not PROGRAM.is_file():
        return False
    kinds = [ROOT.glob(f"crates/*/{it}/**/*") for it in ("src", "specs", "proofs")]
    sources = [it for kind in kinds for it in kind]
    return all(it.stat().st_mtime <= PROGRAM.stat().st_mtime for it in sources)
