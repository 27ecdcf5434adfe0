"""What crates.txt says: its layers, from the lowest, with their crates, and what each crate lists."""
import pathlib

ROOT = pathlib.Path(__file__).resolve().parent.parent


def layers():
    """Each layer's name, which is a line behind `#`, with its crates."""
    found, name = {}, None
    for line in (ROOT / "crates.txt").read_text().splitlines():
        front, mark, words = line.partition("#")
        if mark and not front.strip():
            name = words.strip()
        elif front.strip():
            found.setdefault(name, []).append(front.partition(":")[0].split()[0])
    return found


def listed():
    """Each crate with those of the repository that it lists, lowest first."""
    lines = [line.partition("#")[0].partition(":") for line in (ROOT / "crates.txt").read_text().splitlines()]
    below = {head.split()[0]: words.split() for head, colon, words in lines if colon}
    return {crate: [it for it in words if it in below] for crate, words in below.items()}
