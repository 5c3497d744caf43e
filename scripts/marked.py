"""A part of a document that a script writes: it stands between the lines `<!-- NAME -->` and `<!-- end of NAME -->`."""
import pathlib
import re
import sys


def write_part(path, name, text):
    file = pathlib.Path(path)
    old = file.read_text()
    new, count = re.subn(
        rf"(<!-- {name} -->\n).*?(<!-- end of {name} -->\n)", lambda found: found[1] + text + found[2], old, flags=re.S
    )
    if count != 1:
        sys.exit(f"{path} has no part {name}")
    file.write_text(new)
