"""Faults planted in a host that is not proved: what embed/wrong_hosts.py and metal/wrong_hosts.py share."""
import sys


def planted(edit, host):
    """Makes an edit in a copy of the host, and returns the words of its line `seen:`.

    After a line `file:`, which names a file of the host, each line `old:` is replaced by the line `new:` below it. An old text that is not there exactly once
    ends the program: such an edit plants nothing, or not what it says.
    """
    seen, path, old = [], None, None
    for line in edit.read_text().splitlines():
        key, _, text = line.partition(": ")
        if key == "seen":
            seen = text.split()
        elif key == "file":
            path = host / text
        elif key == "old":
            old = text
        elif key == "new":
            whole = path.read_text()
            if whole.count(old) != 1:
                sys.exit(f"{edit}: its old text is in {path.name} {whole.count(old)} times: {old}")
            path.write_text(whole.replace(old, text))
    return seen
