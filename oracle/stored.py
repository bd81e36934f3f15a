"""What a replay program reads and writes, stored beside it; and the end of a comparison."""

import sys


def settle(folder, mode, lines, answers, tally):
    """Stores the lines and the answers (`write`), or counts and names the file that holds others."""
    for name, content in {"stdin": lines, "stdout": answers}.items():
        content = ended(content)
        tally[f"bytes of {name}"] = len(content)
        if mode == "write":
            folder.mkdir(exist_ok=True)
            (folder / name).write_bytes(content)
        elif (folder / name).read_bytes() != content:
            tally["differ"] += 1
            print(f"{folder / name} is not what is made here")


def ended(lines):
    """A line feed after each."""
    return b"".join((line if isinstance(line, bytes) else line.encode()) + b"\n" for line in lines)


def close(tally):
    """Prints the counts; exit status 1 where something differs."""
    for what in sorted(tally):
        print(f"{tally[what]:8} {what}")
    sys.exit(tally["differ"] > 0)
