#!/usr/bin/env python3
"""Checks that each wrong body can be applied: that each text which it replaces stands exactly once in its file, as the kit wants it. A change of a
source can leave one behind, which then shows nothing of a contract. It says which, and its exit status is 1 if there is one."""
import glob
import os
import sys


def fault(edit, crate):
    """Why an edit of a crate cannot be applied, or None."""
    texts, path, old, pairs = {}, None, None, 0
    with open(edit, encoding="utf-8") as it:
        lines = it.read().split("\n")
    for line in lines:
        if line.startswith("file: "):
            path = line[len("file: ") :].strip()
        elif line.startswith("old: "):
            old = line[len("old: ") :]
        elif line.startswith("new:"):
            if not path or not old:
                return "a new text without a file or an old one"
            file = f"crates/{crate}/{path}"
            if file not in texts:
                if not os.path.isfile(file):
                    return f"there is no {path}"
                with open(file, encoding="utf-8") as it:
                    texts[file] = it.read()
            times = texts[file].count(old)
            if times != 1:
                return f"{path} has {times} times: {old.strip()}"
            texts[file] = texts[file].replace(old, line[len("new:") :].removeprefix(" "))
            old, pairs = None, pairs + 1
    return None if pairs else "nothing is replaced"


def main():
    os.chdir(os.path.dirname(os.path.dirname(os.path.realpath(__file__))))
    found = sorted(glob.glob("wrong-bodies/*/*.edit")) + sorted(glob.glob("crates/*/must-fail/*.edit"))
    faults = [(edit, fault(edit, edit.split("/")[1])) for edit in found]
    for edit, why in faults:
        if why:
            print(f"edits: {edit}: {why}", file=sys.stderr)
    print(f"edits: {len(found)} stand")
    sys.exit(any(why for _, why in faults))


if __name__ == "__main__":
    main()
