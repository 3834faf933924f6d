#!/usr/bin/env python3
"""unpack.py CRATE [NAME..]: writes a crate's wrong bodies as edits into its must-fail/, from which `rt must-fail CRATE` tries them.

To be run at the top of a clone that nobody commits from. It names the edits whose text no longer stands once in the crate; these are left out."""
import os
import sys


def edits_in(path):
    """The edits of a file of this folder, by name, each as the lines of a must-fail edit."""
    found, name = {}, None
    with open(path, encoding="utf-8") as lines:
        for line in lines:
            if line.startswith("edit "):
                name = line[len("edit "):].strip()
                found[name] = ""
            elif name and line.strip():
                found[name] += line
    return found


def applies(crate, text):
    """Whether each text that the edit replaces stands once in its file, once the pairs before it are replaced."""
    path, old, texts = None, None, {}
    for line in text.splitlines():
        if line.startswith("file: "):
            path = f"crates/{crate}/{line[len('file: '):].strip()}"
        elif line.startswith("old: "):
            old = line[len("old: "):]
        elif line.startswith("new:"):
            if path not in texts:
                if not os.path.isfile(path):
                    return False
                with open(path, encoding="utf-8") as it:
                    texts[path] = it.read()
            if texts[path].count(old) != 1:
                return False
            texts[path] = texts[path].replace(old, line[len("new:"):].removeprefix(" "))
    return bool(texts)


def main(crate, *names):
    edits = edits_in(f"{os.path.dirname(os.path.abspath(__file__))}/{crate}.edits")
    folder = f"crates/{crate}/must-fail"
    os.makedirs(folder, exist_ok=True)
    written = 0
    for name in names or edits:
        if applies(crate, edits[name]):
            with open(f"{folder}/{name}.edit", "w", encoding="utf-8") as it:
                it.write(edits[name])
            written += 1
        else:
            print(f"{name} no longer applies")
    print(f"{written} edits of {crate} in {folder}")


if __name__ == "__main__":
    main(*sys.argv[1:])
