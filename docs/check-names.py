#!/usr/bin/env python3
"""Names in `backquotes` of the pages that stand nowhere in the repository: files and folders, and words of the sources. Prints them; status 1 if there are any.

A page's own examples are passed over: what has a word in capitals as NAME or FILE, what a block of the page names, and files that a command writes.
"""
import os
import re
import subprocess
import sys

TOP = os.path.dirname(os.path.dirname(os.path.abspath(__file__)))
PATH = re.compile(r"(\./)?[\w*-][\w.*-]*(/[\w.*-]+)+/?$|[\w*-]+\.(rt|antt|py|sh|edits)$")
WORD = re.compile(r"[a-z]\w*_\w+$|[A-Z][a-z]\w*(::\w+)?$")


def lacking(page, paths, words):
    """What the page names that isn't there."""
    with open(os.path.join(TOP, page), encoding="utf-8") as it:
        text = it.read()
    blocks = "".join(re.findall(r"^```.*?^```$", text, re.M | re.S))
    for name in sorted(set(re.findall(r"`([^`\n]+)`", re.sub(r"^```.*?^```$", "", text, flags=re.M | re.S)))):
        if re.search(r"\b(NAME|FILE|TYPE|CRATE|SEED|X\w+s|Name)\b|command_name", name) or name in blocks or "/out/" in name:
            continue
        if PATH.match(name):
            wanted = re.compile("(.*/)?" + re.escape(name.removeprefix("./").rstrip("/")).replace(r"\*", "[^/]*") + r"(\.antt)?(/.*)?$")
            if not any(wanted.match(it) for it in paths):
                yield name
        elif WORD.match(name) and not all(it in words for it in name.split("::")):
            yield name


def main():
    paths = subprocess.run(["git", "ls-files"], cwd=TOP, stdout=subprocess.PIPE, text=True, check=True).stdout.split("\n")[:-1]
    words = {it for path in paths for it in re.split(r"[/.]", path)}
    for path in paths:
        if not path.endswith((".md", "release/robin")):
            with open(os.path.join(TOP, path), encoding="utf-8", errors="replace") as it:
                words.update(re.findall(r"\w+", it.read()))
    found = [f"{page}: {name}" for page in paths if page.endswith(".md") and page != "edits/HISTORY.md" for name in lacking(page, paths, words)]
    for line in found:
        print(line)
    return 1 if found else 0


sys.exit(main())
