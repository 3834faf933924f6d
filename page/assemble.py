"""assemble.py MODULE.wasm OUT.html [RELEASED.html]: one file of the page, its script and its module, which needs no server. Where the released page unpacks to this module,
its packed bytes are taken, so that the page is the same with every version of zlib."""
import base64
import gzip
import hashlib
import json
import os
import re
import sys

HERE = os.path.dirname(os.path.abspath(__file__))
PACKED = re.compile(r'const MODULE = "([A-Za-z0-9+/=]*)"')


def read(name):
    with open(os.path.join(HERE, name), encoding="utf-8") as file:
        return file.read()


def policy_sum(text):
    """What the content security policy says of a part of the page that may run."""
    return "'sha256-" + base64.b64encode(hashlib.sha256(text.encode()).digest()).decode() + "'"


def packed_of(module, released):
    """The module packed, in letters."""
    if released and os.path.isfile(released):
        with open(released, encoding="utf-8") as file:
            found = PACKED.search(file.read())
        if found and gzip.decompress(base64.b64decode(found[1])) == module:
            return found[1]
    return base64.b64encode(gzip.compress(module, 9, mtime=0)).decode()


def main(module, target, released=None):
    with open(module, "rb") as file:
        packed = packed_of(file.read(), released)
    # A text in the script holds no end of the script.
    worker = json.dumps(read("call.js") + read("worker.js")).replace("</", "<\\/")
    parts = [f'"use strict";\nconst MODULE = "{packed}";\nconst WORKER = {worker};\n']
    parts += [read(name) for name in ("runs.js", "season.js", "demands.js", "saving.js", "page.js")]
    script, style = "\n" + "\n".join(parts), "\n" + read("style.css")
    filled = {"script": script, "style": style, "script-sum": policy_sum(script), "style-sum": policy_sum(style)}
    page = re.sub(r"\{(script|style|script-sum|style-sum)\}", lambda it: filled[it[1]], read("page.html"))
    with open(target, "w", encoding="utf-8") as out:
        out.write(page)


main(*sys.argv[1:])
