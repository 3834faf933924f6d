#!/usr/bin/env python3
"""to_rust.py OUT: writes the crates of a search as plain Rust into the package OUT, without contracts, ghosts and models.

std's Vec is that of prelude.rs. It reads without tests, as code does whose reads are proved."""
import pathlib
import re
import shutil
import sys

CRATES = """league robin_watch rows refutation propagate refutation_check clause_search circle_method encoding decoding
    break_counts league_search planes bound_rows floors""".split()
# What reads texts, or needs crates that aren't written.
LEFT_OUT = {
    "refutation": "fault feed front group line place token".split(),
    "decoding": "laws league_logs log_laws decoder".split(),
    "break_counts": "allowed bounds counts laws log searched shortage sums together".split(),
    "league_search": "finder found letters lowered picked raised".split(),
    "bound_rows": ["laws"],
}
LEFT_OUT_CALLS = {("refutation", "log"): "push_clause_line push_linear_line push_line".split()}


def end_of_block(text, at):
    """The place behind the braces that open at a place or behind it."""
    at = text.index("{", at)
    depth = 0
    while True:
        depth += {"{": 1, "}": -1}.get(text[at], 0)
        at += 1
        if depth == 0:
            return at


def end_of_item(text, at):
    """The place behind the `;` or `,` that ends what begins at a place."""
    depth = 0
    while depth > 0 or text[at] not in ";,":
        depth += {"{": 1, "[": 1, "(": 1, "}": -1, "]": -1, ")": -1}.get(text[at], 0)
        at += 1
    return at + 1


def without(text, pattern, end):
    """The text without what begins as the pattern says, and ends where `end` says."""
    while found := re.search(pattern, text, re.M):
        text = text[: found.start()] + text[end(text, found.end()) :]
    return text


def without_proofs(text):
    """The text without contracts, ghosts, models and drops: Rust drops each part by itself."""
    text = without(text, r"^impl(<[^\n{]*>)? (?:Model|Drop) for [^{]*", end_of_block)
    text = without(text, r"^[ \t]*(?:pub(?:\(crate\))? )?ghost (?=[a-z_*])", end_of_item)
    text = without(text, r"^[ \t]*(requires|ensures)\*?(?= |\{)", end_of_block)
    text = re.sub(r"^[ \t]*#!?\[tactic.*\n", "", text, flags=re.M)
    return re.sub(r"^const _: \(\) = prove!.*?;\n", "", text, flags=re.M | re.S)


def derived(found):
    """What Rust derives: not Drop, and not Error, of which nothing here makes use."""
    words = [word for word in re.split(r",\s*", found.group(1)) if word not in ("Drop", "Error")]
    return f"#[derive({', '.join(words)})]" if words else ""


def in_one_crate(name, text, modules):
    """The text with paths of a crate in which each crate is a module."""
    for module in modules:
        text = re.sub(rf"^((?:pub )?use ){module}::", r"\1self::" + module + "::", text, flags=re.M)
    text = re.sub(r"\bcrate::", f"crate::{name}::", text)
    for other in CRATES + ["robin_io"]:
        text = re.sub(rf"^(\s*(?:pub )?use ){other}::", rf"\1crate::{other}::", text, flags=re.M)
        text = re.sub(rf"(?<![\w:]){other}::(?=[a-z_]+\()", f"crate::{other}::", text)
    return text


def in_plain_rust(text):
    """The text without what std's Rust doesn't have."""
    text = re.sub(r"#\[derive\(([^)]*)\)\]", derived, text)
    text = re.sub(r"^\s*#\[error\(.*\)\]\n", "", text, flags=re.M)
    text = re.sub(r"^use (std::alloc::[^;]*|std::marker::Model|std::rc::Rc|thiserror::Error);\n", "", text, flags=re.M)
    text = text.replace("use std::hash::{FoldHasher, Hasher};", "use std::hash::Hasher;")
    text = re.sub(r"(<T|trait \w+): Drop\b", r"\1", text)
    return re.sub(r"vec!\[in ([a-z_.]+); ([^;]*); ([^;]*?)\]", r"Vec::filled(\1, \2, \3)", text)


def without_left_out(name, stem, text):
    """The text of a file of a crate without the modules and calls that are left out."""
    for gone in LEFT_OUT.get(name, []):
        text = re.sub(rf"^(pub(\(crate\))? )?(mod {gone}|use (self|crate::{name})::{gone}::[^;]*);\n", "", text, flags=re.M)
    for call in LEFT_OUT_CALLS.get((name, stem), []):
        text = without(text, rf"^    (?:///.*\n    )*(?:pub(?:\(crate\))? )?fn {call}\b", end_of_block)
    return text


def rust(name, stem, text):
    """The text of a file of a crate as plain Rust. All modules are seen in the whole package."""
    modules = re.findall(r"^(?:pub )?mod ([a-z_0-9]+);", text, re.M) if stem == "lib" else []
    text = in_one_crate(name, in_plain_rust(without_proofs(text)), modules)
    text = without_left_out(name, stem, re.sub(r"^mod ", "pub(crate) mod ", text, flags=re.M))
    head = re.match(r"(//!.*\n|\s*\n)*", text).end()
    return text[:head] + "use crate::prelude::*;\n" + text[head:]


def main():
    here = pathlib.Path(__file__).resolve().parent
    out = pathlib.Path(sys.argv[1])
    for name in CRATES:
        (out / "src" / name).mkdir(parents=True, exist_ok=True)
        for file in (here.parent.parent / "crates" / name / "src").glob("*.rt"):
            if file.stem not in LEFT_OUT.get(name, []):
                stem = "mod" if file.stem == "lib" else file.stem
                (out / "src" / name / f"{stem}.rs").write_text(rust(name, file.stem, file.read_text()))
    for file in here.glob("*.rs"):
        shutil.copy(file, out / "src")
    shutil.copy(here / "Cargo.toml", out)


main()
