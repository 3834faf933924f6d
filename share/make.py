#!/usr/bin/env python3
"""Makes the manual page and the completions of robin from its table of help.

    share/make.py           writes share/robin.1 (man), share/robin.bash and share/_robin (zsh)
    share/make.py --check   says whether they are what it would write: with status 1 where they aren't

The table is crates/answers/src/pages.rt: the text of --help, and a page for each command.
"""
import os
import re
import sys

TOP = os.path.dirname(os.path.dirname(os.path.abspath(__file__)))
FILES = {"INSTANCE", "SOLUTION", "LOG", "VALUES"}


def pages():
    """The texts of the table by name, without Rust's quotes."""
    with open(f"{TOP}/crates/answers/src/pages.rt", encoding="utf-8") as it:
        text = it.read()
    found = re.findall(r'^pub const (\w+): &str = "((?:[^"\\]|\\.)*)";$', text, re.M | re.S)
    return {name: body.replace("\\\n", "", 1).replace("\\n", "\n").replace('\\"', '"').replace("\\\\", "\\") for name, body in found}


def commands(table):
    """Each command: its name, its words, and what it does, in the order of --help."""
    return [
        (line[1], line[2].split(), line[3]) for line in re.finditer(r"^  ([a-z]+)((?: [A-Z]+)+) +(\S.*)$", table["ALL"], re.M) if line[1].upper() in table
    ]


def options(table, name):
    """The options that a command's page names, and those of every command, each once."""
    common = table["ALL"].split("With every command:")[1].split("\n\n")[0]
    return sorted(set(re.findall(r"--[a-z]+", table[name.upper()] + common)) - {"--help"})


def escaped(text):
    """Lines of text as troff takes them literally."""
    lines = text.replace("\\", "\\e").replace("-", "\\-").split("\n")
    return "\n".join("\\&" + line if line[:1] in (".", "'") else line for line in lines)


def manual(table, all_commands):
    version = table["VERSION"].split()[1]
    parts = [f'.TH ROBIN 1 "" "robin {version}" "User commands"', ".SH NAME", "robin \\- makes and judges seasons of sports leagues", ".SH SYNOPSIS"]
    parts += [".nf", "robin COMMAND WORDS [OPTIONS]", "robin [COMMAND] \\-\\-help", "robin \\-\\-version", ".fi", ".SH DESCRIPTION"]
    parts += [".nf", escaped(table["ALL"].rstrip("\n")), ".fi"]
    for name, words, does in all_commands:
        parts += [f".SH {name.upper()}", ".nf", escaped(table[name.upper()].rstrip("\n")), ".fi"]
    return "\n".join([*parts, ""])


def bash(table, all_commands):
    names = " ".join(name for name, _, _ in all_commands)
    cases = "".join(f"        {name}) options=\"{' '.join(options(table, name))}\" ;;\n" for name, _, _ in all_commands)
    return f"""# Completion of robin for bash: source this file, or put it into /usr/share/bash-completion/completions as robin. Made by share/make.py.
_robin() {{
    local word=${{COMP_WORDS[COMP_CWORD]}} options=
    if [ "$COMP_CWORD" -eq 1 ]; then
        COMPREPLY=($(compgen -W "{names} --help --version" -- "$word"))
        return
    fi
    case ${{COMP_WORDS[1]}} in
{cases}    esac
    case $word in
        -*) COMPREPLY=($(compgen -W "$options --help" -- "$word")) ;;
        *) COMPREPLY=($(compgen -f -- "$word")) ;;
    esac
}}
complete -o filenames -F _robin robin
"""


def zsh(table, all_commands):
    names = "".join(f"        '{name}:{does}'\n" for name, _, does in all_commands)
    cases = "".join(f"        {name}) options=({' '.join(options(table, name))}) ;;\n" for name, _, _ in all_commands)
    return f"""#compdef robin
# Completion of robin for zsh: put it into a folder of $fpath as _robin. Made by share/make.py.
_robin() {{
    local -a names options
    names=(
{names.replace("robin's", "robin")}    )
    if (( CURRENT == 2 )); then
        _describe command names
        compadd -- --help --version
        return
    fi
    case $words[2] in
{cases}    esac
    if [[ $PREFIX == -* ]]; then
        compadd -- $options --help
    else
        _files
    fi
}}
_robin "$@"
"""


def quoted(text):
    """Text that may stand in single quotes."""
    return text.replace("'", "'\\''")


table = pages()
all_commands = [(name, words, quoted(does)) for name, words, does in commands(table)]
made = {"robin.1": manual(table, all_commands), "robin.bash": bash(table, all_commands), "_robin": zsh(table, all_commands)}
stale = []
for name, text in made.items():
    path = f"{TOP}/share/{name}"
    if sys.argv[1:] == ["--check"]:
        with open(path, encoding="utf-8") as it:
            if it.read() != text:
                stale.append(name)
    else:
        with open(path, "w", encoding="utf-8") as it:
            it.write(text)
if stale:
    sys.exit(f"share: {', '.join(stale)} isn't what the table of help gives: share/make.py writes it anew")
