"""Writes the manual page and the completions of lritdemod from its help (crates/lritdemod/stdout, which the gate
compares with the program's) and from docs/RECEIVING.md. Usage: demod_pages.py man|bash|zsh|fish TOP VERSION, with
SOURCE_DATE_EPOCH."""

import os
import re
import sys
import time
from collections.abc import Callable
from pathlib import Path
from typing import NamedTuple

from roff import escaped, page, roff, term, terms

STATUSES = {
    0: "the input has ended",
    2: "an option that can't be, which standard error names",
    3: "the input failed; all that was read before is demodulated",
    5: "the output failed",
    9: "memory was refused",
}


class Option(NamedTuple):
    """An option of the help."""

    name: str
    value: str  # none: it takes no value
    said: str
    choices: list[str]


def text_of(top: Path, name: str) -> str:
    return (top / name).read_text(encoding="utf-8")


def options_of(help_text: str) -> list[Option]:
    found = []
    for line in help_text.splitlines():
        match = re.fullmatch(r"\s+(?:-h, )?--([\w-]+)(?: <(\w+)>)?\s\s+(.*)", line)
        if match:
            said, _, choices = match[3].partition(" [possible values: ")
            found.append(Option(match[1], match[2] or "", said, choices.rstrip("]").split(", ") if choices else []))
    return found


def radios(top: Path) -> list[str]:
    """The section of RECEIVING on radios: prose, the table's rows and the list."""
    section = text_of(top, "docs/RECEIVING.md").split("\n### From a radio, or from complex samples\n")[1]
    return roff(section.split("\n**Several recordings**")[0], terms)


def man(top: Path, version: str, options: list[Option]) -> str:
    date = time.strftime("%Y-%m-%d", time.gmtime(int(os.environ["SOURCE_DATE_EPOCH"])))
    written = [*page("lritdemod", date, version, "demodulates the signal of a weather satellite"), ".SH SYNOPSIS"]
    written += [".B lritdemod", "[OPTIONS] < SAMPLES > SYMBOLS", ".SH DESCRIPTION", *radios(top), ".SH OPTIONS"]
    for option in options:
        choices = f": {', '.join(option.choices)}" if option.choices else ""
        value = f" \\fI{option.value}\\fR" if option.value else ""
        written += [".TP", f"\\fB\\-\\-{escaped(option.name)}\\fR{value}", escaped(option.said + choices)]
    written.append(".SH EXIT STATUS")
    for status, said in STATUSES.items():
        written += term(str(status), said)
    return "\n".join([*written, ".SH SEE ALSO", "\\fBlritstation\\fR(1), \\fBgomtasil\\fR(1)"]) + "\n"


FILES = ("status", "sigmf")  # options whose values are files


def bash(options: list[Option]) -> str:
    cases = [f'    --{it.name}) words="{" ".join(it.choices)}" ;;' for it in options if it.choices]
    cases += [f"    --{name}) mapfile -t COMPREPLY < <(compgen -f -- \"$word\"); return ;;" for name in FILES]
    names = " ".join("--" + it.name for it in options)
    return f"""# Completions of lritdemod(1) for bash.
_lritdemod() {{
    local word=${{COMP_WORDS[COMP_CWORD]}} words="{names}"
    case ${{COMP_WORDS[COMP_CWORD - 1]}} in
{chr(10).join(cases)}
    esac
    mapfile -t COMPREPLY < <(compgen -W "$words" -- "$word")
}}
complete -F _lritdemod lritdemod
"""


def zsh(options: list[Option]) -> str:
    rows = []
    for it in options:
        said = re.sub(r"([\[\]:'])", lambda found: "" if found[1] == "'" else "\\" + found[1], it.said)
        action = f"({' '.join(it.choices)})" if it.choices else "_files" if it.name in FILES else ""
        rows.append(f"        '--{it.name}[{said}]" + (f":{it.value}:{action}'" if it.value else "'"))
    arguments = " \\\n".join(rows)
    return f"#compdef lritdemod\n# Completions of lritdemod(1) for zsh.\n_arguments \\\n{arguments}\n"


def fish(options: list[Option]) -> str:
    lines = ["# Completions of lritdemod(1) for fish.", "complete -c lritdemod -f"]
    for it in options:
        value = " -r -F" if it.name in FILES else " -x" if it.value else ""
        if it.choices:
            value = f" -x -a '{' '.join(it.choices)}'"
        said = it.said.replace("'", "\\'")
        lines.append(f"complete -c lritdemod -l {it.name}{value} -d '{said}'")
    return "\n".join(lines) + "\n"


def main(page: str, place: str, version: str) -> None:
    top = Path(place)
    options = options_of(text_of(top, "crates/lritdemod/stdout"))
    shells: dict[str, Callable[[list[Option]], str]] = {"bash": bash, "zsh": zsh, "fish": fish}
    sys.stdout.write(man(top, version, options) if page == "man" else shells[page](options))


if __name__ == "__main__":
    if len(sys.argv) != 4 or sys.argv[1] not in ("man", "bash", "zsh", "fish"):
        sys.exit(__doc__)
    main(*sys.argv[1:])
