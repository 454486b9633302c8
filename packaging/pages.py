"""Writes a page of the package from what stands in README, docs/FORMATS.md, CHANGELOG and the wrapper's help, so that
nothing is written twice. Usage: pages.py help|commands|man|bash|zsh|fish|changelog TOP VERSION [PREFIX], with
SOURCE_DATE_EPOCH and the folder under which the package is installed, such as /usr/. Where ARCHITECTURE in the
environment is arm64, other processors aren't mentioned."""

import calendar
import email.utils
import os
import re
import subprocess
import sys
import textwrap
import time
from collections.abc import Callable
from typing import NamedTuple

from roff import bold, escaped, in_line, page, roff, rows_of, term

MAINTAINER = "Gomtasil maintainers <maintainers@users.noreply.gomtasil.example>"
UNPROVED = "--unproved"  # (what a checkout alone can do)
MANUAL = "The manual page lritstation(1) has every input, printed line and status."
DOCUMENTS = """PREFIXshare/doc/gomtasil/README.md leads from symbols to a picture, and
docs/OPERATING.md has a station that runs day and night."""


def placed(text: str) -> str:
    """The text with the paths of what is installed in place of those of a checkout."""
    text = re.sub(r"(?<![\w/])examples/", f"{PREFIX}share/gomtasil/", text)
    text = re.sub(r"(?<![\w/])docs/", f"{PREFIX}share/doc/gomtasil/docs/", text)
    return text.replace("PREFIX", PREFIX)


def text_of(name: str) -> str:
    with open(os.path.join(TOP, name), encoding="utf-8") as file:
        return file.read()


def help_text() -> str:
    """The wrapper's help without what only a checkout has, and with what an installed one has."""
    wrapper = [os.path.join(TOP, "lritstation"), "--help"]
    said = subprocess.run(wrapper, capture_output=True, text=True, check=True).stdout
    others = ("README.md leads", *(["Where the processor"] if os.environ.get("ARCHITECTURE") == "arm64" else []))
    paragraphs = [part for part in said.strip().split("\n\n") if not part.startswith(others)]
    paragraphs.insert(-1, MANUAL + "\n" + DOCUMENTS)
    lines = [line for line in "\n\n".join(paragraphs).split("\n") if UNPROVED not in line]
    lines[0] = re.sub(r"^Gomtasil [^:]*", f"Gomtasil {VERSION}", lines[0])
    return placed("\n".join(lines).replace("./lritstation", "lritstation"))


def summaries() -> dict[str, str]:
    """What the help says of each command, by name."""
    found: dict[str, str] = {}
    for line in help_text().split("\n"):
        parts = re.match(r"  ([a-z]+(?:, [a-z]+)*)(?: \S+)*?  +(\S.*)", line)
        if parts:
            found.update((name, parts[2]) for name in parts[1].split(", "))
    return found


def table_of(head: str) -> str:
    """The table of FORMATS that begins with this head, of those about the commands."""
    part = text_of("docs/FORMATS.md").split("\n## Commands\n")[1].split("\n## ")[0]
    return next(block for block in part.split("\n\n") if block.startswith(f"| {head} |"))


class Command(NamedTuple):
    """A command of FORMATS: its name, and its options with the values that each may have; none is a number."""

    name: str
    options: dict[str, list[str]]


def commands() -> list[Command]:
    known: dict[str, list[str]] = {}
    found = []
    for call, _ in rows_of(table_of("command").split("\n"))[1:]:
        for words in re.findall(r"`([^`]+)`", call):
            options = dict(re.findall(r"\[(--[\w-]+) ([^\]]+)\]", words))
            # (`[--line ..]` takes what an earlier row says)
            known.update((option, value.split("|")) for option, value in options.items() if "|" in value)
            found.append(Command(words.split()[0], {option: known.get(option, []) for option in options}))
    return found


def options() -> list[str]:
    """The options of the commands, from the help, and those that stand in place of words."""
    written = ['.SH "OPTIONS"', ".PP", "Each option stands once, in any place after the command."]
    for option, names, meaning in re.findall(r"(?m)^  (--\S+ \S+) +(.*)$(?:\n      (\S.*)$)?", help_text()):
        written += term(option, placed(f"of {names}" + (f": {meaning}" if meaning else "")))
    written += [".PP", "These stand in place of all words:"]
    written += term("--help [COMMAND]", "prints the commands, or the form of one")
    return written + term("--version", "prints the version")


def environment() -> list[str]:
    if os.environ.get("ARCHITECTURE") == "arm64":
        return ['.SH "ENVIRONMENT"', ".PP", "None is read."]
    said = "where it is x86-64-v2, the program for that is started, whatever the processor has beyond"
    return ['.SH "ENVIRONMENT"', *term("LRITSTATION_CPU", said)]


def files() -> list[str]:
    """What is installed, and the shelf."""
    programs = ["arm64"] if os.environ.get("ARCHITECTURE") == "arm64" else ["v2", "v3"]
    written = ['.SH "FILES"']
    written += term("SHELF", "a shelf: one file, which a command that may write it locks meanwhile")
    for name in programs:
        written += term(f"{PREFIX}lib/gomtasil/lritstation-{name}", "a program, for the processors of this name")
    written += term(f"{PREFIX}share/gomtasil/", "the scripts of a station, and its settings, station.conf")
    return written + term(f"{PREFIX}share/doc/gomtasil/", "README.md, and the other documents in docs")


def man() -> str:
    paragraphs = help_text().split("\n\n")
    name = paragraphs[0].split(": ", 1)[1]
    date = time.strftime("%Y-%m-%d", time.gmtime(EPOCH))
    # (the first line has tbl set the tables)
    written = ["'\\\" t", *page("lritstation", date, VERSION, escaped(name)), ".SH SYNOPSIS"]
    for line in paragraphs[1].split("\n"):
        written += [".PP" if line.startswith("usage") else ".br", bold(line.replace("usage:", "").strip())]
    written += [".SH DESCRIPTION", *roff(placed(text_of("README.md").split("\n\n")[1]))]
    for part in paragraphs[2:]:
        if part.startswith(("SHELF", "Where the processor")):
            written += [".PP", *[in_line(line) for line in part.split("\n")]]
    # (its title and what stands before the first heading say what the page is)
    commands_, *others = text_of("docs/FORMATS.md").replace("\n## Statuses\n", "\n## Exit status\n").split("\n## ")[1:]
    written += [*roff(placed("## " + commands_)), *options()]
    for part in others:
        written += roff(placed("## " + part))
    written += [*environment(), *files(), ".SH SEE ALSO", "\\fBgomtasil\\fR(1)", ".PP", *placed(DOCUMENTS).split("\n")]
    return "\n".join(written) + "\n"


def cases(form: str) -> str:
    """The lines of a shell's `case` over a command and the word before: the values of options, and then the options."""
    found = commands()
    values = [(it.name, option, words) for it in found for option, words in it.options.items()]
    keys = [(f'"{name} {option}"', words) for name, option, words in values if words]
    keys.append(("|".join(sorted({f'*" {option}"' for _, option, words in values if not words})), []))
    keys += [(f'"{it.name} "*', list(it.options)) for it in found if it.options]
    return "\n".join(form.format(key=key, words=" ".join(words)) for key, words in keys)


def bash() -> str:
    names = " ".join(it.name for it in commands())
    return f"""# Completions of lritstation(1) for bash.
_lritstation() {{
    local word=${{COMP_WORDS[COMP_CWORD]}} words=
    case $COMP_CWORD in
    1)
        compopt -o filenames
        mapfile -t COMPREPLY < <(compgen -f -W "- --help --version" -- "$word")
        return
        ;;
    2) words="{names}" ;;
    *)
        case "${{COMP_WORDS[2]}} ${{COMP_WORDS[COMP_CWORD - 1]}}" in
{cases('        {key}) words="{words}" ;;')}
        esac
        ;;
    esac
    mapfile -t COMPREPLY < <(compgen -W "$words" -- "$word")
}}
complete -F _lritstation lritstation
"""


def zsh() -> str:
    said = summaries()
    names = "\n".join(f"            '{it.name}:{said[it.name]}'" for it in commands())
    return f"""#compdef lritstation
# Completions of lritstation(1) for zsh.
_lritstation() {{
    case $CURRENT in
    2)
        compadd -- - --help --version
        _files
        ;;
    3)
        local -a commands=(
{names}
        )
        _describe command commands
        ;;
    *)
        case "$words[3] $words[CURRENT-1]" in
{cases('        {key}) compadd -- {words} ;;')}
        esac
        ;;
    esac
}}
_lritstation "$@"
"""


def fish() -> str:
    said = summaries()
    lines = [
        "# Completions of lritstation(1) for fish.",
        "function __lritstation_at",
        "    test (count (commandline -opc)) -eq $argv[1]",
        "end",
        "function __lritstation_is",
        "    set -l words (commandline -opc)",
        '    test (count $words) -ge 3; and test "$words[3]" = "$argv[1]"',
        "end",
        "complete -c lritstation -n '__lritstation_at 1' -s h -l help",
        "complete -c lritstation -n '__lritstation_at 1' -l version",
        "complete -c lritstation -n 'not __lritstation_at 1' -f",
    ]
    for it in commands():
        lines.append(f"complete -c lritstation -n '__lritstation_at 2' -a {it.name} -d '{said[it.name]}'")
        for option, words in it.options.items():
            values = f" -a '{' '.join(words)}'" if words else ""
            lines.append(f"complete -c lritstation -n '__lritstation_is {it.name}' -l {option[2:]} -x{values}")
    return "\n".join(lines) + "\n"


def changelog() -> str:
    """CHANGELOG in Debian's form: an entry for each version, and one for what comes after the newest."""
    written = []
    for part in re.split(r"(?m)^## ", text_of("CHANGELOG.md"))[1:]:
        title, rest = part.split("\n", 1)
        dated = re.match(r"(\S+) \((.*)\)", title)
        seconds = calendar.timegm(time.strptime(dated[2], "%d %B %Y")) if dated else EPOCH
        written.append(f"gomtasil ({dated[1] if dated else VERSION}) unstable; urgency=medium\n")
        for item in re.split(r"\n(?=- )", rest)[1:]:
            line = " ".join(item.split("\n\n")[0][2:].replace("`", "").split())
            written.append(textwrap.fill(line, 78, initial_indent="  * ", subsequent_indent="    "))
        written.append(f"\n -- {MAINTAINER}  {email.utils.formatdate(seconds).replace('-0000', '+0000')}\n")
    return "\n".join(written)


PAGES: dict[str, Callable[[], str]] = {
    "help": lambda: help_text() + "\n",
    "commands": lambda: placed(table_of("command") + "\n\n" + table_of("word")) + "\n",
    "man": man,
    "bash": bash,
    "zsh": zsh,
    "fish": fish,
    "changelog": changelog,
}
if len(sys.argv) not in (4, 5) or sys.argv[1] not in PAGES:
    sys.exit(__doc__)
TOP, VERSION = sys.argv[2:4]
PREFIX = "".join(sys.argv[4:])
EPOCH = int(os.environ["SOURCE_DATE_EPOCH"])
sys.stdout.write(PAGES[sys.argv[1]]())
