"""Writes the manual page and the completions of gomtasil(1) from its parser, so that nothing is written twice.
Usage: tool_pages.py man|bash|zsh|fish TOP VERSION, with SOURCE_DATE_EPOCH."""

import argparse
import os
import sys
import time
from collections.abc import Callable

from roff import bold, escaped, example, in_line, page

Parser = argparse.ArgumentParser


def commands() -> tuple[Parser, list[tuple[str, Parser, str]]]:
    """The commands with their parsers and what each does."""
    top = cli.parser()
    (action,) = [it for it in top._actions if isinstance(it, argparse._SubParsersAction)]
    helps = {it.dest: it.help or "" for it in action._choices_actions}
    return top, [(name, parser, helps[name]) for name, parser in action.choices.items()]


def options_of(parser: Parser) -> list[argparse.Action]:
    return [it for it in parser._actions if it.option_strings and it.dest != "help"]


def places_of(parser: Parser) -> list[argparse.Action]:
    return [it for it in parser._actions if not it.option_strings]


def words_of(option: argparse.Action) -> list[str] | None:
    """What may follow an option: words, nothing where it is a number or a text, or None where it takes no value."""
    if option.nargs == 0:
        return None
    return [str(it) for it in option.choices or []]


# ---- the manual page


def prose(text: str | None) -> list[str]:
    """Paragraphs, and examples that stand two spaces in."""
    written: list[str] = []
    for part in (text or "").strip().split("\n\n"):
        if part.startswith("example:"):
            written += [".PP", "For example:", *example([line.strip() for line in part.split("\n")[1:]])]
        else:
            written += [".PP", in_line(" ".join(part.split()))]
    return written


def head_of(option: argparse.Action) -> str:
    """The option or word with what follows it."""
    if not option.option_strings:
        return bold(str(option.metavar))
    metavar = option.metavar or ("{" + ",".join(option.choices) + "}" if option.choices else "")
    shown = " ".join(metavar) if isinstance(metavar, tuple) else metavar
    shown = f"[{shown}]" if option.nargs == "?" else shown
    return bold(option.option_strings[-1]) + (f" {escaped(shown)}" if shown and option.nargs != 0 else "")


def man() -> str:
    top, found = commands()
    date = time.strftime("%Y-%m-%d", time.gmtime(EPOCH))
    written = page("gomtasil", date, VERSION, "extract, view and monitor what lritstation received") + [".SH SYNOPSIS"]
    for place, (_, parser, _) in enumerate(found):
        usage = " ".join(parser.format_usage().split()[1:]).replace("[-h] ", "")
        written += [".PP" if place == 0 else ".br", escaped(usage)]
    written += [".SH DESCRIPTION", *prose(top.description)]
    for name, parser, _ in found:
        written += [f".SH {name.upper()}", *prose(parser.description)]
        for option in [*places_of(parser), *options_of(parser)]:
            written += [".TP", head_of(option), escaped(option.help or "")]
        written += prose(parser.epilog)
    written += [".SH NEEDS AND STATUSES", *prose(top.epilog), ".SH SEE ALSO", bold("lritstation") + "(1)"]
    return "\n".join(written) + "\n"


# ---- completions


def bash() -> str:
    _, found = commands()
    names = " ".join(name for name, _, _ in found)
    cases = []
    for name, parser, _ in found:
        for option in options_of(parser):
            if words := words_of(option):
                cases.append(f'    "{name} {option.option_strings[-1]}") words="{" ".join(words)}" ;;')
        cases.append(
            f'    "{name} "*) words="{" ".join(it.option_strings[-1] for it in options_of(parser))} --help" ;;'
        )
    lines = "\n".join(cases)
    return f"""# Completions of gomtasil(1) for bash.
_gomtasil() {{
    local word=${{COMP_WORDS[COMP_CWORD]}} words=
    if [ "$COMP_CWORD" = 1 ]; then
        mapfile -t COMPREPLY < <(compgen -W "{names} --help --version" -- "$word")
        return
    fi
    case "${{COMP_WORDS[1]}} ${{COMP_WORDS[COMP_CWORD - 1]}}" in
{lines}
    esac
    compopt -o filenames
    mapfile -t COMPREPLY < <(compgen -W "$words" -- "$word"; compgen -f -- "$word")
}}
complete -F _gomtasil gomtasil
"""


def zsh() -> str:
    _, found = commands()
    lines = "\n".join(f"        '{name}:{help_}'" for name, _, help_ in found)
    cases = []
    for name, parser, _ in found:
        words = " ".join(it.option_strings[-1] for it in options_of(parser))
        cases.append(f"    {name}) compadd -- {words} --help; _files ;;")
    options = "\n".join(cases)
    return f"""#compdef gomtasil
# Completions of gomtasil(1) for zsh.
_gomtasil() {{
    if [ "$CURRENT" = 2 ]; then
        local -a commands=(
{lines}
        )
        _describe command commands
        return
    fi
    case $words[2] in
{options}
    esac
}}
_gomtasil "$@"
"""


def fish() -> str:
    _, found = commands()
    lines = ["# Completions of gomtasil(1) for fish.", "complete -c gomtasil -n __fish_use_subcommand -f"]
    for name, parser, help_ in found:
        lines.append(f"complete -c gomtasil -n __fish_use_subcommand -a {name} -d '{help_}'")
        for option in options_of(parser):
            words = words_of(option)
            value = "" if words is None else f" -x -a '{' '.join(words)}'" if words else " -r"
            seen = f"'__fish_seen_subcommand_from {name}'"
            lines.append(f"complete -c gomtasil -n {seen} -l {option.option_strings[-1][2:]}{value}")
    return "\n".join(lines) + "\n"


PAGES: dict[str, Callable[[], str]] = {"man": man, "bash": bash, "zsh": zsh, "fish": fish}
if len(sys.argv) != 4 or sys.argv[1] not in PAGES:
    sys.exit(__doc__)
TOP, VERSION = sys.argv[2:]
EPOCH = int(os.environ["SOURCE_DATE_EPOCH"])
os.environ["COLUMNS"] = "1000"
sys.dont_write_bytecode = True
sys.path.insert(0, os.path.join(TOP, "tools"))
from gomtasil import cli  # noqa: E402

sys.stdout.write(PAGES[sys.argv[1]]())
