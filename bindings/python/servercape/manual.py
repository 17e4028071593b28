"""The man page and the bash completion of the command, made of its own help:

    python3 -m servercape.manual man | bash
"""
import argparse
import sys
from collections.abc import Iterable

from .command import make_parser
from .library import VERSION

Parsers = dict[str, argparse.ArgumentParser]


def commands_of(parser: argparse.ArgumentParser) -> Parsers:
    """The parser of each command, by name."""
    for action in parser._actions:
        if isinstance(action, argparse._SubParsersAction):
            return dict(action.choices)
    return {}


def options_of(parser: argparse.ArgumentParser) -> list[str]:
    return [option for action in parser._actions for option in action.option_strings]


# ── the man page ──


def escaped(text: str) -> str:
    """A text in which roff sees no command."""
    plain = text.replace("\\", "\\e").replace("-", "\\-")
    return "\n".join(f"\\&{line}" if line.startswith((".", "'")) else line for line in plain.split("\n"))


def filled(text: str) -> str:
    """A text with its paragraphs."""
    parts = text.strip().split("\n\n")
    return "\n.PP\n".join(escaped(part) for part in parts)


def argument_of(action: argparse.Action) -> str:
    name = ", ".join(action.option_strings) or str(action.metavar or action.dest)
    value = f" {action.metavar}" if action.option_strings and action.metavar else ""
    help_ = (action.help or "") % {"default": action.default, "prog": "servercape"}
    return f".TP\n.B {escaped(name + value)}\n{escaped(help_)}\n"


def command_page(name: str, parser: argparse.ArgumentParser) -> str:
    usage = " ".join(parser.format_usage().split()).removeprefix("usage: ")
    arguments = "".join(argument_of(action) for action in parser._actions if action.dest != "help")
    return f".SS {name}\n.nf\n{escaped(usage)}\n.fi\n.PP\n{filled(parser.description or '')}\n{arguments}"


def page() -> str:
    """The man page, in section 1."""
    parser = make_parser()
    commands = "".join(command_page(name, each) for name, each in commands_of(parser).items())
    head = f'.TH SERVERCAPE 1 "" "servercape {VERSION}" "User Commands"\n.nh\n.ad l\n'
    name = f".SH NAME\nservercape \\- {escaped((parser.description or '').rstrip('.'))}\n"
    synopsis = ".SH SYNOPSIS\n.B servercape\n.I COMMAND\n[\\fIOPTIONS\\fR]\n"
    status = f".SH EXIT STATUS\n{filled(parser.epilog or '')}\n"
    return f"{head}{name}{synopsis}.SH COMMANDS\n{commands}{status}"


# ── the completion ──


def words(names: Iterable[str]) -> str:
    return " ".join(sorted(names))


def completion() -> str:
    """The completion for bash: the commands, the options of each, and else files."""
    parser = make_parser()
    commands = commands_of(parser)
    cases = "".join(f"    {name}) words='{words(options_of(each))}' ;;\n" for name, each in commands.items())
    return f"""# bash completion of servercape {VERSION}
_servercape() {{
    local word="${{COMP_WORDS[COMP_CWORD]}}" words=''
    if [ "$COMP_CWORD" -eq 1 ]; then
        mapfile -t COMPREPLY < <(compgen -W '{words([*commands, *options_of(parser)])}' -- "$word")
        return
    fi
    case "${{COMP_WORDS[1]}}" in
{cases}    esac
    case "$word" in
    -*) mapfile -t COMPREPLY < <(compgen -W "$words" -- "$word") ;;
    *) mapfile -t COMPREPLY < <(compgen -f -- "$word") ;;
    esac
}}
complete -o filenames -F _servercape servercape
"""


def main(arguments: list[str]) -> int:
    made = {"man": page, "bash": completion}
    if len(arguments) != 1 or arguments[0] not in made:
        print("usage: python3 -m servercape.manual man | bash", file=sys.stderr)
        return 2
    sys.stdout.write(made[arguments[0]]())
    return 0


if __name__ == "__main__":
    sys.exit(main(sys.argv[1:]))
