#!/usr/bin/env python3
"""Makes the manual page and the bash completion of the command from its parser.

    documents.py FOLDER      writes FOLDER/share/man/man1/akubolinfe.1 and FOLDER/share/bash-completion/completions/akubolinfe
"""
import argparse
import re
import sys
from pathlib import Path

sys.path.insert(0, str(Path(__file__).resolve().parent.parent))

from akubolinfe import __version__, command  # noqa: E402
from akubolinfe._library import VARIABLE  # noqa: E402

NAME = command.PROGRAM

ENVIRONMENT = f"""\\fB{VARIABLE}\\fR is the path of the shared library. Without it the library is looked for beside the Python package,
then in the prefix that the package is installed in, then where the loader looks."""


def subcommands(parser):
    """The subcommands of a parser, by name, with their one-line help."""
    for action in parser._actions:
        if isinstance(action, argparse._SubParsersAction):
            helps = {choice.dest: choice.help for choice in action._choices_actions}
            return {name: (sub, helps.get(name, '')) for name, sub in action.choices.items()}
    return {}


def leaves(parser, words=()):
    """Every subcommand that has none of its own, with its words."""
    below = subcommands(parser)
    if not below:
        yield words, parser
    for name, (sub, _) in below.items():
        yield from leaves(sub, (*words, name))


def options(parser):
    """The options and positional arguments of a parser, each with its words and its help."""
    for action in parser._actions:
        if isinstance(action, (argparse._SubParsersAction, argparse._HelpAction)):
            continue
        value = '' if action.nargs == 0 else ' ' + command_value(action)
        yield [flag + value for flag in action.option_strings] or [command_value(action)], action.help or ''


def command_value(action):
    if action.choices:
        return '{' + ','.join(map(str, action.choices)) + '}'
    return action.metavar or action.dest.upper()


def roff(text):
    """Text as roff."""
    return re.sub(r"^([.'])", r'\\&\1', text.replace('\\', '\\e').replace('-', '\\-'), flags=re.M)


def usage(words, parser):
    shown = ' '.join(parser.format_usage().split())
    return roff(re.sub(r'^usage: ', '', shown))


def manual(parser):
    """The manual page."""
    lines = [f'.TH {NAME.upper()} 1 "" "{NAME} {__version__}"', '.SH NAME', f'{NAME} \\- {roff(parser.description[0].lower() + parser.description[1:-1])}']
    lines += ['.SH SYNOPSIS', f'.B {NAME}', '.I COMMAND', '[arguments]', '.SH DESCRIPTION', roff(parser.description), '.SH COMMANDS']
    for words, sub in leaves(parser):
        lines += [f'.SS {" ".join(words)}', usage(words, sub), '.PP', roff(sub.description or '')]
        for names, help in options(sub):
            lines += ['.TP', f'\\fB{roff(", ".join(names))}\\fR', roff(help)]
        if sub.epilog:
            lines += ['.PP', 'Example:', '.PP', '.nf', roff(sub.epilog.split('\n')[1]), '.fi']
    lines += ['.SH EXIT STATUS', '.nf', roff('\n'.join(line.strip() for line in command.STATUSES.split('\n')[1:])), '.fi']
    lines += ['.SH ENVIRONMENT', ENVIRONMENT]
    return '\n'.join(lines) + '\n'


def completion(parser):
    """The bash completion: subcommands after subcommands, then options, the choices of an option, and file names."""
    cases, choices = [], []

    def visit(sub, words):
        below = subcommands(sub)
        flags = [flag for action in sub._actions for flag in action.option_strings]
        cases.append(f'        "{" ".join(words)}") words="{" ".join([*below, *flags])}" ;;')
        for action in sub._actions:
            if action.choices and action.option_strings:
                values = ' '.join(str(choice) for choice in action.choices)
                choices.append(f'        "{" ".join(words)} {action.option_strings[-1]}") words="{values}" ;;')
        for name, (next_sub, _) in below.items():
            visit(next_sub, (*words, name))

    visit(parser, ())
    known = ' | '.join(f'"{" ".join((*words,))}"' for words, _ in paths(parser))
    return COMPLETION.format(name=NAME, known=known, cases='\n'.join(cases), choices='\n'.join(choices))


def paths(parser, words=()):
    """Every subcommand, with its words."""
    for name, (sub, _) in subcommands(parser).items():
        yield (*words, name), sub
        yield from paths(sub, (*words, name))


COMPLETION = """# bash completion for {name}
_{name}() {{
    local current=${{COMP_WORDS[COMP_CWORD]}} previous=${{COMP_WORDS[COMP_CWORD-1]}} path= words= i
    for ((i = 1; i < COMP_CWORD; i++)); do
        case "${{path:+$path }}${{COMP_WORDS[i]}}" in
        {known}) path="${{path:+$path }}${{COMP_WORDS[i]}}" ;;
        *) break ;;
        esac
    done
    case "$path $previous" in
{choices}
    *)
        case "$path" in
{cases}
        esac
        ;;
    esac
    mapfile -t COMPREPLY < <(compgen -W "$words" -- "$current")
}}
complete -o default -F _{name} {name}
"""


def made():
    """Both documents, by their paths below a prefix."""
    parser = command.parser()
    return {
        f'share/man/man1/{NAME}.1': manual(parser),
        f'share/bash-completion/completions/{NAME}': completion(parser),
    }


def main():
    if len(sys.argv) != 2:
        sys.exit('usage: documents.py FOLDER')
    for path, content in made().items():
        target = Path(sys.argv[1]) / path
        target.parent.mkdir(parents=True, exist_ok=True)
        target.write_text(content)


if __name__ == '__main__':
    main()
