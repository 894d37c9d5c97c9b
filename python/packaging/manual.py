"""The man page and the completion of the command `wundjeska`, made of its parsers, so that no option is left out of either."""
import argparse
import re
from typing import Iterator, List

from wundjeska import __version__
from wundjeska.command import VERBS, parser_of
from wundjeska.commands.scenes import USE as SCENES
from wundjeska.scene_words import key_help

STATUSES = """0 if the command did what it was asked to do; 1 if the check refused, or an overlap of frames does not agree;
2 if the words of the command line are refused; 3 if the input does not fit; 5 if a file cannot be read or written; 130 if it
was interrupted; otherwise the status of the program. From 1 on a line on standard error says why."""
EXAMPLE = """wundjeska phase.tif --coherence coherence.tif --components components.tif --page page.html cycles.tif"""
TOP = """Unwraps the phase of radar interferograms. A program does it, and the report on each surface is checked by its checker,
which solves nothing, before a file is written. `wundjeska --version` tells whether the proofs of both were run. Without a verb the
command is unwrap."""


def escaped(text: str) -> str:
    """Text as roff has it."""
    found = re.sub(r"([\\-])", r"\\\1", " ".join(text.split()))
    return "\\&" + found if found.startswith((".", "'")) else found


def metavar_of(action: argparse.Action) -> str:
    """What stands for an option's words."""
    if action.nargs == 0:
        return ""
    names = action.metavar if action.metavar is not None else (action.choices or [action.dest.upper()])
    if isinstance(names, str):
        return names
    return ("|" if action.choices else " ").join(map(str, names))


def actions_of(verb: str) -> List[argparse.Action]:
    return [] if verb == "scenes" else list(parser_of(verb)._actions)


def entries(verb: str) -> Iterator[str]:
    """An entry of the man page for each word of a verb."""
    for action in actions_of(verb):
        if action.option_strings:
            name = f"\\fB{escaped(', '.join(action.option_strings))}\\fR \\fI{escaped(metavar_of(action))}\\fR".rstrip()
        else:
            name = f"\\fI{escaped(action.dest.upper())}\\fR"
        yield f".TP\n{name}\n{escaped(action.help or '')}"


def verb_page(verb: str, what: str) -> str:
    if verb == "scenes":
        keys = "\n".join(f".TP\n\\fB{escaped(key)}\\fR\n{escaped(told)}" for key, told in key_help())
        return f".SH wundjeska scenes\n{escaped(what)}\n.PP\n{escaped(' '.join(SCENES.splitlines()[2:]))}\n{keys}"
    paragraphs = (parser_of(verb).description or "").split("\n\n")
    told = "\n.PP\n".join(escaped(paragraph) for paragraph in paragraphs)
    return f".SH wundjeska {verb}\n{told}\n" + "\n".join(entries(verb))


def man_page(date: str) -> str:
    """The man page, of section 1."""
    verbs = "\n".join(f".TP\n\\fB{verb}\\fR\n{escaped(what)}" for verb, what in VERBS.items())
    parts = [
        f'.TH WUNDJESKA 1 "{date}" "wundjeska {__version__}"',
        ".SH NAME\nwundjeska \\- unwraps radar interferograms, with certificates",
        ".SH SYNOPSIS\n\\fBwundjeska\\fR [\\fIVERB\\fR] \\fIWORDS\\fR...",
        f".SH DESCRIPTION\n{escaped(TOP)}\n{verbs}",
        *(verb_page(verb, what) for verb, what in VERBS.items()),
        f".SH EXIT STATUS\n{escaped(STATUSES)}",
        f".SH EXAMPLES\n{escaped(EXAMPLE)}",
    ]
    return "\n".join(parts) + "\n"


COMPLETION = """# Completion of wundjeska for bash.
_wundjeska() {
  local now=${COMP_WORDS[COMP_CWORD]} before=${COMP_WORDS[COMP_CWORD-1]} words= prefix=- verbs='VERBS'
  case ${COMP_WORDS[1]} in
OPTIONS
  esac
  case $before in
CHOICES
  esac
  COMPREPLY=()
  if [ -z "$prefix" ] || [[ $now == -* ]]; then
    mapfile -t COMPREPLY < <(compgen -W "$words" -- "$now")
  else
    mapfile -t COMPREPLY < <(compgen -f -- "$now")
    [ "$COMP_CWORD" -ne 1 ] || mapfile -t -O ${#COMPREPLY[@]} COMPREPLY < <(compgen -W "$verbs" -- "$now")
  fi
}
complete -o filenames -F _wundjeska wundjeska
"""


def options_of(verb: str) -> List[str]:
    if verb == "scenes":
        return sorted([*(key.split("=")[0] + "=" for key, _ in key_help()), "--cores", "--dry-run", "--help", "--unlock"])
    return sorted(option for action in actions_of(verb) for option in action.option_strings)


def choices_of(verb: str) -> Iterator[str]:
    """A case for each option of a verb that has choices."""
    for action in actions_of(verb):
        for option in action.option_strings if action.choices else []:
            yield f"    {option}) words='{' '.join(map(str, action.choices or []))}'; prefix= ;;"


def completion() -> str:
    """The completion of bash: verbs, options, their choices, and files."""
    cases = [f"    {verb}) words='{' '.join(options_of(verb))}' ;;" for verb in VERBS]
    cases.append(f"    *) words='{' '.join([*options_of('unwrap'), '--version'])}' ;;")
    choices = sorted({case for verb in VERBS for case in choices_of(verb)})
    parts = {"VERBS": " ".join(VERBS), "OPTIONS": "\n".join(cases), "CHOICES": "\n".join(choices)}
    return re.sub("VERBS|OPTIONS|CHOICES", lambda found: parts[found.group()], COMPLETION)
