"""The command `lagoon`: from a survey to a session, its check, run, budget, picture and pages."""

import importlib
import sys

from . import command

# Each command's module, the function in it that takes the words after the command, and what it does.
COMMANDS = {
    "survey": ("survey", "main", "a survey's tables to a lagoon: mesh and field in whole units"),
    "fluxes": ("fluxes", "main", "a water model's fluxes to steps whose water balances"),
    "check": ("records", "check_command", "what the run would refuse in a session, in words"),
    "pack": ("records", "pack_command", "a session's text to the records that the run reads"),
    "unpack": ("records", "unpack_command", "a session's records to text"),
    "run": ("run", "main", "the lines of the run program; status 1 where it refuses anything"),
    "budget": ("budget", "main", "what entered, left and was released, and that it closes"),
    "plot": ("plot", "main", "a picture of a session, or its figures as a table"),
    "map": ("map", "main", "a map of the lagoon by its concentrations, GeoJSON and VTK"),
    "export": ("export", "main", "all cells over all steps as a table"),
    "binder": ("binder", "main", "the pages for the binder, and the board"),
    "judge": ("judge", "main", "another model's steps judged"),
    "cut": ("cut", "main", "a session cut in two, one for each office"),
    "charge": ("charge", "main", "the brine charge of a period"),
    "renumber": ("renumber", "main", "a session in another numbering of its cells and faces"),
}

HELP = """\
`lagoon COMMAND --help` tells all about one of them. The exit status is 0 where all was done; 1 where something cannot be read or written,
does not close, or is refused (check, run, judge and binder look for that); 2 where the words of the command are not understood.

examples:
  lagoon check examples/channel.txt
  lagoon pack examples/channel.txt -o channel.in
  lagoon run examples/channel.txt
  lagoon budget examples/tide.txt
  lagoon plot examples/tide.txt -o tide.svg
"""


def usage(words):
    """--help, --version, and words that are no command."""
    parser = command.parser("lagoon", __doc__, HELP)
    commands = parser.add_subparsers(dest="command", required=True, metavar="COMMAND")
    for name, (_, _, told) in COMMANDS.items():
        commands.add_parser(name, help=told, add_help=False)
    parser.parse_args(words)


def run(words):
    """The command that the words say; its module is read only now, so that an interrupt finds us ready."""
    if not words or words[0] not in COMMANDS:
        return usage(words)
    module, function, _ = COMMANDS[words[0]]
    return getattr(importlib.import_module(f".{module}", __package__), function)(words[1:])


def main():
    words = sys.argv[1:]
    name = f"lagoon {words[0]}" if words and words[0] in COMMANDS else "lagoon"
    return command.finish(name, lambda: run(words))
