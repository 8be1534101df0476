"""The run program on a session, text or packed: its lines as it prints them, and an exit status."""

import os
import subprocess
from shutil import which
from threading import Thread

from . import command
from .command import Bad, built
from .session import is_text
from .sessiontext import Parser, TextError, packed, text_words

HELP = """\
The run program is the proved one (`make run` makes target/bin/run, `make install` installs it as lagoon-run). It takes packed sessions;
a text is packed first. It prints a line for each step: number, in-mass, out-mass, total and released mass, or the cause and
place of a refusal after R; then up to eight lines B, the board. Of a refused mesh or field it prints M or F with cause and place.

The exit status is 1 where it refuses anything, and where it does not end as it should. `lagoon check` says refusals in words.

examples:
  lagoon run examples/channel.txt
  lagoon run session.in | tail -n 8
"""

PIECE = 1 << 16


def refused(line):
    """Does the run refuse something by this line?"""
    words = line.split()
    return words[:1] in ([b"M"], [b"F"]) or words[1:2] == [b"R"]


def pieces_of(path):
    """The records of a session, in pieces; a text is read whole before the first."""
    file = command.opened(path)
    if not is_text(file):
        return iter(lambda: file.read(PIECE), b"")
    try:
        found, _ = packed(Parser(file))
    except TextError as error:
        raise Bad(text_words(path, error)) from None
    return (record for record, times in found for _ in range(times))


def fed(process, pieces):
    """Gives the program what it reads; it may end before it has read all."""
    try:
        for piece in pieces:
            process.stdin.write(piece)
        process.stdin.close()
    except BrokenPipeError:
        pass


def started(given):
    program = given or built("run") or which("lagoon-run")
    if not program or not os.path.exists(program):
        raise Bad(f"{given or 'target/bin/run'} is not there: `make run` makes it")
    try:
        return subprocess.Popen([program], stdin=subprocess.PIPE, stdout=subprocess.PIPE)
    except OSError as error:
        raise Bad(f"{program}: {error.strerror}") from None


def arguments(words):
    parser = command.parser("lagoon run", __doc__, HELP)
    parser.add_argument("file", nargs="?", default="-", help="the session, text or packed (default: standard input)")
    parser.add_argument("--run", metavar="PROGRAM", help="the run program (default: target/bin/run, which `make run` makes)")
    return parser.parse_args(words)


def main(words):
    options = arguments(words)
    pieces = pieces_of(options.file)
    process, bad = started(options.run), False
    feeder = Thread(target=fed, args=(process, pieces), daemon=True)
    feeder.start()
    with command.Output("-") as output:
        for line in process.stdout:
            bad = bad or refused(line)
            output.write(line)
    feeder.join()
    return 1 if process.wait() or bad else 0
