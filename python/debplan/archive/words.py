"""The words of the command archive-check."""
import pathlib

from debplan import tool
from debplan.archive import shards
from debplan.tool import Failure

# The options of `run` that are this tool's: those with a value, and the one without.
CERTIFICATES = ("--tls-ca", "--tls-cert", "--tls-key")
HAND_OVER = "--hand-over"


# The words


def number_in(name, options, default=shards.processors()):
    """The value of an option that is a number."""
    word = options.get(name)
    if word is None:
        return default
    if not (word.isascii() and word.isdigit() and len(word) < 5 and int(word)):
        raise Failure(f"{name} {word}: that is no number from 1 to 9999", 64)
    return int(word)


def words_of(command):
    """The words of a command."""
    about, add = ABOUT[command]
    options = tool.Words(about, f"{tool.tool_name()} {command}")
    add(options)
    return options


def add_of_run(options):
    """The options of run. They stand between those of `debplan installable`, so Asking reads them."""
    add_processors(options)
    options.add_argument("--report", metavar="DIR", help="write a folder for each broken package into DIR")
    options.add_argument("--shard", metavar="K/N", help="ask about one shard, with --output")
    options.add_argument("--output", metavar="FILE", help="where the output of a shard is written")
    options.add_argument("--scheduler", metavar="ADDRESS", help="have the shards run by the workers of a scheduler of Dask")
    options.add_argument("--shards", metavar="N", help="how many shards the workers run (default: four for each thread of a worker)")
    options.add_argument(HAND_OVER, action="store_true", help="hand the program and the inputs to the workers")
    for name, what in zip(CERTIFICATES, ("a certificate authority", "a certificate", "its key")):
        options.add_argument(name, metavar="FILE", help=f"{what} in PEM, for a scheduler tls://..")
    options.add_argument("options", nargs="*", metavar="OPTION", help="the options of debplan installable, and names")


def add_processors(options):
    options.add_argument("--processors", metavar="P", help="how many processes run at once (default: the number of processors)")


def add_of_merge(options):
    add_processors(options)
    options.add_argument("files", nargs="+", metavar="FILE", help="the outputs of all shards, 1/N to N/N in this order")


def add_of_compare(options):
    add_processors(options)
    options.add_argument("old", metavar="OLD", help="an output")
    options.add_argument("new", metavar="NEW", help="another one")
    options.add_argument("--refutations", metavar="DIR", help="the folder of the refutations of NEW, of which sentences are told")
    for name, of in (("--old-index", "OLD"), ("--new-index", "NEW")):
        options.add_argument(name, nargs="+", action="extend", metavar="FILE", help=f"the indices that {of} is about")


def add_of_migrate(options):
    add_processors(options)
    options.add_argument("--index", required=True, metavar="FILE", help="the index whose packages are taken out")
    options.add_argument("--from", required=True, dest="other", metavar="FILE", help="the index that has those that are put in")
    options.add_argument("--output", required=True, metavar="FILE", help="the index that is written")
    options.add_argument("--check", action="store_true", help="ask what can be installed then, with the OPTIONS behind --")
    options.add_argument("sources", nargs="+", metavar="SOURCE", help="the sources whose packages are exchanged")


def add_of_verify(options):
    add_processors(options)
    options.add_argument("folder", type=pathlib.Path, metavar="FOLDER", help="a report, or a folder of one")


def add_of_pages(options):
    options.add_argument("runs", nargs="+", metavar="REPORT", help="reports of run")
    options.add_argument("--output", type=pathlib.Path, required=True, metavar="DIR", help="the folder of the pages, which is replaced")
    options.add_argument("--title", default="Packages that can't be installed", metavar="TEXT", help="the title of the pages")


# What the commands are for, and their options.
ABOUT = {
    "run": ("Asks in shards, or about one shard, and prints what debplan installable prints.", add_of_run),
    "merge": ("Prints the whole from the outputs of all shards.", add_of_merge),
    "compare": ("Says what two outputs say differently.", add_of_compare),
    "migrate": ("Writes the index with the packages of some sources exchanged, and asks what can be installed then.", add_of_migrate),
    "verify": ("Has a report judged again.", add_of_verify),
    "pages": ("Writes pages on what is broken, of reports.", add_of_pages),
}


def parser():
    """The words of the command."""
    options = tool.Words(__doc__)
    parts = options.add_subparsers(dest="command", metavar="COMMAND", required=True, parser_class=PartWords)
    for command, (about, add) in ABOUT.items():
        add(parts.add_parser(command, about=about, help=about))
    return options


class PartWords(tool.Words):
    """The words of one command."""

    def __init__(self, prog, about):
        super().__init__(about, prog)
