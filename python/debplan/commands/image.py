"""The root of a system from nothing, and the lock file that makes it again.

  image request DIR [NAME..]         writes DIR/request: the packages that an index of DIR marks `Essential: yes`, and NAME..; with
                                     --recommends also what the new packages of its plan recommend
  image extract --debs FOLDER DIR ROOT   makes the folder ROOT ready for the plan DIR/plan: every package of the plan is
                                     extracted into it, so that maintainer scripts have a shell and what Policy 3.8 lets them
                                     take for granted; dpkg's status file is empty. run-plan carries the plan out then
  image finish DIR ROOT              writes the sources of apt, ROOT/etc/apt/sources.list.d/debplan.sources, of the sources in DIR that
                                     have a URI, where ROOT has none yet, runs the hooks, makes the tar file, and says what is left to do
  image lock DIR FILE                writes the lock file: the request, the plan, the pins and the target release, and of each
                                     package that it unpacks the stanza of its index, with the sum of its file, and of each
                                     index its URI, suite, date and SHA256
  image open FILE DIR                writes DIR from the lock file: request, plan, preferences, sources, indices and status, and
                                     has debplan judge the plan and solve the request by them

DIR is a folder of inputs, as collect-inputs writes it; with STATUS=/dev/null that is one for a root from nothing, and with
--no-pins one without the pins of this machine. A plan is judged by DIR/preferences; where that finds a version not admitted, the
pins of its package are named. Where a pin of the machine had to be left out of DIR, nothing is extracted, locked or asked about
for --recommends without --pins-left-out.
`extract` and `finish` have to be run by root. `extract` makes the links of a merged /usr, the usual devices in ROOT/dev, and the
first passwd and group of base-passwd. A file is taken where it has the SHA256 that the index says, or, where that says none, the
SHA512; without either the package is refused. Links in ROOT are followed in it, as by chroot, so nothing is written elsewhere. `open`
writes in DIR alone: a lock file with a field File is refused. The sources of apt have the field Signed-By of this machine's sources for
the same archive, and no other option. docs/FORMATS.md has the lock file. `open` needs no lists of apt, and nor does a download for
an opened lock file. Where an archive doesn't have a file any more, it is got from the base URI that the field Snapshot of its index
has in DIR/sources or the lock file; without one that is said, with the index's date and where the file may still be. A plan whose
start isn't an empty status file is locked with the SHA256 of that file, which has to stand in DIR before `open`.
With --recommends each clause of Recommends is met by the first alternative with which there is a plan that removes nothing more and
still installs what was found, and so on with what came in. What came and what was left out, and why, is said.

Environment: ARCH (default: that of dpkg); DEBPLAN, the program; APT_CONFIG, for the download; SOURCE_DATE_EPOCH.
Exit status: 0, 1 where something is missing, refused or not the same, or a hook fails, 6 where pins are left out and
--pins-left-out isn't given, 64 for wrong words, 69 where a program is missing."""
from debplan import tool
from debplan.image.locks import lock, unlock
from debplan.image.roots import extract_all, finish, write_request

# What the commands are for.
ABOUT = {
    "request": "write a request of the essential packages, and others",
    "extract": "extract the packages of a plan into a new root",
    "finish": "write the sources of apt, run hooks, make a tar file",
    "lock": "write the lock file",
    "open": "write a folder of inputs from a lock file, and compare",
}
FOLDER = "a folder of inputs, as collect-inputs writes it"


def parser():
    """The words of the command."""
    options = tool.Words(__doc__)
    parts = options.add_subparsers(dest="command", metavar="COMMAND", required=True, parser_class=PartWords)
    request, root, done, locked, opened = (parts.add_parser(name, about=about, help=about) for name, about in ABOUT.items())
    request.add_argument("--priority", action="append", default=[], metavar="WORD", help="also the packages of this Priority, as "
                         "required; may be repeated")
    request.add_argument("--recommends", action="store_true", help="also what new packages recommend")
    request.add_argument("folder", metavar="DIR", help=FOLDER)
    request.add_argument("names", nargs="*", metavar="NAME", help="more packages")
    root.add_argument("--debs", required=True, metavar="FOLDER", help="the folder that has the .deb files")
    root.add_argument("--download", action="store_true", help="get what is missing in FOLDER from the archives whose URI stands in "
                      "DIR/sources, and else by apt-get download")
    done.add_argument("--hook", action="append", default=[], metavar="COMMAND", help="a command of sh with the path of ROOT as $1, "
                      "run with this machine's programs; may be repeated")
    done.add_argument("--tar", metavar="FILE", help="write all of ROOT as a tar file, with names in order and no time later than "
                      "SOURCE_DATE_EPOCH, if that is given")
    for part in (root, done):
        part.add_argument("folder", metavar="DIR", help=FOLDER)
        part.add_argument("root", metavar="ROOT", help="the folder of the root")
    for part in (request, root, locked):
        part.add_argument("--pins-left-out", action="store_true", help="accept a plan without the pins that were left out")
    for part in (request, locked):
        part.add_argument("--target", metavar="RELEASE", help="a release to prefer, as for debplan")
    for part, order in ((locked, ("folder", "file")), (opened, ("file", "folder"))):
        for name in order:
            part.add_argument(name, metavar="FILE" if name == "file" else "DIR", help="the lock file" if name == "file" else FOLDER)
    return options


class PartWords(tool.Words):
    """The words of one command."""

    def __init__(self, prog, about):
        super().__init__(about, prog)


def main(words):
    options = parser().read(words)
    commands = {"request": write_request, "extract": extract_all, "finish": finish, "lock": lock, "open": unlock}
    return commands[options.command](options)


def start():
    """Runs the command."""
    tool.ends(main)
