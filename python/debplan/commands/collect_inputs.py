"""Writes what debplan reads of a machine into DIR:

  index-1.Packages ..  the Packages files of apt's lists, uncompressed, in the order of apt's sources
  sources              the sources file, which names them with their release keys, and for the tools with the URI of the archive, the
                       Distribution that apt's sources ask for, the Date of the Release file and the Index-SHA256
  status               a copy of dpkg's status file
  preferences          the pins of apt's preferences files; an empty file where there are none

The machine is this one, or the system in the folder ROOT, by its own lists, sources and pins; or whatever the file says that
APT_CONFIG names, as lists of another release in a folder of their own (apt.conf(5)). `apt-get update` has to have been run;
apt keeps lists compressed or not, and both are read. A line names each source of apt that has no list.

ROOT may be a copy of etc/apt, var/lib/apt/lists and var/lib/dpkg/status of a machine, and where this machine has no apt, its sources
(sources.list(5)) and lists are read without it. Then files of apt's settings don't count, which a line says, and lists that are
compressed as .lz4 or .zst are refused.

Pins (apt_preferences(5)) are written as plain records where these say exactly the same of the lists as they are: patterns and
regular expressions of names, hosts, release keys and versions, and `src:NAME`, become the names and values that they match; a
bare release word becomes the pins `a=` and `n=`, one with a digit in front `v=`; `release *` becomes `version *`, and `release
a=now`, which is about what is installed, `origin ""` where each list has a host. What can't be written so is left out: a line says
where it stands and why, and so does the file DIR/pins-left-out, where there is one. What apt itself takes no notice of isn't
missing, and is said too. A pin that matches nothing in the lists is told, and stands in the file DIR/pins-unmatched; where it
matched nothing at the last collection into DIR either, it isn't told again. Nothing outside of DIR is written. The paths in
`sources` are whole, so DIR has to stay where it is.
DIR/collected says what all this was collected of.

Environment: ARCH (default: that of dpkg); STATUS, a status file (default: that of apt; /dev/null: nothing is installed).
Exit status: 0, 1 where a pin was left out or something can't be read or written, 64 for wrong words, 69 where apt or dpkg is
missing and no ROOT is named."""
import pathlib

from debplan import tool
from debplan.machine import collect
from debplan.machine.system import Machine


def parser():
    """The words of the command."""
    options = tool.Words(__doc__)
    options.add_argument("--root", metavar="ROOT", help="the system in the folder ROOT, in place of this machine")
    options.add_argument("--if-changed", action="store_true", help="do nothing if apt's lists, sources, pins and settings and the "
                         "status file are as they were at the last collection into DIR")
    options.add_argument("--no-pins", action="store_true", help="without the pins of the machine, as for an image that others use")
    options.add_argument("folder", metavar="DIR", help="the folder that is written")
    return options


def main(words):
    options = parser().read(words)
    machine = Machine(options.root)
    collect.check(machine)
    write = collect.collect_if_changed if options.if_changed else collect.collect_anew
    return write(pathlib.Path(options.folder), machine, machine.arch(), not options.no_pins, print)


def start():
    """Runs the command."""
    tool.ends(main)
