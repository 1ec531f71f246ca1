"""A planner for apt (EIPP 0.1), which puts what apt has chosen into an order of dpkg's actions.

  apt-get -o APT::Planner=debplan install hello          debplan orders, and its plan is judged
  apt-get -o APT::Planner=debplan-check dist-upgrade     apt's own planner orders, and debplan judges that order

apt calls it so where it stands under these two names in a folder of Dir::Bin::Planners; in a clone, with links of these names
beside it: `-o Dir::Bin::Planners::=FOLDER`. It reads a scenario on standard input: every package that is installed or chosen.

As `debplan-check` it calls the planner that PLANNER names (default /usr/lib/apt/planners/apt, of the package apt-utils) and
passes its order on as it is where each step is legal, with the deconfigures that dpkg does by itself. Where one isn't, apt
ends with the step and the rule before dpkg is called. apt has dpkg carry out each removal with --force-depends; an order of
which nothing but such removals is illegal is passed on where it is legal with what needs them deconfigured before, and how
many there are stands on standard error.

- The scenario doesn't say which version was last configured of an unpacked package, nor what is held: `yes` is said of the
  scenario, and not of the status file.
- What is to be installed again in the same version has no step of debplan and is an error, and so is an installed package of
  another architecture.
Environment: DEBPLAN, the program; DEBPLAN_FOLDER, a folder that keeps the inputs of the last call; PLANNER.
Exit status: 0, also where an error is printed as apt wants it."""
import os
import pathlib
import sys
import tempfile

from debplan import tool
from debplan.apt.planner import planned
from debplan.tool import Failure

def parser():
    """The words of the command, which has none but --help."""
    return tool.Words(__doc__)


def main(words):
    parser().read(words)
    data = sys.stdin.buffer.read()
    with tempfile.TemporaryDirectory(prefix="debplan-") as room:
        folder = pathlib.Path(os.environ.get("DEBPLAN_FOLDER") or room)
        folder.mkdir(parents=True, exist_ok=True)
        try:
            text = planned(data, folder, checks=tool.tool_name().endswith("check"))
        except (Failure, OSError) as failure:
            first, *others = [line for line in str(failure).splitlines() if line] or ["failed"]
            text = "Error: debplan\nMessage: " + "\n ".join([first, *others]) + "\n\n"
    sys.stdout.write(text)
    return 0


def start():
    """Runs the command."""
    tool.ends(main)
