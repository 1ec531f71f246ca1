"""A solver for apt (EDSP 0.5), which asks debplan what is to be installed and removed.

  apt-get -s --solver debplan install hello

apt calls it so where it stands as `debplan` in a folder of Dir::Bin::Solvers; in a clone, with a link of this name beside it:
`-o Dir::Bin::Solvers::=FOLDER`. It reads a scenario on standard input and prints what apt is to change, or why that can't be.

- `Install` asks for the candidates of these names: the goals `upgrade NAME`. Where apt marked an older version as candidate
  though its pin doesn't allow that, the downgrade was asked for. `Remove` gives `remove NAME`; names that are asked for aren't held.
- Nothing else is removed where that can be so (`no-remove`), and never with Forbid-Remove. With Forbid-New-Install only
  packages that are installed can be chosen.
- `Upgrade-All` asks for each candidate that isn't held. What a refutation names is kept back, and the rest asked for again.
- Recommends of new packages are asked for too, where apt's setting APT::Install-Recommends says so, and kept back where they
  can't be. Of several in a clause it is the first that apt knows. apt tells a solver nothing of its command line, so neither
  --no-install-recommends nor -o is seen: a line on standard error says whether they are asked for, by whose setting, and how that
  is turned off.
- Pins are apt's own: the candidates of the scenario are those that apt has chosen by all of them, so none is left out here.
- Only candidates are chosen from, also where apt says that pins aren't strict. `apt autoremove` is offered nothing. An
  installed package of another architecture is an error.
Environment: DEBPLAN, the program; DEBPLAN_RECOMMENDS, `no` or `yes` in place of apt's setting; DEBPLAN_FOLDER, a folder that
keeps the inputs of the last call; DEBPLAN_SECONDS, how long all may take (default 120).
Exit status: 0, also where an error is printed as apt wants it."""
import os
import pathlib
import sys
import tempfile

from debplan import tool
from debplan.apt.solver import progress, solved
from debplan.tool import Failure

def parser():
    """The words of the command, which has none but --help."""
    return tool.Words(__doc__)


def main(words):
    parser().read(words)
    data = sys.stdin.buffer.read()
    progress(10, "debplan reads the scenario")
    with tempfile.TemporaryDirectory(prefix="debplan-") as room:
        folder = pathlib.Path(os.environ.get("DEBPLAN_FOLDER") or room)
        folder.mkdir(parents=True, exist_ok=True)
        try:
            text = solved(data, folder)
        except (Failure, OSError) as failure:
            first, *others = str(failure).splitlines() or ["failed"]
            text = "Error: debplan\nMessage: " + "\n ".join([first, *others]) + "\n\n"
    sys.stdout.write(text)
    return 0


def start():
    """Runs the command."""
    tool.ends(main)
