"""Writes what `apt-get -s COMMAND..` would do as DIR/plan, and what COMMAND asks for as DIR/request, and has debplan judge that plan by the inputs in DIR, which collect-inputs writes.

  collect-inputs DIR
  plan-from-apt DIR install hello

With --simulation FILE the plan is the one that `apt-get -s COMMAND..` printed into FILE (`-`: standard input) on the machine that
DIR is of, as on one that has no debplan:

  collect-inputs --root COPY DIR
  ssh MACHINE apt-get -s dist-upgrade | plan-from-apt --root COPY --simulation - DIR dist-upgrade

Nothing is installed, and nothing is written outside of DIR. Printed is the verdict, `yes` or `no ..`, and of a step that
isn't legal its line in DIR/plan. Where apt refuses the command there is no plan afterwards, also none of an earlier call.

- `Inst`, `Conf`, `Remv` and `Purg` are the steps unpack, configure, remove and purge; what is purged while it is present
  is removed first. Packages that apt configures next to one another it hands to dpkg in one call, which puts them in the
  order of their dependencies; so it is here, and those that depend on each other in a ring are one step.
- dpkg deconfigures what an unpacking breaks without being told, and apt has it configured at the end: the plan has these
  steps, though apt doesn't print them.
- What has triggers that are left to be processed is configured first: dpkg processes them with its next call.
- apt has dpkg carry out each removal with --force-depends, so it also removes what an installed package needs. Policy 7.2
  doesn't allow that, and the verdict is F6; a line then says which removals are forced, and DIR/plan.forced has the same plan
  with what needs the package deconfigured before such a removal, which is judged too.
- apt goes by all pins of the machine, and debplan by those in DIR. Where a pin had to be left out, a line behind the verdict says
  so, and a `yes` has the exit status 6 without --pins-left-out. Where the plan unpacks what isn't admitted, the pins that name
  this package are told.
- The request has what `install`, `remove` and `purge` name. Other commands, as `upgrade`, name nothing: of their plans the
  steps, the relations at the end and the holds are judged.

Environment: ARCH (default: that of dpkg); DEBPLAN, the program; APT_CONFIG, as for collect-inputs.
Exit status: that of `debplan check-plan`, 1 where apt-get refuses the command, 6 as said above, 64 for wrong words, 69 where a
program is missing or the run without proof is stopped."""
import argparse

from debplan import disk, tool
from debplan.apt.simulated import lines_of, request_of, said_before, said_by_apt, tell_forced, verdict_on, words_of, write_plan
from debplan.apt.simulation import simulation_of
from debplan.machine import suites
from debplan.machine.inputs import Inputs, WITHOUT_PINS
from debplan.machine.system import Machine
from debplan.tool import Failure

def parser():
    """The words of the command."""
    options = tool.Words(__doc__)
    options.add_argument("--root", metavar="ROOT", help="apt's plan for another system in the folder ROOT")
    options.add_argument("--simulation", metavar="FILE", help="the plan that `apt-get -s COMMAND..` printed into FILE, or on "
                         "standard input (-)")
    options.add_argument("--limit", type=int, default=300, metavar="SECONDS", help="how long apt-get may take (default: 300)")
    options.add_argument("--pins-left-out", action="store_true", help="accept a verdict without the pins that were left out")
    options.add_argument("folder", metavar="DIR", help="a folder of inputs, as collect-inputs writes it")
    options.add_argument("command", nargs=argparse.REMAINDER, metavar="COMMAND", help="the words of apt-get, as install hello")
    return options


def options_in(words):
    options = parser().read(words)
    if not options.command:
        raise Failure("no command of apt-get is named", 64)
    return options


def main(words):
    options = options_in(words)
    machine = Machine(options.root)
    inputs = Inputs(options.folder, machine.arch())
    for name in ("plan", "plan.forced", "request"):
        if inputs.path(name).exists():
            inputs.path(name).unlink()
    said = said_before(options.simulation) if options.simulation else said_by_apt(machine, inputs, options.command, options.limit)
    lines = list(lines_of(said, inputs.arch))
    offered = inputs.stanzas_for({(name, version) for kind, name, version in lines if kind == "Inst"})
    simulation = simulation_of(inputs, lines, offered)
    target, plain = words_of(options.command)
    inputs.target = target
    if not target:
        suites.set_default_target(inputs, machine)
    write_plan(inputs, "plan", simulation)
    disk.write_text(inputs.path("request"), request_of(options.command, plain))
    print(f"{inputs.path('plan')}: {len(simulation.steps)} steps, as apt-get {' '.join(options.command)} would take them", flush=True)
    status, rule = verdict_on(inputs, "plan", simulation)
    if rule == "F6" and simulation.removals:
        tell_forced(inputs, lines, offered, simulation)
    inputs.tell_unmatched_pins()
    return WITHOUT_PINS if inputs.lacks_pins(options.pins_left_out) and status == 0 else status


def start():
    """Runs the command."""
    tool.ends(main)
