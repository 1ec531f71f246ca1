"""Carries the plan DIR/plan out in the root ROOT by dpkg, step by step.

  collect-inputs --root ROOT DIR                 the inputs, and then in DIR a request and a plan for it
  run-plan --root ROOT --debs FOLDER DIR

ROOT is the folder of a whole system, whose own dpkg is called by chroot; / is this machine. Before the first step debplan
judges the plan by the status file of ROOT and by the sources, preferences and request in DIR; a plan that isn't good isn't
begun, and where it unpacks what isn't admitted, the pins of that package are named. A package comes from the .deb file of its
name and version in FOLDER, which has to have the SHA256 that the index says, or the SHA512 where that says no SHA256; a package
without either is refused.

- `unpack`, `configure`, `remove` and `purge` are a call of dpkg each, the names of one `configure` step in one call. What is
  to be deconfigured dpkg deconfigures by itself at the unpacking or removal that follows (--auto-deconfigure).
- dpkg refuses to remove what an installed package depends on, also where that one was to be deconfigured before, or where
  what takes its place is unpacked and not configured yet. Such a removal is done with --force-depends, as apt does each of
  its removals, and is told and counted.
- It stops at the first step that dpkg refuses. Started again it goes on behind the last step that was done, if the root is
  as these steps leave it; DIR/run.start, DIR/run.plan and DIR/run.done say how far it is, DIR/run.log what dpkg said. Where
  all steps were done before and the root is still as they leave it, that is said; where it isn't, the plan is begun anew.
- Links in ROOT are followed in it, as by chroot, so nothing is written elsewhere but in DIR and FOLDER. The file of a package is put
  into a folder ROOT/debplan-files-.., which nobody else may enter and which goes away at the end, or with the next run.
- At the end the status file that dpkg left is compared with what the steps leave by the rules of debplan: state, version and
  relations of each package. Of a removed package without configuration files dpkg keeps no record.

Where a pin of the machine had to be left out of DIR, no plan is begun without --pins-left-out.

Environment: ARCH (default: that of dpkg); DEBPLAN, the program; APT_CONFIG, for the download.
Exit status: 0 where all steps are done and the end is as planned, 1 where it isn't, or a step or the plan is refused, 6 where
pins are left out and --pins-left-out isn't given, 64 for wrong words, 69 where a program is missing."""
from debplan import tool
from debplan.machine import suites
from debplan.machine.carrying import Dpkg, Run, begin, carry_out, compare, debs_of, get_debs, is_begun, is_done, judge, number_done, services_kept, steps_done
from debplan.machine.inputs import Inputs, WITHOUT_PINS

def parser():
    """The words of the command."""
    options = tool.Words(__doc__)
    options.add_argument("--root", required=True, metavar="ROOT", help="the folder of a whole system; / is this machine")
    options.add_argument("--debs", required=True, metavar="FOLDER", help="the folder that has the .deb files")
    options.add_argument("--target", metavar="RELEASE", help="the release that the plan goes by, as for debplan")
    options.add_argument("--dpkg", action="append", default=[], metavar="WORD", help="one more word for each call of dpkg, as "
                         "--dpkg=--force-confold")
    options.add_argument("--download", action="store_true", help="get what is missing in FOLDER from the archives whose URI "
                         "stands in DIR/sources, and else by apt-get download")
    options.add_argument("--strict", action="store_true", help="stop where a removal needs --force-depends")
    options.add_argument("--pins-left-out", action="store_true", help="accept a plan without the pins that were left out")
    options.add_argument("folder", metavar="DIR", help="a folder of inputs with a request and a plan")
    return options


def main(words):
    options = parser().read(words)
    inputs = Inputs(options.folder, target=options.target, needed=("sources", "request", "plan"))
    if inputs.lacks_pins(options.pins_left_out):
        return WITHOUT_PINS
    if options.target:
        suites.check_target(inputs, options.target)
    dpkg = Dpkg(options.root, inputs.folder.resolve() / "run.log", options.dpkg)
    again = is_begun(inputs)
    if again and number_done(inputs) == len(inputs.steps("run.plan")):
        run = Run(inputs, dpkg, debs_of(options, inputs), options.strict)
        if is_done(run):
            print(f"all {len(run.steps)} steps were done before", flush=True)
            return compare(run)
        again = False
    if not again:
        begin(inputs, dpkg)
    if not judge(inputs):
        return 1
    run = Run(inputs, dpkg, debs_of(options, inputs), options.strict)
    get_debs(options, run.debs)
    with dpkg.prepared(), services_kept(dpkg):
        carry_out(run, steps_done(run, again))
        return compare(run)


def start():
    """Runs the command."""
    tool.ends(main)
