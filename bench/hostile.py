#!/usr/bin/python3
"""hostile.py PROGRAM [--most SECONDS] [--rounds N] [--size N] [--stack KIB] [FAMILY..]: has inputs solved that are made to be
slow, each family in growing sizes, and each answer judged. PROGRAM is debplan; FAMILY is a part of the name of a family, and
without one all are run. It prints a row for each size: the answer, the time of `solve`, that of the judge on its answer, and the
greater peak memory, which below some 25 MiB is that of this program. Some families hand a plan or a refutation to the judge alone.

  --most SECONDS   a process is ended after so many, 60 where it isn't given; larger sizes of its family are left out
  --rounds N       the times are medians of N runs, 1 where it isn't given
  --size N         each family has this size alone, not its own
  --stack KIB      a process has a stack of so many KiB: one whose recursion grows with its input doesn't end in it
  --explain        `solve` and the judge explain their answers, on standard error, which isn't shown

Along a chain or a ring names ascend where it is "in order", descend where it is "reversed", and are in an order drawn by
chance, the same in each run, where it is "shuffled". Exit status: 0, 1 where a judge doesn't say yes, where an answer isn't of
the kind that the family has, or where a process fails, 2 for wrong words."""

import argparse
import os
import random
import resource
import statistics
import subprocess
import sys
import tempfile
import threading
import time
from collections import namedtuple

# What is installed, the index, the request and, where the judge alone is asked, the plan or the refutation.
World = namedtuple("World", "status index request answer")
# What makes the world of a size, the sizes, and the first word of the answers.
Family = namedtuple("Family", "world sizes answer")
JUDGES = {"plan": "check-plan", "refutation": "check-refutation"}


# Texts


def stanza(name, version="1", state=None, **fields):
    """A stanza of an index, or with a state one of a status file. Empty fields are left out."""
    status = {"Status": f"install ok {state}"} if state else {}
    values = {"Package": name, **status, "Version": version, "Architecture": "all", **fields}
    return "".join(f"{field.replace('_', '-')}: {value}\n" for field, value in values.items() if value) + "\n"


def names_of(size, order):
    """So many names, in order, reversed, or shuffled."""
    names = [f"p{number:06}" for number in range(size)]
    if order == "reversed":
        names.reverse()
    elif order == "shuffled":
        random.Random(size).shuffle(names)
    return names


def linked(names, is_ring):
    """Each name with the next one; the last with nothing, or in a ring with the first."""
    return list(zip(names, [*names[1:], names[0] if is_ring else ""]))


def versioned(name, version):
    return f"{name} (= {version})" if name else ""


def joined(stanzas):
    return "".join(stanzas)


# Chains and rings


def installed_new(order, is_ring=False, field="Depends"):
    """None is there, and the first is asked for, which needs the next, and so on."""
    def world(size):
        names = names_of(size, order)
        index = joined(stanza(name, **{field: after}) for name, after in linked(names, is_ring))
        return World("", index, f"install {names[0]}\n", None)
    return world


def upgraded(order, is_ring=False, field="Depends"):
    """All are there, and each version needs the same version of the next."""
    def world(size):
        links = linked(names_of(size, order), is_ring)
        def stanzas(version, state):
            return joined(stanza(name, version, state, **{field: versioned(after, version)}) for name, after in links)
        return World(stanzas("1", "installed"), stanzas("2", None), f"upgrade {links[0][0]}\n", None)
    return world


def removed(order, is_ring=False):
    """All are there, and the last is removed, which the one before it needs, and so on."""
    def world(size):
        names = names_of(size, order)
        status = joined(stanza(name, state="installed", Depends=after) for name, after in linked(names, is_ring))
        return World(status, "", f"remove {names[-1]}\n", None)
    return world


def lacking(order):
    """None is there, the first is asked for, which needs the next, and so on, and what the last needs isn't there."""
    def world(size):
        names = names_of(size, order)
        index = joined(stanza(name, Depends=after or "none") for name, after in linked(names, False))
        return World("", index, f"install {names[0]}\n", None)
    return world


def derived_one_by_one(size):
    """The same in order, and a refutation in which each derived line needs the one before."""
    world = lacking("in order")(size)
    premises = "goal 1\n" + joined(f"depends {number} 1\n" for number in range(1, size + 1))
    before = [1, *range(size + 2, 2 * size + 1)]
    derived = joined(f"derive {number} : {line} {number}\n" for number, line in zip(range(2, size + 1), before))
    return world._replace(answer=f"refutation 1\n{premises}{derived}derive : {before[-1]} {size + 1}\n")


def unpacked(order):
    """All are unpacked, and each needs the next to be configured."""
    def world(size):
        names = names_of(size, order)
        status = joined(stanza(name, state="unpacked", Depends=after) for name, after in linked(names, False))
        return World(status, "", f"install {names[0]}\n", None)
    return world


def configured_ring(order):
    """A ring that is unpacked, and a plan that configures it."""
    def world(size):
        names = names_of(size, order)
        status = joined(stanza(name, state="unpacked", Depends=after) for name, after in linked(names, True))
        return World(status, "", f"install {names[0]}\n", f"plan 1\nconfigure {' '.join(sorted(names))}\n")
    return world


def star(size):
    """One package needs all others, and each of them needs it."""
    names = names_of(size, "in order")
    index = stanza("hub", Depends=", ".join(names)) + joined(stanza(name, Depends="hub") for name in names)
    return World("", index, "install hub\n", None)


def all_need(one):
    """All are installed, and each needs the one package."""
    def world(size):
        names = names_of(size, "in order")
        index = stanza(one) + joined(stanza(name, Depends=one) for name in names)
        return World("", index, joined(f"install {name}\n" for name in names), None)
    return world


def against_old(field):
    """All are upgraded, and the new version of each is against the old version of the next."""
    def world(size):
        links = linked(names_of(size, "in order"), False)
        status = joined(stanza(name, state="installed") for name, _ in links)
        index = joined(stanza(name, "2", **{field: f"{after} (<< 2)" if after else ""}) for name, after in links)
        return World(status, index, "upgrade-all\n", None)
    return world


# Packages that need nothing of each other


def apart(goal):
    """Each is a goal of its own."""
    def world(size):
        names = names_of(size, "in order")
        status = "" if goal == "install" else joined(stanza(name, state="installed") for name in names)
        return World(status, joined(stanza(name, "2") for name in names), joined(f"{goal} {name}\n" for name in names), None)
    return world


def apart_judged(size):
    """A plan that unpacks all and then configures each."""
    names = names_of(size, "in order")
    steps = [f"unpack {name} 1\n" for name in names] + [f"configure {name}\n" for name in names]
    return World("", joined(map(stanza, names)), joined(f"install {name}\n" for name in names), "plan 1\n" + joined(steps))


# Many atoms, items and providers


def provided(size):
    return ", ".join(f"v (= {number})" for number in range(size))


def asked(size, least=0):
    return [f"v (>= {least + number})" for number in range(size)]


def atoms_and_items(separator):
    """One package needs so many atoms, and another one provides so many items."""
    def world(size):
        index = stanza("h1", Depends=separator.join(asked(size))) + stanza("h2", Provides=provided(size))
        return World("", index, "install h1\n", None)
    return world


def conflicts_and_items(size):
    """The conflicts of one package miss all that the other one provides."""
    index = stanza("h1", Conflicts=", ".join(asked(size, 100_000))) + stanza("h2", Provides=provided(size))
    return World("", index, "install h1\ninstall h2\n", None)


def atom_and_items(size):
    """One atom that the last item meets alone."""
    index = stanza("h1", Depends=f"v (>= {size - 1})") + stanza("h2", Provides=provided(size))
    return World("", index, "install h1\n", None)


def start_of_conflicts(size):
    """Two packages that are there, where the conflicts of one miss all that the other provides."""
    status = stanza("h1", state="installed", Conflicts=", ".join(asked(size, 100_000)))
    return World(status + stanza("h2", state="installed", Provides=provided(size)), "", "", "plan 1\n")


def one_of(size):
    """Each provides the same name and conflicts with all others that do, and one is needed."""
    index = joined(stanza(name, Provides="v", Conflicts="v") for name in names_of(size, "in order"))
    return World("", index + stanza("hello", Depends="v"), "install hello\n", None)


def versions_of_one(size):
    """Each version of a name is asked for: more than one can't be."""
    index = joined(stanza("x", f"{number}") for number in range(1, size + 1))
    return World("", index, joined(f"install x (= {number})\n" for number in range(1, size + 1)), None)


def versions_listed(size):
    """So many versions of one name, of which the candidate is asked for."""
    return World("", joined(stanza("a", str(number)) for number in range(size)), "install a\n", None)


def providers_and_needs(size):
    """So many packages depend on a name that so many provide."""
    needs = names_of(size, "in order")
    index = joined(stanza(name, Depends="v") for name in needs) + joined(stanza(f"a{name}", Provides="v") for name in needs)
    return World("", index, joined(f"install {name}\n" for name in needs), None)


# Texts that are long


def unpacked_again(size):
    """A plan that unpacks one package in two versions by turns."""
    steps = joined(f"unpack a {1 + number % 2}\n" for number in range(size))
    return World("", stanza("a", "1") + stanza("a", "2"), "install a (= 1)\n", f"plan 1\n{steps}unpack a 1\nconfigure a\n")


def fields_in_one(size):
    """A stanza of so many fields."""
    return World("", stanza("hello", **{f"X{number}": "x" for number in range(size)}), "install hello\n", None)


def premises_again(size):
    """A refutation that names one premise again and again, which 1,000 atoms and 1,000 items meet once."""
    index = stanza("h1", Conflicts=", ".join([*asked(999, 100_000), "v (>= 999)"])) + stanza("h2", Provides=provided(1000))
    lines = "goal 1\ngoal 2\n" + "conflicts 1 2\n" * size
    return World("", index, "install h1\ninstall h2\n", f"refutation 1\n{lines}derive : 1 2 3\n")


def hints_again(size):
    """A derived line with so many hints of one clause of 16,000 literals, which are all false before."""
    names = names_of(16_000, "in order")
    index = stanza("a", Depends=" | ".join(names)) + joined(map(stanza, names))
    request = "install a\n" + joined(f"remove {name}\n" for name in names)
    lines = "depends 1 1\ngoal 1\n" + joined(f"goal {number} {number}\n" for number in range(2, 16_002))
    hints = " ".join([*(f"{number}" for number in range(2, 16_003)), *["1"] * size])
    return World("", index, request, f"refutation 1\n{lines}derive : {hints}\n")


def premises_of_one(size):
    """A refutation of so many lines that each name a package which has as many atoms."""
    names = names_of(size, "in order")
    index = stanza("a", Depends=" | ".join(names)) + joined(stanza(name, Conflicts="a") for name in names)
    lines = "depends 1 1\ngoal 1\n" + joined(f"conflicts {number} 1\n" for number in range(2, size + 2))
    hints = " ".join([*(f"{number}" for number in range(2, size + 3)), "1"])
    return World("", index, "install a\n", f"refutation 1\n{lines}derive : {hints}\n")


# Searches


def pigeonholes(size):
    """So many pigeons and one hole less: pigeon K in hole H is a package, and conflicts with each other pigeon there."""
    index = joined(stanza(f"p{pigeon}", Depends=" | ".join(f"p{pigeon}h{hole}" for hole in range(size - 1)))
                   + joined(stanza(f"p{pigeon}h{hole}", Provides=f"h{hole}", Conflicts=f"h{hole}") for hole in range(size - 1))
                   for pigeon in range(size))
    return World("", index, joined(f"install p{pigeon}\n" for pigeon in range(size)), None)


def clauses_by_chance(size):
    """Clauses of three literals drawn by chance, 4.26 for each variable: a package stands for each literal."""
    chance = random.Random(size)
    def literal():
        return f"v{chance.randrange(size)}{chance.choice(('yes', 'no'))}"
    count = int(4.26 * size)
    variables = joined(stanza(f"v{number}{word}", Provides=f"v{number}", Conflicts=f"v{number}")
                       for number in range(size) for word in ("yes", "no"))
    clauses = joined(stanza(f"c{number}", Depends=" | ".join(literal() for _ in range(3))) for number in range(count))
    return World("", variables + clauses, joined(f"install c{number}\n" for number in range(count)), None)


DOUBLED = (400, 800, 1600)
LONGER = (*DOUBLED, 5000)
FAMILIES = {
    "chain installed, in order": Family(installed_new("in order"), DOUBLED, "plan"),
    "chain installed, reversed": Family(installed_new("reversed"), (*DOUBLED, 3200), "plan"),
    "chain installed, shuffled": Family(installed_new("shuffled"), (*DOUBLED, 3200), "plan"),
    "ring installed, in order": Family(installed_new("in order", True), DOUBLED, "plan"),
    "ring installed, shuffled": Family(installed_new("shuffled", True), DOUBLED, "plan"),
    "ring upgraded, in order": Family(upgraded("in order", True), DOUBLED, "plan"),
    "ring upgraded, shuffled": Family(upgraded("shuffled", True), DOUBLED, "plan"),
    "chain of Pre-Depends installed, shuffled": Family(installed_new("shuffled", field="Pre_Depends"), LONGER, "plan"),
    "chain of Pre-Depends upgraded, shuffled": Family(upgraded("shuffled", field="Pre_Depends"), LONGER, "plan"),
    "chain removed, in order": Family(removed("in order"), (*DOUBLED, 3200), "plan"),
    "chain removed, reversed": Family(removed("reversed"), DOUBLED, "plan"),
    "ring removed, shuffled": Family(removed("shuffled", True), DOUBLED, "plan"),
    "chain that lacks its end, in order": Family(lacking("in order"), DOUBLED, "refutation"),
    "chain that lacks its end, shuffled": Family(lacking("shuffled"), DOUBLED, "refutation"),
    "chain of derived lines, judged": Family(derived_one_by_one, LONGER, "refutation"),
    "unpacked chain, shuffled": Family(unpacked("shuffled"), DOUBLED, "plan"),
    "ring configured, in order, judged": Family(configured_ring("in order"), (400, 800, 1600, 2000), "plan"),
    "ring configured, shuffled, judged": Family(configured_ring("shuffled"), (400, 800, 1600, 2000), "plan"),
    "star installed": Family(star, DOUBLED, "plan"),
    "all need one, named first": Family(all_need("a"), DOUBLED, "plan"),
    "all need one, named last": Family(all_need("z"), DOUBLED, "plan"),
    "upgrades that break the old": Family(against_old("Breaks"), (100, 200, *DOUBLED), "plan"),
    "upgrades that conflict with the old": Family(against_old("Conflicts"), (100, 200, *DOUBLED), "plan"),
    "apart, install": Family(apart("install"), (2000, 4000, 8000), "plan"),
    "apart, upgrade": Family(apart("upgrade"), (2000, 4000, 8000), "plan"),
    "apart, remove": Family(apart("remove"), (2000, 4000, 8000), "plan"),
    "apart, purge": Family(apart("purge"), (2000, 4000, 8000), "plan"),
    "apart, judged": Family(apart_judged, (2000, 4000, 8000), "plan"),
    "clauses and items": Family(atoms_and_items(", "), (250, 500, 1000, 4000), "plan"),
    "alternatives and items": Family(atoms_and_items(" | "), (250, 500, 1000, 4000), "plan"),
    "conflicts and items": Family(conflicts_and_items, (250, 500, 1000, 4000), "plan"),
    "an atom and items": Family(atom_and_items, (1000, 4000, 16_000, 65_535), "plan"),
    "conflicts and items at the start, judged": Family(start_of_conflicts, (250, 500, 1000, 4000), "plan"),
    "one of many needed": Family(one_of, (1000, 2000, 4000), "plan"),
    "versions of one name": Family(versions_of_one, (1000, 2000, 4000), "refutation"),
    "listed versions": Family(versions_listed, (8000, 16_000, 32_000), "plan"),
    "needs and providers": Family(providers_and_needs, (1000, 2000, 4000), "plan"),
    "unpackings of one package, judged": Family(unpacked_again, (4000, 8000, 16_000, 32_000), "plan"),
    "fields of a stanza": Family(fields_in_one, (4000, 16_000, 30_000), "plan"),
    "lines of one premise, judged": Family(premises_again, (1000, 10_000, 100_000), "refutation"),
    "lines of one package's atoms, judged": Family(premises_of_one, (2000, 4000, 8000), "refutation"),
    "hints of one clause, judged": Family(hints_again, (4000, 16_000, 64_000), "refutation"),
    "pigeonholes": Family(pigeonholes, (9, 10, 11, 12), "refutation"),
    "clauses by chance": Family(clauses_by_chance, (100, 150, 200), ""),
}


# Runs


class Ended(Exception):
    """A process that took too long."""


class Hostile:
    def __init__(self, options, room):
        self.options, self.room, self.faults = options, room, 0
        self.program = os.path.abspath(options.program)

    def path(self, name):
        return os.path.join(self.room, name)

    def write(self, world):
        sources = f"File: {self.path('index')}\n"
        texts = {"status": world.status, "index": world.index, "sources": sources, "request": world.request}
        for name, text in texts.items():
            with open(self.path(name), "w", encoding="utf-8") as file:
                file.write(text)

    def narrow(self):
        """Gives the process that is started the stack that was asked for."""
        if self.options.stack:
            resource.setrlimit(resource.RLIMIT_STACK, (self.options.stack * 1024,) * 2)

    def once(self, command):
        """What a process prints on standard output, its time in seconds and its peak memory in MiB."""
        with tempfile.TemporaryFile() as out:
            start = time.perf_counter()
            process = subprocess.Popen(command, stdout=out, stderr=subprocess.DEVNULL if self.options.explain else None, preexec_fn=self.narrow)
            clock = threading.Timer(self.options.most, process.kill)
            clock.start()
            _, status, usage = os.wait4(process.pid, 0)
            seconds = time.perf_counter() - start
            clock.cancel()
            if os.WIFSIGNALED(status) and seconds >= self.options.most:
                raise Ended
            out.seek(0)
            return out.read().decode(), seconds, usage.ru_maxrss / 1024

    def run(self, command, *words):
        """The same of a command of debplan over the world, with the median of the times."""
        inputs = [it for name in ("status", "sources", "request") for it in (f"--{name}", self.path(name))]
        line = [self.program, command, "--arch", "amd64", *inputs, *(["--explain"] if self.options.explain else []), *words]
        runs = [self.once(line) for _ in range(self.options.rounds)]
        return runs[0][0], statistics.median(seconds for _, seconds, _ in runs), max(peak for _, _, peak in runs)

    def judged(self, answer):
        """What the judge says of an answer, its time and its peak memory."""
        with open(self.path("answer"), "w", encoding="utf-8") as file:
            file.write(answer)
        return self.run(JUDGES[answer.split()[0]], self.path("answer"))

    def row(self, name, size, world, wanted):
        """Runs a size of a family, and prints its row."""
        self.write(world)
        answer, solving, peak = world.answer, "", 0
        if answer is None:
            answer, seconds, peak = self.run("solve")
            solving = f"{seconds:.2f} s"
        kind = answer.split("\n")[0].removesuffix(" 1")
        said, judging = "", ""
        if kind in JUDGES:
            said, seconds, most = self.judged(answer)
            said, judging, peak = said.strip(), f"{seconds:.2f} s", max(peak, most)
        is_fault = kind in JUDGES and said != "yes" or not kind.startswith(wanted) or not kind
        self.faults += is_fault
        told = f"{kind}, {said}" if is_fault else kind
        print(f"| {name} | {size:,} | {told} | {solving} | {judging} | {peak:.0f} MiB |", flush=True)

    def family(self, name):
        family = FAMILIES[name]
        for size in (self.options.size,) if self.options.size else family.sizes:
            try:
                self.row(name, size, family.world(size), family.answer)
            except Ended:
                print(f"| {name} | {size:,} | | over {self.options.most:.0f} s | | |", flush=True)
                return


def main():
    parser = argparse.ArgumentParser(description=__doc__, formatter_class=argparse.RawDescriptionHelpFormatter)
    parser.add_argument("program")
    parser.add_argument("--most", type=float, default=60)
    parser.add_argument("--rounds", type=int, default=1)
    parser.add_argument("--size", type=int)
    parser.add_argument("--stack", type=int)
    parser.add_argument("--explain", action="store_true")
    parser.add_argument("families", nargs="*", metavar="FAMILY")
    options = parser.parse_intermixed_args()
    with tempfile.TemporaryDirectory() as room:
        hostile = Hostile(options, room)
        print("| Family | Size | Answer | Solved | Judged | Peak |\n|---|---|---|---|---|---|")
        for name in FAMILIES:
            if not options.families or any(part in name for part in options.families):
                hostile.family(name)
        sys.exit(1 if hostile.faults else 0)


if __name__ == "__main__":
    main()
