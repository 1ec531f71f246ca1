"""What would have to come along of another index for a broken package to be installable: what one plan takes of it."""
import collections
import pathlib

import debplan
from debplan.archive import exchange, groups, reports, surveys

# What would have to come along for a package, as it is told, and the names of these sources. Below the package itself no line says that
# no plan helps it, or that one takes nothing of the other index.
Help = collections.namedtuple("Help", "line said sources")
NO_PLAN, NO_SOURCE = "nothing helps", "other versions help, and no other source"
LATER = "isn't asked about before what helps others is exchanged"
# So many groups are asked about at a time, those of most packages first.
PART = 200


class Along:
    """What a plan for a broken package takes of the other index, where this stands beside the new one and isn't wished for. It is what
    one plan takes, and perhaps not the least. What is known of packages, by these and the relations at which they fail, isn't asked
    again."""

    def __init__(self, judges, folder, check):
        self.judges, self.folder, self.known, self.exchanged = judges, folder, check.known.helps, check.changed.sources
        has = set(map(exchange.pair_of, check.after))
        others = {exchange.pair_of(fields): fields for fields in check.counting(check.changed.other)}
        self.others = {pair: exchange.source_version_of(fields) for pair, fields in others.items() if pair not in has}

    def for_each(self, found):
        """These groups, each with the help for one package of it: for one of which that is known, or else for one that is asked about. Of
        many groups some aren't asked about, once others need more than what is exchanged: in the next round that is exchanged too, and most
        don't fail any more."""
        helped = [self.known_for(group) for group in found]
        left = sorted((place for place, known in enumerate(helped) if not known), key=lambda place: -len(found[place].lines))
        needs_more = False
        for begin in range(0, len(left), PART):
            places = left[begin:begin + PART]
            part = [found[place] for place in places]
            asked = list(map(later, part)) if needs_more else self.judges.asked(self.for_one_of, part)
            for place, answer in zip(places, asked):
                helped[place] = answer
            needs_more = needs_more or any(answer.sources - self.exchanged for answer in asked)
        return list(zip(found, helped))

    def known_for(self, group):
        """The help for a package of the group, where it is known."""
        relations = frozenset(group.relations)
        return next((self.known[line, relations] for line in group.lines if (line, relations) in self.known), None)

    def for_one_of(self, judge, group):
        """The help for one package of a group, which is asked about. It is known from now on, but where a plan helps: what that takes is
        exchanged in the next round, so where the package still fails there, what helps then is another question."""
        line, relations = groups.one_of(group), frozenset(group.relations)
        found = self.for_package(judge, line)
        if relations and not found.sources and found.said != NO_SOURCE:
            self.known[line, relations] = found
        return found

    def for_package(self, judge, line):
        """The help for a package in this version, or else in another one."""
        for request in self.requests(line):
            answer = judge.solved([*request, "all-versions"], surveys.written(line))
            if isinstance(answer, debplan.Undecided):
                return Help(line, f"what would have to come along is undecided ({answer.why})", set())
            if isinstance(answer, debplan.Plan):
                return self.needed(line, answer.steps)
        return Help(line, NO_PLAN, set())

    def requests(self, line):
        """The lines of the request that was refuted, and of the same one for any version of the package."""
        path = pathlib.Path(self.folder, f"{surveys.file_name(line)}.request")
        if not path.is_file():
            return []
        first, *rest = reports.read(path).splitlines()
        return [[first, *rest], [f"install {line.name}", *rest]] if line.version else [[first, *rest]]

    def needed(self, line, steps):
        """The help that is what these steps take of the other index."""
        pairs = [exchange.pair_of({"Package": it.name, "Version": it.version}) for it in steps if isinstance(it, debplan.Unpack)]
        needed = sorted({self.others[pair] for pair in pairs if pair in self.others})
        said = f"needs {', '.join(f'{name} {version}' for name, version in needed)}" if needed else NO_SOURCE
        return Help(line, said, {name for name, _ in needed})


def later(group):
    """That a group isn't asked about in this round."""
    return Help(groups.one_of(group), LATER, set())


def told(found, line):
    """The lines that tell a package of a group what helps the one that was asked about."""
    if found.said == LATER:
        return [LATER]
    if line == found.line:
        return [found.said] if found.said not in (NO_PLAN, NO_SOURCE) else []
    return [f"asked of {surveys.written(found.line)}, which fails there too: {found.said}"]
