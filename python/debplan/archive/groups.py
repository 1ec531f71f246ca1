"""Broken packages in groups of those that fail at the same relations (debplan.archive.failing): what is asked about one of a group needn't be
asked about the others."""
import collections
import pathlib

from debplan.archive import failing, premises, reports, surveys

# The relations at which packages fail, and these packages.
Group = collections.namedtuple("Group", "relations lines")


class Reader:
    """Reads at which relations packages fail, of the refutations in a folder, of the sentences on them, and of the stanzas of all
    packages by name and version."""

    def __init__(self, folder, sentences, stanzas):
        self.folder, self.sentences = folder, sentences
        self.stanzas = {(fields["Package"], fields.get("Version")): fields for fields in reversed(stanzas)}

    def relations_of(self, line):
        """The relations at which a package fails; none where these texts don't tell them."""
        texts = [self.text_of(line, kind) for kind in reports.FILES[:2]]
        found = premises.premises_of(*texts, lambda *pair: self.stanzas[pair])
        return failing.relations_in({"lines": found, "reasons": self.sentences.get(line, ())})

    def text_of(self, line, kind):
        path = pathlib.Path(self.folder, f"{surveys.file_name(line)}.{kind}")
        return reports.read(path) if path.is_file() else ""

    def groups_of(self, lines):
        """The groups of these packages, in their order. One of which no relation is known has a group of its own."""
        found = {}
        for line in lines:
            relations = self.relations_of(line)
            found.setdefault(frozenset(relations) or line, Group(relations, [])).lines.append(line)
        return list(found.values())


def one_of(group):
    """The package of a group that is asked about: the first one that the relations are about, or else the first."""
    about = {it for relation in group.relations for it in (relation.owner, relation.text)}
    return next((line for line in group.lines if surveys.written(line) in about), group.lines[0])
