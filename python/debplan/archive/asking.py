"""The words of a call of `debplan installable`, and what is asked with them besides."""
import contextlib
import os
import tempfile

from debplan import control
from debplan.tool import Failure

# The options of `debplan installable` that take a value, and those with which a request is judged or solved.
VALUED = ("--arch", "--limit", "--preferences", "--refutations", "--shard", "--sources", "--status", "--target")
JUDGING = ("--arch", "--status", "--sources", "--preferences", "--target")
NO_STATUS = os.devnull


class Asking:
    """The words of a call of `debplan installable`, as it reads them: its options, each with its value or None, and its NAMEs. The
    options of `own`, each of which takes a value, are this tool's and stand apart."""

    def __init__(self, words, own=()):
        self.options, self.names, self.own = [], [], {}
        left = iter(words)
        for word in left:
            name, equals, value = word.partition("=")
            if name in own:
                self.own[name] = value if equals else value_of(name, left)
            elif name in VALUED:
                self.options.append((name, value if equals else value_of(name, left)))
            elif word == "--":
                self.names += left
            elif word.startswith("-") and word != "-":
                self.options.append((word, None))
            else:
                self.names.append(word)

    def has(self, name):
        return any(option == name for option, _ in self.options)

    def value(self, name):
        return dict(reversed(self.options)).get(name)

    def needed(self, name):
        """The value of an option that has to be there."""
        value = self.value(name)
        if value is None:
            raise Failure(f"{name} is missing among the OPTIONS of debplan installable", 64)
        return value

    def words(self):
        return [*flat(self.options), *(["--", *self.names] if self.names else [])]

    def inputs_by_name(self):
        """The options with which a refutation is judged, by their names without hyphens."""
        self.needed("--arch"), self.needed("--sources")
        return {name[2:]: self.value(name) for name in JUDGING}

    def inputs(self):
        """The files that are read: those that the options name, and the indices."""
        named = [value for name, value in self.options if name in ("--status", "--sources", "--preferences")]
        sources = self.value("--sources")
        places = [keys["File"] for keys in control.indices_in(sources)] if sources and os.path.isfile(sources) else []
        return [*named, *places]

    def without_refutations(self):
        """The same words, which write no refutations."""
        found = Asking(["--", *self.names])
        found.options = [option for option in self.options if option[0] != "--refutations"]
        return found

    def explained(self):
        """The same words, which ask for sentences too."""
        found = Asking(["--", *self.names])
        found.options = [*self.options, *([] if self.has("--explain") else [("--explain", None)])]
        return found

    def over(self, sources, names=()):
        """The words that ask about these names, or all, with another sources file, and write no refutations."""
        found = self.without_refutations()
        found.options = [(name, sources if name == "--sources" else value) for name, value in found.options]
        found.names = list(names)
        return found


def value_of(name, left):
    """The value of an option: the next word."""
    for word in left:
        return word
    raise Failure(f"{name} has no value", 64)


def flat(options):
    return [word for option in options for word in option if word is not None]


@contextlib.contextmanager
def refutations_of(asking, are_wanted):
    """The folder of the refutations: the one that the words of the call name, or else a temporary one, where refutations are wanted."""
    folder = asking.value("--refutations")
    if folder or not are_wanted:
        yield folder
        return
    with tempfile.TemporaryDirectory(prefix="debplan-refutations-") as room:
        yield room
