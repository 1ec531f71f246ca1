"""Asks debplan, the proved dependency resolver for Debian packages, from Python.

    import debplan

    with debplan.Resolver(arch="amd64", status="status", sources="sources") as resolver:
        answer = resolver.solve("install hello")
    if isinstance(answer, debplan.Plan):
        print("\\n".join(map(str, answer.steps)))        # unpack hello 2.10-3, configure hello
    else:
        print("\\n".join(answer.reasons))                # why not, in sentences

Nothing is solved or judged here: each answer is the program's own, whose JSON (docs/FORMATS.md, section 19) is read into frozen
dataclasses. A process of `debplan batch` reads the inputs at the first question and answers it and those behind it; what it can't
answer, as `installable` of a whole archive, is a call of its own. What is proved of the program's answers is proved of the `text` of these, for the inputs
as they were read; that this module reads the JSON as it should is tested. `reasons` are sentences, whose words aren't promised, and
there are none where memory was refused for them.

Names and versions are texts as Debian has them, sizes are bytes, and lines, steps and goals are counted from 1. What the program
refuses is `Refused`, and where it is missing or gives no answer that is `Failed`; both are an `Error`. Needs Python 3.9, and the
program: named by `program` or in the environment as DEBPLAN, that of the repository that this file is in, or the one on PATH."""
from debplan.resolver import (Answer, BrokenPackage, Candidate, Candidates, Configure, Deconfigure, Derived, EndReason, Error, Failed, Goals, Line, Literal, PackageAnswer, PackageCounts, Pair, Path, Plan, PlanVerdict, Premise, Purge, Recommended, Refutation, RefutationVerdict, Refused, Remove, Resolver, Rule, Step, StepCounts, Undecided, UndecidedPackage, Unpack, compare)

__version__ = "0.1.0"
__all__ = ["Answer", "BrokenPackage", "Candidate", "Candidates", "Configure", "Deconfigure", "Derived", "EndReason", "Error", "Failed",
           "Goals", "Line", "Literal", "PackageAnswer", "PackageCounts", "Pair", "Path", "Plan", "PlanVerdict", "Premise", "Purge",
           "Recommended", "Refutation", "RefutationVerdict", "Refused", "Remove", "Resolver", "Rule", "Step", "StepCounts",
           "Undecided", "UndecidedPackage", "Unpack", "__version__", "compare"]
