"""What two surveys say differently, as it is printed: with the reasons below what is newly broken."""
from debplan.archive import surveys

# The kinds of what is broken and wasn't, or wasn't there.
BROKEN = ("newly broken", "came broken")
# Of so many packages of these kinds each has a line, with its reasons below it. More are told in groups of those that fail for the same
# reason, of each of which so many are named.
LINES, NAMES = 1000, 5


def newly_broken(difference):
    """The lines of what is broken and wasn't, or wasn't there."""
    found, _ = difference
    return [line for kind in BROKEN for line in found[kind]]


def explained(difference):
    """The lines that are explained: of the base alone, where it is newly broken, for it breaks the others."""
    newly = newly_broken(difference)
    return [line for line in newly if line.version is None] or newly


def tell(difference, reasons_of, groups=()):
    """Prints what differs, with the reasons of a line below it, and returns the exit status."""
    found, still = difference
    tell_kinds(found, reasons_of, groups)
    for state, number in still.items():
        print(f"still {state} {number}", flush=True)
    return 1 if newly_broken(difference) else 2 if found["newly undecided"] else 0


def tell_kinds(found, reasons_of, groups=()):
    """Prints the lines of each kind of difference; of many that are broken it prints the groups, each of which has lines and reasons."""
    for kind, lines in found.items():
        if groups and kind in BROKEN and len(lines) > LINES:
            tell_groups(kind, lines, reasons_of, groups)
        else:
            tell_lines(kind, lines, reasons_of)


def tell_lines(kind, lines, reasons_of):
    for line in lines:
        print(f"{kind} {surveys.written(line)}")
        print("".join(f"  {sentence}\n" for sentence in reasons_of(line)), end="", flush=True)


def tell_groups(kind, lines, reasons_of, groups):
    """Prints how many packages are of a kind, and these in groups, first the base and then the group of most. What is alone has a line."""
    told = set(lines)
    parts = [([line for line in group if line in told], reasons) for group, reasons in groups]
    parts = sorted((part for part in parts if part[0]), key=lambda part: (part[0][0].version is not None, -len(part[0])))
    print(f"{kind}, in {len(parts)} groups: {counted(lines)}")
    for part, reasons in parts:
        if len(part) == 1:
            tell_lines(kind, part, reasons_of)
        else:
            more = [f"and {len(part) - NAMES} more"] if len(part) > NAMES else []
            print(f"{kind}, {counted(part)}: {', '.join([*map(surveys.written, part[:NAMES]), *more])}")
            print("".join(f"  {reason}\n" for reason in reasons), end="", flush=True)


def counted(lines):
    return f"{sum(line.version is not None for line in lines)} packages"
