"""How the observations of two RINEX files differ, each of which may have epochs, satellites and types that the other lacks."""


SYSTEMS = "GRECJSI"
NOWHERE = 10**6  # the column of a type that a file lacks


def types_of(file):
    """Of each system the columns of the values of each type; the file is read up to its first record."""
    types, system = {}, ""
    for line in file:
        if line[60:].startswith("SYS / # / OBS TYPES"):
            system = line[0].strip() or system  # blank where a line goes on
            types.setdefault(system, []).extend(line[6:60].split())
        if line[60:].startswith("END OF HEADER"):
            break
    return {system: {kind: 3 + 16 * at for at, kind in enumerate(its)} for system, its in types.items()}


def records_of(file):
    """Each epoch as the numbers of its line, and the lines of its satellites."""
    moment, lines = None, {}
    for line in file:
        if line.startswith(">"):
            if moment:
                yield moment, lines
            moment, lines = tuple(map(float, line[1:29].split())), {}
        elif line[0] in SYSTEMS:
            lines[line[:3]] = line.rstrip("\n")
    if moment:
        yield moment, lines


def both(first, second):
    """The types of a system in two files, each with its columns in both."""
    return [(kind, first.get(kind, NOWHERE), second.get(kind, NOWHERE)) for kind in {**first, **second}]


class Difference:
    """Of each file how many epochs and values it has; of the values in both how many are equal, 0.001 apart, and further, and
    the types of these; and how many of them have another mark of a slip. The digits of strengths, which convbin does not write,
    are not compared."""

    def __init__(self, ours, theirs):
        self.epochs, self.values = [0, 0], [0, 0]
        self.apart = [0, 0, 0]
        self.types_apart = set()
        self.marks = 0
        with open(ours, encoding="ascii") as first, open(theirs, encoding="ascii") as second:
            places = types_of(first), types_of(second)
            self.places = {system: both(*(it.get(system, {}) for it in places)) for system in SYSTEMS}
            self.merge(records_of(first), records_of(second))

    def merge(self, first, second):
        """Takes the records of both in the order of their epochs."""
        none = (None, {})
        ours, theirs = next(first, none), next(second, none)
        while ours[0] or theirs[0]:
            moment = min(it[0] for it in (ours, theirs) if it[0])
            pair = [it[1] if it[0] == moment else {} for it in (ours, theirs)]
            for side, it in enumerate((ours, theirs)):
                self.epochs[side] += it[0] == moment
            for satellite in {**pair[0], **pair[1]}:
                self.compare(pair[0].get(satellite, ""), pair[1].get(satellite, ""))
            ours = next(first, none) if ours[0] == moment else ours
            theirs = next(second, none) if theirs[0] == moment else theirs

    def compare(self, ours, theirs):
        """Takes the lines of one satellite."""
        system = (ours or theirs)[0]
        for kind, first, second in self.places[system]:
            one, other = ours[first : first + 14], theirs[second : second + 14]
            here, there = "." in one, "." in other
            self.values[0] += here
            self.values[1] += there
            if here and there:
                apart = 0 if one == other else abs(int(one.replace(".", "")) - int(other.replace(".", "")))
                self.apart[min(apart, 2)] += 1
                self.marks += (ours[first + 14 : first + 15] or " ") != (theirs[second + 14 : second + 15] or " ")
                if apart > 1:
                    self.types_apart.add(kind if system == "G" else f"{system} {kind}")

    def __str__(self):
        told = [f"{theirs} {name}" + (f" (ours {ours})" if ours != theirs else "") for name, (ours, theirs) in
            (("epochs", self.epochs), ("values", self.values))]
        equal, near, far = self.apart
        kinds = f" ({', '.join(sorted(self.types_apart))})" if far else ""
        told.append(f"of {equal + near + far} values in both {near} differ by 0.001, {far} by more{kinds}")
        told.append(f"and {self.marks} in the mark of a slip")
        return ", ".join(told)
