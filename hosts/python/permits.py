"""The permit rules of containers through a trace, for scripts that say which mixture let a flow through.

The monitor decides what is let through and tells the place of the mixture; this only keeps the rules that a place is in, by the
table of operations in docs/FORMATS.md. A mixture that does not hold the tag that was told is an error."""

from formats import CODES, HEADER, NO_USER, RECORDS, UNRESTRICTED

EVERYTHING = 2**64 - 1


def normal(mixtures):
    """The normal form of a rule: no mixture that another holds, ascending."""
    different = set(mixtures)
    return sorted(m for m in different if not any(m & other == m and m != other for other in different))


def meet(one, other):
    return normal(a & b for a in one for b in other)


def sections(image):
    """The records of each section of an accepted image, by its name."""
    fields = HEADER.unpack_from(image)[1:]
    parts = zip(RECORDS.items(), zip(fields[::2], fields[1::2]))
    return {name: list(record.iter_unpack(image[offset:offset + length])) for (name, record), (offset, length) in parts}


class Permits:
    """Permit rule and run rule of each container, as the accepted records have left them."""

    def __init__(self, image):
        found = sections(image)
        mixtures = [mixture for (mixture,) in found["mixtures"]]
        rules = [normal(mixtures[first:first + count]) for first, count, _ in found["rules"]]
        rule = lambda number: [EVERYTHING] if number == UNRESTRICTED else rules[number]
        self.users = [rule(number) for (number,) in found["users"]]
        self.permit, self.run = {}, {}
        for number, (_, _, permit, run) in enumerate(found["containers"]):
            self.permit[number], self.run[number] = rule(permit), rule(run)

    def accept(self, record):
        """Takes up the fields of an accepted record."""
        code, _, p, o, u = record
        user = self.users[u] if u != NO_USER else None
        if code == CODES["read"]:
            self.run[p] = meet(self.run[p], self.run[o])
        elif code == CODES["write"]:
            self.run[o] = self.run[p]
        elif code == CODES["append"]:
            self.run[o] = meet(self.run[o], self.run[p])
        elif code == CODES["exec"]:
            self.permit[p], self.run[p] = meet(self.run[o], user), self.run[o]
        elif code == CODES["fork"]:
            self.permit[o], self.run[o] = self.permit[p], self.run[p]
        elif code in (CODES["new-file"], CODES["new-volatile"]):
            self.permit[o], self.run[o] = user or [EVERYTHING], [EVERYTHING]
        else:
            del self.permit[o], self.run[o]

    def mixture(self, container, place, tag):
        """The mixture at a place of a container's permit rule, which holds this tag."""
        rule = self.permit[container]
        if place >= len(rule) or rule[place] & tag != tag or any(m & tag == tag for m in rule[:place]):
            raise ValueError(f"place {place} of container {container} is not the first mixture that holds {tag:016x}")
        return rule[place]
