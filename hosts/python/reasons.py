"""The lines of the program `explain` in words: which rule forbids, what its mixtures lack, and how that came there.

The program has found all of it; this gives names to its numbers, with the listing of the same trace, which says who did what at each
step. `policy explain` prints the same words."""

from formats import NO_OWNER, RUNNING

VERBS = {"read": "reads", "write": "writes", "append": "appends", "exec": "executes", "fork": "forks"}


class Malformed(ValueError):
    """A line that is none of the program, or not of this listing."""


def named(names, number):
    return names[number] if number < len(names) else str(number)


def atom_name(names, atom):
    return named(names, atom % RUNNING) + (" (running)" if atom >= RUNNING else "")


def atoms(tag):
    return [atom for atom in range(2 * RUNNING) if tag >> atom & 1]


class Reason:
    """The lines of one alert or blocked access."""

    def __init__(self, verdict, step, container):
        self.verdict, self.step, self.container = verdict, step, container
        self.rule, self.mixtures, self.ways = None, [], {}

    def add(self, fields):
        """Takes up the fields of a line; says whether it is one of this reason."""
        match fields:
            case ["rule", "own" | "made" | "user" | "run" as origin, _, owner, *rest] if self.rule is None:
                self.rule = origin, int(owner), [int(field) for field in rest]
                return len(rest) >= 2 if origin == "run" else len(rest) == (0 if origin == "own" else 2)
            case ["lacks", mixture, atom] if self.rule:
                self.mixtures.append((int(mixture, 16), int(atom)))
                return not int(mixture, 16) >> int(atom) & 1
            case ["way", atom, file, *steps] if self.mixtures and self.mixtures[-1][1] == int(atom):
                self.ways[int(atom)] = int(file), [int(step) for step in steps]
                return True
        return False

    def whole(self):
        return self.rule is not None and all(atom in self.ways for _, atom in self.mixtures)


def read_reasons(lines):
    """The reasons that the program's lines give, by step."""
    found, last, total = {}, None, None
    for line in lines:
        fields = line.split(" ")
        try:
            match fields:
                case ["alert" | "blocked" as verdict, step, container] if (last is None or last.whole()) and total is None:
                    last = found[int(step)] = Reason(verdict, int(step), int(container))
                case ["total", _, "explained", count] if (last is None or last.whole()) and int(count) == len(found):
                    total = int(count)
                case _ if last is None or total is not None or not last.add(fields):
                    raise Malformed(line)
        except ValueError as error:
            raise Malformed(line) from error
    if total is None:
        raise Malformed(lines[-1] if lines else "it is empty")
    return found


class Teller:
    """Reasons in words. `steps` has the fields op, p and o of each step by its number, `called` gives the name of a container at a step and
    which of its number's holders that is."""

    def __init__(self, sources, users, steps, called):
        self.sources, self.users, self.steps, self.called = sources, users, steps, called

    def chain(self, file, steps, blocked=None):
        begins = self.called(file, 0)[0]
        if not steps:
            return f"{begins} (there from the start)"
        hops = []
        for step in steps:
            op, p, o = self.steps[step]
            name = self.called(p if op in ("read", "exec") else o, step)[0]
            hops.append(f" -> {name} (step {step}, {VERBS[op]}{', blocked' if step == blocked else ''})")
        return begins + "".join(hops)

    def by(self, exec_step, reason):
        """The process of an exec, if it is another one than the receiver, which has its rules by a fork."""
        process = self.steps[exec_step][1]
        name, holder = self.called(process, exec_step)
        if (process, holder) == (reason.container, self.called(reason.container, reason.step)[1]):
            return ""
        return f" by {name}"

    def rule(self, reason):
        """The rule as the subject of its line."""
        origin, owner, rest = reason.rule
        clause = True
        if origin == "own":
            words, clause = "its own permit rule", False
        elif origin == "run":
            step, file, *steps = rest
            executed = f"executed in step {step}{self.by(step, reason)}"
            name = self.called(file, 0)[0]
            if steps:
                words = f"the run rule of {name}, which came by {self.chain(file, steps)}, {executed}"
            else:
                words, clause = f"the run rule of {name} ({executed})", False
        else:
            step, user = rest[0], named(self.users, rest[1])
            if origin == "made" and user.startswith("rule of "):
                words = f"the {user}, under whose name it was made (step {step})"
            elif origin == "made":
                words = f"the rule of the user {user}, for whom it was made (step {step})"
            else:
                by = self.by(step, reason)
                words = f"the rule of the user {user}, for whom it runs (step {step}{',' if by else ''}{by})"
        if owner != NO_OWNER:
            return f"{words}, set by {named(self.users, owner)},"
        return words + ("," if clause else "")

    def permits(self, reason, tag):
        """What the rule permits, and what its mixtures lack."""
        if not reason.mixtures:
            return "permits nothing at all"
        name = lambda atom: atom_name(self.sources, atom)
        sets = ["{" + ", ".join(map(name, atoms(mixture))) + "}" for mixture, _ in reason.mixtures]
        lacked = {atom for _, atom in reason.mixtures}
        held = {atom for mixture, _ in reason.mixtures for atom in atoms(mixture)}
        also = ", ".join(name(atom) for atom in atoms(tag) if atom not in held | lacked)
        if len(lacked) == 1:
            verb = "it lacks" if len(sets) == 1 else "each lacks"
            return f"permits {' or '.join(sets)}: {verb} {name(min(lacked))}" + (f" (and {also})" if also else "")
        each = [f"{braced} (lacks {name(atom)})" for braced, (_, atom) in zip(sets, reason.mixtures)]
        return f"permits {' or '.join(each)}" + (f"; none has {also}" if also else "")

    def lines(self, reason, tag):
        """The line of the rule and that of each chain."""
        blocked = reason.step if reason.verdict == "blocked" else None
        ways = [f"{atom_name(self.sources, atom)} came by {self.chain(file, steps, blocked)}"
                for atom, (file, steps) in reason.ways.items()]
        return [f"{self.rule(reason)} {self.permits(reason, tag)}", *ways]
