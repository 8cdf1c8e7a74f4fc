"""The rules of a set-up, as docs/use/SWITCH.md has them: the lines that `check` prints."""

OWN = ["check", "limits", "route", "reverse", "standin", "forward", "respond"]
OWN_HOSTS = {"alpha": True, "beta": True}
OWN_ROUTES = [("4", "alpha"), ("5", "beta"), ("55", "alpha")]
RULES = [
    "unknown-participant", "no-selector", "not-abort-aware", "placed-twice", "after-respond", "no-check", "no-reverse", "no-stand-in",
    "no-query", "no-forward", "no-respond", "unknown-group", "picks-main",
]  # fmt: skip
WHAT = {
    "unknown-participant": "unknown participant {name}; expected check, limits, route, reverse, standin, forward, respond, "
    "or query_NAME for a host of the configuration",
    "no-selector": "route is not a selector; expected selector = true, so that its groups run",
    "not-abort-aware": "respond is not abort-aware; expected abort_aware = true, so that a declined request gets a response",
    "placed-twice": "{name} has an earlier place on the same way; expected one place in this group and main together",
    "after-respond": "{name} comes after respond; expected respond as the last entry",
    "no-check": "no check before {name}; expected one, in main before route",
    "no-reverse": "no reverse before {name}; expected one, so that an approval can be reversed",
    "no-stand-in": "no standin after {name}; expected one, or standin = false of the host in the configuration",
    "no-query": "no host is asked; expected query_NAME for a host of the configuration",
    "no-forward": "no forward; expected one, so that the issuers get advices and reversals",
    "no-respond": "no respond; expected it as the last entry",
    "unknown-group": "unknown group {name}; expected a group of the flow",
    "picks-main": "it picks main, in which route is; expected another group",
}


def edits(one, other):
    """How many letters lead from one name to the other, by the table of all beginnings."""
    row = list(range(len(other) + 1))
    for number, letter in enumerate(one, 1):
        last, row = row, [number]
        for at, its in enumerate(other):
            row.append(min(last[at + 1] + 1, row[at] + 1, last[at] + (letter != its)))
    return row[-1]


def nearest(name, names):
    """The words that name the nearest name, if one is near."""
    near = min(names, key=lambda other: edits(name, other), default=None)
    if near is None or edits(name, near) > min(2, len(name) - 1):
        return ""
    return f"; the nearest is {near}"


class SetUp:
    """A flow with the hosts, the routes and the allowed rules of a configuration that `model.config.read` gives."""

    def __init__(self, flow, stated):
        hosts, routes = stated.get("host"), stated.get("route")
        self.flow = flow
        self.hosts = OWN_HOSTS if hosts is None else {host["name"]: host.get("standin", True) for host in hosts}
        self.routes = OWN_ROUTES if routes is None else [(route["prefix"], route["group"]) for route in routes]
        self.whose = "the switch's own " if routes is None else ""
        self.allowed = stated.get("run", {}).get("allow", [])
        self.queries = {f"query_{name}": stands for name, stands in self.hosts.items()}
        self.main = next(group for group in flow.groups if group.name == "main")

    def ready(self, sessions=1):
        """The line that a run of this set-up writes when it is ready, with a journal in memory (docs/operate/HOSTS.md)."""
        hosts = "".join(f" {name}" for name in self.hosts)
        return f"cardswitch: ready: flow flow.toml, hosts{hosts}, journal in memory, sessions {sessions}\n"

    def known(self):
        return [*OWN, *self.queries]

    def around(self, group, index):
        """The names before and after an entry, on the way through main."""
        names = [entry.participant for entry in group.entries]
        before, after = names[:index], names[index + 1 :]
        if group is not self.main:
            way = [entry.participant for entry in self.main.entries]
            at = way.index("route") if "route" in way else len(way)
            before, after = way[:at] + before, after + way[at + 1 :]
        return before, after

    def of_entry(self, group, index, entry):
        name, is_main = entry.participant, group is self.main
        earlier = [it.participant for it in group.entries[:index]]
        before, after = self.around(group, index)
        if name not in self.known():
            yield "unknown-participant"
        if name == "route" and not entry.kind.selector:
            yield "no-selector"
        if name == "respond" and not entry.kind.abort_aware:
            yield "not-abort-aware"
        if name in earlier or (not is_main and name in [it.participant for it in self.main.entries]):
            yield "placed-twice"
        if is_main and "respond" in earlier:
            yield "after-respond"
        if name in self.queries:
            if "check" not in before:
                yield "no-check"
            if "reverse" not in before:
                yield "no-reverse"
            if self.queries[name] and "standin" not in after:
                yield "no-stand-in"

    def of_group(self, group):
        names, is_main = [entry.participant for entry in group.entries], group is self.main
        asks = any(name in self.queries for name in names)
        is_picked = any(group.name == its for _, its in self.routes)
        if (is_picked or (is_main and "route" not in names)) and not asks:
            yield "no-query"
        if is_main and ("route" in names or asks) and "forward" not in names:
            yield "no-forward"
        if is_main and "respond" not in names:
            yield "no-respond"

    def breaches(self):
        """Each broken rule with its file, its place, the name there, and the names that are right."""
        for group in self.flow.groups:
            for rule in self.of_group(group):
                yield rule, "flow", f"group {group.name}", group.name, []
            for index, entry in enumerate(group.entries):
                for rule in self.of_entry(group, index, entry):
                    right = self.known() if rule == "unknown-participant" else []
                    yield rule, "flow", f"group {group.name}, entry {index}", entry.participant, right
        names = [group.name for group in self.flow.groups]
        if "route" in [entry.participant for entry in self.main.entries]:
            for number, (prefix, group) in enumerate(self.routes):
                place = f"{self.whose}route {number} (prefix {prefix})"
                if group not in names:
                    yield "unknown-group", "config", place, group, names
                if group == "main":
                    yield "picks-main", "config", place, group, []

    def lines(self, config="config.toml"):
        """The lines that say what is wrong; none if nothing is. Without a configuration file `config` is that of the flow."""
        for name in self.allowed:
            if name not in RULES:
                known = ", ".join(RULES)
                said = f"run: key allow has an unknown rule: expected one of {known}; found {name}{nearest(name, RULES)}"
                return [f"cardswitch: {config}: {said}\n"]
        paths = {"flow": "flow.toml", "config": config}
        return [
            f"cardswitch: {paths[file]}: {place}: {WHAT[rule].format(name=name)}{nearest(name, right) if right else ''} ({rule})\n"
            for rule, file, place, name, right in self.breaches()
            if rule not in self.allowed
        ]
