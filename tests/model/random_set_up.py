"""Random set-ups, right ones and slightly spoilt ones, and what `check` and the start of `run` report of them."""

from harness.case import Case, Exactly
from model import flows, random_config, requests, rules
from model.flows import Entry, Flow, Group, Kind


def entry(name):
    return Entry(name, Kind(selector=name == "route", abort_aware=name == "respond"))


def group(name, names):
    return Group(name, [entry(it) for it in names])


def right(random):
    """A set-up without a mistake: stand-in and reversal in the groups, or in main for all of them."""
    if random.random() < 0.3:
        main = ["check", "limits", "reverse", "route", "standin", "forward", "respond"]
        groups = [["query_alpha"], ["query_beta"]]
    else:
        main = ["check", "limits", "route", "forward", "respond"]
        groups = [["reverse", "query_alpha", "standin"], ["reverse", "query_beta", "standin"]]
    return Flow(0, [group("main", main), group("alpha", groups[0]), group("beta", groups[1])])


def spoil(random, flow):
    """One change of a flow: an entry gone, moved, added, misspelt or with other marks, or a group with another name."""
    its = random.choice(flow.groups)
    at = random.randrange(len(its.entries)) if its.entries else 0
    way = random.choice(["drop", "drop", "move", "add", "misspell", "mark", "rename"])
    if way == "rename" and its.name != "main":
        its.name = random.choice(["gamma", its.name + "a", its.name[1:]])
    elif way == "add":
        its.entries.insert(at, entry(random.choice([*rules.OWN, "query_alpha", "query_beta", "query_gamma"])))
    elif not its.entries:
        return
    elif way == "drop":
        del its.entries[at]
    elif way == "move":
        other = random.choice(flow.groups)
        other.entries.insert(random.randint(0, len(other.entries)), its.entries.pop(at))
    elif way == "misspell":
        name = its.entries[at].participant
        spot = random.randrange(len(name))
        its.entries[at] = Entry(name[:spot] + random.choice(["", "x", name[spot] * 2]) + name[spot + 1 :] or "x", its.entries[at].kind)
    else:
        its.entries[at] = Entry(its.entries[at].participant, Kind(random.random() < 0.5, random.random() < 0.5))


def stated(random):
    """A configuration that is right by itself."""
    made = {}
    if random.random() < 0.5:
        made["host"] = [{"name": name, "simulated": True} for name in random.choice([["alpha", "beta"], ["beta"], ["alpha", "beta", "gamma"]])]
        for host in made["host"]:
            if random.random() < 0.3:
                host["standin"] = random.random() < 0.3
    if random.random() < 0.5:
        made["route"] = [{"prefix": prefix, "group": random.choice(["alpha", "beta", "beta", "bta", "main"])} for prefix in random.sample(["4", "5", "55"], 2)]
    if random.random() < 0.3:
        made["run"] = {"allow": random.sample(rules.RULES, random.choice([1, 2])) + ["no-standin"] * (random.random() < 0.1)}
    return made


def set_up(random):
    """A flow and a configuration, most of them with mistakes."""
    flow = right(random)
    for _ in range(random.choice([0, 1, 1, 2, 3])):
        spoil(random, flow)
    first = {}
    for its in flow.groups:
        its.entries = [Entry(it.participant, first.setdefault(it.participant, it.kind)) for it in its.entries]
    return flow, stated(random)


def any_set_up(random):
    """A set-up whose flow is one, which two groups of one name are not."""
    while True:
        flow, made = set_up(random)
        try:
            flows.check(flow)
        except flows.Fault:
            continue
        return flow, made


def unknown(its):
    """What a run reports of an unknown participant, if its set-up allows one."""
    for _, entry in its.flow.places():
        if entry.participant not in its.known():
            own = "check, limits, route, reverse, standin, forward, respond, and query_NAME for each link"
            return [f"cardswitch: unknown participant {entry.participant}; the switch has {own}\n"]
    return []


def rules_case(random, name):
    """`check`, with or without a configuration file, or the start of a `run` that gets no request."""
    flow, made = any_set_up(random)
    way = random.choice(["check", "check", "alone", "run"])
    its = rules.SetUp(flow, {} if way == "alone" else made)
    options = "--flow flow.toml" + ("" if way == "alone" else " --config config.toml")
    case = Case(name, f"cardswitch {'run' if way == 'run' else 'check'} {options} < none")
    case.files = {"flow.toml": requests.flow_file(flow), "config.toml": "".join(random_config.headed(made)).encode(), "none": b""}
    lines = its.lines("flow.toml" if way == "alone" else "config.toml") or (unknown(its) if way == "run" else [])
    said = [its.ready()] if way == "run" and not lines else lines
    case.stdout, case.stderr, case.status = Exactly(b""), Exactly("".join(said).encode()), 1 if lines else 0
    return case
