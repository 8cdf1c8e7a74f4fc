"""Pictures of flows, as docs/use/FORMATS.md has them."""

MARKS = {(False, False): "", (True, False): " (abort-aware)", (False, True): " (recovering)"}
MARKS[True, True] = " (abort-aware, recovering)"


def marks(kind):
    return MARKS[kind.abort_aware, kind.recovers]


def is_called(entry):
    """Whether an entry is called while a transaction aborts."""
    return entry.kind.abort_aware or entry.kind.selector


def mermaid(flow):
    """The lines of a flow's picture for Mermaid."""
    yield "flowchart TD"
    for number, group in enumerate(flow.groups):
        yield f'  subgraph group{number} ["{group.name}"]'
        yield f'    g{number}(["{group.name}"])'
        for index, entry in enumerate(group.entries):
            label = f'"{entry.participant}{marks(entry.kind)}"'
            yield f"    e{number}_{index}" + (f"{{{{{label}}}}}" if entry.kind.selector else f"[{label}]")
        yield "  end"
    heads = " & ".join(f"g{number}" for number, _ in enumerate(flow.groups))
    for number, group in enumerate(flow.groups):
        yield " --> ".join([f"  g{number}", *(f"e{number}_{index}" for index, _ in enumerate(group.entries))])
        called = [index for index, entry in enumerate(group.entries) if is_called(entry)]
        if called:
            yield " -. abort .-> ".join([f"  g{number}", *(f"e{number}_{index}" for index in called)])
        for index, entry in enumerate(group.entries):
            if entry.kind.selector:
                yield f"  e{number}_{index} == selects ==> {heads}"


def dot(flow):
    """The lines of a flow's picture for Graphviz."""
    yield "digraph flow {"
    for number, group in enumerate(flow.groups):
        yield f"  subgraph cluster{number} {{"
        yield f'    label="{group.name}";'
        yield f'    g{number} [label="{group.name}", shape=oval];'
        for index, entry in enumerate(group.entries):
            shape = "hexagon" if entry.kind.selector else "box"
            yield f'    e{number}_{index} [label="{entry.participant}{marks(entry.kind)}", shape={shape}];'
        yield "  }"
    heads = " ".join(f"g{number}" for number, _ in enumerate(flow.groups))
    for number, group in enumerate(flow.groups):
        yield " -> ".join([f"  g{number}", *(f"e{number}_{index}" for index, _ in enumerate(group.entries))]) + ";"
        called = [index for index, entry in enumerate(group.entries) if is_called(entry)]
        if called:
            path = " -> ".join([f"  g{number}", *(f"e{number}_{index}" for index in called)])
            yield f'{path} [style=dashed, label="abort"];'
        for index, entry in enumerate(group.entries):
            if entry.kind.selector:
                yield f'  e{number}_{index} -> {{{heads}}} [style=bold, label="selects"];'
    yield "}"


def text(lines):
    return "".join(f"{line}\n" for line in lines).encode()
