"""The tables that change from machine to machine, in Markdown, from what scripts/measure/peers found."""
import pathlib

from peers_rates import WORKS

# the cells of a table of rates, in words
PLACES = {(1, 1, 1): "1 client", (1, 16, 16): "16 clients, 1 circuit", (16, 1, 1): "1 at a time, 16 circuits",
          (16, 16, 16): "16 at a time, 16 circuits"}


def table(heads, rows):
    lines = ["| " + " | ".join(heads) + " |", "|" + "---|" * len(heads)]
    return "\n".join(lines + ["| " + " | ".join(row) + " |" for row in rows]) + "\n"


def names(found, protocol):
    """The servers of a protocol, in order."""
    return list(next(figures for (of, _, _), figures in found.items() if of == protocol))


def by_server(found, protocol, columns, shown):
    """A row for each server, with what `shown` makes of its figures in each column of work and cell."""
    return [[name, *(shown(found[protocol, work, cell][name]) for work, cell in columns)] for name in names(found, protocol)]


def rate_table(found, protocol, work):
    cells = [cell for of, kind, cell in found if of == protocol and kind == work]
    rows = by_server(found, protocol, [(work, cell) for cell in cells],
                     lambda row: f"{row['rate']:,.0f} ({row['ratio']:.2f})")
    return table([WORKS[work][protocol == 6], *(PLACES[cell] for cell in cells)], rows)


def wait_table(found, protocol):
    cell = (16, 16, 16)
    works = [work for of, work, at in found if of == protocol and at == cell]
    rows = by_server(found, protocol, [(work, cell) for work in works], lambda row: f"{row['median']:,.0f}, {row['hundredth']:,.0f}")
    return table([f"DHCPv{protocol}", *(WORKS[work][protocol == 6] for work in works)], rows)


def cost_table(found, protocol):
    cell = (16, 16, 16)
    works = [work for of, work, at in found if of == protocol and at == cell]
    rows = by_server(found, protocol, [(work, cell) for work in works], lambda row: f"{row['busy']:.1f}")
    for row in rows:
        row.append(f"{found[protocol, works[-1], cell][row[0]]['memory']:,.0f}")
    return table([f"DHCPv{protocol}", *(WORKS[work][protocol == 6] for work in works), "memory, KiB"], rows)


def write(path, found):
    parts = []
    for protocol in (4, 6):
        for work in dict.fromkeys(work for of, work, _ in found if of == protocol):
            parts.append(f"DHCPv{protocol}\n\n{rate_table(found, protocol, work)}")
    for protocol in (4, 6):
        parts.append(f"Waits in the median and at 99 of 100, microseconds\n\n{wait_table(found, protocol)}")
        parts.append(f"Processor time, microseconds\n\n{cost_table(found, protocol)}")
    pathlib.Path(path).write_text("\n".join(parts))
