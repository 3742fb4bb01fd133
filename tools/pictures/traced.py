"""A timeline as Trace Event JSON, which Perfetto and chrome://tracing read.

A process is a level; a thread is what a node performs, or what goes to it and comes from it, and where events of one
row stand beside one another each lane of it. One of the weights' units is written as one microsecond.
"""
import json

from timeline import NOTHING


def named(what, process, thread, name):
    return {"name": what, "ph": "M", "pid": process, "tid": thread, "args": {"name": name}}


def sorted_at(what, process, thread, at):
    return {"name": what, "ph": "M", "pid": process, "tid": thread, "args": {"sort_index": at}}


def threads_of(timeline):
    """The number of the first thread of each row; those of its other lanes follow."""
    found, number = [], 1
    for row in timeline.rows:
        found.append(number)
        number += row.lanes
    return found


def metadata(timeline, threads):
    for level in sorted({row.level for row in timeline.rows}):
        yield named("process_name", level + 1, 0, timeline.names[level])
        yield sorted_at("process_sort_index", level + 1, 0, level)
    for row, first in zip(timeline.rows, threads):
        name = f"to and from {row.name}" if row.carries else row.name
        for lane in range(row.lanes):
            told = f"{name} ({lane + 1})" if lane else name
            yield named("thread_name", row.level + 1, first + lane, told)
            yield sorted_at("thread_sort_index", row.level + 1, first + lane, first + lane)


def slices(timeline, spots):
    for bar, (process, thread) in zip(timeline.bars, spots):
        about = {"event": bar.number, "heaviest chain": bar.heavy}
        yield {"name": bar.line, "cat": bar.kind, "ph": "X", "ts": bar.begin, "dur": bar.weight, "pid": process,
               "tid": thread, "args": about}


def flows(timeline, spots):
    """An arrow from each transfer to the leaf call that waits for it."""
    for number, (transfer, leaf) in enumerate(timeline.waits(), 1):
        for at, ends in ((transfer, {"ph": "s"}), (leaf, {"ph": "f", "bp": "e"})):
            process, thread = spots[at]
            yield {"name": "waits", "cat": "waits", **ends, "id": number, "ts": timeline.bars[at].begin, "pid": process,
                   "tid": thread}


def trace(timeline):
    threads = threads_of(timeline)
    spots = [(timeline.rows[bar.row].level + 1, threads[bar.row] + bar.lane) for bar in timeline.bars]
    # A stable sort: slices stand before the flows that begin or end in them.
    timed = sorted([*slices(timeline, spots), *flows(timeline, spots)], key=lambda event: event["ts"])
    encode = json.JSONEncoder(separators=(",", ":")).encode  # one for all: to make it takes as long as to use it
    lines = ",\n".join(map(encode, [*metadata(timeline, threads), *timed]))
    about = json.dumps({"span": str(timeline.total), "unit": "one of the cost file, written as 1 us", "note": NOTHING})
    return f'{{"traceEvents":[\n{lines}\n],\n"displayTimeUnit":"ms",\n"otherData":{about}}}\n'
