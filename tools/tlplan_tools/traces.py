"""Reads what `tlplan trace` prints, line by line."""

import re
import sys

from .command import Trouble

ARRIVAL = re.compile(r'; (?:(kept|seen) ([0-9]+) ([0-9]+)|pruned ([0-9]+)) (\(.*\))')


class Event:
    """What a line of a trace says: a `kind`, and for an arrival the search node, the one that it comes from, the action, and
    the depth of the arrival.

    The kinds are kept, label, seen, pruned, the outcome, and the actions of a plan. A label belongs to the node that was kept
    last. The depth of a node is the least number of actions with which it was met so far, and that of an arrival one more than
    that of the node that it comes from.
    """

    def __init__(self, kind, text, node=None, parent=None):
        self.kind = kind
        self.text = text
        self.node = node
        self.parent = parent
        self.depth = 0


def events(words):
    """The events of the trace in the file that is given, or on standard input."""
    if len(words) > 1:
        raise Trouble('the words are [TRACE]; --help says more')
    if not words and not sys.stdin:
        raise Trouble('standard input is closed')
    if not words:
        yield from events_in(sys.stdin.buffer)
        return
    try:
        source = open(words[0], 'rb')
    except OSError as error:
        raise Trouble(f'cannot read {words[0]}: {error.strerror}') from None
    with source:
        yield from events_in(source)


def events_in(lines):
    depths = []
    outcome = False
    for number, line in enumerate(lines, 1):
        line = line.decode('latin-1').rstrip('\r\n')
        if outcome and line.startswith('; '):
            # The lines after that of an operation past range.
            continue
        event = Event('action', line) if outcome else event_of(line, len(depths))
        if event is None or number == 1 and event.kind == 'outcome':
            raise Trouble(f'this is no trace: line {number} is "{line[:60]}"')
        outcome = outcome or event.kind == 'outcome'
        set_depth(event, depths)
        yield event
    if not outcome:
        raise Trouble('this is no trace: it has no outcome')


def set_depth(event, depths):
    """Sets the depth of an arrival, and of the node that is met."""
    if event.parent is not None:
        event.depth = depths[event.parent] + 1
    if event.kind == 'kept':
        depths.append(event.depth)
    elif event.kind == 'seen':
        # Depth-first, the search may go on from here again, with more actions left.
        depths[event.node] = min(depths[event.node], event.depth)


def event_of(line, kept):
    """The event of a line, where so many search nodes were kept before it; None where it is no line of a trace."""
    if line.startswith('; label ') and kept:
        return Event('label', line[8:])
    if line in ('; kept 0', '; pruned') and not kept:
        return Event(line[2:].split()[0], '', 0 if line == '; kept 0' else None)
    if not line.startswith(('; kept ', '; seen ', '; pruned', '; label ')):
        return Event('outcome', line[2:]) if line.startswith('; ') else None
    arrival = ARRIVAL.fullmatch(line)
    if not arrival:
        return None
    kind, node, parent, pruned_from, action = arrival.groups()
    if kind is None:
        event = Event('pruned', action, None, int(pruned_from))
    else:
        event = Event(kind, action, int(node), int(parent))
    # The number of a node that is kept is the next one; the others are known.
    known = event.kind == 'pruned' or (event.node == kept if kind == 'kept' else event.node < kept)
    return event if known and event.parent < kept else None
