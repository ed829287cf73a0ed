"""Types of PDDL. A union is the sorted tuple of the names of some types; `either` writes one of several types."""
from .reader import Word, refuse, shown

NUMBER_START = '+-.0123456789'
ANY = ('object',)


def is_number(node):
    """Whether a word is written as a number."""
    return isinstance(node, Word) and node[0] in NUMBER_START and any(map(str.isdigit, node)) and \
        node.lstrip('+-').replace('.', '', 1).isdecimal()


def name_in(node, what):
    """The node itself, where it can be a name."""
    if not isinstance(node, Word) or node[0] in '?:' or node == '-' or is_number(node):
        refuse(node, f'`{shown(node)}` is no name of {what}')
    return node


def variable_in(node, what):
    if not isinstance(node, Word) or node[0] != '?' or len(node) == 1:
        refuse(node, f'`{shown(node)}` is no variable of {what}')
    return node


def union_in(node):
    """The union that stands after `-` in a typed list."""
    if isinstance(node, Word):
        return (name_in(node, 'a type'),)
    if node[:1] != ['either'] or len(node) < 2:
        refuse(node, f'`{shown(node)}` is no type')
    return tuple(sorted({name_in(part, 'a type') for part in node[1:]}))


def typed(nodes, read=name_in, what='a type'):
    """The names of a typed list, each with its union; a name without a type has none."""
    result, waiting, rest = [], [], iter(nodes)
    for node in rest:
        if node == '-' and isinstance(node, Word):
            kind = next(rest, None)
            if kind is None or not waiting:
                refuse(node, 'before and after `-` in a typed list stand names and a type')
            union = union_in(kind)
            result += [(name, union) for name in waiting]
            waiting = []
        else:
            waiting.append(read(node, what))
    return result + [(name, None) for name in waiting]


class Types:
    """Which types are below which."""

    def __init__(self):
        self.above = {'object': []}
        self.words = {}
        self.order, self.known = [], {}

    def declare(self, section):
        for name, union in typed(section[1:]):
            self.words.setdefault(name, name)
            self.above.setdefault(name, [])
            if union and name not in union and name != 'object':
                self.above[name].append(union)
            for upper in union or ():
                self.words.setdefault(upper, upper)
                self.above.setdefault(upper, [])

    def put_in_order(self):
        """Finds an order in which each type comes after those above it."""
        waiting = {name: {upper for union in unions for upper in union} for name, unions in self.above.items()}
        below = {name: [] for name in waiting}
        for name, uppers in waiting.items():
            for upper in uppers:
                below[upper].append(name)
        ready = [name for name, uppers in waiting.items() if not uppers]
        while ready:
            upper = ready.pop()
            self.order.append(upper)
            for name in below[upper]:
                waiting[name].discard(upper)
                if not waiting[name]:
                    ready.append(name)
        if len(self.order) < len(waiting):
            self.refuse_cycle(waiting)

    def refuse_cycle(self, waiting):
        """Refuses a type that is met twice on the way upwards through those that wait for others."""
        met, name = set(), next(name for name, uppers in waiting.items() if uppers)
        while name not in met:
            met.add(name)
            name = next(iter(waiting[name]))
        refuse(self.words[name], f'the type {shown(self.words[name])} is above itself')

    def union(self, union):
        """The same union without what is below another of its types, or `object` where no type is given."""
        for name in union or ():
            if name not in self.above:
                refuse(name, f'{shown(name)} is no type')
        if not union:
            return ANY
        kept = [str(name) for name in union
                if not any(name != upper and self.is_below((name,), (upper,)) for upper in union)]
        return tuple(kept)

    def is_below(self, lower, upper):
        """Whether each thing of the one union is of the other."""
        return upper == ANY or self.all_below(upper).issuperset(lower)

    def all_below(self, upper):
        """The types of which each thing is of a union: those of the union, and those that have only such above them."""
        if upper not in self.known:
            below = set()
            for name in self.order:
                if name in upper or any(below.issuperset(union) for union in self.above[name]):
                    below.add(name)
            self.known[upper] = below
        return self.known[upper]
