"""From derived predicates to definitions."""
from .formulas import Scope, conjuncts, conjunction, joined
from .reader import Form, refuse, shown


class Definitions:
    """The definitions of a task, each after those that it uses. A recursive one has as many levels as are given."""

    def __init__(self, formulas, levels):
        self.formulas, self.levels = formulas, levels
        self.derived = formulas.task.derived

    def items(self):
        """Each symbol with its item, in an order in which they may stand."""
        return [(symbol, self.item(symbol)) for symbol in self.in_order()]

    def in_order(self):
        ordered, open_ = [], []

        def visit(name):
            if name in open_:
                self.refuse_together(open_[open_.index(name):])
            if self.derived[name] not in ordered:
                open_.append(name)
                for used in self.used_by(name):
                    visit(used)
                open_.pop()
                ordered.append(self.derived[name])

        for name in self.derived:
            visit(name)
        return ordered

    def used_by(self, name):
        """The other derived predicates in the rules of one."""
        return [used for used in self.derived if used != name and any(True for _ in self.uses(name, used))]

    def uses(self, name, used):
        """Whether each use of a derived predicate in the rules of another stands under negation an even number of times."""
        for _, body in self.derived[name].rules:
            yield from uses_in(body, used, True)

    def refuse_together(self, names):
        words = [self.derived[name].word for name in names]
        refuse(words[0], f'the derived predicates {", ".join(map(shown, words))} use each other, which is not translated')

    def item(self, symbol):
        uses = list(self.uses(str(symbol.word), str(symbol.word)))
        if not all(uses):
            refuse(symbol.word, f'the derived predicate {shown(symbol.word)} uses its own negation')
        if uses and self.levels is None:
            refuse(symbol.word, f'the derived predicate {shown(symbol.word)} is recursive: give a number of levels, as '
                                '--levels 8')
        scope, variables = Scope().with_new(symbol.parameters)
        bodies = [self.body(parameters, body, scope, variables) for parameters, body in symbol.rules]
        head = [symbol.name] + [variable.name for variable in variables]
        return ['defined', str(self.levels), head, joined('or', bodies)] if uses else ['define', head, joined('or', bodies)]

    def body(self, parameters, body, scope, variables):
        """The body of a rule, with the variables of the first rule, and the types of its own parameters."""
        own = Scope({str(word): variable._replace(union=union)
                     for (word, union), variable in zip(parameters, variables)})
        formula = self.formulas.condition(body, own)
        parts = conjuncts(formula)
        return conjunction(self.formulas.type_tests(own.variables.values(), parts) + parts)


def uses_in(node, name, sign):
    """The signs under which a predicate stands in a condition."""
    if not isinstance(node, Form) or not node:
        return
    if node[0] == name:
        yield sign
    elif node[0] in ('forall', 'exists') and len(node) == 3:
        yield from uses_in(node[2], name, sign)
    elif node[0] == 'imply' and len(node) == 3:
        yield from uses_in(node[1], name, not sign)
        yield from uses_in(node[2], name, sign)
    elif node[0] in ('and', 'or', 'not'):
        for part in node[1:]:
            yield from uses_in(part, name, sign != (node[0] == 'not'))
