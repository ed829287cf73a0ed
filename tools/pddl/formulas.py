"""From conditions of PDDL to state formulas of tlplan, which are nested lists of texts."""
from collections import namedtuple

from .names import NO_TOKEN_BYTE
from .reader import Form, Word, refuse, shown
from .task import not_translated, whole
from .types import ANY, is_number

COMPARISONS = ('=', '<', '<=', '>', '>=')
TEMPORAL = ('always', 'sometime', 'within', 'at-most-once', 'sometime-after', 'sometime-before', 'always-within',
            'hold-during', 'hold-after')
MOST_VARIABLES = 32

Variable = namedtuple('Variable', 'name union')


class Scope:
    """The variables in scope, by their names in PDDL. With `everywhere` no variable opened below has the name of another."""

    def __init__(self, variables=None, everywhere=None):
        self.variables = variables or {}
        self.names = {variable.name.lower() for variable in self.variables.values()}
        self.everywhere = everywhere

    def with_new(self, parameters):
        """The scope below a quantifier, and its variables. A variable in scope already gets another name."""
        inner = Scope(dict(self.variables), self.everywhere)
        inner.names = set(self.names)
        opened = []
        for word, union in parameters:
            opened.append(Variable(inner.new_name(word), union))
            inner.variables[str(word)] = opened[-1]
        if len(inner.names) > MOST_VARIABLES:
            refuse(parameters[0][0], f'more than {MOST_VARIABLES} variables are in scope')
        return inner, opened

    def new_name(self, word):
        base = name = '?' + NO_TOKEN_BYTE.sub('_', word.spelled[1:])
        number = 1
        while name.lower() in self.names or (self.everywhere is not None and name.lower() in self.everywhere):
            number += 1
            name = f'{base}-{number}'
        self.names.add(name.lower())
        if self.everywhere is not None:
            self.everywhere.add(name.lower())
        return name


def joined(word, parts):
    """The conjunction or disjunction of some formulas."""
    return parts[0] if len(parts) == 1 else [word, *parts]


def conjunction(parts):
    return joined('and', parts) if parts else 'true'


def conjuncts(formula):
    if formula == 'true':
        return []
    return [part for each in formula[1:] for part in conjuncts(each)] if formula[0] == 'and' else [formula]


def demands(node, count):
    """Refuses a form unless it has so many parts after its word."""
    if len(node) != count + 1:
        refuse(node, f'`{shown(node)}` has {len(node) - 1} parts after {shown(node[0])}, and {count} are expected')


class Formulas:
    """Translates conditions, numbers and quantifiers of a task."""

    def __init__(self, task, vocabulary):
        self.task, self.vocabulary = task, vocabulary

    # Conditions.

    def condition(self, node, scope):
        """The state formula of a condition."""
        if not isinstance(node, Form) or node and not isinstance(node[0], Word):
            refuse(node, f'`{shown(node)}` is no condition')
        if not node:
            return 'true'
        head = node[0]
        if head in ('and', 'or'):
            return [str(head)] + [self.condition(part, scope) for part in node[1:]] if len(node) != 2 else \
                self.condition(node[1], scope)
        if head == 'not':
            demands(node, 1)
            return ['not', self.condition(node[1], scope)]
        if head == 'imply':
            demands(node, 2)
            return ['implies', self.condition(node[1], scope), self.condition(node[2], scope)]
        if head in ('forall', 'exists'):
            inner, variables = self.opened(node, scope)
            return self.quantified(str(head), variables, self.condition(node[2], inner))
        if head in COMPARISONS:
            return self.comparison(node, scope)
        return self.atom(node, scope)

    def opened(self, node, scope):
        demands(node, 2)
        if not isinstance(node[1], Form):
            refuse(node, f'`{shown(node)}` has no list of variables')
        return scope.with_new(self.task.parameters(node[1], shown(node[0])))

    def comparison(self, node, scope):
        demands(node, 2)
        if node[0] == '=' and not any(map(self.is_numeric, node[1:])):
            return ['='] + [self.argument(part, scope) for part in node[1:]]
        return [str(node[0])] + [self.number(part, scope) for part in node[1:]]

    def is_numeric(self, node):
        return isinstance(node, Form) or is_number(node) or node in self.task.functions and node not in self.task.objects

    def atom(self, node, scope):
        """The atom of a predicate or of a derived predicate."""
        head = node[0]
        symbol = self.task.predicates.get(head) or self.task.derived.get(head)
        if symbol is None:
            if head == 'preference':
                not_translated(node, ':preferences')
            if head in TEMPORAL or head == 'at' and node[1:2] == ['end']:
                refuse(node, f'`{shown(node)}` is a constraint, and stands in (:constraints ..) alone')
            refuse(node, f'{shown(head)} is no predicate')
        return [symbol.name] + self.arguments(node, symbol, scope)

    def arguments(self, node, symbol, scope):
        if len(node) - 1 != len(symbol.parameters):
            refuse(node, f'{shown(node[0])} has {len(symbol.parameters)} arguments, and here {len(node) - 1}')
        return [self.argument(part, scope) for part in node[1:]]

    def argument(self, node, scope):
        """A variable or an object."""
        return self.place_of_argument(node, scope)[0]

    def place_of_argument(self, node, scope):
        """A variable or an object, and its union."""
        if isinstance(node, Form):
            if node and node[0] in self.task.functions:
                not_translated(node, ':object-fluents')
            refuse(node, f'`{shown(node)}` is no variable and no object')
        if node[0] == '?':
            if node not in scope.variables:
                refuse(node, f'the variable {shown(node)} is not in scope')
            return scope.variables[node]
        if node not in self.task.objects:
            refuse(node, f'{shown(node)} is no object')
        return self.vocabulary.objects[node], self.task.objects[node][1]

    # Numbers.

    def number(self, node, scope):
        """The term of a numeric expression."""
        if isinstance(node, Word):
            if is_number(node):
                return str(whole(node))
            return self.place(node, [node], scope)
        if not node or not isinstance(node[0], Word):
            refuse(node, f'`{shown(node)}` is no number')
        if node[0] == '/':
            refuse(node, f'`{shown(node)}` is a division; those of :numeric-fluents are not translated')
        if node[0] in ('+', '-', '*'):
            return self.operation(node, scope)
        return self.place(node, node, scope)

    def operation(self, node, scope):
        operands = [self.number(part, scope) for part in node[1:]]
        if node[0] == '-' and len(operands) == 1:
            operands.insert(0, '0')
        if len(operands) < 2 or node[0] == '-' and len(operands) > 2:
            refuse(node, f'`{shown(node)}` has a wrong number of operands')
        return in_halves(str(node[0]), operands)

    def place(self, node, form, scope):
        """The place of a function."""
        if form[0] in ('total-time', '#t', '?duration'):
            not_translated(node, ':durative-actions')
        if form[0] not in self.task.functions:
            refuse(node, f'{shown(form[0])} is no function')
        if isinstance(node, Word) and self.task.functions[node].parameters:
            refuse(node, f'{shown(node)} has {len(self.task.functions[node].parameters)} arguments, and here none')
        symbol = self.task.functions[form[0]]
        return [symbol.name] + (self.arguments(form, symbol, scope) if isinstance(node, Form) else [])

    # Bounds of quantifiers.

    def quantified(self, word, variables, body):
        """The quantifier over some variables. A fact that has to be true for the body to count is the bound, and else the
        type of a variable."""
        if word == 'exists':
            layers, tests = self.bounds(variables, conjuncts(body))
            inner = conjunction(tests)
        else:
            premises, conclusion = implication(body)
            layers, tests = self.bounds(variables, premises)
            inner = ['implies', conjunction(tests), conclusion] if tests else conclusion
            if tests and conclusion == 'false':
                inner = ['not', conjunction(tests)]
        for names, bound in reversed(layers):
            inner = [word, names, bound, inner]
        return inner

    def bounds(self, variables, tests):
        """The bounds that give variables their values, each with its variables, and the tests that are left."""
        tests, waiting, layers = list(tests), list(variables), []
        while waiting:
            guard = max(filter(self.is_fact, tests), key=lambda test: self.count_in(waiting, test), default=None)
            if guard is None or not self.count_in(waiting, guard):
                break
            bound = sorted((v for v in waiting if v.name in guard[1:]), key=lambda v: guard.index(v.name))
            waiting = [v for v in waiting if v not in bound]
            tests.remove(guard)
            tests = self.type_tests(bound, [guard]) + tests
            layers.append(([v.name for v in bound], guard))
        return layers + [([v.name], self.of_type(v)) for v in waiting], tests

    @staticmethod
    def count_in(variables, fact):
        return sum(variable.name in fact[1:] for variable in variables)

    def is_fact(self, formula):
        return isinstance(formula, list) and formula[0] in self.vocabulary.by_name

    def of_type(self, variable):
        return [self.vocabulary.union(variable.union), variable.name]

    def type_tests(self, variables, facts):
        """The tests of types for those variables that the facts do not give their types."""
        return [self.of_type(v) for v in variables if v.union != ANY and not self.has_type(v, facts)]

    def has_type(self, variable, facts):
        """Whether one of the facts has the variable where only things of its type stand: the initial state and the effects
        have been checked for that."""
        return any(name == variable.name and self.task.types.is_below(union, variable.union)
                   for fact in facts if self.is_fact(fact)
                   for name, union in zip(fact[1:], self.vocabulary.by_name[fact[0]].unions()))


def implication(formula):
    """The premises and the conclusion of a formula, read as an implication."""
    if formula[0] == 'implies':
        return conjuncts(formula[1]), formula[2]
    if formula[0] == 'not':
        return conjuncts(formula[1]), 'false'
    if formula[0] == 'or':
        premises = [part for each in formula[1:] if each[0] == 'not' for part in conjuncts(each[1])]
        rest = [each for each in formula[1:] if each[0] != 'not']
        return premises, joined('or', rest) if rest else 'false'
    return [], formula


def in_halves(word, operands):
    """A sum or a product of many operands, nested no deeper than needed."""
    if len(operands) == 1:
        return operands[0]
    middle = len(operands) // 2
    return [word, in_halves(word, operands[:middle]), in_halves(word, operands[middle:])]
