"""From trajectory constraints of PDDL 3 to control formulas of tlplan. A step is one unit of time: the state after the first
k actions stands at time k, and the last state for ever after."""
from .formulas import conjunction, conjuncts, demands, joined
from .reader import Form, Word, refuse, shown
from .task import not_translated, whole
from .types import is_number

MOST_STEPS = 100_000
MOST_NEXT = 80


def constraint(formulas, node, scope):
    """The formulas whose conjunction a constraint is."""
    if not isinstance(node, Form) or not node or not isinstance(node[0], Word):
        refuse(node, f'`{shown(node)}` is no constraint')
    head = node[0]
    if head == 'and':
        return [formula for part in node[1:] for formula in constraint(formulas, part, scope)]
    if head == 'forall':
        inner, variables = formulas.opened(node, scope)
        return [for_all(formulas, variables, part) for part in constraint(formulas, node[2], inner)]
    if head == 'at' and node[1:2] == ['end']:
        demands(node, 2)
        return [at_end(formulas.condition(node[2], scope))]
    if head == 'preference':
        not_translated(node, ':preferences')
    if head not in SHAPES:
        refuse(node, f'`{shown(node)}` is no constraint of PDDL 3')
    times, conditions, formula_of = SHAPES[head]
    demands(node, times + conditions)
    return [formula_of(*map(steps, node[1:1 + times]), *[formulas.condition(part, scope) for part in node[1 + times:]])]


def for_all(formulas, variables, formula):
    """The formula for all values. What is of a type does not change, so it may be read in the first state."""
    for variable in reversed(variables):
        formula = ['forall', [variable.name], formulas.of_type(variable), formula]
    return formula


class Steps(int):
    """A number of steps, which knows where it stands."""


def steps(node):
    if not isinstance(node, Word) or not is_number(node):
        refuse(node, f'`{shown(node)}` is no number of steps')
    if not 0 <= whole(node) <= MOST_STEPS:
        refuse(node, f'{shown(node)} is no number of steps from 0 to {MOST_STEPS}')
    value = Steps(whole(node))
    value.node = node
    return value


def at_end(formula):
    return ['eventually', ['always', formula]]


def at_most_once(formula):
    """Where the formula is true it is true in the next state too, or never again from there on."""
    return ['always', ['implies', formula, ['next', ['or', formula, ['always', ['not', formula]]]]]]


def sometime_before(later, earlier):
    """The first formula is never true, or not before and not when the second one is true for the first time."""
    first = conjunction(conjuncts(earlier) + [['not', later]])
    return ['or', ['always', ['not', later]], ['until', ['not', later], first]]


def hold_during(start, end, formula):
    if start >= end:
        return 'true'
    return after(start, formula if end - start == 1 else ['for', str(end - start - 1), formula])


def after(start, formula):
    """The formula after so many steps."""
    if start > MOST_NEXT:
        refuse(start.node, f'{start} is more than {MOST_NEXT} steps, each of which is one `next`')
    for _ in range(start):
        formula = ['next', formula]
    return formula


# Of each constraint the number of its times and of its conditions, and its formula.
SHAPES = {
    'always': (0, 1, lambda formula: ['always', formula]),
    'sometime': (0, 1, lambda formula: ['eventually', formula]),
    'within': (1, 1, lambda time, formula: ['within', str(time), formula]),
    'at-most-once': (0, 1, at_most_once),
    'sometime-after': (0, 2, lambda first, then: ['always', ['implies', first, ['eventually', then]]]),
    'sometime-before': (0, 2, sometime_before),
    'always-within': (1, 2, lambda time, first, then: ['always', ['implies', first, ['within', str(time), then]]]),
    'hold-during': (2, 1, hold_during),
    'hold-after': (1, 1, lambda start, formula: after(start, ['always', formula])),
}


def goal(formulas, node, scope):
    """The elements of the goal list, and the formulas of what is no element of it, or is against an element before it."""
    told, elements, rest = {}, [], []
    for part in goal_parts(node):
        formula = formulas.condition(part, scope)
        place, value = element(formulas, formula)
        if place is None or told.setdefault(place, value) != value:
            rest.append(formula)
        else:
            elements.append(formula)
    return elements, [at_end(joined('and', rest))] if rest else []


def goal_parts(node):
    if isinstance(node, Form) and node[:1] == ['and']:
        return [part for each in node[1:] for part in goal_parts(each)]
    return [node] if node else []


def element(formulas, formula):
    """What an element of the goal list is about, and what it says of it; or nothing twice. An element is a fact, a negated
    fact, or a place with its value."""
    if formula[0] == '=' and isinstance(formula[1], list) and formula[1][0] not in ('+', '-', '*') and \
            isinstance(formula[2], str):
        return tuple(formula[1]), formula[2]
    if formulas.is_fact(formula):
        return tuple(formula), True
    if formula[0] == 'not' and formulas.is_fact(formula[1]):
        return tuple(formula[1]), False
    return None, None
