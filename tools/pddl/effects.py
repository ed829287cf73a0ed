"""From effects of PDDL to effects of tlplan.

An effect is first read into a list of `Literal`, `Update`, `When` and `Each`. Increases and decreases of one place add up in
PDDL, whereas tlplan sets a place to one value; so the updates of one function in an action that may meet in a place are
written for each way in which they can meet."""
from collections import namedtuple
from itertools import product

from .formulas import Scope, Variable, conjunction, conjuncts, demands
from .reader import Form, Word, refuse, shown, words_of

ADDITIVE = {'increase': '+', 'decrease': '-'}
UPDATES = ('assign', 'increase', 'decrease', 'scale-up', 'scale-down')
MOST_MEETINGS = 6

Literal = namedtuple('Literal', 'form')
When = namedtuple('When', 'condition effects')
Each = namedtuple('Each', 'variables effects')


class Update:
    """The update of a place: its arguments, each with its union; its sign, where it is additive; and its value. It is made
    where the conditions hold, for all values of the variables."""

    def __init__(self, node, function, arguments, sign, value):
        self.node, self.function, self.arguments, self.sign, self.value = node, function, arguments, sign, value
        self.variables, self.conditions = [], []
        self.apart = False

    def place(self):
        return [self.function] + [name for name, _ in self.arguments]

    def effect(self):
        return ['set', self.place(), [self.sign, self.place(), self.value] if self.sign else self.value]


class Effects:
    """Translates the effects of one action."""

    def __init__(self, formulas, left_out):
        self.formulas = formulas
        self.task, self.vocabulary = formulas.task, formulas.vocabulary
        self.left_out = left_out
        self.everywhere = None

    def translated(self, node, scope, precondition):
        """The effects, and what else has to hold for the action to be executable."""
        if node is None:
            return [], []
        # Values of variables of one update are put into the conditions of another, which needs names of their own.
        if sum(word in UPDATES for word in words_of(node)) > 1:
            self.everywhere = set(scope.names)
        tree = self.read(node, Scope(scope.variables, self.everywhere))
        updates = list(updates_in(tree, [], []))
        self.refuse_sums(updates)
        distinct = {frozenset(part[1][1:]) for part in conjuncts(precondition)
                    if part[0] == 'not' and part[1][0] == '=' and all(isinstance(side, str) for side in part[1])}
        meetings = {}
        for here, there in product(updates, updates):
            if here is not there and here.function == there.function and here.sign:
                meeting = self.meeting(here, there, distinct)
                if meeting is not None:
                    meetings[here, there] = meeting
        blocked = [self.never(here, meeting) for (here, there), meeting in meetings.items() if not there.sign]
        apart = self.added_up(updates, meetings)
        return self.written(tree) + apart, blocked

    # Reading.

    def read(self, node, scope):
        if not isinstance(node, Form) or node and not isinstance(node[0], Word):
            refuse(node, f'`{shown(node)}` is no effect')
        if not node:
            return []
        head = node[0]
        if head == 'and':
            return [effect for part in node[1:] for effect in self.read(part, scope)]
        if head == 'when':
            demands(node, 2)
            return [When(self.formulas.condition(node[1], scope), self.read(node[2], scope))]
        if head == 'forall':
            inner, variables = self.formulas.opened(node, scope)
            effects = self.read(node[2], inner)
            if len(effects) == 1 and isinstance(effects[0], Each):
                return [Each(variables + effects[0].variables, effects[0].effects)]
            return [Each(variables, effects)]
        if head == 'not':
            demands(node, 1)
            return [Literal(['del', self.changed(node[1], scope)])]
        if head in UPDATES:
            return self.update(node, scope)
        return [Literal(['add', self.changed(node, scope, True)])]

    def changed(self, node, scope, added=False):
        """The fact that an effect adds or deletes. What is added has the types that the predicate wants."""
        if not isinstance(node, Form) or not node or not isinstance(node[0], Word):
            refuse(node, f'`{shown(node)}` is no fact')
        if node[0] in self.task.derived:
            refuse(node, f'{shown(node[0])} is derived, so no effect can change it')
        if node[0] not in self.task.predicates:
            refuse(node, f'`{shown(node)}` is no effect: {shown(node[0])} is no predicate')
        symbol = self.task.predicates[node[0]]
        fact = [symbol.name] + self.formulas.arguments(node, symbol, scope)
        for argument, union in zip(node[1:] if added else (), symbol.unions()):
            if not self.task.types.is_below(self.formulas.place_of_argument(argument, scope)[1], union):
                refuse(node, f'{shown(argument)} may be of another type than {shown(node[0])} has there')
        return fact

    def update(self, node, scope):
        demands(node, 2)
        if node[0] == 'scale-down':
            refuse(node, f'`{shown(node)}` is a division; those of :numeric-fluents are not translated')
        form = node[1] if isinstance(node[1], Form) else [node[1]]
        if not form or not isinstance(form[0], Word):
            refuse(node, f'`{shown(node)}` updates no function')
        if form[0] == self.left_out:
            return []
        place = self.formulas.place(node[1], form, scope)
        arguments = [self.formulas.place_of_argument(part, scope) for part in form[1:]]
        value = self.formulas.number(node[2], scope)
        if node[0] == 'scale-up':
            value = ['*', place, value]
        return [Update(node, place[0], arguments, ADDITIVE.get(node[0]), value)]

    # Updates that meet.

    @staticmethod
    def refuse_sums(updates):
        """Refuses an increase that a `forall` makes of one place several times."""
        for update in updates:
            names = [name for name, _ in update.arguments]
            for variable in update.variables:
                if update.sign and variable.name not in names:
                    refuse(update.node, f'`{shown(update.node)}` adds up over all {variable.name}, which is not translated')

    def meeting(self, here, there, distinct):
        """What has to hold, beside the conditions of the first of two updates, for the second to be made of the same place:
        a list of formulas, or nothing where that cannot be. The variables of the second one are those of its place."""
        value_of, tests = {}, []
        variables = {variable.name: variable for variable in there.variables}
        for (first, own), (second, other) in zip(here.arguments, there.arguments):
            if not any(self.task.types.is_below(union, own) and self.task.types.is_below(union, other)
                       for _, union in self.task.objects.values()):
                return None
            if second in variables and second not in value_of:
                value_of[second] = first
                tests += [] if self.task.types.is_below(own, other) else [[self.vocabulary.union(other), first]]
            elif not self.is_same(first, value_of.get(second, second), tests, distinct):
                return None
        left = [Variable(self.name_apart(name), variable.union)
                for name, variable in variables.items() if name not in value_of]
        value_of.update(zip([name for name in variables if name not in value_of], [variable.name for variable in left]))
        conditions = [substituted(part, value_of) for part in there.conditions]
        if left:
            return tests + [self.formulas.quantified('exists', left, conjunction(conditions))]
        if contradict(here.conditions + tests + conditions):
            return None
        return tests + [part for part in conditions if part not in here.conditions]

    def name_apart(self, name):
        """A name of no other variable of the action, for one that two updates may have in common."""
        while name.lower() in self.everywhere:
            name += '-other'
        self.everywhere.add(name.lower())
        return name

    def is_same(self, first, second, tests, distinct):
        """Adds the test that two arguments are the same, and says whether they can be."""
        if first == second:
            return True
        if first[0] != '?' and second[0] != '?' or frozenset((first, second)) in distinct:
            return False
        tests.append(['=', first, second])
        return True

    def never(self, update, meeting):
        """That an increase does not meet an assignment."""
        tests = update.conditions + meeting
        return negated(self.formulas.quantified('exists', update.variables, conjunction(tests)))

    def added_up(self, updates, meetings):
        """The effects of those increases and decreases that may meet others."""
        effects = []
        for number, update in enumerate(updates):
            others = [other for other in updates if update.sign and other.sign and (update, other) in meetings]
            update.apart = bool(others)
            if others and not any(meetings.get((update, earlier)) == [] for earlier in updates[:number] if earlier.sign):
                effects += self.ways_to_meet(update, [(other, meetings[update, other]) for other in others])
        return effects

    def ways_to_meet(self, update, others):
        """The effects of one update for each choice of those that it meets."""
        free = [meeting for _, meeting in others if meeting]
        if len(free) > MOST_MEETINGS:
            refuse(update.node, f'`{shown(update.node)}` may meet more than {MOST_MEETINGS} others in one place')
        effects = []
        for choice in product((False, True), repeat=len(free)):
            chosen = iter(choice)
            value, conditions = [update.sign, update.place(), update.value], list(update.conditions)
            for other, meeting in others:
                if not meeting or next(chosen):
                    value = [other.sign, value, substituted(other.value, self.values_at(other, update))]
                    conditions += meeting
                else:
                    conditions.append(negated(conjunction(meeting)))
            if not contradict(conditions):
                effects += self.each(update.variables, conditions, [['set', update.place(), value]])
        return effects

    @staticmethod
    def values_at(other, update):
        """The values of the variables of an update at the place of another."""
        names = {variable.name for variable in other.variables}
        return {second: first for (first, _), (second, _) in zip(update.arguments, other.arguments) if second in names}

    # Writing.

    def each(self, variables, conditions, effects):
        """Effects for all values of some variables with which some conditions hold."""
        parts = [part for each in conditions for part in conjuncts(each)]
        parts = [part for place, part in enumerate(parts) if part not in parts[:place]]
        layers, tests = self.formulas.bounds(variables, parts)
        if tests:
            effects = [['when', conjunction(tests)] + effects]
        for names, bound in reversed(layers):
            effects = [['each', names, bound] + effects]
        return effects

    def written(self, tree):
        """The effects of a tree, but for those updates that are written apart."""
        effects = []
        for node in tree:
            if isinstance(node, Literal):
                effects.append(node.form)
            elif isinstance(node, When):
                inner = self.written(node.effects)
                effects += [['when', node.condition] + inner] if inner else []
            elif isinstance(node, Each):
                effects += self.written_each(node)
            elif not node.apart:
                effects.append(node.effect())
        return effects

    def written_each(self, node):
        """Each condition below gives the variables bounds of its own."""
        effects = []
        plain = self.written([part for part in node.effects if not isinstance(part, When)])
        for part in node.effects:
            inner = self.written(part.effects) if isinstance(part, When) else []
            effects += self.each(node.variables, [part.condition], inner) if inner else []
        return (self.each(node.variables, [], plain) if plain else []) + effects


def updates_in(tree, variables, conditions):
    """The updates of a tree, with the variables and conditions around them noted."""
    for node in tree:
        if isinstance(node, Update):
            node.variables, node.conditions = variables, conditions
            yield node
        elif isinstance(node, When):
            yield from updates_in(node.effects, variables, conditions + conjuncts(node.condition))
        elif isinstance(node, Each):
            yield from updates_in(node.effects, variables + node.variables, conditions)


def substituted(form, value_of):
    if isinstance(form, str):
        return value_of.get(form, form)
    return [substituted(part, value_of) for part in form]


def negated(formula):
    return formula[1] if formula[0] == 'not' else ['not', formula]


def contradict(formulas):
    """Whether one of the formulas is the negation of another."""
    return any(['not', part] in formulas for part in formulas)
