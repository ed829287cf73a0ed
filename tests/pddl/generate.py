"""Small domains and problems of PDDL, made by chance from most constructs."""
import random

from reference import Problem, form_of

TYPES = ('object', 'a', 'b', 'c')
ABOVE = {'object': (), 'a': ('object',), 'b': ('a', 'object'), 'c': ('object',)}
OBJECTS = {'o1': 'a', 'o2': 'b', 'o3': 'c'}
PREDICATES = {'p': (), 'q': ('a',), 'r': ('object',), 's': ('a', 'object'), 'u': ('c',)}
FUNCTIONS = {'f': (), 'g': ('a',), 'h': ('object',)}


class Maker:
    """Makes texts. A scope is a list of pairs of a variable and its type, or its types in a tuple."""

    def __init__(self, seed):
        self.random = random.Random(seed)
        self.derived = {}

    def chance(self, share):
        return self.random.random() < share

    def pick(self, items):
        return self.random.choice(list(items))

    # Terms.

    def is_below(self, kind, wanted):
        kinds = kind if isinstance(kind, tuple) else (kind,)
        return all(wanted == each or wanted in ABOVE[each] for each in kinds)

    def argument(self, scope, wanted, strict):
        things = [pair for pair in scope + list(OBJECTS.items()) if self.is_below(pair[1], wanted) or not strict]
        of_scope = [pair for pair in things if pair in scope]
        return self.pick(of_scope if of_scope and self.chance(0.8) else things)[0]

    def atom(self, scope, table, strict=False):
        name = self.pick(table)
        return '(' + ' '.join([name] + [self.argument(scope, kind, strict or self.chance(0.8)) for kind in table[name]]) + ')'

    def variables(self, scope):
        """A typed list of one or two variables, and the scope below it. A variable in scope may be taken again."""
        names = self.random.sample(['?x', '?y', '?z'], self.pick((1, 1, 2)))
        kinds = [self.pick(TYPES[:3] + (('a', 'c'), ('b', 'c'))) for _ in names]
        text = ' '.join(f'{name} - ' + (kind if isinstance(kind, str) else f'(either {kind[0]} {kind[1]})')
                        for name, kind in zip(names, kinds))
        return text, [pair for pair in scope if pair[0] not in names] + list(zip(names, kinds))

    def number(self, scope, depth=1):
        roll = self.random.random()
        if depth == 0 or roll < 0.4:
            return str(self.random.randint(0, 3))
        if roll < 0.8:
            return self.atom(scope, FUNCTIONS)
        word = self.pick(('+', '-', '*'))
        second = self.number(scope, 0) if word == '*' else self.number(scope, depth - 1)
        return f'({word} {self.number(scope, depth - 1)} {second})'

    # Conditions.

    def condition(self, scope, depth, table=None):
        table = table if table is not None else {**PREDICATES, **self.derived}
        roll = self.random.random()
        if depth == 0 or roll < 0.25:
            return self.atom(scope, table)
        if roll < 0.35:
            return f'(not {self.condition(scope, depth - 1, table)})'
        if roll < 0.55:
            parts = [self.condition(scope, depth - 1, table) for _ in range(self.pick((1, 2, 2, 3)))]
            return f'({self.pick(("and", "or"))} {" ".join(parts)})'
        if roll < 0.65:
            return f'(imply {self.condition(scope, depth - 1, table)} {self.condition(scope, depth - 1, table)})'
        if roll < 0.85:
            text, inner = self.variables(scope)
            return f'({self.pick(("forall", "exists"))} ({text}) {self.condition(inner, depth - 1, table)})'
        if roll < 0.92:
            return f'(= {self.argument(scope, "object", True)} {self.argument(scope, "object", True)})'
        return f'({self.pick(("=", "<", "<=", ">", ">="))} {self.number(scope)} {self.number(scope)})'

    # Actions.

    def effect(self, scope, depth):
        roll = self.random.random()
        if depth == 0 or roll < 0.3:
            return self.atom(scope, PREDICATES, strict=True)
        if roll < 0.42:
            return f'(not {self.atom(scope, PREDICATES)})'
        if roll < 0.65:
            word = self.pick(('assign', 'increase', 'increase', 'decrease', 'scale-up'))
            return f'({word} {self.atom(scope, FUNCTIONS)} {self.number(scope)})'
        if roll < 0.82:
            return f'(when {self.condition(scope, 1)} {self.effects(scope, depth - 1)})'
        text, inner = self.variables(scope)
        return f'(forall ({text}) {self.effects(inner, depth - 1)})'

    def effects(self, scope, depth):
        parts = [self.effect(scope, depth) for _ in range(self.pick((1, 1, 2, 3)))]
        return parts[0] if len(parts) == 1 else f'(and {" ".join(parts)})'

    def action(self, number):
        text, scope = self.variables([]) if self.chance(0.7) else ('', [])
        precondition = f' :precondition {self.condition(scope, 2)}' if self.chance(0.7) else ''
        return f' (:action act{number} :parameters ({text}){precondition}\n  :effect {self.effects(scope, 2)})'

    # Files.

    def constraint(self, scope=()):
        scope = list(scope)
        first, second = self.condition(scope, 1), self.condition(scope, 1)
        start = self.random.randint(0, 2)
        return self.pick((
            f'(always {first})', f'(sometime {first})', f'(within {start} {first})', f'(at-most-once {first})',
            f'(sometime-after {first} {second})', f'(sometime-before {first} {second})',
            f'(always-within {start} {first} {second})', f'(hold-during {start} {start + self.random.randint(0, 2)} {first})',
            f'(hold-after {start} {first})', f'(at end {first})'))

    def constraints(self, walked, states):
        """A section of constraints, most of which the states of a walk obey."""
        parts = []
        for _ in range(self.pick((1, 2, 2))):
            for _ in range(20):
                text, scope = self.variables([])
                part = f'(forall ({text}) {self.constraint(scope)})' if self.chance(0.3) else self.constraint()
                if self.chance(0.1) or walked.obeys(form_of(part), states, {}):
                    break
            parts.append(part)
        return f'\n (:constraints (and {" ".join(parts)}))'

    def rules(self):
        """Derived predicates, each perhaps over those before it, and the first one recursive."""
        lines = ''
        if self.chance(0.4):
            base, step = self.condition([('?x', 'object')], 1), self.condition([('?x', 'object'), ('?y', 'object')], 1)
            lines = f' (:derived (w ?x) (or {base} (exists (?y - object) (and {step} (w ?y)))))\n'
            self.derived['w'] = ('object',)
        for name in self.random.sample(('d', 'e'), self.pick((0, 1, 2))):
            text, scope = self.variables([])
            lines += f' (:derived ({name} {text}) {self.condition(scope, 2)})\n'
            self.derived[name] = tuple(kind if isinstance(kind, str) else 'object' for _, kind in scope)
        return lines

    def domain(self):
        declared = ' '.join('(' + ' '.join([name] + [f'?{i} - {kind}' for i, kind in enumerate(kinds)]) + ')'
                            for name, kinds in PREDICATES.items())
        functions = ' '.join('(' + ' '.join([name] + [f'?{i} - {kind}' for i, kind in enumerate(kinds)]) + ')'
                             for name, kinds in FUNCTIONS.items())
        rules = self.rules()
        actions = '\n'.join(self.action(number) for number in range(self.pick((2, 3))))
        return (f'(define (domain chance)\n (:types a c - object b - a)\n (:constants o1 - a)\n (:predicates {declared})\n'
                f' (:functions {functions})\n{rules}{actions})\n')

    def problem(self, goal, constraints=''):
        return f'(define (problem by-chance)\n (:domain chance)\n {self.start}\n (:goal {goal}){constraints})\n'

    def initial_state(self):
        facts = {self.atom([], PREDICATES, strict=True) for _ in range(5)}
        places = ['(f)'] + [f'({name} {thing})' for name in ('g', 'h') for thing, kind in OBJECTS.items()
                            if self.is_below(kind, FUNCTIONS[name][0])]
        values = [f'(= {place} {self.random.randint(0, 3)})' for place in places if self.chance(0.9)]
        return f'(:objects o2 - b o3 - c)\n (:init {" ".join(sorted(facts) + values)})'

    def goal(self, walked, state):
        """A condition that is true in a state and, where such a one is found, not in the first one."""
        if self.chance(0.6):
            parts = list(self.differences(walked.first, state))
            count = len(parts) if self.chance(0.7) else self.random.randint(0, len(parts))
            return f'(and {" ".join(self.random.sample(parts, count))})'
        for _ in range(60):
            goal = f'(and {self.condition([], 2)} {self.condition([], 1)})'
            if walked.holds(form_of(goal), state, {}) and not walked.holds(form_of(goal), walked.first, {}):
                return goal
        return '()'

    def walk(self, walked):
        """The states of some actions by chance, most of which change something."""
        states = [walked.first]
        for _ in range(self.random.randint(2, 5)):
            following = [state for _, state in walked.successors(states[-1])]
            new = [state for state in following if state.key not in [met.key for met in states]]
            states.append(self.pick(new or following or states[-1:]))
        return states

    @staticmethod
    def differences(first, state):
        """What a state has that the first one has not, and the other way round."""
        for place, value in sorted(state.values.items()):
            if first.values.get(place) != value:
                yield f'(= ({" ".join(place)}) {value})'
        for fact in sorted(first.basic ^ state.basic):
            yield f'({" ".join(fact)})' if fact in state.basic else f'(not ({" ".join(fact)}))'


def domain_and_problem(seed):
    maker = Maker(seed)
    domain = maker.domain()
    maker.start = maker.initial_state()
    walked = Problem(form_of(domain), form_of(maker.problem('()')))
    states = maker.walk(walked)
    problem = maker.problem(maker.goal(walked, states[-1]), maker.constraints(walked, states) if maker.chance(0.5) else '')
    if maker.chance(0.2):
        domain = domain[:-2] + maker.constraints(walked, states) + ')\n'
    return domain, problem
