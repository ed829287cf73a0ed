"""Plans of PDDL by its definitions: actions are grounded, and plans are searched by brute force. No part of the translator is
used here. The definitions are those of PDDL 2.1 (Fox and Long 2003) for states and actions, of PDDL 2.2 (Edelkamp and
Hoffmann 2004) for derived predicates, and of PDDL 3 (Gerevini and others 2009) for trajectory constraints, where the state
after k actions is the one at time k. What they leave open is settled as docs/PDDL.md says."""
import itertools
import re

ADDITIVE = {'increase': 1, 'decrease': -1}


def read(path):
    with open(path, encoding='utf-8') as source:
        return form_of(source.read())


def form_of(text):
    """The first form of a text, in lower case."""
    stack = [[]]
    for token in re.findall(r'[()]|[^\s()]+', re.sub(r';[^\n]*', '', text).lower()):
        if token == '(':
            stack.append([])
        elif token == ')':
            last = stack.pop()
            stack[-1].append(last)
        else:
            stack[-1].append(token)
    return stack[0][0]


def typed(items):
    """Pairs of a name and the list of its types."""
    result, names, items = [], [], list(items)
    while items:
        item = items.pop(0)
        if item == '-':
            kind = items.pop(0)
            result += [(name, kind[1:] if isinstance(kind, list) else [kind]) for name in names]
            names = []
        else:
            names.append(item)
    return result + [(name, ['object']) for name in names]


class State:
    """The facts, with those that are derived, and the value of each place that has one."""

    def __init__(self, facts, values):
        self.basic, self.values = frozenset(facts), values
        self.facts = self.basic
        self.key = (self.basic, frozenset(values.items()))


class Problem:
    def __init__(self, domain, problem):
        sections = domain[2:] + problem[2:]
        self.parents = {}
        for name, kinds in typed(self.all_of(sections, ':types')):
            self.parents.setdefault(name, []).append(kinds)
        self.objects = dict(typed(self.all_of(sections, ':constants')) + typed(self.all_of(sections, ':objects')))
        self.functions = {item[0] for item in self.all_of(sections, ':functions') if isinstance(item, list)}
        self.rules = [(rule[1][0], typed(rule[1][1:]), rule[2]) for rule in sections if rule[0] == ':derived']
        self.derived_order = self.ordered_rules()
        self.actions = [self.action(section) for section in sections if section[0] == ':action']
        self.constraints = [section[1] for section in sections if section[0] == ':constraints']
        self.goal = next(section[1] for section in sections if section[0] == ':goal')
        self.metric = next((section[2] for section in sections if section[0] == ':metric'), None)
        self.first = self.initial_state(self.all_of(sections, ':init'))
        self.applied = {}

    @staticmethod
    def all_of(sections, word):
        return [item for section in sections if section[0] == word for item in section[1:]]

    @staticmethod
    def action(section):
        parts = dict(zip(section[2::2], section[3::2]))
        return section[1], typed(parts.get(':parameters', [])), parts.get(':precondition', []), parts.get(':effect', [])

    # Types.

    def is_of(self, kind, wanted):
        return kind in wanted or 'object' in wanted or \
            any(all(self.is_of(upper, wanted) for upper in union) for union in self.parents.get(kind, []) if kind not in union)

    def members(self, wanted):
        return [thing for thing, kinds in self.objects.items() if all(self.is_of(kind, wanted) for kind in kinds)]

    def assignments(self, variables, env):
        for values in itertools.product(*[self.members(kinds) for _, kinds in variables]):
            yield {**env, **dict(zip([name for name, _ in variables], values))}

    # States.

    def initial_state(self, items):
        facts = {tuple(item) for item in items if item[0] not in ('=', 'not')}
        values = {tuple(item[1]) if isinstance(item[1], list) else (item[1],): number(item[2])
                  for item in items if item[0] == '='}
        return self.closed(State(facts, values))

    def ordered_rules(self):
        """The derived predicates, each after those in its rules."""
        ordered = []

        def visit(name, below):
            if name not in ordered and name not in below:
                for head, _, body in self.rules:
                    if head == name:
                        for used in set(words(body)) & {rule[0] for rule in self.rules}:
                            visit(used, below | {name})
                ordered.append(name)

        for head, _, _ in self.rules:
            visit(head, frozenset())
        return list(dict.fromkeys(ordered))

    def closed(self, state):
        """The state with the least facts that the rules of derived predicates ask for."""
        for name in self.derived_order:
            rules = [rule for rule in self.rules if rule[0] == name]
            while True:
                new = {(name, *[env[variable] for variable, _ in variables]) for _, variables, body in rules
                       for env in self.assignments(variables, {}) if self.holds(body, state, env)}
                if new <= state.facts:
                    break
                state.facts |= new
        return state

    # Conditions.

    def holds(self, formula, state, env):
        if not formula:
            return True
        head, *parts = formula
        if head == 'and':
            return all(self.holds(part, state, env) for part in parts)
        if head == 'or':
            return any(self.holds(part, state, env) for part in parts)
        if head == 'not':
            return not self.holds(parts[0], state, env)
        if head == 'imply':
            return not self.holds(parts[0], state, env) or self.holds(parts[1], state, env)
        if head in ('forall', 'exists'):
            truths = (self.holds(parts[1], state, inner) for inner in self.assignments(typed(parts[0]), env))
            return all(truths) if head == 'forall' else any(truths)
        if head == '=' and not any(self.is_numeric(part) for part in parts):
            return env.get(parts[0], parts[0]) == env.get(parts[1], parts[1])
        if head in ('=', '<', '<=', '>', '>='):
            first, second = self.value(parts[0], state, env), self.value(parts[1], state, env)
            return first is not None and second is not None and {
                '=': first == second, '<': first < second, '<=': first <= second,
                '>': first > second, '>=': first >= second}[head]
        return (head, *[env.get(part, part) for part in parts]) in state.facts

    def is_numeric(self, part):
        return isinstance(part, list) or part in self.functions or re.fullmatch(r'[-+]?[0-9.]+', part) is not None

    def value(self, expression, state, env):
        """The number of an expression, or nothing where it is undefined."""
        if isinstance(expression, str):
            return state.values.get((expression,)) if expression in self.functions else number(expression)
        head, *parts = expression
        if head not in ('+', '-', '*'):
            return state.values.get((head, *[env.get(part, part) for part in parts]))
        values = [self.value(part, state, env) for part in parts]
        if None in values:
            return None
        if head == '-':
            return -values[0] if len(values) == 1 else values[0] - values[1]
        total = values[0]
        for value in values[1:]:
            total = total + value if head == '+' else total * value
        return total

    # Actions.

    def changes(self, effect, state, env):
        """What an effect does in a state: lists of `('add', fact)`, `('del', fact)` and `(word, place, value)`."""
        if not effect:
            return []
        head, *parts = effect
        if head == 'and':
            return [change for part in parts for change in self.changes(part, state, env)]
        if head == 'when':
            return self.changes(parts[1], state, env) if self.holds(parts[0], state, env) else []
        if head == 'forall':
            return [change for inner in self.assignments(typed(parts[0]), env)
                    for change in self.changes(parts[1], state, inner)]
        if head == 'not':
            return [('del', (parts[0][0], *[env.get(part, part) for part in parts[0][1:]]))]
        if head in ('assign', 'increase', 'decrease', 'scale-up'):
            form = parts[0] if isinstance(parts[0], list) else [parts[0]]
            place = (form[0], *[env.get(part, part) for part in form[1:]])
            value = self.value(parts[1], state, env)
            if head == 'scale-up':
                old = state.values.get(place)
                value = None if old is None or value is None else old * value
            return [(head, place, value)]
        return [('add', (head, *[env.get(part, part) for part in parts]))]

    def step(self, action, state, env):
        """The next state, or nothing where the action cannot be executed."""
        _, _, precondition, effect = action
        if not self.holds(precondition, state, env):
            return None
        changes = self.changes(effect, state, env)
        values = dict(state.values)
        updates = {}
        for change in changes:
            if change[0] not in ('add', 'del'):
                updates.setdefault(change[1], []).append((change[0], change[2]))
        for place, made in updates.items():
            value = updated(state.values.get(place), made)
            if value is None:
                return None
            values[place] = value
        facts = state.basic - {change[1] for change in changes if change[0] == 'del'}
        return self.closed(State(facts | {change[1] for change in changes if change[0] == 'add'}, values))

    def successors(self, state):
        """The executable actions of a state, each as a tuple of its name and arguments, with the state after it."""
        if state.key not in self.applied:
            found = []
            for action in self.actions:
                for env in self.assignments(action[1], {}):
                    after = self.step(action, state, env)
                    if after is not None:
                        found.append(((action[0], *[env[name] for name, _ in action[1]]), after))
            self.applied[state.key] = found
        return self.applied[state.key]

    # Constraints.

    def obeys(self, constraint, states, env):
        """Whether a constraint holds along the states of a plan."""
        head, *parts = constraint
        last = len(states) - 1
        if head == 'and':
            return all(self.obeys(part, states, env) for part in parts)
        if head == 'forall':
            return all(self.obeys(parts[1], states, inner) for inner in self.assignments(typed(parts[0]), env))
        times = [int(number(part)) for part in parts if isinstance(part, str) and part != 'end']
        truth = [[self.holds(part, state, env) for state in states] for part in parts if isinstance(part, list)]
        first, second = truth[0], truth[-1]
        every = range(last + 1)
        if head == 'at':
            return first[last]
        if head == 'always':
            return all(first)
        if head == 'sometime':
            return any(first)
        if head == 'within':
            return any(first[i] for i in every if i <= times[0])
        if head == 'at-most-once':
            return all(any(all(first[i:j + 1]) and not any(first[j + 1:]) for j in every if j >= i) for i in every if first[i])
        if head == 'sometime-after':
            return all(any(second[j] for j in every if j >= i) for i in every if first[i])
        if head == 'sometime-before':
            return all(any(second[j] for j in every if j < i) for i in every if first[i])
        if head == 'always-within':
            return all(any(second[j] for j in every if i <= j <= i + times[0]) for i in every if first[i])
        # The last state stays in force after the end of the plan.
        if head == 'hold-during':
            return all(first[min(t, last)] for t in range(times[0], times[1]))
        if head == 'hold-after':
            return all(first[min(t, last)] for t in range(times[0], max(times[0], last) + 1))
        raise ValueError(head)

    def is_accepted(self, states):
        return self.holds(self.goal, states[-1], {}) and all(self.obeys(each, states, {}) for each in self.constraints)

    # Plans.

    def conditions(self, constraint, env):
        """The conditions in a constraint, each with the values of its variables."""
        if constraint[0] == 'forall':
            for inner in self.assignments(typed(constraint[1]), env):
                yield from self.conditions(constraint[2], inner)
        elif constraint[0] == 'and':
            for part in constraint[1:]:
                yield from self.conditions(part, env)
        else:
            yield from ((part, env) for part in constraint[1:] if isinstance(part, list))

    def shortest(self, most, widest=None):
        """A shortest accepted plan of at most so many actions, or nothing, and how many actions were tried: fewer than asked
        for where more paths than `widest` would have to be followed. Of plans that end in one state, and along which the
        conditions of all constraints were true at the same times, one is followed."""
        conditions = [pair for each in self.constraints for pair in self.conditions(each, {})]
        layer = {(): ((), (self.first,), (self.truths(conditions, self.first),))}
        met = {self.first.key}
        for length in range(most + 1):
            for plan, states, _ in layer.values():
                if self.is_accepted(states):
                    return plan, length
            if length == most or widest is not None and len(layer) > widest:
                return None, length
            layer = self.next_layer(layer, conditions, met)

    def truths(self, conditions, state):
        return tuple(self.holds(formula, state, env) for formula, env in conditions)

    def next_layer(self, layer, conditions, met):
        """The plans of one action more. Without constraints a state that was met before is left out."""
        following = {}
        for plan, states, history in layer.values():
            for action, after in self.successors(states[-1]):
                told = history + (self.truths(conditions, after),)
                if conditions or after.key not in met:
                    following.setdefault((after.key, told), (plan + (action,), states + (after,), told))
                    met.add(after.key)
        return following

    def execute(self, plan):
        """The states of a plan, or nothing where an action cannot be executed."""
        states = [self.first]
        for action in plan:
            after = dict(self.successors(states[-1])).get(tuple(action))
            if after is None:
                return None
            states.append(after)
        return states

    def least_cost(self, most):
        """The least value of the metric after an accepted plan of at most so many actions, where there are no constraints."""
        costs, layer = [], {self.first.key: self.first}
        for _ in range(most + 1):
            costs += [self.value(self.metric, state, {}) for state in layer.values() if self.is_accepted([state])]
            layer = {after.key: after for state in layer.values() for _, after in self.successors(state)}
        return min(costs, default=None)


def updated(old, made):
    """The value of a place after its updates, or nothing where they are undefined or do not go together."""
    if any(value is None for _, value in made):
        return None
    if all(word in ADDITIVE for word, _ in made):
        return None if old is None else old + sum(ADDITIVE[word] * value for word, value in made)
    values = {value for word, value in made}
    return values.pop() if len(values) == 1 and not any(word in ADDITIVE for word, _ in made) else None


def number(text):
    if re.fullmatch(r"[-+]?\d+", text):
        return int(text)
    value = float(text)
    return int(value) if value == int(value) else value


def words(formula):
    if isinstance(formula, str):
        yield formula
    else:
        for part in formula:
            yield from words(part)
