"""Questions about the states of a plan that the program answers, each over a copy of the domain.

What a state is like, no command prints. A copy of the domain with another control formula, or with marks among the effects,
makes the commands `check` and `explain` say it.
"""

import os
import tempfile

from .command import Run, Trouble, answer
from .forms import (Domain, Plan, Problem, State, effects_within, fact_of, forms_of, is_integer, is_variable, lists_within,
                    parts_within, text_of)
from .refusals import checked

LEAST_INTEGER, GREATEST_INTEGER = -2 ** 63, 2 ** 63 - 1


class Files:
    """A domain, a problem and a plan that the program accepts as files, and its verdict on the plan."""

    def __init__(self, words):
        self.status, (self.verdict, *self.after), self.place_lines = checked(words)
        self.domain, self.problem, self.plan = Domain(words[0]), Problem(words[1]), Plan(words[2])
        self.words = words
        self.ending = self.ending_without_control()

    def ending_without_control(self):
        """What ends the plan where no control formula is looked at: `; end`, the number of the first action that is not
        executable, or the operation past 64 bits."""
        if self.status != 4:
            return self.verdict if self.verdict.startswith('; not executable ') else '; end'
        # The values of the plan have to stand in the copy, whatever is left out.
        values = {value for action in self.plan.actions for value in action[1:]}
        spare = ['operator', [Names(self.domain).new('spare')], ['pre', ['and', *(['=', value, value] for value in values)]]]
        items = without_control(self.domain, self.plan.actions)
        with tempfile.TemporaryDirectory() as folder:
            domain = written(folder, 'domain', text_of_domain([*items, spare]))
            _, lines = answer(['explain', domain, self.words[1], self.words[2]])
        if lines[0].startswith('; range '):
            return self.verdict
        return lines[-1] if lines[0].startswith('; state ') else complain_of_copy(lines[0])

    def executable(self):
        """The actions of the plan that can be executed one after another."""
        count = len(self.plan.actions)
        if self.ending.startswith('; not executable '):
            count = int(self.ending.split()[3]) - 1
        elif self.ending != '; end':
            count = self.actions_before_range()
        return self.plan.actions[:count]

    def actions_before_range(self):
        """How many actions come before the operation past 64 bits, as the second line of that verdict says."""
        return int(self.after[0].split()[2])


class Names:
    """Gives names that stand nowhere in the files."""

    def __init__(self, *files):
        self.taken = {part for file in files for part in parts_within(file.forms) if isinstance(part, str)}

    def new(self, wish):
        name, number = wish, 0
        while name in self.taken:
            number += 1
            name = f'{wish}-{number}'
        self.taken.add(name)
        return name


def without_control(domain, actions):
    """The items of a domain but for its control formula, with the operators that the actions use."""
    used = {action[0] for action in actions}
    return [item for item in domain.items
            if item[0] != 'control' and (item[0] != 'operator' or item[1][0] in used)]


def text_of_domain(items):
    return '(domain copy\n' + '\n'.join(text_of(item) for item in items) + ')\n'


def written(folder, name, text):
    """The path of a new file with the text."""
    path = os.path.join(folder, name)
    with open(path, 'w', encoding='latin-1') as target:
        target.write(text)
    return path


def complain_of_copy(line):
    raise Trouble(f'the program answers "{line}" to the copy of the domain by which this tool asks')


class EndOfPlan:
    """Asks what holds when some actions were done.

    The copy has an operator more, whose action is done after the others. It adds a fact that tells the state apart, and
    makes the goal true, so that the program judges the control formula. The goal speaks of predicates and functions of its
    own for this, so no state is another one for the rest of the domain; and since the last state is repeated for ever, one
    copy of it more changes nothing.
    """

    def __init__(self, domain, problem, actions, folder):
        self.folder = folder
        self.names = Names(domain, problem)
        self.wanted = {name: self.names.new('want-' + name) for name in goal_names(domain, problem)}
        self.here = self.names.new('here')
        finish = self.names.new('finish')
        goal = [self.wanted_element(element) for element in problem.goal]
        self.items = [['predicate', self.here, '0']]
        self.items += [['predicate', self.wanted[name], str(arity)] for name, arity in domain.predicates.items()
                       if name in self.wanted]
        self.items += [['function', self.wanted[name], str(arity)] for name, arity in domain.functions.items()
                       if name in self.wanted]
        self.items += [self.renamed(item) for item in without_control(domain, actions)]
        self.items += [['operator', [finish], ['effects', ['add', [self.here]], *map(effect_for, goal)]]]
        self.problem = written(folder, 'problem', text_of(['problem', 'copy', ['init', *problem.init], ['goal', *goal]]))
        self.plan = written(folder, 'plan', '\n'.join(map(text_of, [*actions, [finish]])))

    def renamed(self, form):
        """The form, in which `goal` speaks of the names of the copy's goal."""
        if isinstance(form, str):
            return form
        if len(form) == 2 and form[0] == 'goal' and isinstance(form[1], list):
            return [form[0], self.wanted_element(form[1])]
        return [self.renamed(part) for part in form]

    def wanted_element(self, element):
        """An element of a goal, by the name that it has in the copy."""
        if element[0] in ('=', 'not'):
            return [element[0], self.wanted_element(element[1]), *element[2:]]
        return [self.wanted[element[0]], *element[1:]]

    def verdict_on(self, control):
        """What `check` answers with this control formula."""
        items = [*self.items, ['control', self.renamed(control)]]
        domain = written(self.folder, 'domain', text_of_domain(items))
        status, lines = answer(['check', domain, self.problem, self.plan])
        if lines[0] not in ('; valid', '; disobeys') and status != 4:
            complain_of_copy(lines[0])
        return lines[0]

    def holds(self, formula):
        """The verdict on a state formula in the last state alone."""
        return self.verdict_on(['eventually', ['and', [self.here], formula]])


def goal_names(domain, problem):
    """The predicates and functions of which the goal, or `goal` in the domain, speaks."""
    asked = [form for item in domain.items for form in lists_within(item) if form[0] == 'goal' and len(form) == 2]
    return {form[0] for form in lists_within([*asked, *problem.goal])
            if form[0] in domain.predicates or form[0] in domain.functions}


def effect_for(element):
    """An effect that makes an element of a goal true."""
    if element[0] == '=':
        return ['set', element[1], element[2]]
    if element[0] == 'not':
        return ['del', element[1]]
    return ['add', element]


class Watch:
    """What to look for in the changes of a state: that facts of a predicate become true or false, or that places of a
    function get a value. `slices` narrows the arguments, one after another, to some names and to a range of integers."""

    def __init__(self, kind, name, arity, slices=()):
        self.kind = kind
        self.name = name
        self.arity = arity
        self.slices = slices

    def conditions(self, arguments):
        """The conditions that the arguments of an effect have to meet."""
        return [['or', *[['=', argument, name] for name in names],
                 ['and', ['<=', str(least), argument], ['<=', argument, str(greatest)]]]
                for (names, least, greatest), argument in zip(self.slices, arguments)]

    def halves(self, names):
        """Two watches that look for the same together; none where this one looks for one fact alone."""
        whole = (names, LEAST_INTEGER, GREATEST_INTEGER)
        slices = [*self.slices]
        if not slices or is_single(slices[-1]):
            if len(slices) == self.arity:
                return []
            slices.append(whole)
        return [Watch(self.kind, self.name, self.arity, [*slices[:-1], half]) for half in halves_of(slices[-1])]


def is_single(piece):
    names, least, greatest = piece
    return len(names) + max(greatest - least + 1, 0) <= 1


def halves_of(piece):
    """Two pieces of some names and a range of integers that are less than the whole."""
    names, least, greatest = piece
    if names and least <= greatest:
        return [(names, 0, -1), ([], least, greatest)]
    if names:
        middle = len(names) // 2
        return [(names[:middle], 0, -1), (names[middle:], 0, -1)]
    middle = (least + greatest) // 2
    return [([], least, middle), ([], middle + 1, greatest)]


class Change:
    """What an action makes true, makes false, and sets."""

    def __init__(self):
        self.true = set()
        self.false = set()
        self.values = {}

    def merge(self, other):
        self.true |= other.true
        self.false |= other.false
        self.values.update(other.values)


class Changes:
    """Asks what each action of a plan changes."""

    def __init__(self, files, folder):
        self.files = files
        self.folder = folder
        self.actions = files.executable()
        self.names = Names(files.domain, files.problem, files.plan)
        self.values = sorted({part for file in (files.domain, files.problem, files.plan)
                              for part in parts_within(file.forms)
                              if isinstance(part, str) and not is_variable(part) and not is_integer(part)})
        self.plan = written(folder, 'plan', '\n'.join(map(text_of, self.actions)))

    def of_each_action(self):
        """The change that each action makes."""
        return self.seen_by(self.watches())

    def watches(self):
        """A watch for each way in which the actions may change a predicate or a function."""
        domain = self.files.domain
        used = {action[0] for action in self.actions}
        effects = [effect for name in domain.operators if name in used
                   for effect, _ in effects_within(domain.operators[name].effects)]
        kinds = dict.fromkeys((effect[0], effect[1][0]) for effect in effects)
        return [Watch(kind, name, domain.functions[name] if kind == 'set' else domain.predicates[name])
                for kind, name in kinds]

    def seen_by(self, watches):
        """The changes that the watches look for; where an answer would be too long, they are asked in two parts."""
        if not watches:
            return [Change() for _ in self.actions]
        # A domain has at most 256 predicates, and the copy one more for each watch, and one that never comes true.
        room = 255 - len(self.files.domain.predicates)
        changes = self.asked(watches) if len(watches) <= max(room, 1) else None
        if changes is not None:
            return changes
        if len(watches) > 1:
            middle = len(watches) // 2
            parts = [watches[:middle], watches[middle:]]
        else:
            parts = [[half] for half in watches[0].halves(self.values)]
        if not parts:
            raise Trouble(f'a fact of {watches[0].name} is too long to be printed')
        first, second = map(self.seen_by, parts)
        for change, other in zip(first, second):
            change.merge(other)
        return first

    def asked(self, watches):
        """The changes that the watches look for, or None where some answer is too long."""
        marks = Marks(watches, self.names)
        items = marks.items + [marks.with_marks(item) if item[0] == 'operator' else item
                               for item in without_control(self.files.domain, self.actions)]
        domain = written(self.folder, 'domain', text_of_domain([*items, ['control', marks.control]]))
        run = Run(['explain', domain, self.files.words[1], self.plan])
        changes, last = [], ''
        for last in run.lines():
            if last.startswith('; state '):
                label = last.split(': ', 1)[1]
                if label == 'long':
                    run.end()
                    return None
                changes.append(marks.change_in(label))
        run.end()
        if last != '; end':
            complain_of_copy(last or run.complaint)
        return changes[1:]


class Marks:
    """The marks that operators leave in the state for what they change, and a control formula that makes labels of them.

    A part of a label speaks of a fact that never comes true, and of what was changed. It goes away in the next state.
    """

    def __init__(self, watches, names):
        self.watches = watches
        self.never = names.new('never')
        self.mark = [names.new('mark') for _ in watches]
        variables = [names.new('?v') for _ in range(9)]
        self.variables, self.value = variables[:8], variables[8]
        self.items = [['predicate', self.never, '0']]
        self.items += [['predicate', mark, str(watch.arity)] for mark, watch in zip(self.mark, watches)]
        self.control = ['eventually', ['or', *map(self.shows, watches, self.mark)]]

    def shows(self, watch, mark):
        """The formula that leaves a part for each mark of a watch."""
        variables = self.variables[:watch.arity]
        if watch.kind == 'set':
            place = [watch.name, *variables]
            part = ['exists', [self.value], ['=', place, self.value], self.later(['=', place, self.value])]
        elif watch.kind == 'add':
            part = self.later([watch.name, *variables])
        else:
            # What is both deleted and added is there.
            part = ['and', ['not', [watch.name, *variables]], self.later(['not', [watch.name, *variables]])]
        return ['exists', variables, [mark, *variables], part] if variables else ['and', [mark], part]

    def later(self, formula):
        return ['next', ['and', [self.never], formula]]

    def with_marks(self, item):
        """The operator, which removes the marks that are there, and leaves those of its own effects."""
        clauses = [clause for clause in item[2:] if clause[0] != 'effects']
        effects = [effect for clause in item[2:] if clause[0] == 'effects' for effect in clause[1:]]
        return [*item[:2], *clauses, ['effects', *map(self.removes, self.watches, self.mark), *self.marked(effects)]]

    def removes(self, watch, mark):
        variables = self.variables[:watch.arity]
        remove = ['del', [mark, *variables]]
        return ['each', variables, [mark, *variables], remove] if variables else remove

    def marked(self, effects):
        """The effects, with a mark for each that is watched."""
        copies = []
        for effect in effects:
            if effect[0] == 'when':
                copies.append([*effect[:2], *self.marked(effect[2:])])
            elif effect[0] == 'each':
                copies.append([*effect[:3], *self.marked(effect[3:])])
            else:
                copies.append(effect)
                copies += [self.leaves(effect, watch, mark) for watch, mark in zip(self.watches, self.mark)
                           if (watch.kind, watch.name) == (effect[0], effect[1][0])]
        return copies

    def leaves(self, effect, watch, mark):
        """The effect that leaves a mark where another effect changes something."""
        fact = effect[1]
        changes = {'add': [['not', fact]], 'del': [fact], 'set': []}[effect[0]]
        return ['when', ['and', *changes, *watch.conditions(fact[1:])], ['add', [mark, *fact[1:]]]]

    def change_in(self, label):
        """The change of which a label speaks."""
        change = Change()
        for part in forms_of(label)[0]:
            if not isinstance(part, list) or part[0] != 'and' or part[1] != [self.never]:
                continue
            changed = part[2]
            if changed[0] == '=':
                change.values[fact_of(changed[1])] = changed[2]
            elif changed[0] == 'not':
                change.false.add(fact_of(changed[1]))
            else:
                change.true.add(fact_of(changed))
        return change


def states_of(files):
    """The state before each action, and its change; the last state comes with no change."""
    with tempfile.TemporaryDirectory() as folder:
        changes = Changes(files, folder).of_each_action()
    state = State(files.problem.init)
    for change in changes:
        yield state, change
        state.facts -= change.false
        state.facts |= change.true
        state.values.update(change.values)
    yield state, None
