"""From a PDDL domain and problem to the files of tlplan."""
from .control import constraint, goal
from .costs import Costs
from .derived import Definitions
from .effects import Effects
from .formulas import MOST_VARIABLES, Formulas, Scope, conjunction, conjuncts, joined
from .names import Names, Vocabulary
from .reader import Form, Refusal, forms_of, refuse, shown, words_of
from .task import Task
from .types import ANY
from .writer import depth, flat, most_in_scope, pretty

MOST_BYTES = 4_194_304
MOST_ELEMENTS = 4_096
MOST_SYMBOLS = 256
MOST_DEFINITIONS = MOST_LEVELS = 64
MOST_LISTS, MOST_LISTS_IN_BODY = 100, 24


class ControlFile:
    """The definitions and the formulas of a file of control, in the language of tlplan."""

    def __init__(self, path):
        forms = forms_of(path) if path else []
        self.words = {word.spelled for word in words_of(forms)}
        self.definitions, self.formulas = [], []
        for node in forms:
            if self.formulas:
                refuse(node, 'after the formula of a control file nothing stands')
            if isinstance(node, Form) and node[:1] in (['define'], ['defined']):
                self.definitions.append(plain(node))
            elif isinstance(node, Form) and node[:1] == ['control'] and len(node) == 2:
                self.formulas.append(plain(node[1]))
            else:
                self.formulas.append(plain(node))
        if path and not self.formulas:
            raise Refusal(f'{path}: the control file has no formula')


def plain(node):
    """A form of tlplan as nested lists of texts: there case counts."""
    return [plain(part) for part in node] if isinstance(node, Form) else node.spelled


class Translation:
    """The files of tlplan for a domain and a problem of PDDL."""

    def __init__(self, domain_path, problem_path, control_path=None, levels=None):
        self.paths = (domain_path, problem_path)
        self.task = Task(domain_path, problem_path)
        self.control_file = ControlFile(control_path)
        self.vocabulary = Vocabulary(self.task)
        self.formulas = Formulas(self.task, self.vocabulary)
        self.costs = Costs(self.task, self.control_file.words)
        self.left_out = self.costs.function if self.costs.is_left_out else None
        self.definitions = self.defined(levels) + self.control_file.definitions
        self.operators = [self.operator(action) for action in self.task.actions.values()]
        self.goal, self.control = self.goal_and_control()
        self.vocabulary.use_names_in(self.control_file.words)
        self.types = [[name, self.vocabulary.objects[thing]]
                      for union, name in self.vocabulary.used.items() for thing in self.task.members(union)]
        self.facts = self.types + self.initial_facts()
        self.refuse_counts()

    # What the files say.

    def defined(self, levels):
        items = Definitions(self.formulas, levels).items()
        for symbol, item in items:
            self.refuse_depth(item[-1], MOST_LISTS_IN_BODY, symbol.word)
        return [item for _, item in items]

    def operator(self, action):
        scope, variables = Scope().with_new(action.parameters)
        parts = [] if action.precondition is None else conjuncts(self.formulas.condition(action.precondition, scope))
        effects, blocked = Effects(self.formulas, self.left_out).translated(action.effect, scope, conjunction(parts))
        bounds = [part for place, part in enumerate(parts) if self.formulas.is_fact(part) and part not in parts[:place]]
        tests = [part for part in parts if not self.formulas.is_fact(part)] + blocked
        bounds += [self.formulas.of_type(variable) for variable in variables if not self.has_values(variable, bounds)]
        item = ['operator', [action.name] + [variable.name for variable in variables]]
        item += [['bounds', *bounds]] if bounds else []
        item += [['pre', joined('and', tests)]] if tests else []
        item += [['effects', *effects]] if effects else []
        self.refuse_depth(item, MOST_LISTS - 1, action.word)
        if len(variables) + most_in_scope(item) > MOST_VARIABLES:
            refuse(action.word, f'{shown(action.word)} becomes an operator of more than {MOST_VARIABLES} variables in scope')
        return item

    def has_values(self, variable, bounds):
        """Whether bounds give a parameter values of its type alone."""
        if variable.union == ANY:
            return any(variable.name in bound[1:] for bound in bounds)
        return self.formulas.has_type(variable, bounds)

    def goal_and_control(self):
        """The goal list, and the control formula, where there is one."""
        elements, parts = goal(self.formulas, self.task.goal, Scope())
        self.refuse_depth(parts, MOST_LISTS - 2, self.task.goal)
        for node in self.task.constraints:
            more = [part for part in constraint(self.formulas, node, Scope()) if part != 'true']
            self.refuse_depth(more, MOST_LISTS - 2, node)
            parts += more
        parts += self.control_file.formulas
        return elements, joined('and', parts) if parts else None

    def functions(self):
        return [symbol for name, symbol in self.task.functions.items() if name != self.left_out]

    def initial_facts(self):
        things, task = self.vocabulary.objects, self.task
        facts = [[task.predicates[name].name] + [things[part] for part in arguments]
                 for (name, *arguments), holds in task.facts.items() if holds]
        return facts + [['=', [task.functions[name].name] + [things[part] for part in arguments], str(value)]
                        for (name, *arguments), value in task.values.items() if name != self.left_out]

    # What is limited.

    @staticmethod
    def refuse_depth(form, most, node):
        if depth(form) > most:
            refuse(node, f'`{shown(node)}` becomes a form of more than {most} lists within one another')

    def refuse_counts(self):
        levels = sum(int(item[1]) for item in self.definitions
                     if item[0] == 'defined' and len(item) > 1 and item[1] in map(str, range(MOST_LEVELS + 1)))
        predicates = len(self.vocabulary.used) + len(self.task.predicates)
        for path, count, most, what in (
                (self.paths[0], predicates, MOST_SYMBOLS, 'predicates, of which some are types'),
                (self.paths[0], len(self.functions()), MOST_SYMBOLS, 'functions'),
                (self.paths[0], len(self.operators), MOST_SYMBOLS, 'actions'),
                (self.paths[0], len(self.definitions), MOST_DEFINITIONS, 'definitions'),
                (self.paths[0], levels, MOST_LEVELS, 'levels of definitions'),
                (self.paths[1], len(self.facts), MOST_ELEMENTS,
                 f'initial facts, of which {len(self.types)} are types of objects'),
                (self.paths[1], len(self.goal), MOST_ELEMENTS, 'elements of the goal')):
            if count > most:
                raise Refusal(f'{path}: there are {count} {what}, and may be {most}')

    # Texts.

    def files(self):
        """The ending and the text of each file."""
        files = {'.domain': self.domain_text(), '.problem': self.problem_text()}
        if self.costs.of_action:
            files['.costs'] = self.costs_text()
        for ending, path in (('.domain', self.paths[0]), ('.problem', self.paths[1])):
            if len(files[ending].encode()) > MOST_BYTES:
                raise Refusal(f'{path}: the file {ending} has more than {MOST_BYTES} bytes')
        return files

    def domain_text(self):
        vocabulary, task = self.vocabulary, self.task
        lines = [f'; The domain {shown(task.domain_name)} of PDDL for its problem {shown(task.problem_name)}.']
        lines += name_lines(vocabulary.symbols) + name_lines(vocabulary.operators)
        lines.append(f'(domain {file_name(task.domain_name)}')
        lines += [f' (predicate {name} 1)   ; {self.union_note(union)}' for union, name in vocabulary.used.items()]
        lines += [f' (predicate {symbol.name} {len(symbol.parameters)})' for symbol in task.predicates.values()]
        lines += [f' (function {symbol.name} {len(symbol.parameters)})' for symbol in self.functions()]
        lines += [' ' + pretty(item, 1) for item in self.definitions]
        lines += [' (operator ' + flat(item[1]) + ''.join('\n  ' + pretty(clause, 2) for clause in item[2:]) + ')'
                  for item in self.operators]
        lines += [' (control\n  ' + pretty(self.control, 2) + ')'] if self.control else []
        return '\n'.join(lines) + ')\n'

    def union_note(self, union):
        spellings = [self.task.types.words[name].spelled if name in self.task.types.words else name for name in union]
        return 'the type ' + ' or '.join(spellings)

    def problem_text(self):
        lines = [f'; The problem {shown(self.task.problem_name)} of PDDL.'] + name_lines(self.vocabulary.values)
        lines += [f'(problem {file_name(self.task.problem_name)}', ' (init']
        lines += ['  ' + flat(fact) for fact in self.facts]
        return '\n'.join(lines) + ')\n (goal' + ''.join('\n  ' + flat(element) for element in self.goal) + '))\n'

    def costs_text(self):
        return ''.join(f'({self.task.actions[name].name} {cost})\n' for name, cost in self.costs.of_action.items())


def name_lines(names):
    """The table of those names that PDDL spells differently, in comments."""
    return [f'; name {kind} {name} {spelling}' for kind, name, spelling in names.renamed]


def file_name(word):
    return Names().free(word.spelled, '_')
