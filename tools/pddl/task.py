"""Reads a PDDL domain and problem into tables, and checks what can be checked without the meaning of formulas."""
from .reader import Form, Word, definition_of, refuse, shown
from .types import Types, is_number, name_in, typed, variable_in

UNDERSTOOD = {':strips', ':typing', ':negative-preconditions', ':disjunctive-preconditions', ':equality', ':adl',
              ':existential-preconditions', ':universal-preconditions', ':quantified-preconditions', ':fluents',
              ':conditional-effects', ':numeric-fluents', ':derived-predicates', ':constraints', ':action-costs'}
# What these allow is refused where it stands.
REFUSED_WHERE_USED = {':durative-actions', ':duration-inequalities', ':continuous-effects', ':time', ':preferences',
                      ':timed-initial-literals', ':object-fluents'}
LACKING = {':durative-action': ':durative-actions', ':process': ':time', ':event': ':time'}


def not_translated(node, requirement):
    refuse(node, f'`{shown(node)}` needs {requirement}, which is not translated')


class Symbol:
    """A predicate, a function, a derived predicate or an action, with its parameters as they are declared."""

    def __init__(self, word, parameters):
        self.word = word
        self.parameters = parameters
        self.name = None

    def unions(self):
        return [union for _, union in self.parameters]


class Action(Symbol):
    def __init__(self, word, parameters, precondition, effect):
        super().__init__(word, parameters)
        self.precondition, self.effect = precondition, effect


class Derived(Symbol):
    """A derived predicate: the parameters of its first rule, and for each rule its own parameters and body."""

    def __init__(self, word, parameters):
        super().__init__(word, parameters)
        self.rules = []


class Task:
    """The tables of a domain and a problem. Names are in lower case."""

    def __init__(self, domain_path, problem_path):
        domain, problem = definition_of(domain_path), definition_of(problem_path)
        self.domain_name = self.name_of(domain, 'domain')
        self.problem_name = self.name_of(problem, 'problem')
        self.types = Types()
        self.predicates, self.functions, self.derived, self.actions, self.objects = {}, {}, {}, {}, {}
        self.constraints, self.facts, self.values = [], {}, {}
        self.goal = self.metric = None
        of_domain = self.sections(domain, {
            ':requirements': self.requirements, ':types': self.types.declare, ':constants': self.things,
            ':predicates': self.predicate_section, ':functions': self.function_section, ':derived': self.rule,
            ':action': self.action, ':constraints': self.constraint_section})
        of_problem = self.sections(problem, {
            ':domain': self.domain_named, ':requirements': self.requirements, ':objects': self.things,
            ':init': self.initial_state, ':goal': self.goal_section, ':metric': self.metric_section,
            ':constraints': self.constraint_section})
        self.read_in_order(of_domain, (':requirements', ':types'))
        self.types.put_in_order()
        self.read_in_order(of_domain, (':constants', ':predicates', ':functions', ':derived', ':action', ':constraints'))
        self.read_in_order(of_problem, (':domain', ':requirements', ':objects', ':init', ':goal', ':metric', ':constraints'))
        if self.goal is None:
            refuse(problem, 'the problem has no (:goal ..)')

    @staticmethod
    def name_of(definition, kind):
        head = definition[1] if len(definition) > 1 else definition
        if not isinstance(head, Form) or len(head) != 2 or head[0] != kind:
            refuse(head, f'`(define ({kind} NAME) ..)` is expected')
        return name_in(head[1], f'a {kind}')

    @staticmethod
    def sections(definition, readers):
        """The readers of each section's word, and the sections with this word."""
        found = {key: (reader, []) for key, reader in readers.items()}
        for section in definition[2:]:
            if not isinstance(section, Form) or not section or not isinstance(section[0], Word):
                refuse(section, f'`{shown(section)}` is no section')
            if section[0] in LACKING:
                refuse(section, f'a section {section[0]} needs {LACKING[section[0]]}, which is not translated')
            if section[0] not in found:
                refuse(section, f'a section {shown(section[0])} is not known here')
            found[section[0]][1].append(section)
        return found

    @staticmethod
    def read_in_order(sections, words):
        for key in words:
            reader, found = sections[key]
            for section in found:
                reader(section)

    # Sections of both.

    @staticmethod
    def requirements(section):
        for need in section[1:]:
            if not isinstance(need, Word) or need not in UNDERSTOOD | REFUSED_WHERE_USED:
                refuse(need, f'the requirement {shown(need)} is not translated')

    def things(self, section):
        """Constants and objects: each name with its word and its union."""
        for word, union in typed(section[1:]):
            union = self.types.union(union)
            if word in self.objects and self.objects[word][1] != union:
                refuse(word, f'{shown(word)} is declared before, with another type')
            self.objects.setdefault(word, (word, union))

    def constraint_section(self, section):
        if len(section) != 2:
            refuse(section, '(:constraints ..) has exactly one constraint')
        self.constraints.append(section[1])

    # Sections of a domain.

    def parameters(self, nodes, what):
        result = [(word, self.types.union(union)) for word, union in typed(nodes, variable_in, what)]
        for place, (word, _) in enumerate(result):
            if word in [earlier for earlier, _ in result[:place]]:
                refuse(word, f'the variable {shown(word)} stands here twice')
        return result

    def declared(self, node, table):
        """The symbol that `(NAME ?v - TYPE ..)` declares."""
        if not isinstance(node, Form) or not node:
            refuse(node, f'`{shown(node)}` is no declaration')
        word = name_in(node[0], 'a declaration')
        if word in table:
            refuse(word, f'{shown(word)} is declared twice')
        table[word] = Symbol(word, self.parameters(node[1:], shown(word)))
        if len(table[word].parameters) > 8:
            refuse(node, f'{shown(word)} has more than 8 arguments')

    def predicate_section(self, section):
        for node in section[1:]:
            self.declared(node, self.predicates)

    def function_section(self, section):
        nodes = iter(section[1:])
        for node in nodes:
            if node == '-':
                kind = next(nodes, None)
                if kind != 'number':
                    not_translated(kind or node, ':object-fluents')
            else:
                self.declared(node, self.functions)
                if node[0] in self.predicates:
                    refuse(node[0], f'{shown(node[0])} is declared before, as a predicate')

    def rule(self, section):
        """A rule of a derived predicate, `(:derived (p ?x ..) F)`."""
        if len(section) != 3 or not isinstance(section[1], Form) or not section[1]:
            refuse(section, 'a rule is written (:derived (NAME ?v ..) FORMULA)')
        word = name_in(section[1][0], 'a derived predicate')
        parameters = self.parameters(section[1][1:], shown(word))
        declared = self.derived.get(word) or self.predicates.pop(word, None) or Symbol(word, parameters)
        if len(declared.parameters) != len(parameters):
            refuse(section[1], f'{shown(word)} has {len(declared.parameters)} arguments elsewhere')
        if len(parameters) > 8:
            refuse(section[1], f'{shown(word)} has more than 8 arguments')
        if word not in self.derived:
            self.derived[word] = Derived(word, parameters)
        if len(self.derived) > 64:
            refuse(section, 'there are more than 64 derived predicates')
        self.derived[word].rules.append((parameters, section[2]))

    def action(self, section):
        if len(section) < 2:
            refuse(section, 'an action has a name')
        word = name_in(section[1], 'an action')
        if word in self.actions:
            refuse(word, f'{shown(word)} is the name of an earlier action')
        parts = {}
        for key, value in zip(section[2::2], section[3::2] + [None]):
            if not isinstance(key, Word) or key not in (':parameters', ':precondition', ':effect') or key in parts:
                refuse(key, f'`{shown(key)}` is no part of an action, or stands in it twice')
            if not isinstance(value, Form):
                refuse(key, f'after {key} a list is expected')
            parts[key] = value
        parameters = self.parameters(parts.get(':parameters', []), shown(word))
        if len(parameters) > 16:
            refuse(word, f'{shown(word)} has more than 16 parameters')
        self.actions[word] = Action(word, parameters, parts.get(':precondition'), parts.get(':effect'))

    # Sections of a problem.

    def domain_named(self, section):
        if section[1:] != [self.domain_name]:
            refuse(section, f'the problem is for another domain than {shown(self.domain_name)}')

    def goal_section(self, section):
        if len(section) != 2 or self.goal is not None:
            refuse(section, 'a problem has exactly one goal')
        self.goal = section[1]

    def metric_section(self, section):
        if len(section) != 3 or self.metric is not None:
            refuse(section, 'a metric is written (:metric minimize (NAME))')
        self.metric = section

    def initial_state(self, section):
        for node in section[1:]:
            if not isinstance(node, Form) or not node or not isinstance(node[0], Word):
                refuse(node, f'`{shown(node)}` is no fact')
            if node[0] == '=':
                self.initial_value(node)
            elif node[0] == 'at' and len(node) == 3 and is_number(node[1]):
                not_translated(node, ':timed-initial-literals')
            else:
                self.initial_fact(node)

    def initial_fact(self, node):
        holds = node[0] != 'not'
        if not holds and (len(node) != 2 or not isinstance(node[1], Form) or not node[1]):
            refuse(node, f'`{shown(node)}` is no fact')
        fact = self.ground(node if holds else node[1], self.predicates, 'predicate')
        if self.facts.setdefault(fact, holds) != holds:
            refuse(node, 'the initial state has this fact, and its negation')

    def initial_value(self, node):
        if len(node) != 3 or not isinstance(node[1], (Form, Word)):
            refuse(node, f'`{shown(node)}` gives no function a value')
        head = node[1] if isinstance(node[1], Form) else [node[1]]
        place = self.ground(head or node, self.functions, 'function', node)
        if not isinstance(node[2], Word) or not is_number(node[2]):
            not_translated(node, ':object-fluents')
        value = whole(node[2])
        if self.values.setdefault(place, value) != value:
            refuse(node, 'the initial state gives this place another value before')

    def ground(self, node, table, kind, whole_form=None):
        """The name and the objects of a fact or of a place."""
        word, at = node[0], whole_form or node
        if isinstance(word, Word) and word in self.derived and kind == 'predicate':
            refuse(at, f'{shown(word)} is derived, so no fact of it can be given')
        if not isinstance(word, Word) or word not in table:
            refuse(at, f'{shown(word)} is no {kind}')
        unions = table[word].unions()
        if len(unions) != len(node) - 1:
            refuse(at, f'{shown(word)} has {len(unions)} arguments, and here {len(node) - 1}')
        for argument, union in zip(node[1:], unions):
            if not isinstance(argument, Word) or argument not in self.objects:
                refuse(at, f'{shown(argument)} is no object')
            if not self.types.is_below(self.objects[argument][1], union):
                refuse(at, f'{shown(argument)} is not of the type that {shown(word)} has there')
        return tuple(map(str, node))

    def members(self, union):
        """The names of the objects of a union."""
        return [name for name, (_, own) in self.objects.items() if self.types.is_below(own, union)]


def whole(node):
    """The number of a word, which has to be whole and of 64 bits."""
    sign = -1 if node[0] == '-' else 1
    digits, _, fraction = node.lstrip('+-').partition('.')
    if fraction.strip('0'):
        refuse(node, f'{shown(node)} is no whole number; fractions of :numeric-fluents are not translated')
    digits = digits.lstrip('0') or '0'
    value = sign * int(digits) if len(digits) < 20 else 2 ** 64
    if not -2 ** 63 <= value < 2 ** 63:
        refuse(node, f'{shown(node)} is past 64 bits')
    return value
