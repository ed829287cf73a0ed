"""Reads domain, problem and plan files, and the formulas of answers.

The tools read only what the program has accepted, so nothing here looks for the rules that a file can break. A text is read
byte by byte, as Latin 1: every token is ASCII, and in comments any byte may stand.
"""

import re

from .command import Trouble

TOKEN = re.compile(r';[^\n]*|[()]|[^ \t\r\n();]+')
INTEGER = re.compile(r'-?[0-9]+')
RESERVED = frozenset('true false not and or implies next always eventually until within for forall exists goal'.split()
                     + '= < <= > >= + - *'.split())
TEMPORAL = frozenset('next always eventually until within for'.split())


class Word(str):
    """A token; `at` is the offset of its first byte."""
    at = 0


class Group(list):
    """A list; `at` is the offset of its `(`."""
    at = 0


def forms_of(text, name='the text'):
    """The forms of a text."""
    open_lists = [Group()]
    for match in TOKEN.finditer(text):
        token = match.group()
        if token == '(':
            group = Group()
            group.at = match.start()
            open_lists.append(group)
        elif token == ')' and len(open_lists) > 1:
            group = open_lists.pop()
            open_lists[-1].append(group)
        elif token == ')':
            raise Trouble(f'{name}: the parentheses do not match')
        elif token[0] != ';':
            word = Word(token)
            word.at = match.start()
            open_lists[-1].append(word)
    if len(open_lists) > 1:
        raise Trouble(f'{name}: the parentheses do not match')
    return open_lists[0]


def text_of(form):
    """A form in one line."""
    if isinstance(form, str):
        return form
    return '(' + ' '.join(text_of(part) for part in form) + ')'


def parts_within(form):
    """The form and all that stands in it, tokens too."""
    yield form
    if isinstance(form, list):
        for part in form:
            yield from parts_within(part)


def lists_within(form):
    """The lists in a form, itself first, that begin with a token."""
    for part in parts_within(form):
        if isinstance(part, list) and part and isinstance(part[0], str):
            yield part


def with_values(form, values):
    """The form with values in place of the tokens that are keys of `values`."""
    if isinstance(form, str):
        return values.get(form, form)
    copy = Group(with_values(part, values) for part in form)
    copy.at = getattr(form, 'at', 0)
    return copy


def is_variable(form):
    return isinstance(form, str) and form.startswith('?')


def is_integer(form):
    return isinstance(form, str) and INTEGER.fullmatch(form) is not None


def as_value(token):
    """The value that a token stands for, an integer without zeros before it."""
    if not is_integer(token):
        return str(token)
    digits = token.lstrip('-').lstrip('0') or '0'
    return '-' + digits if token.startswith('-') and digits != '0' else digits


def value_order(value):
    """The key by which values are in order: integers first, by size, then names, by their bytes."""
    return (0, int(value), '') if is_integer(value) else (1, 0, value)


def fact_of(form):
    """A fact, or the place of a function, as its name followed by its values."""
    return tuple([str(form[0])] + [as_value(value) for value in form[1:]])


def conjuncts(formula):
    """The parts of a formula that have to hold together."""
    if isinstance(formula, list) and formula and formula[0] == 'and':
        return [part for each in formula[1:] for part in conjuncts(each)]
    return [formula]


def rules_of(formula):
    """The rules of a control formula, each with the form that begins it in the file: the parts that are joined by `and`, also
    below `always`, which then stands before each."""
    head = formula[0] if isinstance(formula, list) else ''
    if head == 'and' and len(formula) > 1:
        return [rule for part in formula[1:] for rule in rules_of(part)]
    if head == 'always':
        return [(['always', rule], form) for rule, form in rules_of(formula[1])]
    return [(formula, formula)]


def effects_within(effects, around=()):
    """The effects that are no `when` and no `each`, each with the beginnings of those around it."""
    for effect in effects:
        if effect[0] == 'when':
            yield from effects_within(effect[2:], [*around, effect[:2]])
        elif effect[0] == 'each':
            yield from effects_within(effect[3:], [*around, effect[:3]])
        else:
            yield effect, [*around]


class File:
    """The text of a file, its forms, and the lines in which they begin."""

    def __init__(self, name):
        self.name = name
        try:
            with open(name, 'rb') as source:
                self.text = source.read().decode('latin-1')
        except OSError as error:
            raise Trouble(f'cannot read {name}: {error.strerror}') from None
        self.forms = forms_of(self.text, name)
        self.comments = [match.group() for match in TOKEN.finditer(self.text) if match.group()[0] == ';']

    def line_of(self, form):
        """The number of the line in which a form begins."""
        return self.text.count('\n', 0, form.at) + 1

    def place_of(self, form):
        """The place of a form, as `FILE:LINE:COLUMN`."""
        column = form.at - self.text.rfind('\n', 0, form.at)
        return f'{self.name}:{self.line_of(form)}:{column}'


class Operator:
    """An operator of a domain: its name, parameters, bounds, parts of the precondition, and effects."""

    def __init__(self, item):
        self.item = item
        self.name = item[1][0]
        self.parameters = item[1][1:]
        clauses = {clause[0]: clause[1:] for clause in item[2:]}
        self.bounds = clauses.get('bounds', [])
        self.pre = conjuncts(clauses['pre'][0]) if 'pre' in clauses else []
        self.effects = clauses.get('effects', [])


class Domain(File):
    """A domain file."""

    def __init__(self, name):
        super().__init__(name)
        items = self.forms[0][2:]
        self.items = items
        self.predicates = {item[1]: int(item[2]) for item in items if item[0] == 'predicate'}
        self.functions = {item[1]: int(item[2]) for item in items if item[0] == 'function'}
        self.definitions = {item[-2][0]: item for item in items if item[0] in ('define', 'defined')}
        self.operators = {item[1][0]: Operator(item) for item in items if item[0] == 'operator'}
        self.control = next((item[1] for item in items if item[0] == 'control'), None)

    def fact_order(self, fact):
        """The key by which facts are printed: predicates as they are declared, then functions, then the values."""
        names = [*self.predicates, *self.functions]
        return names.index(fact[0]), [value_order(value) for value in fact[1:]]


class Problem(File):
    """A problem file: the first state and the elements of the goal."""

    def __init__(self, name):
        super().__init__(name)
        _, _, init, goal = self.forms[0]
        self.init = init[1:]
        self.goal = goal[1:]


class Plan(File):
    """A plan file."""

    def __init__(self, name):
        super().__init__(name)
        self.actions = self.forms


class State:
    """The facts that are true, and the values of the places that have one."""

    def __init__(self, facts):
        self.facts = {fact_of(fact) for fact in facts if fact[0] != '='}
        self.values = {fact_of(fact[1]): as_value(fact[2]) for fact in facts if fact[0] == '='}

    def has(self, element):
        """Whether an element of a goal holds."""
        if element[0] == '=':
            return self.values.get(fact_of(element[1])) == as_value(element[2])
        if element[0] == 'not':
            return fact_of(element[1]) not in self.facts
        return fact_of(element) in self.facts

    def lines(self, domain):
        """The state, a line for each predicate that has a fact and each function that has a value."""
        texts = {}
        for fact in sorted(self.facts, key=domain.fact_order):
            texts.setdefault(fact[0], []).append(text_of_fact(fact))
        for place in sorted(self.values, key=domain.fact_order):
            texts.setdefault(place[0], []).append(text_of_value(place, self.values[place]))
        return [' '.join(line) for line in texts.values()]


def text_of_fact(fact):
    return '(' + ' '.join(fact) + ')'


def text_of_value(place, value):
    return f'(= {text_of_fact(place)} {value})'
