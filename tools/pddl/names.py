"""Names of tlplan for names of PDDL."""
import re

from .types import ANY

RESERVED = frozenset('true false not and or implies next always eventually until within for forall exists goal = < <= > >= '
                     '+ - *'.split())
NO_TOKEN_BYTE = re.compile(r'[^A-Za-z0-9!#$%&*+\-./:<=>?@^_~]')


class Names:
    """One set of names of tlplan, of which no two differ in case alone."""

    def __init__(self, reserved=()):
        self.taken = set(reserved)
        self.renamed = []

    def give(self, word, kind):
        """A name for a word of PDDL. Where it is spelled differently, that is noted with its kind."""
        name = self.free(word.spelled, '_')
        if name != word.spelled:
            self.renamed.append((kind, name, word.spelled))
        return name

    def free(self, text, ending):
        """A name that is not taken, and is from now on: the text, with an ending where that is needed."""
        name = NO_TOKEN_BYTE.sub('_', text)
        while name.lower() in self.taken:
            name += ending
        self.taken.add(name.lower())
        return name


class Vocabulary:
    """The names of a task: of its predicates, functions and types, which are one set, of its operators, and of its values.
    A type is a predicate of its things, and so is a union of types; it is declared where something uses it."""

    def __init__(self, task):
        self.task = task
        self.symbols = Names(RESERVED)
        self.operators = Names()
        self.values = Names()
        self.by_name = {}
        for table, kind in ((task.predicates, 'predicate'), (task.functions, 'function'), (task.derived, 'predicate')):
            for symbol in table.values():
                symbol.name = self.symbols.give(symbol.word, kind)
        for symbol in task.predicates.values():
            self.by_name[symbol.name] = symbol
        for action in task.actions.values():
            action.name = self.operators.give(action.word, 'operator')
        self.objects = {name: self.values.give(word, 'value') for name, (word, _) in task.objects.items()}
        self.unions = {(name,): self.symbols.free(word.spelled, '-type') for name, word in task.types.words.items()}
        if ANY not in self.unions:
            self.unions[ANY] = self.symbols.free('object', '-type')
        self.used = {}

    def union(self, union):
        """The predicate of a union, which is used from now on."""
        if union not in self.unions:
            self.unions[union] = self.symbols.free('-or-'.join(self.unions[part,] for part in union), '-type')
        self.used.setdefault(union, self.unions[union])
        return self.unions[union]

    def use_names_in(self, words):
        """Uses the unions whose predicates stand among some words."""
        for union, name in list(self.unions.items()):
            if name in words:
                self.used.setdefault(union, name)
