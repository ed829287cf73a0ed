"""The metric, where it is a constant cost of each operator."""
from .reader import Form, Word, refuse, shown, words_of
from .task import not_translated, whole
from .types import is_number

MOST = 1_000_000


class Costs:
    """`function` is the function that counts the costs, that of the metric or else `total-cost`, where there is one;
    `of_action` gives the cost of each action, where a metric asks for it; and `is_left_out` says that each action adds a
    constant to the function and nothing reads it, so that the domain does without it."""

    def __init__(self, task, control_words):
        self.task = task
        self.function = None
        self.of_action = {}
        self.is_left_out = False
        if task.metric is not None:
            self.function = self.of_metric(task.metric)
            self.of_action = {name: self.cost_in_range(action) for name, action in task.actions.items()}
        elif 'total-cost' in task.functions and not task.functions['total-cost'].parameters:
            self.function = 'total-cost'
        if self.function is not None:
            costs = [self.cost(action, lambda node: None) for action in task.actions.values()]
            self.is_left_out = (self.function,) in task.values and None not in costs and not self.is_read(control_words)

    def of_metric(self, metric):
        """The function of `(:metric minimize (NAME))`."""
        wanted = metric[2]
        if any(word == 'is-violated' for word in words_of(wanted)):
            not_translated(metric, ':preferences')
        head = wanted[0] if isinstance(wanted, Form) and len(wanted) == 1 else wanted
        if metric[1] != 'minimize' or not isinstance(head, Word) or head not in self.task.functions or \
                self.task.functions[head].parameters:
            refuse(metric, f'the metric `{shown(wanted)}` of :action-costs or :numeric-fluents is not translated: only '
                           '(:metric minimize (NAME)) is, with a function that each action increases by a constant')
        return str(head)

    def cost_in_range(self, action):
        cost = self.cost(action, self.refused)
        if not 0 <= cost <= MOST:
            refuse(action.word, f'the cost of {shown(action.word)} is {cost}, and not 0 to {MOST}')
        return cost

    def refused(self, node):
        refuse(node, f'`{shown(node)}` is no constant cost; other metrics of :action-costs or :numeric-fluents are not '
                     'translated')

    def cost(self, action, otherwise):
        """What an action adds to the function, where that is a constant; else the answer of `otherwise`."""
        total = 0
        for node in parts_of(action.effect):
            if self.function not in words_of(node):
                continue
            if not self.is_constant_increase(node):
                return otherwise(node)
            total += whole(node[2])
        return total

    def is_constant_increase(self, node):
        return isinstance(node, Form) and len(node) == 3 and node[0] == 'increase' and \
            node[1] in ([self.function], self.function) and is_number(node[2])

    def is_read(self, control_words):
        """Whether the function stands anywhere but in those increases."""
        nodes = [action.precondition or [] for action in self.task.actions.values()]
        nodes += [body for symbol in self.task.derived.values() for _, body in symbol.rules]
        nodes += self.task.constraints + [self.task.goal]
        return self.function in control_words or any(self.function in words_of(node) for node in nodes)


def parts_of(effect):
    """The parts of a conjunction of effects, at any depth."""
    if isinstance(effect, Form) and effect[:1] == ['and']:
        return [part for each in effect[1:] for part in parts_of(each)]
    return [effect] if effect else []
