"""From plans of tlplan to plans that the validators of PDDL read."""
import re

from .reader import Form, Refusal, forms_of, refuse, shown, spelled, text_of

NAME_LINE = re.compile(r'; name (operator|value) (\S+) (\S+)')
NO_PLAN = re.compile(r'; (none|none within \d+|spent \d+|refused file .*|range at .*)')


def names_of(paths):
    """For operators and for values, the names in PDDL of those that a translation has renamed."""
    names = {'operator': {}, 'value': {}}
    for path in paths:
        for line in text_of(path).split('\n'):
            match = NAME_LINE.fullmatch(line)
            if match:
                kind, name, spelling = match.groups()
                names[kind][name] = spelling
    return names


def plan_text(path, name_paths):
    """The actions of a plan, one on each line, with their names in PDDL."""
    for number, line in enumerate(text_of(path).split('\n'), 1):
        if NO_PLAN.fullmatch(line):
            raise Refusal(f'{path}:{number}: `{line}` is the answer, and no plan')
    names = names_of(name_paths)
    return ''.join(action_text(node, names) + '\n' for node in forms_of(path))


def action_text(node, names):
    if not isinstance(node, Form) or not node or any(isinstance(part, Form) for part in node):
        refuse(node, f'`{shown(node)}` is no action')
    operator, *values = map(spelled, node)
    return '(' + ' '.join([names['operator'].get(operator, operator)] + [names['value'].get(v, v) for v in values]) + ')'
