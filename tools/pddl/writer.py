"""Writes forms of tlplan, which are nested lists of texts, and counts what is limited."""
WIDTH = 110


def flat(form):
    return form if isinstance(form, str) else '(' + ' '.join(map(flat, form)) + ')'


def pretty(form, indent=0):
    """The text of a form. Where it is too long for a line, each part from the first list that is long on has its own."""
    text = flat(form)
    if isinstance(form, str) or len(text) + indent <= WIDTH:
        return text
    first = next((place for place, part in enumerate(form) if place and len(flat(part)) > 30), len(form) - 1)
    if form[0] in ('and', 'or', 'effects', 'bounds', 'implies', 'until'):
        first = 1
    lines = ['(' + ' '.join(map(flat, form[:first]))]
    lines += [' ' * (indent + 1) + pretty(part, indent + 1) for part in form[first:]]
    return '\n'.join(lines) + ')'


def depth(form):
    """How many lists stand within one another."""
    return 0 if isinstance(form, str) else 1 + max(map(depth, form), default=0)


def most_in_scope(form):
    """How many variables of quantifiers are in scope at once."""
    if isinstance(form, str):
        return 0
    own = len(form[1]) if form[:1] in (['forall'], ['exists'], ['each']) else 0
    return own + max(map(most_in_scope, form), default=0)
