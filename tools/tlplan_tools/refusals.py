"""Where a file is refused, and why: the answers of the program in words, with the line and a caret, as compilers print them."""

import os
import re
import stat

from .command import Trouble, answer

REFUSED = re.compile(r'; refused file ([0-9]+) rule ([0-9]+) at ([0-9]+)$')
PAST_RANGE = re.compile(r'; range at ([0-9]+): (.*)$')

# The words of each command, and how many of them stand before the files.
USAGES = {
    'plan': ('plan (breadth|depth) N B DOMAIN PROBLEM', 4),
    'trace': ('trace (breadth|depth) N B DOMAIN PROBLEM', 4),
    'check': ('check DOMAIN PROBLEM PLAN', 1),
    'explain': ('explain DOMAIN PROBLEM PLAN', 1),
    'prove-none': ('prove-none N B DOMAIN PROBLEM', 3),
    'check-none': ('check-none DOMAIN PROBLEM PROOF', 1),
    'sample': ('sample M', 2),
    'cheapest': ('cheapest B DOMAIN PROBLEM COSTS', 2),
    'check-loop': ('check-loop DOMAIN PROBLEM PLAN', 1),
}

RULES = {
    1: 'a byte that no word of the language has',
    2: 'a ) where no list is open',
    3: 'the file ends while lists are open; this ( is the outermost of them',
    4: 'a ( where 100 lists are open',
    5: 'an integer that 64 bits with a sign do not hold',
    6: 'more than 4194304 bytes',
    10: 'a form without the shape that its place asks for',
    11: 'a name that is not declared as what its place asks for',
    12: 'a name, a variable or an item that stands twice, or a reserved word as a name',
    13: 'another number of arguments than was declared',
    14: 'a variable that is not in scope',
    15: 'a variable that is in scope already',
    16: 'a variable that stands nowhere in the bound that has to give its values',
    17: 'a temporal word in a formula that is read in one state',
    18: 'an argument of goal that is no fact, equality or negated fact',
    19: 'a number or a count past its limit',
    20: 'a variable or a list in place of a value',
    21: 'a place with two values, or a fact of the goal that is also negated',
    30: 'no operator has this name',
    31: 'another number of arguments than the operator has parameters',
    32: 'an argument that is no value of the domain and problem files',
    33: 'a number of a search node that no link before it makes',
}

# How much of a line is shown on each side of the caret.
BEFORE = 80
AFTER = 60


def files_of(words):
    """The files among the words that the program is given."""
    return words[USAGES[words[0]][1]:] if words and words[0] in USAGES else []


def explanation(words, line):
    """What the line of an answer means, as lines for standard error; none where it names no place."""
    refused = REFUSED.match(line)
    past_range = PAST_RANGE.match(line)
    if not refused and not past_range:
        return []
    number = int(refused[1]) if refused else 1
    files = files_of(words)
    if number > len(files):
        return []
    if past_range:
        return place_lines(files[0], int(past_range[1]), 'past 64 bits: ' + past_range[2])
    rule = int(refused[2])
    lines = place_lines(files[number - 1], int(refused[3]), f'rule {rule}: {RULES.get(rule, "see docs/COMMANDS.md")}')
    return lines + (slip_lines(files[number - 1], number) if rule in (2, 3) else [])


def checked(words):
    """The status and the lines of `check` with these files, and what the first line means; a refused file is the trouble."""
    for name in words:
        if is_pipe(name):
            raise Trouble(f'{name} is a pipe, and is read more than once; it has to be a file')
    status, lines = answer(['check', *words])
    placed = explanation(['check', *words], lines[0])
    if status == 3:
        raise Trouble('\n'.join([*lines, *placed]), status)
    return status, lines, placed


def is_pipe(name):
    """Whether a file gives its text but once."""
    try:
        return stat.S_ISFIFO(os.stat(name).st_mode)
    except OSError:
        return False


def front_of(name, size=-1):
    """The first bytes of a file, or all; none where it cannot be read again."""
    try:
        with open(os.devnull if is_pipe(name) else name, 'rb') as source:
            return source.read(size)
    except OSError:
        return b''


def place_lines(name, offset, message):
    """The place in a file, as `FILE:LINE:COLUMN: MESSAGE`, its line, and a caret below it.

    The column counts bytes, from 1. Before the place, its line has ASCII alone, but where a comment makes a file too long:
    elsewhere the column in letters is the same.
    """
    text = front_of(name, offset + 4 * AFTER)
    if len(text) < offset:
        return [f'{name}: {message}, at byte {offset}']
    start = text.rfind(b'\n', 0, offset) + 1
    number = text.count(b'\n', 0, offset) + 1
    before = shown(text[max(start, offset - BEFORE):offset])
    after = shown(text[offset:].split(b'\n', 1)[0].rstrip(b'\r'))[:AFTER]
    gap = '\t'.join(' ' * len(part) for part in before.split('\t'))
    margin = f'{number:5}'
    return [f'{name}:{number}:{offset - start + 1}: {message}', f'{margin} | {before}{after}', f'{" " * len(margin)} | {gap}^']


def shown(text):
    """Bytes as letters, with a sign for each that cannot be shown."""
    return ''.join(letter if letter.isprintable() or letter == '\t' else '\ufffd' for letter in text.decode(errors='replace'))


def slip_lines(name, number):
    """Where a parenthesis too few or too many likely is, in the file of this number among the files of a command."""
    lines = front_of(name).decode('latin-1').split('\n')
    found = first_slip(lines, number)
    if not found:
        return []
    first, last = found
    text = shown(lines[first - 1].strip().encode('latin-1'))
    column = len(lines[first - 1]) - len(lines[first - 1].lstrip()) + 1
    where = f'line {first}' if first == last else f'lines {first} to {last}'
    return [f'{name}:{first}:{column}: note: the slip is likely in {where}: {text[:AFTER]}']


# How a form begins that stands inside so many lists where it begins a line, in the first, second and third file.
ITEMS = {
    1: (1, re.compile(r'[ \t]*\((predicate|function|define|defined|operator|control)([ \t\r(]|$)')),
    2: (1, re.compile(r'[ \t]*\((init|goal)([ \t\r()]|$)')),
    3: (0, re.compile(r'\(')),
}


def first_slip(lines, number):
    """The numbers of the first and the last line of the item that has a parenthesis too few or too many.

    An item that begins a line stands inside a known number of lists. The first one that does not tells that the slip is in
    the lines before it, from the item before it on; where the last item has the slip, they go on to the end of the file.
    None where each item begins as it should, and the file ends inside no list.
    """
    inside, item = ITEMS[number]
    depth = 0
    first = None
    for at, line in enumerate(lines, 1):
        forms = line.split(';', 1)[0]
        if item.match(forms):
            if depth != inside and first:
                return first, at - 1
            first = at
        elif first is None and '(' in forms:
            first = at
        depth += forms.count('(') - forms.count(')')
    last = len(lines) if lines[-1].strip() else len(lines) - 1
    return (first, last) if depth != 0 and first else None
