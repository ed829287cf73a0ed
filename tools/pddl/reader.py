"""Reads files of parenthesised forms. Each word and each list knows its file and its line."""
import re

DEEPEST = 100
TOKEN = re.compile(r'\n|;[^\n]*|[()]|[^\s();]+')


class Refusal(Exception):
    """Why a file is not translated: FILE:LINE: MESSAGE, or FILE: MESSAGE."""


class Word(str):
    """A word in lower case, since case does not count in PDDL; `spelled` is as it stands in the file."""
    __slots__ = ('spelled', 'file', 'line')


class Form(list):
    """A list of words and lists."""
    __slots__ = ('file', 'line')


def refuse(node, message):
    raise Refusal(f'{node.file}:{node.line}: {message}')


def shown(node):
    """The text of a form in a message, shortened, without bytes that a terminal obeys."""
    text = ''.join(c if c.isprintable() else '?' for c in spelled(node))
    return text if len(text) <= 60 else text[:57] + '...'


def spelled(node):
    """The text of a form as the file spells it, with one blank between words."""
    if isinstance(node, Word):
        return node.spelled
    return '(' + ' '.join(map(spelled, node)) + ')'


def words_of(node):
    """All words of a form."""
    if isinstance(node, Word):
        yield node
    else:
        for part in node:
            yield from words_of(part)


def text_of(path):
    try:
        with open(path, 'rb') as source:
            data = source.read()
    except OSError as error:
        raise Refusal(f'{path}: {error.strerror}') from None
    try:
        return data.decode('utf-8-sig')
    except UnicodeDecodeError as error:
        read = error.object
        line = read.count(b'\n', 0, error.start) + 1
        raise Refusal(f'{path}:{line}: the byte {read[error.start]:#04x} is not UTF-8') from None


def word(text, file, line):
    result = Word(text.lower())
    result.spelled, result.file, result.line = text, file, line
    return result


def form(file, line):
    result = Form()
    result.file, result.line = file, line
    return result


def forms_of(path):
    """The forms of a file, in one list."""
    line = 1
    stack = [form(path, 1)]
    for token in TOKEN.findall(text_of(path)):
        first = token[0]
        if first == '\n':
            line += 1
        elif first == '(':
            if len(stack) > DEEPEST:
                raise Refusal(f'{path}:{line}: more than {DEEPEST} lists stand within one another')
            stack.append(form(path, line))
            stack[-2].append(stack[-1])
        elif first == ')':
            if len(stack) == 1:
                raise Refusal(f'{path}:{line}: a `)` closes no list')
            stack.pop()
        elif first != ';':
            stack[-1].append(word(token, path, line))
    if len(stack) > 1:
        refuse(unclosed(stack), 'the list that begins here is not closed')
    return stack[0]


def unclosed(stack):
    """The list that most likely lacks a `)`: the first section that has another section in it, or the one that is open."""
    for section in stack[1]:
        if isinstance(section, Form) and any(map(is_section, section)):
            return section
    return stack[min(2, len(stack) - 1)]


def is_section(node):
    return isinstance(node, Form) and bool(node) and isinstance(node[0], Word) and node[0].startswith(':')


def definition_of(path):
    """The one form of a PDDL file."""
    forms = forms_of(path)
    if not forms:
        raise Refusal(f'{path}:1: the file has no form')
    if len(forms) > 1:
        refuse(forms[1], f'the form `(define ..)` has ended before `{shown(forms[1])}`')
    if not isinstance(forms[0], Form) or forms[0][:1] != ['define']:
        refuse(forms[0], 'the file does not begin with `(define ..)`')
    return forms[0]
