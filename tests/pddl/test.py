"""Tests of tools/from-pddl and tools/to-val with a program tlplan: test.py PROGRAM"""
import contextlib
import io
import os
import random
import re
import resource
import subprocess
import sys
import tempfile

HERE = os.path.dirname(os.path.realpath(__file__))
TOOLS = os.path.join(HERE, '..', '..', 'tools')
sys.path[:0] = [HERE, TOOLS]

from generate import domain_and_problem
from pddl.commands import from_pddl
from pddl.plan import plan_text
from pddl.reader import Refusal
from pddl.translate import Translation
from reference import Problem, form_of, read

ONE_LINE = re.compile(r'[^\n]+:[0-9]+: [^\n]+|[^\n:]+: there are \d+ [^\n]+')
SEEDS = range(160)
MUTATIONS = 500


class Tests:
    """Counts what passes and what fails, in a folder of its own."""

    def __init__(self, program, folder):
        self.program, self.folder = os.path.abspath(program), folder
        self.passed = self.failed = 0

    def check(self, name, is_so, came=''):
        if is_so:
            self.passed += 1
        else:
            self.failed += 1
            print(f'FAILED: {name}: {came}')

    def path(self, name):
        return os.path.join(self.folder, name)

    def write(self, name, text):
        with open(self.path(name), 'w', encoding='utf-8') as target:
            target.write(text)
        return self.path(name)

    def tlplan(self, *words):
        return subprocess.run([self.program, *words], capture_output=True, text=True)

    def tool(self, name, *words):
        return subprocess.run([sys.executable, '-B', os.path.join(TOOLS, name), *words], capture_output=True, text=True,
                              cwd=self.folder)

    def translated(self, *words):
        """Writes x.domain and x.problem, by the words of the command but its name."""
        with contextlib.redirect_stdout(io.StringIO()):
            from_pddl([*words, '-o', self.path('x')])

    def search(self, most):
        return self.tlplan('plan', 'breadth', str(most), '90000', self.path('x.domain'), self.path('x.problem'))

    def kept_nodes(self, most):
        """How many search nodes a search keeps."""
        trace = self.tlplan('trace', 'breadth', str(most), '90000', self.path('x.domain'), self.path('x.problem')).stdout
        return len(re.findall('^; kept', trace, re.M))

    def pddl_plan(self, answer):
        """The actions of an answer, put back into the names of PDDL."""
        self.write('x.plan', answer)
        text = plan_text(self.path('x.plan'), [self.path('x.domain'), self.path('x.problem')])
        return form_of(f'({text})')

    def agrees(self, problem, expected, answer):
        """What is wrong with the answer of a search, where a shortest plan has so many actions, or there is none."""
        if expected is None:
            return '' if answer.returncode == 1 else answer.stdout
        if not answer.stdout.startswith(f'; plan of {expected} actions\n'):
            return f'{expected} actions are expected, and not {answer.stdout}'
        plan = self.pddl_plan(answer.stdout)
        states = problem.execute(plan)
        return '' if states and problem.is_accepted(states) else f'{plan} is no plan of PDDL'


def cases(tests):
    """Each case of the table: what is expected, what the reference finds and what the program finds are the same."""
    for domain, name, most, expected, *options in rows('cases'):
        domain_path, problem_path = (os.path.join(HERE, domain, f'{part}.pddl') for part in ('domain', name))
        expected = None if expected == 'none' else int(expected)
        problem = Problem(read(domain_path), read(problem_path))
        plan, _ = problem.shortest(int(most))
        tests.check(f'reference {domain} {name}', (plan is None) == (expected is None) and len(plan or ()) == (expected or 0),
                    plan)
        tests.translated(domain_path, problem_path, *options)
        wrong = tests.agrees(problem, expected, tests.search(int(most)))
        tests.check(f'case {domain} {name}', not wrong, wrong)


def rows(name):
    with open(os.path.join(HERE, name), encoding='utf-8') as lines:
        return [line.split() for line in lines if line.strip() and not line.startswith('#')]


def by_chance(tests):
    """Domains and problems made by chance: the program answers as the reference does."""
    answered = 0
    for seed in SEEDS:
        domain, problem = domain_and_problem(seed)
        try:
            tests.translated(tests.write('d.pddl', domain), tests.write('p.pddl', problem), '--levels', '4')
        except Refusal as refusal:
            tests.check(f'chance {seed}', 'adds up over all' in str(refusal), refusal)
            continue
        reference = Problem(form_of(domain), form_of(problem))
        plan, most = reference.shortest(4, 40)
        answer = tests.search(most)
        if answer.returncode != 4:
            wrong = tests.agrees(reference, None if plan is None else len(plan), answer)
            tests.check(f'chance {seed}', not wrong, wrong)
            answered += 1
    tests.check('most of what is made by chance is answered', answered > 0.7 * len(SEEDS), answered)


def blocks_of(path):
    """The blocks of the file of refusals: file, line, message and text; a block without a message is a base file."""
    with open(path, encoding='utf-8') as source:
        text = source.read()
    for block in text.split('\n## ')[1:]:
        head, _, body = block.partition('\n')
        file, _, rest = head.partition(' ')
        line, _, message = rest.partition(': ')
        yield file, int(line or 0), message, body.rstrip('\n') + '\n'


def refusals(tests):
    """Each file that is refused: the line and the message."""
    base = {}
    for file, line, message, text in blocks_of(os.path.join(HERE, 'refusals')):
        if not message:
            base[file] = text
            continue
        texts, lines_before = dict(base), 0
        if text.startswith((' ', '#')) or not text.startswith(('(', ';')):
            lines_before = base[file].count('\n') - 1
            texts[file] = base[file][:-2] + text + ')\n'
        else:
            texts[file] = text
        paths = {each: tests.write(f'{each}.pddl', texts[each]) for each in texts}
        came = refusal_of(paths['domain'], paths['problem'])
        tests.check(f'refusal {message}', came == f'{paths[file]}:{lines_before + line}: {message}', came)


def refusal_of(*words):
    try:
        Translation(*words).files()
    except Refusal as refusal:
        return str(refusal)
    return ''


def mutations(tests):
    """Files with words left out, doubled or exchanged: what is refused has one line for it, and what is not is read by the
    program."""
    chance = random.Random(1)
    table = [row for row in rows('cases') if len(row) == 4]
    for number in range(MUTATIONS):
        domain, name, *_ = chance.choice(table)
        texts = []
        for part in ('domain', name):
            with open(os.path.join(HERE, domain, f'{part}.pddl'), encoding='utf-8') as source:
                texts.append(source.read())
        changed = chance.randrange(2)
        texts[changed] = mutated(texts[changed], chance)
        paths = [tests.write('d.pddl', texts[0]), tests.write('p.pddl', texts[1])]
        refusal = refusal_of(*paths)
        if refusal:
            tests.check(f'mutation {number}', ONE_LINE.fullmatch(refusal), refusal)
        else:
            tests.translated(*paths)
            tests.check(f'mutation {number}', tests.search(0).returncode in (0, 1), f'{domain} {name}: {texts[changed]}')


def mutated(text, chance):
    tokens = re.findall(r'[()]|\s+|;[^\n]*|[^\s()]+', text)
    for _ in range(chance.randint(1, 2)):
        place, other = chance.randrange(len(tokens)), chance.randrange(len(tokens))
        tokens[place] = chance.choice(('', tokens[place] * 2, tokens[other], tokens[place] + ' ' + tokens[other]))
    return ''.join(tokens)


def costs(tests):
    """The costs file, and the least cost by the reference and by the program."""
    paths = [os.path.join(HERE, 'fares', f'{name}.pddl') for name in ('domain', 'problem')]
    tests.translated(*paths)
    with open(tests.path('x.costs'), encoding='utf-8') as source:
        text = source.read()
    tests.check('costs file', text == '(walk 0)\n(ride 3)\n(go-by-train 20)\n', text)
    least = Problem(read(paths[0]), read(paths[1])).least_cost(6)
    answer = tests.tlplan('cheapest', '1000', tests.path('x.domain'), tests.path('x.problem'), tests.path('x.costs')).stdout
    tests.check('least cost', answer.startswith(f'; cheapest plan of 3 actions costs {least}\n') and least == 20, answer)
    os.remove(tests.path('x.costs'))
    for effect, message in (
            ('(increase (c) (d ?x))', '`(increase (c) (d ?x))` is no constant cost; other metrics of :action-costs or '
             ':numeric-fluents are not translated'),
            ('(when (p) (increase (c) 1))', '`(when (p) (increase (c) 1))` is no constant cost; other metrics of :action-costs '
             'or :numeric-fluents are not translated'),
            ('(and (increase (c) 2) (increase (c) -3))', 'the cost of a is -1, and not 0 to 1000000'),
            ('(increase (c) 1000001)', 'the cost of a is 1000001, and not 0 to 1000000')):
        pair = (tests.write('d.pddl', f'(define (domain d) (:predicates (p)) (:functions (c) (d ?x))\n'
                                      f'(:action a :parameters (?x) :effect {effect}))'),
                tests.write('p.pddl', '(define (problem q) (:domain d) (:init (= (c) 0)) (:goal (p)) (:metric minimize (c)))'))
        came = refusal_of(*pair)
        tests.check(f'cost {effect}', came == f'{pair[0]}:2: {message}', came)
    tests.translated(paths[0], os.path.join(HERE, 'fares', 'unasked.pddl'))
    tests.check('no costs without a metric', not os.path.exists(tests.path('x.costs')))


def control(tests):
    """A control formula beside the constraints, with a definition before it."""
    paths = [os.path.join(HERE, 'wishes', f'{name}.pddl') for name in ('domain', 'either')]
    formula = tests.write('x.control', '; Nothing red.\n(define (some-Red) (exists (?x) (object ?x) (red ?x)))\n'
                          '(control (always (not (some-Red))))\n')
    tests.translated(*paths, '--control', formula)
    answer = tests.search(5).stdout
    tests.check('control', answer.startswith('; plan of 3 actions\n'), answer)
    for text, message in (('(define (a) true)\n', ': the control file has no formula'),
                          ('true\n\n(always true)\n', ':3: after the formula of a control file nothing stands'),
                          ('(always\n', ':1: the list that begins here is not closed')):
        came = refusal_of(*paths, tests.write('x.control', text))
        tests.check(f'control file {text!r}', came == tests.path('x.control') + message, came)


def limits(tests):
    """What the language has no room for."""
    many = ' '.join(f'a{n}' for n in range(4100))
    domain = '(define (domain d) (:predicates (p ?x)) (:action a :parameters (?x) :precondition (not (p ?x)) :effect (p ?x)))'
    problem = f'(define (problem q) (:domain d) (:objects {many}) (:init) (:goal (p a1)))'
    paths = [tests.write('d.pddl', domain), tests.write('p.pddl', problem)]
    came = refusal_of(*paths)
    tests.check('too many facts', came == f'{paths[1]}: there are 4100 initial facts, of which 4100 are types of objects, and '
                'may be 4096', came)
    nested = '(not ' * 24 + '(p ?x)' + ')' * 24
    for body, message in ((nested, f'{paths[0]}:1: `q` becomes a form of more than 24 lists within one another'),
                          (nested[5:-1], '')):
        tests.write('d.pddl', f'(define (domain d) (:predicates (p ?x)) (:derived (q ?x) {body}))')
        tests.write('p.pddl', '(define (problem q) (:domain d) (:objects a) (:goal (q a)))')
        came = refusal_of(*paths)
        tests.check('depth of a definition', came == message, came)
        if not message:
            tests.translated(*paths)
            tests.check('depth that is read', tests.search(0).returncode in (0, 1))
    rules = ''.join(f'(:derived (q{n}) (p a))\n' for n in range(65))
    came = refusal_of(tests.write('d.pddl', f'(define (domain d) (:predicates (p ?x))\n{rules})'), paths[1])
    tests.check('number of definitions', came == f'{paths[0]}:66: there are more than 64 derived predicates', came)
    tests.write('d.pddl', '(define (domain d) (:predicates (p ?x)))')
    tests.write('p.pddl', f'(define (problem q) (:domain d) (:objects {"a" * 4_200_000}) (:goal (p {"a" * 4_200_000})))')
    came = refusal_of(*paths)
    tests.check('bytes', came == f'{paths[1]}: the file .problem has more than 4194304 bytes', came)
    variables = [f'?v{n}' for n in range(35)]
    tests.write('d.pddl', f'(define (domain d) (:functions (f ?a ?b ?c ?d ?e ?f ?g ?h)) (:action a :parameters '
                f'({" ".join(variables[:16])}) :effect (and (forall ({" ".join(variables[16:24])}) (increase (f '
                f'{" ".join(variables[16:24])}) 1)) (forall ({" ".join(variables[24:])}) (assign (f '
                f'{" ".join(variables[:8])}) 1)))))')
    tests.write('p.pddl', '(define (problem q) (:domain d) (:objects a) (:goal ()))')
    came = refusal_of(*paths)
    tests.check('variables', came == f'{paths[0]}:1: a becomes an operator of more than 32 variables in scope', came)
    came = refusal_of(tests.write('d.pddl', '(' * 101), paths[1])
    tests.check('depth of a file', came == f'{paths[0]}:1: more than 100 lists stand within one another', came)
    levels = refusal_of(os.path.join(HERE, 'towers', 'domain.pddl'), os.path.join(HERE, 'towers', 'problem.pddl'))
    tests.check('no levels', levels.endswith('towers/domain.pddl:7: the derived predicate above is recursive: give a number of '
                                             'levels, as --levels 8'), levels)


def commands(tests):
    """The two commands as they are called: what they print, and their status."""
    lift = [os.path.join(HERE, 'lift', f'{name}.pddl') for name in ('domain', 'problem')]
    came = tests.tool('from-pddl', *lift)
    tests.check('names of files', (came.returncode, came.stdout, came.stderr) == (0, 'problem.domain\nproblem.problem\n', ''),
                came)
    for ending in ('domain', 'problem'):
        with open(os.path.join(HERE, 'lift', f'expected.{ending}'), encoding='utf-8') as kept, \
                open(tests.path(f'problem.{ending}'), encoding='utf-8') as made:
            tests.check(f'kept {ending}', kept.read() == made.read())
    with open(tests.path('bytes.pddl'), 'wb') as target:
        target.write(b'; \xc3\xa9\n(define\n (domain \xe9))')
    for words, message in ((('bytes.pddl', lift[1]), 'bytes.pddl:3: the byte 0xe9 is not UTF-8\n'),
                           (('none.pddl', lift[1]), 'none.pddl: No such file or directory\n'),
                           ((lift[0],), 'tlplan-from-pddl: the following arguments are required: PROBLEM\n'),
                           ((*lift, '--levels', '65'), 'tlplan-from-pddl: argument --levels: 65 is no number of levels from 1 '
                            'to 64\n'),
                           ((*lift, '-o', 'none/x'), 'none/x.domain: No such file or directory\n')):
        came = tests.tool('from-pddl', *words)
        tests.check(message, (came.returncode, came.stdout, came.stderr) == (2, '', message), came)


def plans(tests):
    """Plans in the names of PDDL, and files that are none."""
    tests.translated(*[os.path.join(HERE, 'names', f'{name}.pddl') for name in ('domain', 'problem')])
    tests.write('x.plan', tests.search(6).stdout)
    names = [tests.path('x.domain'), tests.path('x.problem')]
    with open(names[0], encoding='utf-8') as source:
        text = source.read()
    tests.check('names that differ in case', '(predicate STEPS-type 1)' in text and '(function Steps 0)' in text, text)
    came = tests.tool('to-val', tests.path('x.plan'), *names)
    tests.check('names given back', (came.returncode, came.stdout) == (0, "(Go Start it's)\n(Go it's über)\n(GOAL über END)\n"),
                came)
    came = tests.tool('to-val', tests.path('x.plan'))
    tests.check('names as they are', came.stdout == '(Go Start it_s)\n(Go it_s _ber)\n(GOAL _ber END)\n', came)
    for text, message in (('; none within 4\n', ':1: `; none within 4` is the answer, and no plan\n'),
                          ('; range at 4: 9 * 9\n; after 1 actions\n(a)\n', ':1: `; range at 4: 9 * 9` is the answer, and no '
                           'plan\n'),
                          ('(a)\n(repeat (b))\n', ':2: `(repeat (b))` is no action\n')):
        came = tests.tool('to-val', tests.write('x.plan', text))
        tests.check(message, (came.returncode, came.stdout, came.stderr) == (2, '', tests.path('x.plan') + message), came)
    came = tests.tool('to-val', tests.write('x.plan', '; plan of 0 actions\n'))
    tests.check('empty plan', (came.returncode, came.stdout, came.stderr) == (0, '', ''), came)


def blocks_in(document):
    """The blocks of code of a document."""
    with open(os.path.join(HERE, '..', '..', 'docs', document), encoding='utf-8') as source:
        return re.findall(r'^```\w*\n(.*?)^```$', source.read(), re.M | re.S)


def documents(tests):
    """What the documents show is what comes."""
    paths = [os.path.join(HERE, 'lift', f'{name}.pddl') for name in ('domain', 'problem')]
    tests.translated(*paths)
    blocks = {block.split()[0]: ' '.join(block.split()) for block in blocks_in('PDDL.md')}
    with open(tests.path('x.domain'), encoding='utf-8') as source:
        tests.check('operator of PDDL.md', blocks['(operator'] in ' '.join(source.read().split()))
    with open(paths[0], encoding='utf-8') as source:
        tests.check('action of PDDL.md', blocks['(:action'] in ' '.join(source.read().split()))
    plan = ' '.join('(' + ' '.join(action) + ')' for action in tests.pddl_plan(tests.search(20).stdout))
    tests.check('plan of PDDL.md', plan == blocks['(go'], plan)
    kept = tests.kept_nodes(20)
    tests.translated(*paths, '--control', tests.write('x.control', blocks['(define']))
    tests.check('control of PDDL.md', tests.search(20).stdout.startswith('; plan of 7 ') and tests.kept_nodes(20) < kept)
    domain, problem = blocks_in('TLPLAN_DOMAINS.md')
    tests.write('x.domain', domain)
    tests.write('x.problem', problem)
    tests.check('TLPLAN_DOMAINS.md', tests.search(100).stdout.startswith('; plan of 10 ') and tests.kept_nodes(100) == 24)
    tests.write('x.domain', domain[:domain.index('(control')] + ')')
    tests.check('TLPLAN_DOMAINS.md without control', tests.kept_nodes(100) == 549, tests.kept_nodes(100))


def large(tests):
    """A problem of 4,000 facts is translated in less than a second of processor time."""
    packages = ' '.join(f'p{n}' for n in range(900))
    facts = ' '.join(f'(at p{n} l{n % 300})' for n in range(900))
    roads = ' '.join(f'(road l{n} l{(n + k) % 300})' for n in range(300) for k in range(1, 10))
    weights = ' '.join(f'(= (weight p{n}) {n % 7})' for n in range(400))
    places = ' '.join(f'l{n}' for n in range(300))
    tests.write('d.pddl', '(define (domain big) (:types package place) (:predicates (at ?x - package ?p - place) '
                '(road ?p ?q - place)) (:functions (weight ?x - package)) (:action move :parameters (?x - package ?p ?q - place) '
                ':precondition (and (at ?x ?p) (road ?p ?q)) :effect (and (not (at ?x ?p)) (at ?x ?q))))')
    tests.write('p.pddl', f'(define (problem big) (:domain big) (:objects {packages} - package {places} - place) '
                f'(:init {facts} {roads} {weights}) (:goal (and {facts})))')
    before = resource.getrusage(resource.RUSAGE_CHILDREN)
    came = tests.tool('from-pddl', 'd.pddl', 'p.pddl', '-o', 'x')
    after = resource.getrusage(resource.RUSAGE_CHILDREN)
    seconds = after.ru_utime + after.ru_stime - before.ru_utime - before.ru_stime
    with open(tests.path('x.problem'), encoding='utf-8') as source:
        count = sum(line.startswith('  (') for line in source)
    tests.check('4,000 facts in a second', came.returncode == 0 and count == 4900 and seconds < 1, f'{count} {seconds} {came}')


def main():
    with tempfile.TemporaryDirectory() as folder:
        tests = Tests(sys.argv[1], folder)
        for part in (cases, refusals, limits, costs, control, commands, plans, documents, large, by_chance, mutations):
            part(tests)
    print(f'{tests.passed} passed, {tests.failed} failed')
    return 1 if tests.failed else 0


if __name__ == '__main__':
    sys.exit(main())
