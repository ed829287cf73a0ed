"""The two commands."""
import argparse
import os
import sys

from .plan import plan_text
from .reader import Refusal
from .translate import Translation


class Parser(argparse.ArgumentParser):
    def error(self, message):
        self.exit(2, f'{self.prog}: {message}\n')


def levels_in(text):
    if not text.isdecimal() or not 1 <= int(text) <= 64:
        raise argparse.ArgumentTypeError(f'{text} is no number of levels from 1 to 64')
    return int(text)


def from_pddl(words):
    parser = Parser(prog='tlplan-from-pddl', description='Translates a domain and a problem of PDDL into the files '
                    'NAME.domain and NAME.problem of tlplan, and NAME.costs where the problem has a metric, and prints '
                    'their names. What cannot be translated is refused with its place; the status is 2 then.')
    parser.add_argument('domain', metavar='DOMAIN')
    parser.add_argument('problem', metavar='PROBLEM')
    parser.add_argument('-o', dest='name', metavar='NAME', help='else the name of PROBLEM without .pddl, in this folder')
    parser.add_argument('--levels', metavar='K', type=levels_in, help='how often a recursive derived predicate unfolds')
    parser.add_argument('--control', metavar='FILE', help='a control formula in the names of NAME.domain, perhaps after '
                        'definitions, which has to hold beside the constraints')
    given = parser.parse_args(words)
    name = given.name or os.path.basename(given.problem).removesuffix('.pddl')
    files = Translation(given.domain, given.problem, given.control, given.levels).files()
    for ending, text in files.items():
        write(name + ending, text)
        print(name + ending)


def write(path, text):
    try:
        with open(path, 'w', encoding='utf-8', newline='\n') as target:
            target.write(text)
    except OSError as error:
        raise Refusal(f'{path}: {error.strerror}') from None


def to_val(words):
    parser = Parser(prog='tlplan-to-val', description='Prints the plan of a file of tlplan in the form that validators of '
                    'PDDL read. The files that tlplan-from-pddl wrote give renamed names back.')
    parser.add_argument('plan', metavar='PLAN')
    parser.add_argument('files', metavar='FILE', nargs='*', help='NAME.domain and NAME.problem')
    given = parser.parse_args(words)
    sys.stdout.write(plan_text(given.plan, given.files))


def run(command):
    """Runs a command with the words of the command line, and gives the status."""
    sys.stdout.reconfigure(encoding='utf-8', errors='surrogateescape')
    try:
        command(sys.argv[1:])
        sys.stdout.flush()
        return 0
    except Refusal as refusal:
        print(refusal, file=sys.stderr)
    except OSError as error:
        print(f'standard output: {error.strerror}', file=sys.stderr)
        sys.stdout = None
    return 2
