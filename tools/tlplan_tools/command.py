"""What the tools do alike as commands: their help, their errors, and how they find and run the program."""

import os
import re
import shutil
import signal
import subprocess
import sys


# How an answer to `check` or `explain` begins.
ANSWER = re.compile('; (valid|disobeys|goal unmet|not executable [0-9]+|state 0: .*|range at [0-9]+: .*|refused file .*)$')


class Trouble(Exception):
    """Why a tool cannot go on, in one line; `status` is what it ends with."""

    def __init__(self, message, status=2):
        super().__init__(message)
        self.status = status


def run_tool(main, description):
    """Runs `main` with the words of the command line, and ends with the status that it gives.

    `--help` prints the description. Trouble, and whatever the system answers, is one line on standard error.
    """
    signal.signal(signal.SIGTERM, lambda number, frame: sys.exit(128 + number))
    if not sys.stdout:
        sys.exit(complain('standard output is closed'))
    for stream in (sys.stdout, sys.stderr):
        if stream:
            stream.reconfigure(encoding='utf-8', errors='surrogateescape')
    try:
        status = print_description(description) if sys.argv[1:] == ['--help'] else main(sys.argv[1:])
    except Trouble as trouble:
        status = complain(trouble, trouble.status)
    except KeyboardInterrupt:
        status = 130
    except BrokenPipeError:
        status = 141
    except OSError as error:
        status = complain(f'{error.filename}: {error.strerror}' if error.filename else error.strerror)
    except RecursionError:
        status = complain('a form is nested too deep')
    sys.exit(status_after_writing(status))


def complain(message, status=2):
    """Prints what is wrong in one line on standard error; the status comes back."""
    print(f'{os.path.basename(sys.argv[0])}: {message}', file=sys.stderr)
    return status


def status_after_writing(status):
    """The status, or another one where the output cannot be written; then nothing more is written."""
    try:
        sys.stdout.flush()
        return status
    except BrokenPipeError:
        status = 141
    except OSError as error:
        status = complain(error.strerror)
    os.dup2(os.open(os.devnull, os.O_WRONLY), sys.stdout.fileno())
    return status


def print_description(description):
    print(description.strip())
    return 0


def words_of(words, *names):
    """The words, where there are as many as names."""
    if len(words) != len(names):
        raise Trouble(f'the words are {" ".join(names)}; --help says more')
    return words


def program():
    """The path of the program: that of TLPLAN, or bin/tlplan beside the tools, or tlplan beside the tool as it was called,
    or in PATH."""
    if os.environ.get('TLPLAN'):
        found = shutil.which(os.environ['TLPLAN'])
        if not found:
            raise Trouble(f'there is no program {os.environ["TLPLAN"]}, which TLPLAN names')
        return found
    tools = os.path.dirname(os.path.dirname(os.path.realpath(__file__)))
    beside = [os.path.join(os.path.dirname(tools), 'bin', 'tlplan'),
              os.path.join(os.path.dirname(os.path.abspath(sys.argv[0])), 'tlplan')]
    for path in beside + ['tlplan']:
        found = shutil.which(path)
        if found:
            return found
    raise Trouble(f'there is no program {beside[0]}, and no tlplan in PATH; TLPLAN can name it')


class Run:
    """A run of the program, whose lines are read one after another."""

    def __init__(self, words):
        self.process = subprocess.Popen([program(), *words], stdout=subprocess.PIPE, stderr=subprocess.PIPE)

    def lines(self):
        """The lines that are printed, without their ends."""
        for line in self.process.stdout:
            yield line.decode('latin-1').rstrip('\n')

    def end(self):
        """The status of the program, once no line is wanted any more."""
        self.process.stdout.close()
        self.complaint = self.process.stderr.read().decode('latin-1').strip()
        self.process.stderr.close()
        return self.process.wait()


def answer(words):
    """The status and the lines that `check` or `explain` prints; where there is no such answer, that is the trouble."""
    run = Run(words)
    lines = list(run.lines())
    status = run.end()
    if run.complaint:
        raise Trouble(run.complaint.split('\n')[0])
    if status not in range(5) or not lines or not ANSWER.match(lines[0]):
        raise Trouble(f'{program()} gives no answer of tlplan to {words[0]}')
    return status, lines
