"""Runs a host over calls: run.py CALLS ANSWERS COMMAND .. writes one line of ANSWERS for each line of CALLS.

The line is what the host prints (see host.scm), or 'died' or 'hung' where the call ended the host or brought nothing for
SILENCE seconds. The host is then started again at the call after it. An operation that has ended the host PATIENCE times
is left, and its other calls are 'untried'.
"""
import os
import select
import subprocess
import sys
import tempfile

SILENCE = 10
PATIENCE = 3


def start(command, calls):
    """The host, with these calls on its standard input."""
    lines = tempfile.TemporaryFile()
    lines.write(''.join(calls).encode())
    lines.seek(0)
    return subprocess.Popen(command, stdin=lines, stdout=subprocess.PIPE, stderr=subprocess.DEVNULL)


def listen(host):
    """All lines that the host prints, and how it ended: 'died', which is also a good end, or 'hung'."""
    text, descriptor = [], host.stdout.fileno()
    while select.select([descriptor], [], [], SILENCE)[0]:
        some = os.read(descriptor, 1 << 16)
        if not some:
            host.wait()
            return complete_lines(text), 'died'
        text.append(some)
    host.kill()
    host.wait()
    return complete_lines(text), 'hung'


def complete_lines(text):
    return b''.join(text).decode(errors='replace').split('\n')[:-1]


def code_of(call):
    return call.split()[0]


def answers_to(command, calls):
    answers, ends = [None] * len(calls), {}
    waiting = list(range(len(calls)))
    while waiting:
        lines, end = listen(start(command, [calls[i] for i in waiting]))
        printed = lines[1:]  # after the line 'width W'
        for i, line in zip(waiting, printed):
            answers[i] = line.strip()
        waiting = waiting[len(printed):]
        if waiting:
            answers[waiting[0]] = end
            code = code_of(calls[waiting.pop(0)])
            ends[code] = ends.get(code, 0) + 1
            if ends[code] == PATIENCE:
                waiting = [i for i in waiting if code_of(calls[i]) != code]
    return [answer or 'untried' for answer in answers]


def main():
    with open(sys.argv[1]) as file:
        calls = file.readlines()
    with open(sys.argv[2], 'w') as file:
        file.writelines(line + '\n' for line in answers_to(sys.argv[3:], calls))


main()
