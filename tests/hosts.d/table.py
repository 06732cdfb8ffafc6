"""Prints the comparison in Markdown: table.py NAMES DIRECTORY.

NAMES has the operations in the order of their codes. DIRECTORY/hosts has a line for each host: identifier, name, Debian
package and version, separated by tabs, then its width, or the reason why it did not run. Of a host that ran, DIRECTORY has
ID.calls, ID.ours (what the library answers) and ID.theirs (what the host answers), line by line.
"""
import collections
import sys
from where import settled, where

KINDS = {
    'refuses': 'refuses what R6RS does',
    'accepts': 'does what R6RS refuses',
    'differs': 'answers otherwise',
    'other': 'answers with another type',
    'died': 'ends without an answer',
    'hung': 'gives no answer for 10 s',
}
CONDITIONS = {
    'assertion': '`&assertion`',
    'restriction': '`&implementation-restriction`',
    'both': 'both',
    'neither': 'neither',
}
REFUSALS = [
    ('3', 'number of arguments', '`&assertion`'),
    ('4', 'an argument is no fixnum', '`&assertion`'),
    ('5', 'outside a domain', '`&assertion`'),
    ('5 of fx-', 'the result is no fixnum', '`&assertion`'),
    ('6', 'the result is no fixnum', '`&implementation-restriction`'),
]
Call = collections.namedtuple('Call', 'code arguments ours theirs')


class Host:
    def __init__(self, directory, line):
        self.id, self.name, self.version, state = line.rstrip('\n').split('\t')
        self.ran = state.isdigit()
        self.width = int(state) if self.ran else None
        self.reason = None if self.ran else state
        calls = list(read_calls(f'{directory}/{self.id}')) if self.ran else []
        self.calls = [call for call in calls if call.theirs != ['untried']]
        self.untried = len(calls) - len(self.calls)
        self.partings = [(call, kind) for call in self.calls for kind in [kind_of(call)] if kind]


def read_calls(path):
    with open(path + '.calls') as calls, open(path + '.ours') as ours, open(path + '.theirs') as theirs:
        for call, our, their in zip(calls, ours, theirs, strict=True):
            code, count, *places = map(int, call.split())
            yield Call(code, tuple(places[:count]), our.split(), their.split())


def kind_of(call):
    """How the host parts from R6RS in this call; None where it does not."""
    answer = call.theirs[0]
    if answer in ('other', 'died', 'hung'):
        return answer
    if call.ours[0] == 'refused':
        return None if answer == 'refused' else 'accepts'
    if answer == 'refused':
        return 'refuses'
    return None if call.ours == call.theirs else 'differs'


def is_boolean(code):
    return code <= 10 or code == 33


def has_two_results(code):
    return code in (18, 21, 22, 23, 24)


def number(x, width):
    greatest, least = 2 ** (width - 1) - 1, -2 ** (width - 1)
    named = {greatest: '(greatest-fixnum)', greatest + 1: '(+ (greatest-fixnum) 1)',
             least: '(least-fixnum)', least - 1: '(- (least-fixnum) 1)'}
    return named.get(x, str(x))


def shown(code, answer, width):
    """An answer in words."""
    if answer[0] == 'refused':
        return f'refused, {CONDITIONS[answer[1]]}' if answer[1] in CONDITIONS else f'refused {answer[1]}'
    if answer[0] != '0':
        return ' '.join(answer[1:])
    if is_boolean(code):
        return '`#t`' if answer[1] == '1' else '`#f`'
    results = answer[1:] if has_two_results(code) else answer[1:2]
    return ' and '.join(f'`{number(int(result), width)}`' for result in results)


def beyond(call, width):
    """Whether the host answered a number that is no fixnum."""
    return call.theirs[0] == '0' and any(not -2 ** (width - 1) <= int(x) < 2 ** (width - 1) for x in call.theirs[1:])


def simplicity(call):
    """The simplest call has the fewest and the smallest arguments."""
    sizes = [abs(x) for x in call.arguments]
    return len(sizes), sum(sizes), max(sizes, default=0), sum(x < 0 for x in call.arguments), call.arguments


def grouped(host):
    """The calls that part, by operation, kind, where they lie and what there is to note."""
    groups = collections.defaultdict(list)
    for call, kind in host.partings:
        refusal = int(call.ours[1]) if call.ours[0] == 'refused' else 0
        note = settled(call.code, call.arguments, host.width, kind)
        if not note and beyond(call, host.width):
            note = 'the answer is no fixnum'
        groups[call.code, list(KINDS).index(kind), where(call.code, call.arguments, host.width, refusal), note].append(call)
    return groups


def print_row(*cells):
    print('| ' + ' | '.join(str(cell) for cell in cells) + ' |')


def print_head(*cells):
    print_row(*cells)
    print('|' + '---|' * len(cells))


def print_summary(hosts):
    print_head('Host', 'Debian package', 'Width w', 'Calls', 'Part', 'Operations that part')
    for host in hosts:
        if host.ran:
            operations = len({call.code for call, _ in host.partings})
            print_row(host.name, host.version, host.width, f'{len(host.calls):,}', f'{len(host.partings):,}', f'{operations} of 41')
        else:
            print_row(host.name, host.version, '', '', '', host.reason)


def print_host(host, names):
    print(f'\n### {host.name}\n')
    if not host.partings:
        print('No call parts.')
        return
    tried = collections.Counter(call.code for call in host.calls)
    print_head('Operation', 'The host', 'Where', 'Calls', 'Simplest call', 'R6RS (this project)', 'Host', 'Note')
    for (code, kind, place, note), calls in sorted(grouped(host).items()):
        call = min(calls, key=simplicity)
        words = ' '.join([names[code - 1]] + [number(x, host.width) for x in call.arguments])
        print_row(names[code - 1], list(KINDS.values())[kind], place, f'{len(calls):,} of {tried[code]:,}', f'`({words})`',
                  shown(code, call.ours, host.width), shown(code, call.theirs, host.width), note)
    if host.untried:
        print(f'\n{host.untried:,} calls were not tried, since others of their operation had ended the host three times.')


def refusal_label(call):
    return '5 of fx-' if call.code == 15 and call.ours[1] == '5' else call.ours[1]


def print_conditions(hosts):
    print('\n### Conditions\n\nWhat each host raises where both refuse, with the number of calls.\n')
    print_head('Refusal', 'Why', 'R6RS', *[host.name for host in hosts])
    raised = {host.id: collections.Counter((refusal_label(call), call.theirs[1]) for call in host.calls
                                           if call.ours[0] == call.theirs[0] == 'refused') for host in hosts}
    for label, why, condition in REFUSALS:
        cells = [', '.join(f'{text} {raised[host.id][label, kind]:,}' for kind, text in CONDITIONS.items()
                           if raised[host.id][label, kind]) for host in hosts]
        print_row(label, why, condition, *cells)


def main():
    with open(sys.argv[1]) as file:
        names = file.read().split()
    with open(sys.argv[2] + '/hosts') as file:
        hosts = [Host(sys.argv[2], line) for line in file]
    print_summary(hosts)
    ran = [host for host in hosts if host.ran]
    for host in ran:
        print_host(host, names)
    if ran:
        print_conditions(ran)


main()
