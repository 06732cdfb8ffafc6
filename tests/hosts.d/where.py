"""Where a call lies that a host answers otherwise: the words for the table, and whether the sources leave it open.

docs/SOURCES.md says which documents 001 and 003 are.
"""

SAMPLE_OVERFLOWS = 'settled here: R6RS\'s sample computation overflows, its prose decides'
FULL_ROTATION = 'settled here: 001 refuses it, 003 allows it'


def position_domain(what, position, width):
    if position < 0:
        return what + ' < 0'
    if position >= width:
        return what + ' > w - 1'
    return None


def field_domain(start, end, width):
    return (position_domain('start', start, width) or position_domain('end', end, width)
            or ('end < start' if end < start else None))


def outside_domain(code, arguments, width):
    """Which rule of R6RS on its arguments a call breaks that has refusal 5."""
    if code == 15:
        return 'the result is no fixnum'
    if 16 <= code <= 21:
        return 'divisor 0'
    if code in (33, 34):
        return position_domain('position', arguments[1], width) or 'new bit not 0 or 1'
    if code in (35, 36, 41):
        return field_domain(arguments[1], arguments[2], width)
    if code == 40:
        _, start, end, count = arguments
        return field_domain(start, end, width) or ('count < 0' if count < 0 else 'count > end - start')
    return 'distance < 0' if arguments[1] < 0 else 'distance > w - 1'


def where(code, arguments, width, refusal):
    """Where the call lies, by its refusal number here."""
    if refusal == 3:
        return '1 argument' if len(arguments) == 1 else f'{len(arguments)} arguments'
    if refusal == 4:
        return 'an argument is no fixnum'
    if refusal == 5:
        return outside_domain(code, arguments, width)
    if refusal == 6:
        return 'the result is no fixnum'
    if code in (33, 34) and arguments[1] == width - 1:
        return 'position = w - 1'
    return 'count = end - start' if is_full_rotation(code, arguments) else ''


def is_full_rotation(code, arguments):
    return code == 40 and arguments[3] == arguments[2] - arguments[1]


def sample_overflows(code, arguments, width):
    """Whether a step of R6RS's sample computation has no fixnum result, where the result itself is one."""
    def overflows(x):
        return not -2 ** (width - 1) <= x < 2 ** (width - 1)

    if code in (33, 34):
        return arguments[1] == width - 1
    if code == 36:
        return overflows(arguments[3] << arguments[1])
    if code == 40:
        x, start, end, count = arguments
        shifted = (x >> start & (1 << end - start) - 1) << count
        return overflows(shifted) or overflows(shifted << start)
    return False


def settled(code, arguments, width, kind):
    """What to say where this project settles what the sources leave open; '' elsewhere."""
    if kind != 'refuses':
        return ''
    if is_full_rotation(code, arguments):
        return FULL_ROTATION
    return SAMPLE_OVERFLOWS if sample_overflows(code, arguments, width) else ''
