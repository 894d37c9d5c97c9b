"""Makes an input that fails smaller."""
import time

SECONDS = 60.0


def without(data, start, length):
    return data[:start] + data[start + length :]


def smaller(case, refusal, seconds=SECONDS):
    """The case with pieces left out as long as `refusal` tells something of it, for about so many seconds."""
    stop = time.monotonic() + seconds
    start, length = 0, max(1, len(case.data) // 2)
    while time.monotonic() < stop and length > 0 and case.data:
        other = case._replace(data=without(case.data, start, length))
        if refusal(other):
            case = other
        else:
            start += length
        if start >= len(case.data):
            start, length = 0, length // 2
    return case
