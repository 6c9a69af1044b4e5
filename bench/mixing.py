"""An order that looks mixed and is the same on each machine, so that inputs can be made again byte for byte."""

PRIME = 1000003


def mixed(items, turn):
    """Returns the items in an order that differs from turn to turn; turn 0 leaves them as they are."""
    if turn == 0:
        return list(items)
    factor = 7919 * (2 * turn + 1) % PRIME
    return sorted(items, key=lambda item: (item * factor % PRIME, item))
