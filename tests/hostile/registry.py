"""The list of the inputs that are tried; each module of inputs adds its own."""

CASES = []


def case(name, long=False):
    """Makes a function of a `Take` a case; it answers what is wrong, or None."""
    def keep(body):
        CASES.append((name, body, long))
        return body
    return keep
