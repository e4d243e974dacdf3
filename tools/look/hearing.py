"""The octets of what a bearer hears by a line of a script, sealed by the ciphers of compare/."""
from .script import Event
from .second_node import heard_octets

BEACONS = ('bcn', 'beacon')
HEARD = ('net', 'peer', 'talk', *BEACONS)


def octets_heard(event: Event) -> bytes | None:
    """What its bearer hears; None of a line by which it hears nothing."""
    return heard_octets(event.word, list(event.words)) if event.word in HEARD else None
