"""A run as a capture: what each bearer heard and sent, in the order of the history.

Of the PDUs that are sent for one entry each is behind it, and before those of the next entry; on
several bearers a report doesn't tell more of their order. What was heard in a life that was cut is
there as far as entries tell of it.
"""
from .advertising import MESH_BEACON, MESH_MESSAGE, advertisement
from .ends import NO_REPORT, Fault
from .hearing import BEACONS, octets_heard
from .pcapng import INBOUND, OUTBOUND, Interface, Packet, capture_file
from .report import WITH_OCTETS, Job
from .runs import LifeRun, Step

NODE, OUTSIDE = bytes.fromhex('c20000000001'), bytes.fromhex('c20000000002')
"""Addresses of advertisers, which no report tells: this node, and all others."""


class NoOctets(Exception):
    """A job of this line sent a PDU, and its octets aren't shown."""

    def __init__(self, line: int) -> None:
        super().__init__('a PDU without its octets, which `meshnode run --hex` shows')
        self.line = line


def _heard(life: int, step: Step) -> list[Packet]:
    """What the bearer of an entry heard, with the answer."""
    octets = octets_heard(step.event) if step.event else None
    if octets is None:
        return []
    entry = step.entry
    ad_type = MESH_BEACON if step.event.word in BEACONS else MESH_MESSAGE
    comment = f'life {life}, entry {entry.number}: {entry.text}\nscript: {step.event.text}'
    return [Packet(entry.bearer, step.at, INBOUND, advertisement(ad_type, octets, OUTSIDE),
                   comment)]


def _sent(life: int, step: Step, job: Job) -> list[Packet]:
    """What a job sent; `long`, `spent` and `late` send nothing."""
    if job.octets is None:
        if job.result in WITH_OCTETS:
            raise NoOctets(job.line)
        return []
    ad_type = MESH_BEACON if job.result == 'bcn' else MESH_MESSAGE
    comment = f'life {life}, job {job.entry}.{job.place}: {job.text}'
    return [Packet(job.bearer, step.at, OUTBOUND, advertisement(ad_type, job.octets, NODE),
                   comment)]


def packets_of(runs: list[LifeRun]) -> list[Packet]:
    """Each PDU of a run; interfaces are bearers."""
    return [packet for run in runs for step in run.steps
            for packet in [*_heard(run.life.number, step),
                           *(sent for job in step.jobs
                             for sent in _sent(run.life.number, step, job))]]


def capture_of(path: str, runs: list[LifeRun]) -> tuple[bytes, list[Packet]]:
    """The capture of a run and its packets; a report without octets ends the tool."""
    try:
        packets = packets_of(runs)
    except NoOctets as fault:
        raise Fault(NO_REPORT, f'{path}:{fault.line}: {fault}') from None
    bearers = max((packet.interface for packet in packets), default=0) + 1
    interfaces = [Interface(f'b{bearer}', f'bearer {bearer} of meshnode')
                  for bearer in range(bearers)]
    comment = f'the PDUs that {path} tells of'
    return capture_file('meshnode tools/capture', comment, interfaces, packets), packets
