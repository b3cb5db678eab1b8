"""Measures `tcf hub` before an agent on loopback, beside a value-add and an agent, in runs that alternate.

What is measured is the processor time of the hub, of the value-add or of the agent alone.
"""
from tool.measuring import check, compared, head, head_of, in_turn, ratio, row
from tool.peers import Agent, Relayed, Shared, asked, rate

SYNC = ('Locator', 'sync')


def of(kind, program, measure):
    """What is measured of a peer of this kind, which goes again."""
    with kind(program) as peer:
        return measure(peer)


def requests(many):
    def measure(peer):
        channel = peer.channel()
        _, micros = rate(peer.process, many, asked(channel, many, *SYNC))
        channel.close()
        return micros
    return measure


def events_to_all(peer, channels=64):
    """Microseconds for each event that goes to so many channels, where one of them causes two events by each command."""
    first = peer.channel()
    others = [peer.channel() for _ in range(channels - 1)]
    number = 0

    def do():
        nonlocal number
        number += 1
        first.ask('Breakpoints', 'add', f'{{"ID":"b{number}","Enabled":true,"Location":"4"}}')
        first.ask('Breakpoints', 'remove', f'["b{number}"]')
        for other in others:
            other.event(b'contextRemoved')
    _, micros = rate(peer.process, 3, do)
    for channel in (first, *others):
        channel.close()
    return micros


def measure(given):
    head('microseconds of processor time', 'a hub', 'the other', 'its rate by the other\'s')
    fine = True
    for many, what in ((1, 'one at a time'), (64, '64 in the pipe')):
        hub, value = in_turn([lambda kind=kind: of(kind, given.program, requests(many)) for kind in (Shared, Relayed)], given.turns)
        row(f'a command that is passed on, {what}, beside a value-add', f'{hub:.2f}', f'{value:.2f}', ratio(value, hub))
        fine &= check('at least 0.8 of the rate of a value-add', value >= 0.8 * hub)
    hub, agent = in_turn([lambda kind=kind: of(kind, given.program, events_to_all) for kind in (Shared, Agent)], given.turns)
    row('an event that goes to 64 channels, beside an agent with 64', f'{hub:.0f}', f'{agent:.0f}', ratio(agent, hub))
    fine &= check('at most as long as an agent', hub <= agent)
    if given.before:
        head_of(given, 'microseconds of a hub', 'now')
        for many, what in ((1, 'one at a time'), (64, '64 in the pipe')):
            compared(given, f'a command that is passed on, {what}', lambda program: of(Shared, program, requests(many)), '{:.2f}')
    return fine
