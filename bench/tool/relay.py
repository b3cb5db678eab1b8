"""Starts an agent and value-adds before it on loopback, plays sessions through them, ends each process in turn, treats a value-add
badly, and measures answers from its store.
"""
import statistics
import subprocess
import tempfile
import time

from tool.measuring import check, head, processor, ratio, row
from tool.peers import TURNS, Agent, Channel, Relayed, ValueAdd, address, asked, rate
from tool.serve import treat_badly

# ---- sessions of the program's own client through two value-adds

SCRIPT = '''send Locator redirect "{second}"
wait
send Locator redirect "{agent}"
wait
send Processes start "" "loop" [] [] true
wait
send RunControl getState "{process}.1"
send Memory get "{process}" 0 1 4 0
wait
send Memory get "{process}" 0 1 4 0
send Processes terminate "{process}"
wait
'''

LOG = '''chain client
sent 1 Locator redirect "{second}"
hello - ["Locator"]
result 1 - -
sent 2 Locator redirect "{agent}"
hello - ["Locator"]
result 2 - -
sent 3 Processes start "" "loop" [] [] true
hello - ["Locator","RunControl","Breakpoints","Memory","Registers","Processes","Trace"]
event - RunControl contextAdded [{{"CanCount":0,"CanResume":0,"CanSuspend":false,"CanTerminate":true,"HasState":false,"ID":"{process}","IsContainer":true,"Name":"loop","ProcessID":"{process}"}},{{"CanCount":4,"CanResume":5,"CanSuspend":true,"CanTerminate":true,"HasState":true,"ID":"{process}.1","IsContainer":false,"ParentID":"{process}","ProcessID":"{process}"}}]
event - RunControl contextSuspended "{process}.1" 0 "Suspended" {{}}
result 3 - - {{"Attached":true,"CanTerminate":true,"ID":"{process}","Name":"loop"}}
sent 4 RunControl getState "{process}.1"
sent 5 Memory get "{process}" 0 1 4 0
result 4 - - true 0 "Suspended" {{}}
result 5 - "kwIQAA==" - null
sent 6 Memory get "{process}" 0 1 4 0
sent 7 Processes terminate "{process}"
result 6 - "kwIQAA==" - null
event - RunControl contextRemoved ["{process}.1","{process}"]
event - Processes exited "{process}" -1
result 7 - -
end own
'''


class Four:
    """An agent, two value-adds before it, and clients of the first one."""

    def __init__(self, program):
        self.program = program
        self.agent = Agent(program)
        self.second = ValueAdd(program, self.agent.port)
        self.first = ValueAdd(program, self.second.port)
        self.started = 0

    def filled(self, text):
        return text.format(second=address(self.second.port), agent=address(self.agent.port), process=f'P{self.started}')

    def client(self, script):
        file = tempfile.NamedTemporaryFile('w', suffix='.script')
        file.write(script)
        file.flush()
        process = subprocess.Popen([self.program, 'client', address(self.first.port), file.name, TURNS], stdout=subprocess.PIPE, text=True)
        return file, process

    def serves(self):
        """Whether a whole session has the log that it ought to have, and the status 0."""
        self.started += 1
        file, process = self.client(self.filled(SCRIPT))
        log, _ = process.communicate(timeout=60)
        file.close()
        return log == self.filled(LOG) and process.returncode == 0

    def begun(self):
        """A client that is led to the agent and goes on asking."""
        asks = 'send Locator sync\nwait\n' * 200_000
        begun = self.client(self.filled('send Locator redirect "{second}"\nwait\nsend Locator redirect "{agent}"\nwait\n') + asks)
        time.sleep(0.7)
        return begun

    def ends(self, kill, last):
        """Whether a session that is under way ends with this line when one of the processes is killed."""
        file, process = self.begun()
        going = process.poll() is None
        kill()
        log, _ = process.communicate(timeout=60)
        file.close()
        return going and log.endswith(last) and process.returncode == 9

    def kill_client(self):
        file, process = self.begun()
        going = process.poll() is None
        process.kill()
        process.wait()
        file.close()
        return going

    def kill_first(self):
        self.first.end()
        self.first = ValueAdd(self.program, self.second.port)

    def kill_second(self):
        port = self.second.port
        self.second.end()
        self.second = ValueAdd(self.program, self.agent.port, port)

    def kill_agent(self):
        port = self.agent.port
        self.agent.process.kill()
        self.agent.process.wait()
        self.agent.folder.cleanup()
        self.agent = Agent(self.program, port)
        self.started = 0

    def end(self):
        self.first.end()
        self.second.end()
        self.agent.__exit__()


def sessions(program):
    four = Four(program)
    try:
        fine = check('a session through two value-adds, redirects through both', four.serves())
        fine &= check('the client is killed', four.kill_client())
        fine &= check('and the others serve the next one', four.serves())
        fine &= check('the first value-add is killed: the client says `end ended`', four.ends(four.kill_first, 'end ended\n'))
        fine &= check('and with another in its place the others serve the next one', four.serves())
        fine &= check('the second value-add is killed: the client says `end eos`', four.ends(four.kill_second, 'end eos\n'))
        fine &= check('and with another in its place the others serve the next one', four.serves())
        fine &= check('the agent is killed: the client says `end eos`', four.ends(four.kill_agent, 'end eos\n'))
        fine &= check('and with another in its place the others serve the next one', four.serves())
    finally:
        four.end()
    return fine


# ---- answers from a store

def stored(given):
    """Answers from a store beside those of the agent itself, each through one connection, in turn."""
    head('', 'the agent, asked itself, a second', 'a value-add, from its store', 'ratio', 'microseconds of processor time for one',
         'of the value-add', 'seconds of the agent meanwhile')
    with Relayed(given.program) as peer:
        direct, led = Channel(peer.agent_port), peer.channel()
        process = direct.start()
        led.event(b'contextSuspended')
        words = ('Memory', 'get', f'"{process}"', '0', '1', '4', '0')
        led.ask(*words)
        for what, many in (('memory reads of 4 bytes', 1), ('the same, 64 in the pipe', 64)):
            own, ours, idle = [], [], 0
            for _ in range(given.turns):
                own.append(rate(peer.agent, many, asked(direct, many, *words)))
                before = processor(peer.agent)
                ours.append(rate(peer.process, many, asked(led, many, *words)))
                idle += processor(peer.agent) - before
            direct_rate, direct_cost, led_rate, led_cost = (statistics.median(found) for found in (*zip(*own), *zip(*ours)))
            row(what, f'{direct_rate:,.0f}', f'{led_rate:,.0f}', ratio(led_rate, direct_rate), f'{direct_cost:.1f}', f'{led_cost:.1f}',
                f'{idle:.2f}')
        direct.close()
        led.close()


def measure(given):
    fine = sessions(given.program)
    print('through a value-add:')
    fine &= treat_badly(lambda: Relayed(given.program))
    stored(given)
    return fine
