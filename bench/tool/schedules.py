"""The schedules and streams that are measured, which are made here."""
SIZE = 16 * 1024 * 1024
HALF = 512 * 1024


def escaped(message):
    return message.replace(b"\x03", b"\x03\x00") + b"\x03\x01"


def sync_commands():
    """16 MiB of `Locator sync` commands, under tokens that count from 1."""
    stream = bytearray()
    number = 1
    while True:
        frame = escaped(b"C\0%d\0Locator\0sync\0" % number)
        if len(stream) + len(frame) > SIZE:
            return bytes(stream)
        stream += frame
        number += 1


def threes():
    """16 MiB of results whose data is one megabyte of the byte 3, the last one shorter."""
    stream = bytearray()
    number = 1
    while len(stream) < SIZE - 64:
        room = (SIZE - len(stream) - 32) // 2
        stream += escaped(b"R\0%d\0" % number + b"\x03" * min(room, 1_048_576))
        number += 1
    return bytes(stream)


def comments(size):
    """A schedule of so many bytes: comments, and then a chain with a few steps."""
    steps = b"chain A 0\nopen A\nrounds 1\n" + b"send A Locator sync\n" * 44 + b"deliver A 0 up 20\n" * 44
    line = b"# a line that is skipped, as most of this file's lines are\n"
    return line * ((size - len(steps)) // len(line)) + steps


def one_line(size):
    """A line of so many bytes, without an end, that isn't one of a schedule."""
    return b"x" * size


def opened(count):
    """The header of so many chains, each of which is opened, with a suspended thread of the image `loop`."""
    names = ["A"] + ["C%d" % number for number in range(1, count)]
    lines = ["image loop 93801000130111006ff09fff"]
    lines += ["chain %s 0" % name for name in names] + ["open %s" % name for name in names]
    lines += ["rounds 1", 'send A Processes start "" "loop" [] [] true', "rounds 1"]
    return "".join(line + "\n" for line in lines)


def repeated(count, step):
    """The lines for so many times a step."""
    lines = ("times 10000 %s\n" % step) * (count // 10_000)
    return lines + ("times %d %s\n" % (count % 10_000, step) if count % 10_000 else "")


def gets(count):
    """So many readings of 4 bytes, 100 in a round."""
    return (opened(1) + 'times 100 send A Memory get "P1" 0 1 4 0\nrounds 1\n' * (count // 100)).encode()


def hears(chains, count):
    """So many chains that hear of so many resumes, and of as many suspends."""
    lines = 'send A RunControl resume "P1.1" 0 1\nsend A RunControl suspend "P1.1"\nrounds 1\n'
    return (opened(chains) + lines * count).encode()


def pieces(way, piece):
    """Half a MiB in flight, one command that goes up or 8 answers that come down, delivered in pieces of so many bytes."""
    if way == "up":
        sends = "send A Locator sync %s\n" % ("x" * HALF)
    else:
        sends = 'times 8 send A Memory get "P1" 0 1 49152 0\ndeliver A 0 up 65536\ntimes 8 turn A 1 up\n'
    steps = repeated((HALF + 1_000) // piece + 1, "deliver A 0 %s %d" % (way, piece))
    return (opened(1) + sends + steps + "rounds 2\n").encode()


def ticks(count):
    """A schedule of so many steps, of which all but 6 are ticks of a running thread."""
    resume = 'send A RunControl resume "P1.1" 0 1\nrounds 1\n'
    return (opened(1) + resume + repeated(count - 6, "tick P1.1")).encode()


def known(processes):
    """A chain whose client knows so many suspended processes, with all registers of each, and 1,024 bytes of its memory."""
    lines = opened(1)
    for number in range(2, processes + 1):
        lines += 'send A Processes start "" "loop" [] [] true\n'
    lines += "rounds 1\n"
    names = ["x%d" % index for index in range(32)] + ["pc"]
    for number in range(1, processes + 1):
        parts = ",".join('["P%d.1.%s",0,4]' % (number, name) for name in names)
        lines += 'send A Registers getm [%s]\nsend A Memory get "P%d" 0 1 1024 0\nrounds 1\n' % (parts, number)
    return lines


def learns(processes, count):
    """So many answers about the first of so many processes that are known."""
    two = 'send A Registers getm [["P1.1.x1",0,4]]\nsend A Memory get "P1" 0 1 4 0\n'
    return (known(processes) + (two * 50 + "rounds 1\n") * (count // 100)).encode()


def forgets(processes, count):
    """So many resumes of the first of so many processes that are known, and as many suspends."""
    lines = 'send A RunControl resume "P1.1" 0 1\nsend A RunControl suspend "P1.1"\nrounds 1\n'
    return (known(processes) + lines * count).encode()


def bound(adds):
    """The header of a chain with so many value-adds, which redirects bind one after the other."""
    peers = ["V%d" % number for number in range(2, adds + 1)] + ["Agent"] * (adds > 0)
    lines = ["chain A %d" % adds, "open A", "rounds 1"]
    for peer in peers:
        lines += ['send A Locator redirect "%s"' % peer, "rounds 1"]
    return "".join(line + "\n" for line in lines)


def through(adds, count):
    """So many commands that only the agent answers, 100 in a round, through so many value-adds."""
    return (bound(adds) + "times 100 send A Locator sync\nrounds 1\n" * (count // 100)).encode()


def pending(group, count):
    """So many commands through one value-add, of which so many are pending at once."""
    sends = "times %d send A Locator sync\nrounds %d\n" % (group, group // 100 + 2)
    return (bound(1) + sends * (count // group)).encode()


def started(adds):
    """The header of a chain with so many value-adds, which is bound, with a suspended thread of the image `loop`: 2 inputs."""
    start = 'send A Processes start "" "loop" [] [] true\nrounds 1\n'
    return "image loop 93801000130111006ff09fff\n" + bound(adds) + start


GET = 'send A Memory get "P1" 0 1 4 0\n'


def asks(adds, runs, count):
    """The same reading of 4 bytes so many times, 100 in a round, behind a first one, of a thread that runs or is suspended; and
    how many inputs that makes. A value-add answers what it read of a suspended thread."""
    resume = 'send A RunControl resume "P1.1" 0 1\nrounds 1\n' if runs else ""
    lines = started(adds) + resume + GET + "rounds 1\n" + ("times 100 " + GET + "rounds 1\n") * (count // 100)
    return lines.encode(), 3 + runs + (0 if adds and not runs else count)


def asks_beside(processes, points, count):
    """The same reading so many times, which a value-add answers that knows so many suspended processes, with all registers of
    each, and so many breakpoints; and how many inputs that makes. Of a process it knows 36 facts, of a breakpoint 2."""
    lines = started(1) + 'send A Processes start "" "loop" [] [] true\nrounds 1\n' * (processes - 1)
    names = ["x%d" % index for index in range(32)] + ["pc"]
    for number in range(1, processes + 1):
        parts = ",".join('["P%d.1.%s",0,4]' % (number, name) for name in names)
        lines += "send A Registers getm [%s]\nrounds 1\n" % parts
    for number in range(points):
        lines += 'send A Breakpoints add {"ID":"b%d","Location":"4"}\nrounds 1\n' % number
    lines += GET + "rounds 1\n" + ("times 100 " + GET + "rounds 1\n") * (count // 100)
    return lines.encode(), 1 + 2 * processes + points + 1


def asks_in_turn(adds, ranges, count):
    """So many readings of 16 bytes, each in a round of its own, of so many ranges in turn; and how many inputs that makes. A
    value-add keeps the 64 blocks that were used last, so of 64 ranges it knows each, and of 65 never the one that comes next."""
    gets = ['send A Memory get "P1" %d 1 16 0\nrounds 1\n' % (16 * place) for place in range(ranges)]
    lines = started(adds) + "".join(gets[number % ranges] for number in range(count))
    return lines.encode(), 2 + (ranges if adds and ranges <= 64 else count)


LOADED = (("A", 0), ("B", 1), ("C", 2))


def loaded(number):
    """The schedule that `tcf load` draws from the number, as a file says it."""
    state = number

    def draw(below):
        nonlocal state
        state = (state * 6364136223846793005 + 1442695040888963407) % 2**64
        return (state >> 33) % below

    def step(name, adds):
        kind = draw(8)
        if kind == 3:
            return f'send {name} Memory get "P1" {4 * draw(64)} 1 16 0'
        if kind == 4:
            return f'send {name} Memory set "P1" {1024 + 4 * draw(64)} 1 4 0 "BQAAAA=="'
        if kind == 6:
            hop, way = draw(adds + 1), ("up", "down")[draw(2)]
            return f"deliver {name} {hop} {way} {1 + draw(200)}"
        thread = 'RunControl %s "P1.1"'
        return ("send %s " % name + thread % "resume" + " 0 1", "send %s " % name + thread % "suspend",
                "send %s " % name + thread % "getState", "", "", "tick P1.1", "", "rounds 1")[kind]

    lines = ["image loop 93801000130111006ff09fff"]
    lines += [f"chain {name} {adds}" for name, adds in LOADED] + [f"open {name}" for name, _ in LOADED]
    lines += ["rounds 1", 'send B Locator redirect "Agent"', 'send C Locator redirect "V2"', "rounds 1"]
    lines += ['send C Locator redirect "Agent"', "rounds 1", 'send A Processes start "" "loop" [] [] true', "rounds 2"]
    for _ in range(20_000):
        lines.append(step(*LOADED[draw(3)]))
    return ("\n".join(lines + ["rounds 40"]) + "\n").encode()


def carried(log):
    """Messages as many and as long as those that the hops carried, by the logs of such a run, as one stream. An answer that a
    store may have given, and its command, count on the lowest hop alone."""
    stream, hops, kept = bytearray(), 1, set()
    for line in log.decode().splitlines():
        kind, _, rest = line.partition(" ")
        if kind == "chain":
            hops, kept = 1 + dict(LOADED)[rest], set()
            continue
        words = rest.split(" ")
        parts = {"hello": (b"E", [b"Locator", b"Hello", *words[1:]]), "sent": (b"C", words), "event": (b"E", words[1:]),
                 "result": (b"R", words[:1] + words[2:])}.get(kind)
        if not parts:
            continue
        if kind == "sent" and words[1:3] in (["RunControl", "getState"], ["Memory", "get"]):
            kept.add(words[0])
        letter, fields = parts
        fields = [b"" if field == "-" else field if isinstance(field, bytes) else field.encode() for field in fields]
        message = escaped(b"\0".join([letter, *fields]) + b"\0")
        stream += message * (1 if kind in ("sent", "result") and words[0] in kept else hops)
    return bytes(stream)
