"""Plants whose controllers call each other, for runs with threads."""
from measuring import listed, small_network

CONTROLLERS = 16


def reading(block, target, power):
    """A block that reads a register of the target wherever the power is on."""
    first = 40001 + 20 * block
    return [
        f"1,1 ADD 2 0 {first}; 4,1 ADD 1 0 {first + 2}",
        f"1,1 ADD 1 0 {first + 3}; 4,1 ADD {target} 0 {first + 4}",
        f"1,1 {power}; 1,2 MSTR {first} {first + 10} 1",
    ]


def little(target):
    """One call in some ten scans: a timer that clears itself turns a coil on for one scan."""
    clock = "1,1 H; 2,1 NC 02000; 1,2 T.01 100 40091; 1,3 CO 02000"
    return [clock, *reading(0, target, "NO 02000")]


def much(target):
    """Four blocks that call again as soon as they have their answer."""
    return [text for block in range(4) for text in reading(block, target, "H")]


TRAFFIC = {"little": little, "much": much}


def live_plant(traffic, networks):
    """Controllers of one segment of so many networks each, which read the next one's registers."""
    tables = []
    for node in range(1, CONTROLLERS + 1):
        own = TRAFFIC[traffic](node % CONTROLLERS + 1)
        texts = own + [small_network(coil) for coil in range(1, networks - len(own) + 1)]
        tables.append(
            f'[[controller]]\nnode = {node}\ncoils = 2048\ninputs = 16\nregisters = 100\norders = ["1 - - -"]\n'
            f"[[controller.segment]]\nnetworks = [\n{listed(texts)}\n]\n"
        )
    return ("version = 1\nwatchdog = 10000\n[net]\nrounds = 1\nrotations = 1\n" + "".join(tables)).encode()


def requests_in(written):
    """How many requests the controllers of a journal answered."""
    return written.count(b"\nP ")
