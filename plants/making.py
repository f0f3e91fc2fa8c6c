"""Makes plants of one controller at random: networks of relays, shorts, timers, counters, sums, skips and subroutines."""
import re

DRIVEN, COILS, INPUTS, REGISTERS, LABELS = 16, 64, 16, 32, 3


def register(chance):
    return f"4{chance.randint(1, REGISTERS - 2):04}"


def discrete(chance):
    return f"0{chance.randint(1, COILS):04}" if chance.random() < 0.7 else f"1{chance.randint(1, INPUTS):04}"


def element(chance, free):
    """A name with its operands, and how many rows it takes; None for a coil that is not free any more."""
    kind = chance.random()
    if kind < 0.5:
        return f"{chance.choice(('NO', 'NC', 'PT', 'NT'))} {discrete(chance)}", 1
    if kind < 0.65:
        return "H", 1
    if kind < 0.75:
        return (f"{chance.choice(('CO', 'CL'))} {free.pop()}", 1) if free else ("H", 1)
    if kind < 0.82:
        return f"{chance.choice(('T1.0', 'T0.1', 'T.01', 'UCTR', 'DCTR'))} {chance.randint(0, 4)} {register(chance)}", 2
    if kind < 0.9:
        return f"{chance.choice(('ADD', 'SUB'))} {register(chance)} {chance.randint(0, 9)} {register(chance)}", 3
    if kind < 0.94:
        return f"SKP {chance.randint(0, 3)}", 1
    if kind < 0.96:
        return "RET", 1
    return f"JSR {chance.randint(1, LABELS + 1)}", 2


def network(chance, free, label=None):
    """The text of a network: each place is taken once, and nothing stands to the right of a coil."""
    pieces, taken, closed = [], set(), set()
    if label:
        pieces.append(f"1,1 LAB {label}")
        taken.add((1, 1))
    for column in range(1, chance.randint(2, 12)):
        for row in range(1, 8):
            if chance.random() < 0.45 or row in closed or (row, column) in taken:
                continue
            text, rows = element(chance, free)
            places = {(row + more, column) for more in range(rows)}
            if row + rows > 8 or places & taken or {one for one, _ in places} & closed:
                continue
            pieces.append(f"{row},{column} {text}")
            taken |= places
            if text[:2] in ("CO", "CL"):
                closed.add(row)
        pieces += [f"{row},{column} V" for row in range(1, 7) if chance.random() < 0.15]
    return "; ".join(pieces)


def plant(chance):
    free = [f"0{number:04}" for number in range(1, COILS + 1)]
    chance.shuffle(free)
    segments = [[network(chance, free) for _ in range(chance.randint(1, 4))] for _ in range(chance.randint(1, 3))]
    routines = [network(chance, free, label) for label in range(1, LABELS + 1)]
    orders = []
    for number in range(1, len(segments) + 1):
        control = discrete(chance) if chance.random() < 0.3 else "-"
        orders += [f"{number} {control} {chance.choice(('1', '-'))} -"] * chance.randint(1, 2)
    script = [chance.choice(("X", f"{chance.randint(0, 65535):04x}")) for _ in range(4)]
    lines = ["version = 1", f"scan_time = {chance.randint(1, 150)}", f"watchdog = {chance.choice((8, 20, 200, 500))}", "[[controller]]", "node = 1"]
    lines += [f"coils = {COILS}", f"inputs = {INPUTS}", f"registers = {REGISTERS}"]
    lines += ["panel = [" + ", ".join(f'"0{number:04}"' for number in range(1, DRIVEN + 1)) + "]"]
    lines += ["orders = [" + ", ".join(f'"{row}"' for row in orders) + "]"]
    if chance.random() < 0.3:
        lines += [f'power = ["{chance.randint(2, 4)} {chance.randint(0, len(orders))} {chance.randint(0, 1)}"]']
    lines += ["[[controller.drop]]", "number = 1", 'modules = ["in 10001"]', "script = [" + ", ".join(f'"{row}"' for row in script) + "]"]
    for networks in [*segments, routines]:
        lines += ["[[controller.segment]]", "networks = ["] + [f'"{text}",' for text in networks] + ["]"]
    return ("\n".join(lines) + "\n").encode()


# Plants that are small enough to have all their runs searched: few references that change, and what counts is bounded or counts slowly.

SEARCHED_COILS, SEARCHED_INPUTS, SEARCHED_REGISTERS = 6, 3, 4


def searched_discrete(chance):
    return f"0{chance.randint(1, SEARCHED_COILS):04}" if chance.random() < 0.6 else f"1{chance.choice((0, 16)) + chance.randint(1, SEARCHED_INPUTS):04}"


def searched_register(chance):
    return f"4{chance.randint(1, SEARCHED_REGISTERS):04}"


def searched_element(chance):
    """A name with its operands, and how many rows it takes."""
    kind = chance.random()
    if kind < 0.68:
        return f"{chance.choice(('NO', 'NO', 'NC', 'NC', 'PT', 'NT'))} {searched_discrete(chance)}", 1
    if kind < 0.72:
        return "H", 1
    if kind < 0.82:
        return f"{chance.choice(('UCTR', 'DCTR'))} {chance.randint(1, 3)} {searched_register(chance)}", 2
    if kind < 0.91:
        return f"{chance.choice(('T1.0', 'T0.1', 'T.01'))} {chance.randint(1, 3)} {searched_register(chance)}", 2
    if kind < 0.95:
        return f"SUB {searched_register(chance)} {chance.randint(0, 3)} {searched_register(chance)}", 3
    if kind < 0.97:
        return f"SKP {chance.randint(1, 2)}", 1
    return f"JSR {chance.randint(1, 2)}", 2


def searched_network(chance, free, label=None):
    """A network of a few rows and columns, with coils at the ends of its first two rows where any are free."""
    first = 1 + bool(label)
    pieces, taken = [f"1,1 LAB {label}"] if label else [], set()
    columns = chance.randint(1, 3)
    for column in range(1, columns + 1):
        for row in range(first, 6):
            if (row, column) in taken or row > first + 1 and chance.random() < 0.6:
                continue
            text, rows = searched_element(chance)
            pieces.append(f"{row},{column} {text}")
            taken |= {(row + more, column) for more in range(rows)}
        pieces += [f"{row},{column} V" for row in range(first, 5) if chance.random() < 0.25]
    for row in (first, first + 1):
        if free:
            pieces.append(f"{row},{columns + 1} {chance.choice(('CO', 'CO', 'CL'))} {free.pop()}")
    return "; ".join(pieces)


def searched_steps(chance, free):
    """Coils of which each goes on after the one before it, where an input is right, and perhaps stays on."""
    networks, before = [], searched_discrete(chance)
    for _ in range(min(len(free), chance.randint(0, 3))):
        coil, contact = free.pop(), f"{chance.choice(('NO', 'NO', 'NC', 'PT'))} 1{chance.randint(1, SEARCHED_INPUTS):04}"
        holds = f"; 2,1 NO {coil}; 2,2 H; 1,2 V" if chance.random() < 0.5 else ""
        networks.append(f"1,1 NO {before}; 1,2 {contact}{holds}; 1,3 CO {coil}")
        before = coil
    # The later ones stand above, so each takes a scan.
    return networks[::-1]


def searched_demand(chance):
    """A network that drives 00016 where several things come together."""
    contacts = [f"1,{column} {chance.choice(('NO', 'NO', 'NC', 'PT'))} {searched_discrete(chance)}" for column in range(1, chance.randint(2, 4))]
    if chance.random() < 0.4:
        contacts.append(f"1,{len(contacts) + 1} SUB {searched_register(chance)} {chance.randint(0, 2)} 40005")
    return "; ".join([*contacts, f"1,{len(contacts) + 1} CO 00016"])


def searched_script(chance):
    count = chance.choice((0, 1, 2, 3, 3, 3, 4, 4))
    return [f"{chance.randint(0, 2**SEARCHED_INPUTS - 1) << 16 - SEARCHED_INPUTS:04x}" for _ in range(count)] + ["X"] * (chance.random() < 0.2)


def searched(chance):
    """A plant of one controller, node 7, with one drop or two."""
    free = [f"0{number:04}" for number in range(1, SEARCHED_COILS + 1)]
    chance.shuffle(free)
    segments = [searched_steps(chance, free) + [searched_network(chance, free) for _ in range(chance.randint(1, 2))] for _ in range(chance.choice((1, 1, 2)))]
    segments[-1].append(searched_demand(chance))
    has_routines = chance.random() < 0.4
    routines = [searched_network(chance, free, label) for label in (1, 2)]
    drops = range(1, chance.choice((2, 2, 3)))
    orders = []
    for number in [*range(1, len(segments) + 1), *([1] if chance.random() < 0.2 else [])]:
        control = searched_discrete(chance) if chance.random() < 0.25 else "-"
        orders.append(f"{number} {control} {chance.choice((*drops, *drops, *drops, *drops, '-'))} {chance.choice(('1', '-'))}")
    lines = ["version = 1", f"scan_time = {chance.choice((10, 20, 25, 50, 100, 100, 130))}", f"watchdog = {chance.choice((6, 8, 10, 500))}"]
    lines += ["[[controller]]", "node = 7", "coils = 16", "inputs = 32", "registers = 5"]
    lines += ['panel = ["00001", "00002", "00016", "10001", "40001"]', f"orders = [{', '.join(chr(34) + row + chr(34) for row in orders)}]"]
    for drop in drops:
        script = ", ".join(f'"{row}"' for row in searched_script(chance))
        lines += ["[[controller.drop]]", f"number = {drop}", f'modules = ["in {10001 + 16 * (drop - 1)}", "out 00001"]', f"script = [{script}]"]
    for networks in [*segments, *([routines] if has_routines else [])]:
        lines += ["[[controller.segment]]", "networks = ["] + [f'"{text}",' for text in networks] + ["]"]
    return ("\n".join(lines) + "\n").encode()


def counted(chance, data):
    """Such a plant with a network that counts without a limit, which nothing else reads; or with two of them."""
    more = [f"1,1 NO {searched_discrete(chance)}; 2,1 H; 1,2 UCTR 9999 40006", "1,1 ADD 40007 1 40007"]
    networks = "".join(f'"{one}",\n' for one in chance.sample(more, chance.randint(1, 2)))
    text = data.decode().replace("registers = 5", "registers = 7")
    return changed_once(chance, r"^networks = \[\n", lambda found: f"{found[0]}{networks}", text).encode()


# Changes of such a plant: some that no panel shows, and some that one shows after a while.


def changed_once(chance, pattern, change, text):
    """A text in which one piece of a form, if there is any, is another."""
    found = list(re.finditer(pattern, text, re.M))
    if not found:
        return text
    one = chance.choice(found)
    return text[: one.start()] + change(one) + text[one.end() :]


def other(chance, words, one):
    """One of some words that is not this one."""
    return chance.choice([word for word in words if word != one])


def with_rows_moved(chance, text):
    """A script with its rows in another order, and some twice."""

    def moved(found):
        rows = [row.swapcase() if "X" not in row else row for row in found[1].split(", ")]
        rows += chance.sample(rows, chance.randint(0, 1))
        chance.shuffle(rows)
        return f"script = [{', '.join(rows)}]"

    return changed_once(chance, r'^script = \[(".*")\]$', moved, text)


def with_coil_renamed(chance, text):
    number = chance.randint(3, SEARCHED_COILS)
    return text.replace(f"0000{number}", f"0001{number - 3}")


def with_registers_swapped(chance, text):
    one, two = chance.sample(range(2, SEARCHED_REGISTERS + 1), 2)
    return text.replace(f"4000{one}", "4xxxx").replace(f"4000{two}", f"4000{one}").replace("4xxxx", f"4000{two}")


def with_networks_swapped(chance, text):
    return changed_once(chance, r'^(".*",)\n(".*",)$', lambda found: f"{found[2]}\n{found[1]}", text)


def with_contact_changed(chance, text):
    return changed_once(chance, r"\b(NO|NC|PT|NT)\b", lambda found: other(chance, ("NO", "NC", "PT", "NT"), found[1]), text)


def with_number_changed(chance, text):
    return changed_once(chance, r"\b(UCTR|DCTR|T1\.0|T0\.1|T\.01|SKP) ([1-3])", lambda found: f"{found[1]} {other(chance, '123', found[2])}", text)


def with_contact_negated_twice(chance, text):
    """A contact in the place of which a coil of its own has the opposite, below the networks or above them."""
    names = []

    def negated(found):
        names.append(found[2])
        return f"{'NC' if found[1] == 'NO' else 'NO'} 00009"

    text = changed_once(chance, r"\b(NO|NC) ([01]\d{4})", negated, text)
    if not names or "CO 00009" in text:
        return text
    network = f'"1,1 NC {names[0]}; 1,2 CO 00009",'
    place = chance.choice((r"^networks = \[$", r'^networks = \[$(?=\n".*",\n\])'))
    return changed_once(chance, place, lambda found: f"{found[0]}\n{network}", text)


def with_network_added(chance, text):
    return changed_once(chance, r"^networks = \[$", lambda found: f'{found[0]}\n"1,1 H",', text)


def with_watchdog_changed(chance, text):
    return changed_once(chance, r"^watchdog = (\d+)$", lambda found: f"watchdog = {other(chance, (6, 8, 10, 500), int(found[1]))}", text)


def with_order_changed(chance, text):
    """A row of the order of solve more, one less, or one that reads another drop."""

    def changed(found):
        rows = found[1].split(", ")
        place = chance.randrange(len(rows))
        words = rows[place].strip('"').split()
        kind = chance.random()
        if kind < 0.3 and len(rows) > 1:
            del rows[place]
        elif kind < 0.5:
            rows.insert(chance.randint(0, len(rows)), rows[place])
        else:
            numbers = re.findall(r"^number = (\d+)$", text, re.M)
            rows[place] = f'"{words[0]} {words[1]} {other(chance, [*numbers, "-"], words[2])} {words[3]}"'
        return f"orders = [{', '.join(rows)}]"

    return changed_once(chance, r"^orders = \[(.*)\]$", changed, text)


# None of these is seen in a panel but for a stop by the watchdog, or a value from before.
UNSEEN = (with_rows_moved, with_coil_renamed, with_registers_swapped, with_network_added, with_contact_negated_twice)
SEEN = (with_networks_swapped, with_contact_changed, with_number_changed, with_watchdog_changed, with_order_changed)


def rewritten(chance, data):
    """A plant with some of these changes."""
    text = data.decode()
    for _ in range(chance.randint(0, 3)):
        text = chance.choice(UNSEEN)(chance, text)
    for _ in range(chance.randint(1, 4)):
        text = chance.choice(SEEN)(chance, text)
    return text.encode()


def two(chance):
    """A plant and a change of it. In one of two the panel tells of the last of some steps, which may take several scans."""
    old = searched(chance)
    if chance.random() < 0.5:
        return old, rewritten(chance, old)
    # The last of some steps is shown, in the new one alone: 00007 is never on.
    steps = searched_steps(chance, ["00017", "00018", "00019"])
    last = re.search(r"CO (\d+)", steps[0])[1] if steps else searched_discrete(chance)
    text = re.sub(r"^panel = .*$", 'panel = ["00008"]', old.decode().replace("coils = 16", "coils = 32"), flags=re.M)
    lines = [[*steps, f"1,1 NO {last}; 1,2 {contact} 00007; 1,3 CO 00008"] for contact in ("NO", "NC")]
    old, new = [text.replace("networks = [\n", "networks = [\n" + "".join(f'"{line}",\n' for line in networks), 1) for networks in lines]
    for _ in range(chance.randint(0, 2)):
        new = chance.choice(UNSEEN)(chance, new)
    return old.encode(), new.encode()


def unlike(chance, data):
    """A plant that no field can be brought to beside another one, or that can after all."""
    text = data.decode()
    for _ in range(chance.randint(1, 2)):
        pattern, change = chance.choice((
            (r"^scan_time = (\d+)$", lambda found: f"scan_time = {other(chance, (10, 50, 100), int(found[1]))}"),
            (r'^panel = \["00001", ', lambda found: "panel = ["),
            (r'^modules = \["in (\d+)", ', lambda found: f'modules = ["in {found[1]}", "out 00001", '),
            (r"^modules = .*", lambda found: f"{found[0]} # its field"),
            (r'^script = \["[^"]*"(, )?', lambda found: "script = ["),
            (r"^script = \[\]$", lambda found: 'script = ["0000"]'),
            (r"^script = \[", lambda found: f'script = ["{chance.choice(("X", "0000", "E000"))}"' + ", "),
        ))
        text = changed_once(chance, pattern, change, text)
    return text.encode()
