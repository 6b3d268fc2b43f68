"""The calls of a run's clients, and what a run of one client prints. This is written from the rules, apart from the program."""
from ..text_writers import certificate, invoke, lines, ok

OPERATIONS = {
    "queue": ("enqueue", "dequeue"),
    "stack": ("push", "pop"),
    "heap": ("insert", "extract-min"),
    "register": ("write", "read", "cas"),
    "map": ("put", "get", "del"),
    "mutex": ("acquire", "release"),
    "set": ("add", "remove", "contains"),
    "counter": ("fetch-add", "get-count"),
    "lock": ("lock", "unlock"),
}
# Of these kinds a client makes whole pairs of calls.
IN_PAIRS = ("mutex", "lock")
MIXED = ("queue", "stack", "heap", "register", "map")
KINDS_OF_A_RUN = (*OPERATIONS, "mixed")
WITHOUT_ARGUMENT = ("dequeue", "pop", "extract-min", "read", "get-count")
MASK = 2**64 - 1


class Generator:
    """PCG XSH RR 64/32 with a state and a stream, as `Lcg64Xsh32::new` of rand_pcg makes it."""

    def __init__(self, state, stream):
        self.increment = (stream << 1 | 1) & MASK
        self.state = (state + self.increment) & MASK
        self.step()

    def step(self):
        self.state = (self.state * 6364136223846793005 + self.increment) & MASK

    def word(self):
        state = self.state
        self.step()
        mixed = ((state >> 18 ^ state) >> 27) & 0xFFFFFFFF
        by = state >> 59
        return (mixed >> by | mixed << (32 - by)) & 0xFFFFFFFF

    def below(self, limit):
        """A number below the limit, by Canon's method: a second word is drawn only where its carry could matter."""
        result, low = divmod(self.word() * limit, 2**32)
        if low > (-limit) % 2**32:
            result += low + (self.word() * limit >> 32) >= 2**32
        return result


def kind_of(kind, on):
    return MIXED[on % len(MIXED)] if kind == "mixed" else kind


def argument(f, first, second):
    if f == "put" or f == "cas":
        return (first, second)
    return None if f in WITHOUT_ARGUMENT else first


def calls_of(kind, objects, client, calls, seed):
    """The calls of one client, as (object, function, argument)."""
    generator, drawn = Generator(seed, client), []
    for number in range(calls - calls % 2 if kind in IN_PAIRS else calls):
        on, choice, first, second = [generator.below(limit) for limit in (objects, 6, 100, 100)]
        names = OPERATIONS[kind_of(kind, on)]
        if kind in IN_PAIRS:
            drawn.append((drawn[-1][0] if number % 2 else on, names[number % 2], client if kind == "lock" else None))
            continue
        f = names[choice % len(names)]
        drawn.append((on, f, argument(f, first, second)))
    return drawn


def calls_of_all(kind, objects, clients, calls, seed):
    """The invocation lines of each client, by its number."""
    of = {client: calls_of(kind, objects, client, calls, seed) for client in range(clients)}
    return {client: [invoke(client, f, value, on) for on, f, value in made] for client, made in of.items() if made}


def calls_in(output):
    """The invocation lines in a run's output, by the process's number."""
    found = {}
    for line in output.decode().splitlines():
        if ":type :invoke" in line:
            found.setdefault(int(line.split()[1].rstrip(",")), []).append(line)
    return found


def reply(f, of, content):
    """What an object replies. Its content, which changes, is a list (queue, stack, heap, set, counter) or a dict (register, map)."""
    if f in ("add", "remove", "contains"):
        is_there = of in content
        if f == "add" and not is_there:
            content.append(of)
        elif f == "remove" and is_there:
            content.remove(of)
        return is_there != (f == "add")
    if f in ("fetch-add", "get-count"):
        before = sum(content)
        content.append(of or 0)
        return before
    if f in ("enqueue", "push", "insert"):
        content.append(of)
        return of
    if f in ("dequeue", "pop", "extract-min"):
        at = {"dequeue": 0, "pop": -1}.get(f, content.index(min(content)) if content else 0)
        return content.pop(at) if content else None
    if f == "write":
        content[0] = of
        return of
    if f == "cas":
        if content.get(0) != of[0]:
            return False
        content[0] = of[1]
        return of
    if f == "put":
        before = content.get(of[0])
        content[of[0]] = of[1]
        return before
    return content.pop(of, None) if f == "del" else content.get(0 if f == "read" else of)


def output_of_one_client(kind, objects, calls, seed):
    """All that a run of one client prints."""
    out, orders, kinds, contents = [], {}, {}, {}
    for number, (on, f, of) in enumerate(calls_of(kind, objects, 0, calls, seed)):
        named = kind_of(kind, on)
        content = contents.setdefault(on, {} if named in ("register", "map") else [])
        got = None if named in IN_PAIRS else reply(f, of, content)
        out += [invoke(0, f, of, on), ok(0, f, got, on)]
        orders.setdefault(on, []).append(2 * number)
        kinds.setdefault(named, []).append(on)
    out += [f"; {certificate(on, *orders[on])}" for on in sorted(orders)]
    out.append(f"; yes: {sum(map(len, orders.values()))} operations, {len(orders)} objects")
    out += [f"; {named}: {len(set(on))} objects, {len(on)} operations" for named, on in kinds.items()]
    return lines(*out)
