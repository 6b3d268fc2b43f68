"""Writes histories, certificates and schedules in the formats that the program reads."""


def value(content):
    """A value as EDN: an integer, nil, false, true, or a vector of integers."""
    if content is None:
        return "nil"
    if isinstance(content, bool):
        return str(content).lower()
    return f"[{' '.join(map(str, content))}]" if isinstance(content, tuple) else str(content)


def operation_map(event_type, process, f, argument, on):
    """One map of a history. The object is left out where it is None."""
    end = "" if on is None else f", :object {on}"
    return f"{{:process {process}, :type :{event_type}, :f :{f}, :value {value(argument)}{end}}}"


def invoke(process, f, of=None, on=None):
    return operation_map("invoke", process, f, of, on)


def ok(process, f, of=None, on=None):
    return operation_map("ok", process, f, of, on)


def fail(process, f, of=None, on=None):
    return operation_map("fail", process, f, of, on)


def info(process, f, of=None, on=None):
    return operation_map("info", process, f, of, on)


def lines(*those):
    """The lines of a text, each ended by a line feed."""
    return "".join(f"{line}\n" for line in those)


def one_process(*calls):
    """A history of one process, in which each call (f, argument, reply) is completed at once."""
    return lines(*[event for f, of, reply in calls for event in (invoke(0, f, of), ok(0, f, reply))])


def certificate(on, *entries):
    return f"{{:object {on}, :order [{' '.join(str(entry) for entry in entries)}]}}"


def order(*entries):
    """The certificate of object 0, as the whole text."""
    return lines(certificate(0, *entries))
