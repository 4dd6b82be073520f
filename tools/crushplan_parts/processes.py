"""Works that are shared out to processes of this machine, which are copies of this one: threads of
Python take one processor."""
import signal

from .faults import Fault, NoAnswer


def spread(function, shared, parts, done, count):
    """Returns what a function makes of each part beside what all share, in their order, by so many
    processes. `done` takes each part that is over."""
    from multiprocessing import connection, get_context

    context, found, left = get_context("fork"), [None] * len(parts), iter(range(len(parts)))
    started, busy = [], {}
    try:
        for _ in range(min(count, len(parts))):
            own, other = context.Pipe()
            others = [own, *busy]
            started.append(context.Process(target=work, args=(function, shared, parts, other, others), daemon=True))
            started[-1].start()
            other.close()
            busy[own] = place = next(left)
            own.send(place)
        while busy:
            for own in connection.wait(list(busy)):
                place = busy.pop(own)
                found[place] = taken(own)
                done(parts[place])
                following = next(left, None)
                if following is not None:
                    busy[own] = following
                    own.send(following)
    finally:
        for it in started:
            it.kill()
            it.join()
    return found


def work(function, shared, parts, own, others):
    """Does the parts whose places come, one after the other, until this process is ended, or that
    which started it has ended. `others` are ends of that one, which its copy has too."""
    signal.signal(signal.SIGINT, signal.SIG_IGN)
    for it in others:
        it.close()
    while True:
        try:
            place = own.recv()
            try:
                said = True, function(*shared, parts[place])
            except Fault as fault:
                said = False, str(fault)
            own.send(said)
        except (EOFError, BrokenPipeError):
            return


def taken(own):
    """Returns what a process made of a part; a Fault where it couldn't."""
    try:
        is_answer, found = own.recv()
    except (EOFError, OSError):
        raise NoAnswer("a process of crushplan ended before its time, as where memory is short") from None
    if not is_answer:
        raise Fault(found)
    return found
