"""The command: its options, the session that it begins or goes on with, and how it ends."""
import contextlib
import math
from argparse import ArgumentTypeError, Namespace

from cics.assembler_files import encoded, sources_of_file
from cics.child import decoded
from cics.cli import DONE, FOUND, Failure, Words, name_of, program_path, read_file, say, why_of
from cics.key_runs import TERMINALS, faultless, loaders_for, script_of, transactions_of
from cics.stand_in.counts import is_made
from cics.queues import TERMINAL
from cics.terminals.connections import TO_CLOSE, TO_READ, Service
from cics.terminals.region import FULL, LARGEST, ROOM, Fault, Region, RegionEnded, Request, Work
from cics.terminals.setup import SetUp
from cics.terminals.turns import IDLE, Owner

NAME = "cics-terminals"
ABOUT = """Lets 3270 terminals take part in a region. What is typed there is kept as a script for cicsedf.

Status 0: the session was ended. 1: a source or the set-up is faulty, or the region ended by itself. 2: wrong words. 3: a file can't be
read or written, the port is taken, or cicslook isn't there."""

def minutes(word: str) -> float:
    number = float(word)
    if not math.isfinite(number) or number < 0:
        raise ArgumentTypeError(f"{word} isn't a number of minutes")
    return number

def port(word: str) -> int:
    number = int(word)
    if not 0 <= number <= 65535:
        raise ArgumentTypeError(f"{word} isn't a port: 0 to 65535")
    return number

def options() -> Namespace:
    words = Words(NAME, ABOUT)
    words.add_argument("files", nargs="*", metavar="SETUP.script", help="programs, transactions, perhaps terminals; or sources, as PROG.asm")
    words.add_argument("--resume", metavar="SESSION", help="go on with a session that was kept, in a new file")
    words.add_argument("--back", type=int, default=0, metavar="N", help="go on in front of the session's N-th last key")
    words.add_argument("--tran", metavar="NAME=PROGRAM", action="append", default=[], help="of sources: a transaction's name")
    words.add_argument("--queue", metavar="NAME=FILE", action="append", default=[], help="with sources: test data, each line an item of the queue")
    words.add_argument("--port", type=port, default=3270, help="where to listen, on this machine alone (3270)")
    words.add_argument("--session", metavar="FILE", help="a new file for the session (session-001.script, or the next one)")
    words.add_argument("--mixed", action="store_true", help="give what is typed as it is, not in upper case")
    words.add_argument("--clock", action="store_true", help="set the region's clock before a task may begin")
    words.add_argument("--idle", type=minutes, default=IDLE, metavar="MINUTES", help="until another may take over a terminal (10)")
    words.add_argument("--any-user", action="store_true", help="let in the terminals of other users of this machine")
    words.add_program()
    given = words.parse_args()
    if bool(given.files) == bool(given.resume):
        words.error("either a set-up, or sources, or --resume SESSION")
    if given.back < 0 or given.back and not given.resume:
        words.error("--back N is for --resume, and N is a number of keys")
    if len(given.files) > 1 and not are_sources(given):
        words.error("one set-up; several files are sources, as PROG.asm")
    if given.resume and (given.tran or given.queue):
        words.error("--tran and --queue are for sources")
    return given

def are_sources(given: Namespace) -> bool:
    """Whether the files are sources: by their names, or by words that only sources have."""
    return bool(given.tran or given.queue) or any(path.lower().endswith(".asm") for path in given.files)

def set_up(given: Namespace, cicslook: str) -> SetUp:
    """The set-up, or the session, or what cics-run makes of sources."""
    if not given.files or not are_sources(given):
        path = given.resume or given.files[0]
        data = read_file(path)
        if len(data) + ROOM > LARGEST:
            raise Failure(f"{name_of(path)}: {FULL}", FOUND)
        return SetUp(name_of(path), decoded(data), bool(given.resume), given.back)
    sources = [source for path in given.files for source in sources_of_file(path)]
    if not faultless(sources, cicslook):
        raise SystemExit(FOUND)
    transactions = transactions_of(given.tran, [source.name for source in sources if not is_made(source.lines)])
    script = script_of(sources, transactions, loaders_for(given.queue, cicslook), [])
    return SetUp(", ".join(map(name_of, given.files)), decoded(encoded(script)))

def tell(line: str) -> None:
    """Tells people something, who may not be there any more."""
    with contextlib.suppress(Failure):
        say(line)

def session(service: Service, setup: SetUp, given: Namespace) -> Work:
    """What the owner of the region does: the set-up first, then what the terminals ask."""
    done = yield from setup.begun(service.region)
    defined = [answer.split()[1] for line, answer in done if line.startswith("TERMINAL ") and answer.endswith(" DEFINED")]
    names = [name for name in defined if name != TERMINAL]  # one that only loads test data is nobody's
    for name in [] if names else TERMINALS:
        yield Request(f"TERMINAL {name}")
    owner = Owner(names or TERMINALS, given.mixed, given.clock, given.idle, setup.sources)
    for line, answer in done:
        owner.learn(line, answer)
    service.begin(owner)
    tell(f"Terminals may connect: c3270 127.0.0.1:{service.port}")
    tell(f"The session is kept in {service.region.record.name}. Control-C ends it.")
    for terminal in owner.terminals.values():
        if terminal.is_used and setup.is_session:
            tell(f"{terminal.name} goes on: c3270 {terminal.name}@127.0.0.1:{service.port}")
        terminal.is_used = terminal.is_used and (setup.is_session or terminal.has_task)
    yield from owner.work()

def end(service: Service, setup: SetUp, fault: Fault | None) -> int:
    """Ends the region, and says why to clients and people; the companion's status is returned."""
    reported = service.region.finish()
    fault = RegionEnded() if fault is None and reported else fault
    if not service.is_open:
        service.region.record.remove()
        if fault:
            raise setup.failure_of(reported or "status 0") if isinstance(fault, RegionEnded) else Failure(f"{setup.path}: {fault}", FOUND)
        return DONE
    text = f"REGION ENDED: {reported or 'status 0'}" if isinstance(fault, RegionEnded) else str(fault or "THE SESSION HAS ENDED")
    tell(text)
    service.farewell(text, TO_READ if fault else TO_CLOSE)
    return fault.status if fault else DONE

def main() -> int:
    given = options()
    cicslook = program_path(given.cicslook, "cicslook")
    setup = set_up(given, cicslook)
    try:
        service = Service(given.port, given.any_user)
    except OSError as why:
        raise Failure(f"port {given.port}: {why_of(why)}") from None
    try:
        service.region = Region(cicslook, given.session, setup.free_name, setup.digests)
    except OSError as why:
        raise Failure(f"{given.session or 'a file for the session'}: {why_of(why)}") from None
    return end(service, setup, service.run(session(service, setup, given)))
