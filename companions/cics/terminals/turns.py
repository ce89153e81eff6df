"""Whose turn it is: the owner of the region gives it the operators' keys as they come, then each task that may go on a turn.
What it does is a generator: it yields what the region is asked and gets the answer, or yields REST when there is nothing to do."""
import time
import traceback
from collections import deque
from functools import partial
from types import MappingProxyType
from collections.abc import Callable, Hashable, Sequence

from cics.terminals.data_stream import AIDS, BLANK, TEXT, Painting, Refused, Uncoded, free_rows
from cics.terminals.edf import alterations
from cics.stand_in.counts import count_in, said
from cics.terminals.looks import Pages, Sources, asked, here, is_look, look_of
from cics.terminals.maps import MapPainting, mapped, maps_of
from cics.terminals.region import Answer, Request, Work
from cics.terminals.terminal import LEAVES_STOP, Client, State, Terminal
from cics.transcripts import reply_of, rows_of

REST = None
LATER = 64  # turns after which a waiting task is tried again, though others don't rest
IDLE = 10.0  # minutes without a key, after which another may take over a terminal
REPORTED = {"AlreadyHeldInput": "AN INPUT IS HELD ALREADY", "NoSuchTransaction": "NO SUCH TRANSACTION", "NoStorage": "NO STORAGE FOR A TASK"}
EDF_REPORTED = {"Started": "IS ON", "AlreadyOn": "IS ON ALREADY", "Closed": "IS OFF", "NotOn": "IS OFF ALREADY"}
STATES_REPORTED = {State.WAITING: "WAITING", State.PAUSED: "STILL RUNNING: ANY KEY GOES ON"}
TAKEN = "ALTERED. THE PAGE SHOWS WHAT WAS TYPED UNTIL THE NEXT STOP"
TAKEN_OVER = "ANOTHER HAS TAKEN OVER THIS TERMINAL, WHICH WAS IDLE"
FAULT = "A FAULT OF THE COMPANION: CONNECT AGAIN"

class Owner:
    """Keeps the terminals, and works on what is asked of them."""

    def __init__(self, names: Sequence[str], is_mixed: bool = False, has_clock: bool = False, idle: float = IDLE,
                 sources: Sources = MappingProxyType({})) -> None:
        self.terminals = {name: Terminal(name) for name in names}
        self.is_mixed, self.has_clock, self.idle, self.sources = is_mixed, has_clock, idle, sources
        self.maps, self.stand_ins = maps_of(sources), "".join(f"  {line}" for line in said(count_in(sources.values())))
        self.jobs: deque[tuple[Terminal, Callable[[], Work]]] = deque()
        self.turns, self.warning = 0, ""

    def connect(self, client: Client, lu: str = "") -> Terminal | None:
        """Gives a client the terminal of a name, where it is free or idle; or a free one, those that another left last."""
        idle_since = time.monotonic() - self.idle * 60
        named = [it for it in self.terminals.values() if lu in ("", it.name)]
        free = [it for it in named if it.client is None or lu and it.pressed_at <= idle_since]
        if not free:
            return None
        terminal = min(free, key=lambda it: (it.is_used, it.is_used * it.left_at))
        if terminal.client:
            last = terminal.client
            self.leave(terminal)
            last.dismiss(TAKEN_OVER)
        terminal.client, terminal.is_owed, terminal.pressed_at = client, True, time.monotonic()
        self.jobs.append((terminal, partial(self.begin, terminal, client)))
        return terminal

    def press(self, terminal: Terminal, record: bytes) -> None:
        terminal.is_owed, terminal.pressed_at = True, time.monotonic()
        self.jobs.append((terminal, partial(self.serve, terminal, terminal.client, record)))

    def leave(self, terminal: Terminal) -> None:
        """A client is gone: what it has pressed isn't given."""
        terminal.client, terminal.is_owed, terminal.looking, terminal.draft = None, False, None, None
        terminal.is_used, terminal.left_at = terminal.is_used or terminal.edf.is_on, time.monotonic()
        self.jobs.append((terminal, partial(self.note, f"{terminal.name} is left")))

    def work(self) -> Work:
        while True:
            for _ in range(len(self.jobs)):  # what comes meanwhile is done after the turns
                terminal, job = self.jobs.popleft()
                yield from self.guarded(terminal, job())
            due = self.due()
            for terminal in due:
                yield from self.guarded(terminal, self.turn(terminal))
            if not due and not self.jobs:
                yield REST

    def guarded(self, terminal: Terminal, job: Work) -> Work:
        """A fault of this program ends what its client has begun, and nothing else."""
        try:
            yield from job
        except Exception:  # whatever it is
            traceback.print_exc()
            terminal.state, client = State.RESTING, terminal.client
            if client:
                self.leave(terminal)
                client.dismiss(FAULT)

    def due(self) -> list[Terminal]:
        """The terminals whose turn may do something."""
        running = [it for it in self.terminals.values() if it.state is State.RUNNING]
        waiting = [it for it in self.terminals.values() if it.state is State.WAITING and it.is_stirred]
        return running + [it for it in waiting if not running or self.turns - it.tried >= LATER]

    def ask(self, line: str) -> Work:
        """Asks the region something, learns what the answer says, and returns its words after the terminal's name."""
        answer = yield Request(line)
        self.learn(line, answer)
        return answer.split()[2:]

    def learn(self, line: str, answer: str) -> None:
        """Takes what a line of the session did. Where it did something, what others wait for may have come."""
        words, reply = (line.split(" ", 3) + ["", ""])[:4], reply_of(answer)
        terminal = self.terminals.get(words[1])
        if words[0] == "TURN":
            self.turns += 1
        if terminal and terminal.learn(words, reply, self.turns):
            for other in self.terminals.values():
                other.is_stirred = other.is_stirred or other is not terminal

    def turn(self, terminal: Terminal) -> Work:
        was_waiting = terminal.state is State.WAITING
        reply, *code = yield from self.ask(f"TURN {terminal.name}")
        if reply == "AtCommand" and terminal.is_blanked:
            terminal.is_sending = (yield from asked(f"COMMAND {terminal.name}"))[0].text.startswith("SEND ")
        if terminal.state is not State.RUNNING and not (was_waiting and reply == "Waiting"):
            terminal.draft = None
            yield from self.paint(terminal, f"ABENDED {code[0]}  PF14: WHY" if reply == "Abended" else None)

    def note(self, text: str) -> Work:
        yield Request(f"* {text}", Answer.NONE)

    def begin(self, terminal: Terminal, client: Client) -> Work:
        yield from self.note(f"{terminal.name} is taken")
        if terminal.client is client:
            terminal.is_owed = False
            yield from self.paint(terminal, greeting=f"TERMINAL {terminal.name}{self.stand_ins}")

    def serve(self, terminal: Terminal, client: Client | None, record: bytes) -> Work:
        """Gives a key to whom it concerns, unless its client is gone."""
        if terminal.client is not client:
            return
        terminal.is_owed, terminal.turns, key = False, 0, AIDS.get(record[0])
        terminal.draft = None if key else terminal.draft
        terminal.edf.is_asking = terminal.edf.is_asking and key == "PF9"
        try:
            if key == "PF24":
                terminal.looking, reported = None, (yield from self.switch(terminal, "ON"))
                if terminal.state is not State.PAUSED:
                    yield from self.paint(terminal, reported)
                terminal.state = State.RUNNING if terminal.state is State.PAUSED else terminal.state
            elif terminal.looking or key in ("PF14", "PF19", "PF20"):
                yield from self.look(terminal, key, terminal.painting.typed(record).get(TEXT, "").upper().strip())
            elif terminal.state is State.PAUSED:
                terminal.state = State.RUNNING
            elif key is None:
                yield from self.paint(terminal, "")
            else:
                yield from self.give(terminal, key, terminal.painting.typed(record), record)
        except Refused as refused:
            terminal.draft = record if isinstance(refused, Uncoded) else None
            if terminal.looking:
                self.show(terminal, terminal.looking.painting(str(refused)), alarm=True)
            else:
                yield from self.paint(terminal, str(refused), alarm=True)

    def give(self, terminal: Terminal, key: str, texts: dict[Hashable, str], record: bytes) -> Work:
        painting = terminal.painting
        text = painting.key_text(texts, record) if isinstance(painting, MapPainting) else texts.get(TEXT, "")
        text = text if self.is_mixed else text.upper()
        altered = alterations(texts) if terminal.edf.is_stopped and key == "ENTER" else []
        if altered:
            yield from self.alter(terminal, altered, record)
        elif key == "ENTER" and text.split()[:1] == ["CEDF"] and not (terminal.has_task or terminal.edf.is_stopped):
            yield from self.cedf(terminal, text.split()[1:])
        else:
            yield from self.give_key(terminal, key, text)

    def give_key(self, terminal: Terminal, key: str, text: str) -> Work:
        """A key to the region, or to EDF, unless it only has another display painted."""
        edf, was_newer, reply = terminal.edf, terminal.edf.newer, "ToEdf"
        if edf.is_stopped and edf.asks(key, text):
            yield from self.paint(terminal, edf.question())
            return
        if not (edf.is_stopped and edf.looks(key)):
            if self.has_clock and not (terminal.has_task or edf.is_stopped):
                yield Request(time.strftime("CLOCK %H%M%S %y%j"))
            [reply] = yield from self.ask(f"KEY {terminal.name} {key}" + (f" {text}" if text else ""))
        look = look_of(text.upper()) if reply == "NoSuchTransaction" and key == "ENTER" else None
        if look:
            yield from self.look(terminal, "PF14", look)
        elif reply == "ToEdf" and key not in LEAVES_STOP:
            yield from self.paint(terminal, edf.answer(key, text, was_newer))
        elif reply == "NoSuchTransaction" and key == "CLEAR":
            yield from self.paint(terminal)
        elif reply not in ("ToEdf", "Attached", "Given"):
            yield from self.paint(terminal, REPORTED.get(reply, reply), alarm=True)

    def look(self, terminal: Terminal, key: str | None, text: str) -> Work:
        """PF14 begins a look, others leaf in it, and CLEAR ends it."""
        if key == "PF14" and text and not is_look(text):
            raise Refused(f"NO SUCH LOOK: {text}")
        if key == "PF14":
            due = here(terminal.name, terminal.has_task, terminal.edf.is_stopped, terminal.is_abended, self.sources)
            pages = Pages((yield from asked(text) if text else due))
            terminal.looking = pages if terminal.client and not terminal.is_owed else None  # else another's client has come
        elif key == "CLEAR":
            terminal.looking = None
        if terminal.looking:
            terminal.looking.leaf(key)
            self.show(terminal, terminal.looking.painting(""))
        else:
            yield from self.paint(terminal, *terminal.reported)

    def switch(self, terminal: Terminal, word: str) -> Work:
        """Begins or ends EDF at a terminal; returns what is reported of it."""
        [reply] = yield from self.ask(f"EDF {terminal.name} {word}")
        waits = reply == "Started" and terminal.state is State.WAITING
        return f"EDF AT {terminal.name} {EDF_REPORTED[reply]}" + (". WAITING: NO STOP BEFORE THE TASK GOES ON" if waits else "")

    def cedf(self, terminal: Terminal, words: list[str]) -> Work:
        """CEDF [terminal] [ON or OFF], typed where no task lives."""
        word = words.pop() if words[-1:] in (["ON"], ["OFF"]) else "ON"
        named = self.terminals.get(" ".join(words or [terminal.name]))
        if not named:
            raise Refused("CEDF, A TERMINAL OR NONE, ON OR OFF")
        yield from self.paint(terminal, (yield from self.switch(named, word)))

    def alter(self, terminal: Terminal, altered: Sequence[str], record: bytes) -> Work:
        """Asks each alteration, up to one that is refused. The cursor stays."""
        reported = TAKEN
        for alteration in altered:
            [reply] = yield from self.ask(f"ALTER {terminal.name} {alteration}")
            if reply != "Altered":
                reported = f"ALTER {terminal.name} {reply}".upper()
                break
        if terminal.state is not State.RUNNING:
            yield from self.paint(terminal, reported, cursor=record)

    def paint(self, terminal: Terminal, message: str | None = None, greeting: str = "", alarm: bool = False,
              cursor: bytes = b"") -> Work:
        """Paints what a terminal shows, unless a key comes meanwhile, which was pressed on the page before.
        Without a message its state is shown, or the greeting, where two rows are free. A look stays until it is ended."""
        if message is None and self.warning and not terminal.is_warned:
            message, terminal.is_warned = self.warning, True
        client, terminal.reported = terminal.client, (message, greeting)
        if client is None or terminal.is_owed or terminal.looking:
            return
        page = yield from self.display(terminal)
        if page is None:
            asks = None if terminal.is_blanked else Request(f"SCREEN {terminal.name}", Answer.LINES)
            rows = rows_of((yield asks)) if asks else BLANK
            is_mapped = bool(self.maps) and rows is not BLANK
            look = [it.text for it in (yield from asked(f"QUEUE $SCR{terminal.name} 1"))] if is_mapped else []
            painting: Painting | None = mapped(look, rows, self.maps, message or "")
            if message is None and (len(free_rows(rows)) > 1 or terminal.state is State.PAUSED):
                message = STATES_REPORTED.get(terminal.state, greeting)
            painting = painting or Painting(rows, free_rows(rows), message or "")
        else:
            painting = terminal.edf.painting(page, terminal.has_task, message or "")
        if terminal.draft:
            painting.retype(terminal.draft)
        painting.put_cursor(cursor)
        if terminal.client is client and not terminal.is_owed:
            self.show(terminal, painting, alarm)

    def show(self, terminal: Terminal, painting: Painting, alarm: bool = False) -> None:
        terminal.painting = painting
        if terminal.client:
            terminal.client.show(painting, alarm)

    def display(self, terminal: Terminal) -> Work:
        """The page that EDF shows at a stop, or a newer one; None where there is none."""
        line = terminal.edf.asked(terminal.name)
        answer = (yield Request(line, Answer.LINES)) if terminal.edf.is_on else [f"{line} NONE"]
        self.learn(line, answer[0])
        return rows_of(answer) if answer[0].split()[2:] != ["NONE"] else None
