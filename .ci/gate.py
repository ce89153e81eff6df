"""The merge gate, which .ci/run begins.

In a copy of the repository `rt ci` proves every crate. Beside it run the steps that need no proof, and each other step from when `rt ci`
says that the programs which it needs are proved; `.ci/steps.py` has them. Wrong bodies are tried once their crate is proved. While `rt ci`
runs, a quarter as many others do as there are processors, and then one fewer than there are. A step's output is printed whole when it ends.
The first step that fails is named at once; the others are ended then, unless --go-on is given.

With --record the lines of the wrong bodies that are refused are written into the record."""
import compileall
import json
import os
import re
import shutil
import signal
import subprocess
import sys
import tempfile
import time
from concurrent.futures import FIRST_COMPLETED, Future, ThreadPoolExecutor, wait
from dataclasses import dataclass
from types import FrameType

import measured
from progress import Progress
from repository import text_of
from steps import BUILT, OWN, PROOF, PROVING, Step, Trial
from supervised import STOPPED, STOPS, Ended, adopt, end_all
from wrong_bodies import Choice, Edits, by_crate, refused_in

SUPERVISED = os.path.join(os.path.dirname(os.path.realpath(__file__)), "supervised.py")
JOB = 6e9  # bytes that a process may hold
ROOM = 10e9  # bytes of disk that must be free
LOG = "proof.log"  # in a step's words the log of `rt ci`
PYTHON = ("companions", "checks", ".ci", "bench")  # the folders of modules
COUNTED = re.compile(r"^(\d+) passed, (\d+) failed", re.M)


@dataclass(frozen=True)
class Job:
    """A step, the folder in which it runs, and the file of its output."""

    step: Step
    folder: str
    output: str


@dataclass(frozen=True)
class Result:
    """How a step ended, and the seconds that it took by the clock."""

    job: Job
    ended: Ended
    elapsed: float

    def is_well(self) -> bool:
        return self.ended.status == 0 and not self.ended.why

    def words(self) -> str:
        how = "well" if self.is_well() else f"FAILED, {self.ended.why or f'status {self.ended.status}'}"
        left = f", and left {self.ended.left} processes running, which were ended" if self.ended.left else ""
        return f"{self.job.step.command}: {how}; {self.ended.seconds:.0f} s of processors, {self.elapsed:.0f} s by the clock{left}"


class Runner:
    """Runs jobs beside each other, the proof among them. What they write beside their output, they write in a folder of its own."""

    def __init__(self, room: str, processors: int, goes_on: bool = False) -> None:
        self.room, self.processors, self.goes_on = room, processors, goes_on
        self.environment = {**os.environ, **measured.one_job_each(), "TMPDIR": room}
        self.began, self.signal = time.monotonic(), 0
        self.children: set[subprocess.Popen[bytes]] = set()
        self.results: list[Result] = []
        self.not_run: list[Job] = []
        self.proved: set[str] = set()
        self.progress, self.read = Progress(), 0  # of the proof's log, and how many of its bytes were read

    def say(self, text: str) -> None:
        spent = int(time.monotonic() - self.began)
        print(f"{spent // 60:3}:{spent % 60:02}  {text}", flush=True)

    def perform(self, job: Job) -> Result:
        begun, told = time.monotonic(), f"{job.output}.json"
        limits = [f"{it:g}" for it in (job.step.limit, job.step.idle, JOB)]
        words = [os.path.join(os.path.dirname(job.output), LOG) if it == LOG else it for it in job.step.words()]
        with open(job.output, "wb") as output:
            child = subprocess.Popen([sys.executable, "-B", SUPERVISED, told, str(os.getpid()), *limits, *words], cwd=job.folder,
                                     env=self.environment, stdin=subprocess.DEVNULL, stdout=output,
                                     stderr=subprocess.STDOUT, start_new_session=True)
        self.children.add(child)
        status = child.wait()
        self.children.discard(child)
        ended = Ended(**json.loads(text_of(told))) if os.path.exists(told) else Ended(status, 0, 0, f"what watched it ended with status {status}")
        return Result(job, ended, time.monotonic() - begun)

    def stop(self) -> None:
        for child in [*self.children]:
            child.terminate()

    def is_ready(self, job: Job) -> bool:
        return job.step.needs() <= self.proved

    def lanes(self, running: dict[Future[Result], Job]) -> int:
        """How many more jobs may begin."""
        proves = any(it.step == PROVING for it in running.values())
        return max(1, self.processors // 4) + 1 - len(running) if proves else max(2, self.processors - 1) - len(running)

    def follow(self, log: str) -> None:
        """Tells which crates `rt ci` says that it has proved since it was read last, and of one that isn't the prover's report."""
        with open(log, "rb") as file:
            file.seek(self.read)
            text = file.read()
        text = text[: text.rfind(b"\n") + 1]
        self.read += len(text)
        for line in text.decode(errors="replace").splitlines(True):
            told = self.progress.read(line)
            if told:
                self.say(f"rt ci: {told.crate} {told.how}")
                print(told.report, end="", flush=True)
                self.proved |= {told.crate} if told.is_proved() else set()

    def tell(self, result: Result) -> None:
        """Prints a step's output and how it ended."""
        self.results.append(result)
        print(f"== {result.job.step.command}", flush=True)
        with open(result.job.output, "rb") as output:
            text = output.read()
            sys.stdout.buffer.write(text + (b"" if text.endswith(b"\n") or not text else b"\n"))
        self.say(result.words())
        if not result.is_well() and self.free() < ROOM / 10:
            print(f"the disk has {self.free() / 1e9:.1f} GB left")
        if result.job.step == PROVING:
            self.proved.add(PROOF)

    @staticmethod
    def free() -> float:
        """The bytes of disk that are free where copies are made."""
        return float(shutil.disk_usage(tempfile.gettempdir()).free)

    def is_over(self) -> bool:
        return bool(self.signal) or not self.goes_on and not all(it.is_well() for it in self.results)

    def run(self, jobs: list[Job]) -> None:
        """Runs jobs, the dearer ones first of those that can begin, until all have ended, or one has failed."""
        waiting, running = [*jobs], dict[Future[Result], Job]()
        proof = next((it for it in jobs if it.step == PROVING), None)
        with ThreadPoolExecutor(len(jobs) + 1) as pool:
            while (waiting or running) and not self.is_over():
                if proof and proof in running.values() and os.path.exists(proof.output):
                    self.follow(proof.output)
                ready = [it for it in waiting if self.is_ready(it)]
                for job in ready[: max(0, self.lanes(running))]:
                    waiting.remove(job)
                    running[pool.submit(self.perform, job)] = job
                if not running:
                    break
                for done in wait(running, timeout=0.3, return_when=FIRST_COMPLETED).done:
                    job = running.pop(done)
                    if job == proof:
                        self.follow(job.output)
                    self.tell(done.result())
            self.not_run = waiting
            while running:
                self.stop()
                for done in wait(running, timeout=0.3).done:
                    running.pop(done)
                    if not done.result().ended.why == STOPPED:
                        self.tell(done.result())
                    else:
                        self.not_run.append(done.result().job)


def expected(choice: Choice, costs: measured.Measured, edits: Edits, processors: int) -> str:
    """What a run is likely to take."""
    steps = sum(costs.steps.values())
    total = costs.whole + steps + choice.seconds
    chain = max((costs.chain(edits, it) for it in edits.libraries), default=0)
    return (f"expected, by .ci/MEASURED.md and where nothing is kept: {total:,} processor seconds ({costs.whole:,} of proofs and tests, {steps:,} of "
            f"other steps, {choice.seconds:,} of wrong bodies), some {costs.minutes(total, chain, processors)} minutes on {processors} processors; "
            f"at most {JOB / 1e9:g} GB of memory a job, of which {measured.available():.0f} GB are free; {ROOM / 1e9:g} GB of disk")


def table(results: list[Result]) -> str:
    """What the steps took but the proof, which has a table of its own, and the trials of wrong bodies, which are others each time."""
    rows = [it for it in results if it.job.step != PROVING and not isinstance(it.job.step, Trial)]
    lines = [f"| `{it.job.step.command}` | {it.ended.seconds:.0f} | {it.elapsed:.0f} |\n" for it in rows]
    return "\n| Step | Processor, s | Elapsed, s |\n|---|---|---|\n" + "".join(lines)


def counts(results: list[Result], is_red: bool) -> str:
    """The last line: the steps, and what others count: `rt ci` crates, and trials wrong bodies."""
    passed = failed = 0
    for it in results:
        counts_itself = it.job.step == PROVING or isinstance(it.job.step, Trial)
        its = COUNTED.findall(text_of(it.job.output, "replace")) if counts_itself else []
        if its:
            passed, failed = passed + int(its[-1][0]), failed + max(int(its[-1][1]), not it.is_well())
        else:
            passed, failed = passed + it.is_well(), failed + (not it.is_well())
    return f"{passed} passed, {max(failed, int(is_red))} failed"


class Gate:
    """A run of the gate over the repository in the current folder."""

    def __init__(self, folder: str, words: list[str]) -> None:
        self.folder, self.copy, self.records = folder, f"{folder}/copy", "--record" in words
        self.runner = Runner(f"{folder}/tmp", measured.processors(), "--go-on" in words)
        self.log = f"{folder}/{LOG}"
        os.chmod(folder, 0o711)  # `rt ci` runs programs as nobody
        os.mkdir(self.runner.room)
        os.chmod(self.runner.room, 0o1777)
        self.own_python()

    def own_python(self) -> None:
        """Has steps find the Python that runs the gate in front of what a manager of versions puts there, which takes longer to begin than most
        scripts."""
        os.mkdir(f"{self.folder}/bin")
        os.symlink(sys.executable, f"{self.folder}/bin/python3")
        self.runner.environment["PATH"] = f"{self.folder}/bin{os.pathsep}{os.environ['PATH']}"

    def jobs(self, edits: list[str]) -> list[Job]:
        root = os.getcwd()
        own = [Job(it, root, f"{self.folder}/{number}.own") for number, it in enumerate(OWN)]
        built = [Job(it, self.copy, f"{self.folder}/{number}.built") for number, it in enumerate(BUILT)]
        costs = measured.noted()
        built.sort(key=lambda it: -costs.steps.get(it.step.command, it.step.limit))
        trials = [Trial(f".ci/wrong --built {' '.join(its)}", 5_000, (crate,)) for crate, its in by_crate(edits).items()]
        tried = [Job(it, self.copy, f"{self.folder}/{number}.tried") for number, it in enumerate(trials)]
        return [Job(PROVING, self.copy, self.log), *own, *tried, *built]

    def stopped(self, number: int, _frame: FrameType | None) -> None:
        self.runner.signal = number

    def run(self) -> int:
        for number in STOPS:
            signal.signal(number, self.stopped)
        edits, costs = Edits(), measured.noted()
        choice = edits.choice()
        print(expected(choice, costs, edits, self.runner.processors))
        print(f"{choice.words()}\n{' '.join(choice.tried())}\n{edits.words_on(choice.left)}", flush=True)
        edits.copy(self.copy)
        for folder in filter(os.path.isdir, (f"{self.copy}/{it}" for it in PYTHON)):
            compileall.compile_dir(folder, quiet=2)  # hundreds of processes begin with these modules
        try:
            self.runner.run(self.jobs(choice.tried()))
        finally:
            self.runner.stop()
        if self.records:
            tried = [it.job.output for it in self.runner.results if isinstance(it.job.step, Trial)]
            edits.write(refused_in("".join(text_of(it, "replace") for it in tried)), edits.now())
        return self.end(edits.words_on(choice.left))

    def end(self, on_edits: str) -> int:
        results, not_run = self.runner.results, self.runner.not_run
        wrong = [it.words() for it in results if not it.is_well()]
        is_red = bool(wrong or not_run or self.runner.signal)
        print(f"{table(results)}\n{on_edits}")
        print("".join(f"not run, or not to its end: {it.step.command}\n" for it in not_run), end="")
        print("".join(f"FAILED: {it}\n" for it in wrong), end="")
        if self.runner.signal:
            print(f"FAILED: ended by signal {self.runner.signal}")
        spent = sum(it.ended.seconds for it in results)
        self.runner.say(f"{spent:.0f} processor seconds")
        print(counts(results, is_red), flush=True)
        return 128 + self.runner.signal if self.runner.signal else int(is_red)


def main(words: list[str]) -> int:
    if {*words} - {"--record", "--go-on"}:
        print(__doc__)
        return 2
    adopt()
    if Runner.free() < ROOM:
        print(f"the disk has {Runner.free() / 1e9:.1f} GB free for {tempfile.gettempdir()}, and the gate wants {ROOM / 1e9:g}: remove copies that are "
              "done with, or their folders crates/*/out\n0 passed, 1 failed")
        return 1
    folder = tempfile.mkdtemp(prefix="gate-")
    try:
        return Gate(folder, words).run()
    finally:
        end_all()
        shutil.rmtree(folder, ignore_errors=True)


if __name__ == "__main__":
    sys.exit(main(sys.argv[1:]))
