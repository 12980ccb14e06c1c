"""A group that goes on without a lost store: the sites that are left are moved to the group's next generation, each on its machine,
and each lost site is built again of what they know. docs/OPERATING.md tells when that may be done.

What is done is found again in files beside a site's store, so that a second call goes on where the first one stopped."""
from __future__ import annotations

import contextlib
import dataclasses
import fcntl
import hashlib
import json
import os
import pathlib
import re
import subprocess
import time
from typing import Callable, Dict, Iterator, List, NoReturn, Optional, Sequence, Set, Tuple, Union

from .errors import ZinduroiError
from .service import command
from .site import read_layout
from .transports import Transport, TransportFailed

GROUP = re.compile(r"([a-z][a-z0-9-]{0,31})(?:\.([1-9][0-9]{0,6}))?")
MOST_GENERATIONS = 1_048_575
# How many seconds pass until texts are looked for again.
PAUSE = 0.5
# Exit statuses of the program where it answered, if only by a refusal of the call.
ANSWERED = (0, 1)
# .. behind which it has changed no store: wrong arguments, no layout, an input that is refused, out of memory.
SURE = (2, 3, 4, 6)
WRONG_INPUT = 4
# .. and that of a store that can't be used, which is changed by none of its refusals but this one.
NO_STORE, PERHAPS = 5, "StoreFault"
# A refusal of a store.
NAME = re.compile(r"[A-Z][A-Za-z]+")
# Refusals of a store that is not served in a group, and not moved out of it.
ELSEWHERE = ("NoStore", "WrongGroup", "NoGroup", "Outdated", "WrongLayout")
MARK = re.compile(r"([^ ]+) ([0-9a-f]{16}) ([0-9a-f]{8}) (.*)", re.S)


class NotDone(ZinduroiError):
    """This can't be done, or not yet; the text says why and what to do. Nothing was changed that a second call would have to
    know of."""


def generation(group: str) -> int:
    """The number of a group's generation, 1 where its name has none. Raises `NotDone` where no group has this name."""
    found = GROUP.fullmatch(group)
    number = int(found[2]) if found and found[2] else 1
    if not found or found[2] and not 2 <= number <= MOST_GENERATIONS:
        raise NotDone(f"{group!r} is no name of a group")
    return number


def before(group: str) -> str:
    """The name of the generation before."""
    number = generation(group)
    if number == 1:
        raise NotDone(f"{group!r} is the first generation: --to wants the next one, as {group}.2")
    base = group.partition(".")[0]
    return base if number == 2 else f"{base}.{number - 1}"


@dataclasses.dataclass(frozen=True)
class Plan:
    """What the operator said: the site of this machine, its store, the group that all move to, and the sites whose stores are lost."""

    site: int
    store: str
    to: str
    lost: Tuple[int, ...]
    layout: Optional[str] = None
    program: Union[str, Sequence[str]] = "seat_cli"


class Recovery:
    """The part of this machine in a plan. `say` gets what is found and done, line by line; `confirm` gets what no program can
    see, and says whether the operator confirms it."""

    def __init__(self, plan: Plan, transport: Transport, say: Callable[[str], None], confirm: Callable[[str], bool]) -> None:
        self.plan = plan
        self.transport = transport
        self.say = say
        self.confirm = confirm
        self.old = before(plan.to)
        self.layout = read_layout(plan.layout, plan.program)
        numbers = [plan.site, *plan.lost]
        for number in numbers:
            if not 0 <= number < self.layout.sites:
                raise NotDone(f"the layout has no site {number}")
        if len(set(plan.lost)) < len(plan.lost):
            raise NotDone("name each lost site once")
        self.left = [site for site in range(self.layout.sites) if site not in plan.lost]
        self.texts: Dict[int, str] = {}
        self.built: Dict[int, str] = {}
        self.moved: Set[int] = set()
        self._lock: Optional[int] = None

    def run(self, wait: float = 0) -> None:
        """Does what can be done here. A lost site waits up to `wait` seconds for texts."""
        folder = os.path.dirname(self.plan.store) or "."
        if os.path.exists(folder) and os.stat(folder).st_uid != os.geteuid():
            self.say(f"{folder} belongs to another user, as of a node: what is made there belongs to you, and that user may not be able to open it")
        with self._alone(folder):
            if self.plan.site in self.plan.lost:
                self.build(wait)
            else:
                self.move()

    @contextlib.contextmanager
    def _alone(self, folder: str) -> Iterator[None]:
        """Keeps other calls for this store out, which would write the same files."""
        if not os.path.exists(folder):
            yield
            return
        with open(self._file("lock"), "ab") as lock:
            try:
                fcntl.flock(lock, fcntl.LOCK_EX | fcntl.LOCK_NB)
            except BlockingIOError:
                self._refuse(f"another call is at work at {self.plan.store}")
            self._lock = lock.fileno()
            yield

    # A site that is left

    def move(self) -> None:
        """Moves the site, unless it is, and publishes the text of the move."""
        text = self._kept_text()
        self._refuse_late(is_moved=text is not None)
        if text is None:
            text = self._moved()
        name = self._ask(self.plan.to)[0]
        if name not in ("", "InUse"):
            self._refuse(f"{self.plan.store} can't be opened in {self.plan.to}, though {self._file('moved')} tells that it was moved: {name}")
        self.say(f"site {self.plan.site} is in {self.plan.to}")
        self._publish(text)
        self.say(f"its text is published. Serve it with --group {self.plan.to} from now on")
        self._gather_all()
        self._tell_steps([site for site in self.left if site != self.plan.site])

    def _refuse_late(self, is_moved: bool) -> None:
        """Refuses a site that was built again, and a store without which some site was."""
        self._gather_all()
        without = [site for site, note in self.built.items() if str(self.plan.site) in note.split(" ")[0].split(",")]
        if not without and (is_moved or not os.path.exists(self._file("texts"))):
            return
        name = self._ask(self.plan.to)[0]
        if name == "InUse":
            self._refuse(f"{self.plan.store} is served: end its node or service, and call this again")
        if name == "" and not is_moved:
            self._refuse(f"{self.plan.store} is in {self.plan.to}, where site {self.plan.site} was built again: if it is what was built, name the site by --lost")
        if without:
            self._refuse(f"site {without[0]} was built again in {self.plan.to} without {self.plan.store}, which is lost since then: never serve it, and delete "
                         "it with all copies")

    def _kept_text(self) -> Optional[str]:
        """The text that an earlier call has kept, or that the move left as the call died."""
        for ending in ("moved", "moved.part"):
            try:
                text = pathlib.Path(self._file(ending)).read_text(encoding="utf-8").rstrip("\n")
            except (FileNotFoundError, UnicodeDecodeError):
                continue
            if self._sender(text, self._words()) == self.plan.site:
                return self._keep(text)
        return None

    def _words(self) -> List[str]:
        """The marks of texts that do: of several lost sites each is built of the texts of the moves alone."""
        return [f"{self.plan.to}:moved", *([] if len(self.plan.lost) > 1 else [self.plan.to])]

    def _keep(self, text: str) -> str:
        """Keeps the text of the move on the disk."""
        _write(self._file("moved"), text + "\n")
        pathlib.Path(self._file("moved.part")).unlink(missing_ok=True)
        return text

    def _moved(self) -> str:
        """Has the program move the store. Its output goes straight into a file: so it is there even if this process dies."""
        if generation(self.old) > 1 and self._ask(self.old)[0] not in ELSEWHERE and not self.confirm(
                f"Each site that is left is in {self.old} by now: no store of one is still in {before(self.old)}"):
            self._refuse(f"site {self.plan.site} was not moved, since this was not confirmed")
        part = self._file("moved.part")
        with open(part, "wb") as output:
            status, name = self._run("regroup", self.old, output=output.fileno())
        # The text is printed behind the commit: where it is whole the store is moved, whatever came behind it.
        text = self._kept_text()
        if text is not None:
            return text
        if status == 0:
            self._refuse(f"seat_cli regroup printed what is no text of site {self.plan.site}: see {part}")
        if not _is_sure(status, name):
            self._refuse(f"it is not known whether site {self.plan.site} was moved: {name}. Look at its disk and its path, and call this again")
        os.unlink(part)
        if name == "WrongGroup" and self._ask(self.plan.to)[0] in ("", "InUse"):
            return self._text_of_moved()
        why = {
            "InUse": "it is served: end its node or service, and call this again",
            "NoStore": f"no store is there. Look at the path first. If the site never began: seat_cli ask --create --site {self.plan.site} --store {self.plan.store} "
                       f"--group {self.old} .. send, and call this again. If it began, it is lost too: --lost {self.plan.site} at all sites",
            "WrongGroup": f"it is neither in {self.old} nor in {self.plan.to}",
            "NoGroup": "it is in no group, and only a site of a group can be moved",
            "Outdated": "it is an old copy: the site is lost, unless the newest store is put back",
            "WrongLayout": "it was made for another layout. If sites were added, serve it once with --grow, or give the layout that it knows",
        }
        self._refuse(f"site {self.plan.site} was not moved: {name}" + (f" ({why[name]})" if name in why else ""))

    def _text_of_moved(self) -> str:
        """A text of a site that was moved, where that of the move itself was lost."""
        if len(self.plan.lost) > 1:
            self._refuse(f"site {self.plan.site} is in {self.plan.to}, but the text of its move was lost, and several lost sites need it. Once all sites "
                         f"that are left are in {self.plan.to}, move all again: the same calls with --to {_behind(self.plan.to)}")
        if self.plan.lost and not self.confirm(self._never_there(*self.plan.lost)):
            self._refuse(f"site {self.plan.site} is in {self.plan.to}, but the text of its move was lost, and a later one does only where this is so. Else move all "
                         f"sites that are left on to {_behind(self.plan.to)}")
        name, text = self._ask(self.plan.to, "send")
        if name:
            self._refuse(f"site {self.plan.site} is in {self.plan.to}, but the text of its move was lost, and its store can't be opened: {name}. Call this again")
        if self._sender(text, self._words()) != self.plan.site:
            self._refuse(f"site {self.plan.site} is in {self.plan.to}, but the text of its move was lost, and it sends none: {text}. Call this again")
        return self._keep(text)

    # A lost site

    def build(self, wait: float) -> None:
        """Builds the lost site, unless it is built, and says so to the other lost ones."""
        if os.path.exists(self._file("other")):
            self._refuse_other()
        if self._ask(self.plan.to)[0] == "NoStore":
            if self._kept_text() is not None or os.path.exists(self._file("moved")):
                self._refuse(f"site {self.plan.site} was moved to {self.plan.to} before it was lost, as {self._file('moved')} tells. Move all sites that are left on to "
                             f"{_behind(self.plan.to)}, and build it there")
            if self._was_built():
                self._refuse(f"site {self.plan.site} was built again in {self.plan.to} here before, as {self._file('shown')} tells. If that store is lost too, "
                             f"all sites go on to {_behind(self.plan.to)}")
            end = time.monotonic() + wait
            while not self._gather_by(end) and time.monotonic() < end:
                time.sleep(PAUSE)
            self._gather_late()
            missing = self._tell_steps(self.left)
            self._compare_built(whole=not missing)
            if missing:
                self._refuse("call this again once these sites are moved")
            self._confirm_premises()
            # What came while the operator answered.
            self._gather_all()
            self._compare_built(whole=True)
            self._rebuild()
        name = self._ask(self.plan.to)[0]
        if name == "InUse" and not self._was_built():
            self._refuse(f"{self.plan.store} is served, and it is not known in which group: end its node or service, and call this again")
        if name not in ("", "InUse"):
            why = "Make the folder first" if name == "NoFolder" else "Nothing is built over a file"
            self._refuse(f"{self.plan.store} can't be opened as a store of site {self.plan.site} in {self.plan.to}: {name}. {why}")
        if not os.path.exists(self._file("texts")):
            self._refuse(f"{self.plan.store} is a store of site {self.plan.site} in {self.plan.to}, and was not built here: the site is not lost")
        self.say(f"site {self.plan.site} is built again in {self.plan.to}")
        self._publish(self._note())
        self.say(f"Serve it with --group {self.plan.to} from now on, and start its callers")
        self._gather()
        for site in self.plan.lost:
            if site != self.plan.site and site not in self.built:
                self.say(f"site {site}: is still to be built, at its machine")

    def _gather(self) -> bool:
        """Takes the texts that have arrived. Says whether all are there."""
        for text in self._messages():
            sender = self._sender(text, self._words())
            if sender in self.left and (sender not in self.texts or text.startswith(f"{self.plan.to}:moved ")):
                self.texts[sender] = text
            lost = self._sender(text, [f"{self.plan.to}:moved", self.plan.to])
            if lost in self.plan.lost:
                self.moved.add(lost)
            found = re.fullmatch(r"(\S+):built ([0-9]{1,2}) (.+)", text)
            if found and found[1] == self.plan.to:
                self.built[int(found[2])] = found[3]
        return len(self.texts) == len(self.left)

    def _gather_by(self, end: float) -> bool:
        """The same. Until that time it does no harm that the channel fails, as while a broker is started again."""
        try:
            return self._gather()
        except NotDone:
            if time.monotonic() < end:
                return False
            raise

    def _gather_all(self) -> None:
        """Takes all texts that are there, also those that come a moment later. Behind those that are new a folder tells which it can't
        read."""
        self._gather()
        self._gather()
        self._gather_late()

    def _gather_late(self) -> None:
        """Takes what comes a moment later over a channel that tells when it comes. One that has failed by then is told of."""
        if hasattr(self.transport, "listen"):
            for _ in range(2):
                time.sleep(PAUSE)
                self._gather()

    def _tell_steps(self, sites: Sequence[int]) -> List[int]:
        """Says which of these sites are moved, and what is to be done at the others; gives these."""
        missing = [site for site in sites if site not in self.texts]
        for site in sites:
            self.say(f"site {site}: {'no text of its move yet' if site in missing else 'is moved, and its text is here'}")
        for site in self.plan.lost:
            self.say(f"site {site}: is lost{', and built again' if site in self.built else ''}")
        if missing:
            lost = "".join(f" --lost {site}" for site in self.plan.lost)
            self.say(f"to do at the machine of each such site, once its node or service is ended: zinduroi recover --to {self.plan.to}{lost} ..")
        return missing

    def _compare_built(self, whole: bool) -> None:
        """Refuses a site that was in the new group before it was lost, and what contradicts the sites that are built again; their
        texts only if these are whole."""
        for site in self.moved:
            self._refuse(f"site {site} was in {self.plan.to} when it was lost. Move all sites that are left on to {_behind(self.plan.to)}, and build it there")
        for site, note in self.built.items():
            if site == self.plan.site:
                self._refuse(f"site {site} was built again in {self.plan.to} before. If that store is lost too, all sites go on to {_behind(self.plan.to)}")
            wanted = self._built_of() if whole else self._built_of().split(" ")[0]
            if wanted != (note if whole else note.split(" ")[0]):
                self._refuse(f"site {site} was built again of other texts, or with another list of lost sites ({note.split(' ')[0]}). Stop all sites, and "
                             f"go on to {_behind(self.plan.to)}")

    def _confirm_premises(self) -> None:
        """Has the operator confirm what no program can see."""
        lost = " and ".join(map(str, self.plan.lost))
        for premise in (
            f"The store of site {lost} is lost for good. No copy of it is served, now or later, and its callers have ended",
            f"The group has had no sites but 0 to {self.layout.sites - 1}, which {self.plan.layout or 'the built-in layout'} names",
            f"The sites that are left were stopped when they were moved, and their stores are the newest ones. No other sites ever used the name {self.plan.to}, "
            f"and no site has gone on to {_behind(self.plan.to)}",
            self._never_there(self.plan.site),
        ):
            if not self.confirm(premise):
                self._refuse("nothing was built, since this was not confirmed")

    def _never_there(self, *sites: int) -> str:
        """The premise that lost sites were not in the new group."""
        return f"Site {' and '.join(map(str, sites))} was never in {self.plan.to} before, on no machine: neither moved there nor built again there"

    def _rebuild(self) -> None:
        """Has the program make the store. What it is made of is kept first."""
        _write(self._file("texts"), "".join(self.texts[site] + "\n" for site in sorted(self.texts)))
        others = [word for site in self.plan.lost if site != self.plan.site for word in ("--lost", str(site))]
        with open(self._file("texts"), "rb") as texts, open(self._file("shown"), "w+b") as output:
            status, name = self._run("rebuild", self.plan.to, *others, output=output.fileno(), texts=texts.fileno())
            output.seek(0)
            shown = output.read().decode("utf-8", "replace").strip()
        if status != 0 and name != "Exists":
            if not _is_sure(status, name):
                self._refuse(f"it is not known whether site {self.plan.site} was built: {name}. Call this again here, and build it at no other machine")
            if status in SURE:
                # No store was made of these texts, so none that turns up here may be taken for such a one.
                os.unlink(self._file("texts"))
            # A refused input is told by the output.
            self._refuse(f"site {self.plan.site} was not built: {shown if status == WRONG_INPUT and shown else name}")
        self.say(shown)
        told = re.search(r"^texts ([0-9a-f]+)$", shown, re.M)
        if told is not None and told[1] != self._built_of().split(" ")[1]:
            os.replace(self._file("texts"), self._file("other"))
            self._refuse_other()

    def _was_built(self) -> bool:
        """Whether the program has told here what the site got, which it does behind the commit."""
        try:
            shown = pathlib.Path(self._file("shown")).read_text(encoding="utf-8", errors="replace")
        except FileNotFoundError:
            return False
        return re.search(r"^\S+ rights [0-9]", shown, re.M) is not None

    def _refuse_other(self) -> NoReturn:
        self._refuse(f"site {self.plan.site} was built of other texts than those in {self._file('other')}: don't serve it. Move all sites that "
                     f"are left on to {_behind(self.plan.to)}, and build it there")

    def _built_of(self) -> str:
        """The lost sites, and the digest of the texts, in order of sites; for a site that is lost alone only the first."""
        lost = ",".join(map(str, sorted(self.plan.lost)))
        data = "".join(MARK.fullmatch(self.texts[site])[4] + "\n" for site in sorted(self.texts))  # type: ignore[index]
        return lost if len(self.plan.lost) == 1 else f"{lost} {_digest(data, 16)}"

    def _note(self) -> str:
        """What says to the others that the site is built, and of what."""
        if not self.texts:
            for text in pathlib.Path(self._file("texts")).read_text(encoding="utf-8").splitlines():
                sender = self._sender(text, [f"{self.plan.to}:moved", self.plan.to])
                assert sender is not None
                self.texts[sender] = text
        if sorted(self.texts) != self.left:
            known, left = (", ".join(map(str, sites)) for sites in (sorted(self.texts), self.left))
            self._refuse(f"site {self.plan.site} was built of the texts of sites {known}, and here {left} are left: give the --lost and the layout of then")
        return f"{self.plan.to}:built {self.plan.site} {self._built_of()}"

    # Both

    def _sender(self, text: str, words: Sequence[str]) -> Optional[int]:
        """The site that made a text with such a mark; `None` where it has none or is damaged."""
        found = MARK.fullmatch(text)
        if not found or found[1] not in words or found[3] != _digest(found[4], 8):
            return None
        try:
            sender = json.loads(found[4])["from"]
        except (ValueError, TypeError, KeyError):
            return None
        return sender if type(sender) is int else None

    def _file(self, ending: str) -> str:
        return f"{self.plan.store}.{self.plan.to}.{ending}"

    def _messages(self) -> List[str]:
        try:
            return [text.rstrip("\n") for text in self.transport.messages()]
        except (OSError, TransportFailed) as failed:
            raise NotDone(f"texts can't be fetched: {failed}") from None

    def _publish(self, text: str) -> None:
        try:
            self.transport.publish(self.plan.site, text)
        except (OSError, TransportFailed) as failed:
            raise NotDone(f"the text can't be published: {failed}. Call this again once it can") from None

    def _run(self, verb: str, group: str, *more: str, output: Optional[int] = None, texts: int = subprocess.DEVNULL) -> Tuple[int, str]:
        """Runs the program; gives its status and why it ended so."""
        plan = self.plan
        words = command(plan.program, verb, f"--site={plan.site}", "--store", plan.store, "--group", group,
                        *(["--layout", plan.layout] if plan.layout is not None else []), *more)
        # The lock lasts as long as the program, even if this process dies.
        ran = subprocess.run(words, stdin=texts, stdout=output, stderr=subprocess.PIPE, check=False, pass_fds=() if self._lock is None else (self._lock,))
        return ran.returncode, _why(ran.returncode, ran.stderr)

    def _ask(self, group: str, *call: str) -> Tuple[str, str]:
        """Why the store can't be opened in a group, or nothing and the reply to a call."""
        plan = self.plan
        words = command(plan.program, "ask", f"--site={plan.site}", "--store", plan.store, "--group", group,
                        *(["--layout", plan.layout] if plan.layout is not None else []), *(call or ("show", self.layout.records[0].name)))
        ran = subprocess.run(words, stdin=subprocess.DEVNULL, capture_output=True, check=False)
        return "" if ran.returncode in ANSWERED else _why(ran.returncode, ran.stderr), ran.stdout.decode("utf-8", "replace").rstrip("\n")

    def _refuse(self, why: str) -> NoReturn:
        raise NotDone(why)


def _is_sure(status: int, name: str) -> bool:
    """Whether the program has changed no store, behind an end of this status and name."""
    return status in SURE or status == NO_STORE and name != PERHAPS and NAME.fullmatch(name) is not None


def _why(status: int, errors: bytes) -> str:
    """Why the program ended with a status, by what it said: the name of a store's refusal, an error of its arguments, or its last line, since
    a launcher may have said something before."""
    said = [line for line in errors.decode("utf-8", "replace").splitlines() if line]
    names = [line.removeprefix("store refused ") for line in said if line.startswith("store refused ")]
    wrong = [line for line in said if line.startswith("error: ")]
    return (names[:1] + wrong[:1] + said[-1:] + [f"status {status}"])[0]


def _behind(group: str) -> str:
    return f"{group.partition('.')[0]}.{generation(group) + 1}"


def _digest(text: str, digits: int) -> str:
    return hashlib.sha256(text.encode("utf-8")).hexdigest()[:digits]


def _write(path: str, text: str) -> None:
    """Puts a text into a file, whole or not at all, and on the disk."""
    part = f"{path}.new"
    with open(part, "w", encoding="utf-8") as file:
        file.write(text)
        file.flush()
        os.fsync(file.fileno())
    os.replace(part, path)
    folder = os.open(os.path.dirname(path) or ".", os.O_RDONLY)
    try:
        os.fsync(folder)
    finally:
        os.close(folder)
