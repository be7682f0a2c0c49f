"""What a bridge counts, as the text that Prometheus reads."""
from __future__ import annotations

from collections import Counter
from typing import Counter as Counted
from typing import Dict, Iterable, List, NamedTuple, Optional, Sequence, Tuple, Union

from .pace import Used
from .rows import Info

BOUNDS = (0.001, 0.003, 0.01, 0.03, 0.1, 0.3, 1.0, 3.0, 10.0)  # seconds to a reply


class Seconds:
    """How many replies took at most as long as each bound, and how long all took together."""

    def __init__(self) -> None:
        self.counts, self.sum, self.count = [0] * len(BOUNDS), 0.0, 0

    def add(self, seconds: float) -> None:
        self.sum += seconds
        self.count += 1
        for place, bound in enumerate(BOUNDS):
            self.counts[place] += seconds <= bound


class Counts:
    """The counts of one role. Their keys are few texts, so no memory grows with sessions or requests."""

    def __init__(self) -> None:
        self.sessions = 0  # that are open now
        self.requests: Counted[str] = Counter()
        self.refusals: Counted[str] = Counter()
        self.lost: Counted[str] = Counter()  # requests that were passed on, and whose reply didn't come
        self.ended: Counted[str] = Counter()  # sessions, by their ends
        self.turned_away: Counted[str] = Counter()  # clients that got no session
        self.seconds = Seconds()


class Sample(NamedTuple):
    """A line: what follows the family's name, the labels, and the value."""

    suffix: str
    labels: Dict[str, str]
    value: Union[int, float]


class Family(NamedTuple):
    """A metric, and its samples."""

    name: str
    kind: str
    help: str
    samples: List[Sample]


def escaped(text: str) -> str:
    return text.replace("\\", "\\\\").replace('"', '\\"').replace("\n", "\\n")


def lines_of(family: Family) -> List[str]:
    """The lines of a metric; none where it has no samples."""
    if not family.samples:
        return []
    lines = [f"# HELP {family.name} {family.help}", f"# TYPE {family.name} {family.kind}"]
    for suffix, labels, value in family.samples:
        inside = ",".join(f'{name}="{escaped(text)}"' for name, text in labels.items())
        lines.append(f"{family.name}{suffix}{{{inside}}} {value}" if inside else f"{family.name}{suffix} {value}")
    return lines


def text_of(families: Iterable[Family]) -> str:
    return "".join(f"{line}\n" for family in families for line in lines_of(family))


def gauge(name: str, help: str, values: Dict[str, Union[int, float]]) -> Family:
    """A number of each role."""
    return Family(name, "gauge", help, [Sample("", {"role": role}, value) for role, value in values.items()])


def counter(name: str, help: str, label: str, counted: Dict[str, Counted[str]]) -> Family:
    """Counts of each role by a label."""
    samples = [Sample("", {"role": role, label: key}, value)
               for role, counts in counted.items() for key, value in sorted(counts.items())]
    return Family(name, "counter", help, samples)


def histogram(name: str, help: str, seconds: Dict[str, Seconds]) -> Family:
    samples: List[Sample] = []
    for role, each in seconds.items():
        bounds: List[Tuple[str, int]] = [*zip(map(str, BOUNDS), each.counts), ("+Inf", each.count)]
        samples += [Sample("_bucket", {"role": role, "le": bound}, count) for bound, count in bounds]
        samples += [Sample("_sum", {"role": role}, each.sum), Sample("_count", {"role": role}, each.count)]
    return Family(name, "histogram", help, samples)


def of_bridge(counts: Dict[str, Counts], waiting: Dict[str, int], lines_lost: int) -> List[Family]:
    """What the bridge knows of itself."""
    each = counts.items()
    requests, refusals = {role: it.requests for role, it in each}, {role: it.refusals for role, it in each}
    lost, ended = {role: it.lost for role, it in each}, {role: it.ended for role, it in each}
    turned_away, seconds = {role: it.turned_away for role, it in each}, {role: it.seconds for role, it in each}
    return [
        gauge("s4_bridge_sessions", "Sessions that are open.", {role: it.sessions for role, it in each}),
        gauge("s4_bridge_waiting", "Clients that wait for a session.", dict(waiting)),
        counter("s4_bridge_requests_total", "Requests that were answered or lost.", "request", requests),
        counter("s4_bridge_refusals_total", "Requests that were refused.", "refusal", refusals),
        counter("s4_bridge_lost_total", "Requests that were passed on and got no reply.", "request", lost),
        counter("s4_bridge_ended_total", "Sessions that ended.", "end", ended),
        counter("s4_bridge_turned_away_total", "Clients that got no session.", "why", turned_away),
        histogram("s4_bridge_reply_seconds", "Seconds from a request to its reply.", seconds),
        Family("s4_bridge_log_lines_lost_total", "counter", "Lines of the access log that couldn't be written.",
               [Sample("", {}, lines_lost)]),
    ]


def of_peers(used: Iterable[Used]) -> List[Family]:
    """What each peer uses. They are few: a bridge forgets who hasn't come for long, and sums up what those used."""
    all_used = list(used)

    def family(name: str, kind: str, help: str, values: Sequence[Union[int, float]]) -> Family:
        samples = [Sample("", {"role": it.role, "peer": it.peer}, value) for it, value in zip(all_used, values)]
        return Family(f"s4_bridge_peer_{name}", kind, help, samples)

    return [
        family("sessions", "gauge", "Sessions of a peer that are open.", [it.sessions for it in all_used]),
        family("changes_total", "counter", "Changes of a peer that were passed on.", [it.changes for it in all_used]),
        family("change_bytes_total", "counter", "Bytes of these.", [it.bytes for it in all_used]),
        family("waited_seconds_total", "counter", "Seconds that its changes waited for its share.", [round(it.waited, 6) for it in all_used]),
    ]


def of_drive(info: Optional[Info]) -> List[Family]:
    """What `s4 info` says of the image: none of it where it can't be read."""
    families = [of_image("readable", "Whether the image could be read.", int(info is not None))]
    if info is None:
        return families
    numbers = (
        ("clock", "The drive's clock, a moment.", info.clock),
        ("floor", "The earliest moment that can be read.", info.floor),
        ("window", "The window, in moments.", info.window),
        ("room_blocks", "Blocks of 512 bytes that changes may append.", info.room),
        ("frames", "Frames of the drive.", info.frames),
        ("free_frames", "Frames that are free.", info.free),
        ("retired_frames", "Frames that hold nothing and are written no more.", info.retired),
    )
    return families + [of_image(*number) for number in numbers]


def of_image(name: str, help: str, value: int) -> Family:
    """A number of the image."""
    return Family(f"s4_drive_{name}", "gauge", help, [Sample("", {}, value)])
