"""What gateways count of their requests."""
from __future__ import annotations

from collections import Counter
from typing import Counter as Counted
from typing import List, Optional, Tuple

from ..metrics import BOUNDS, Family, Sample, Seconds


class Counts:
    """Its keys are methods, statuses and codes that this program knows, so no memory grows with requests."""

    def __init__(self) -> None:
        self.requests: Counted[Tuple[str, int]] = Counter()
        self.errors: Counted[str] = Counter()
        self.taken, self.given = 0, 0  # bytes of bodies
        self.seconds = Seconds()

    def add(self, method: str, status: int, code: Optional[str], seconds: float) -> None:
        self.requests[method, status] += 1
        self.seconds.add(seconds)
        if code is not None:
            self.errors[code] += 1

    def families(self) -> List[Family]:
        """The counts as metrics."""
        requests = [Sample("", {"method": method, "status": str(status)}, count)
                    for (method, status), count in sorted(self.requests.items())]
        bounds = [*zip(map(str, BOUNDS), self.seconds.counts), ("+Inf", self.seconds.count)]
        seconds = [Sample("_bucket", {"le": bound}, count) for bound, count in bounds]
        seconds += [Sample("_sum", {}, self.seconds.sum), Sample("_count", {}, self.seconds.count)]
        return [
            Family("s4_store_requests_total", "counter", "Requests that were answered.", requests),
            Family("s4_store_errors_total", "counter", "Requests that were answered by an error.",
                   [Sample("", {"code": code}, count) for code, count in sorted(self.errors.items())]),
            Family("s4_store_taken_bytes_total", "counter", "Bytes of bodies that came.", [Sample("", {}, self.taken)]),
            Family("s4_store_given_bytes_total", "counter", "Bytes of bodies of answers.", [Sample("", {}, self.given)]),
            Family("s4_store_answer_seconds", "histogram", "Seconds until an answer begins.", seconds),
        ]
