"""Many clients at once: their entries go to the offices as joined lists, and each answer is that of its entry alone. No
reading meanwhile is older than it says."""
from __future__ import annotations

import random
import time

from replicas.acts import BEGIN
from replicas.checks import Archivist, stale
from replicas.cluster import Cluster
from kit.judging import judge
from replicas.traffic import Traffic
from replicas.verdict import whole

CLIENTS, READERS, SECONDS = 16, 3, 15
LIMIT = 30
"""the usual value of `age_limit`"""


def number(cluster: Cluster, name: str) -> int:
    """The sum of a number of all members' metrics."""
    return sum(cluster.metrics(it).get(f"office_member_{name}", 0) for it in range(cluster.count))


def together(cluster: Cluster) -> None:
    """Acts of all kinds, bodies that are no acts and resumptions from many clients; then a replay, entry by entry."""
    cluster.start_all()
    source, log, traffic = random.Random(11), Archivist(cluster), Traffic(cluster, 11, CLIENTS, READERS)
    log.start()
    traffic.send_acts(source, BEGIN)
    traffic.start()
    time.sleep(SECONDS)
    traffic.stop()
    joined, appended, transactions = (number(cluster, it) for it in (
        "joined_entries_total", "appended_total", "append_transactions_total"))
    judge("together: requests shared transactions, and entries went to the offices together",
          appended > transactions > 0 and joined > 0,
          f"{appended} requests in {transactions} transactions, {joined} joined at three offices", always=True)
    whole(cluster, traffic, log, "together", all_kinds=False)
    found = stale(traffic, LIMIT)
    judge(f"together: none of {len(traffic.reads):,} readings lacks what was answered before its age",
          len(traffic.reads) > 50 and not found, "\n    ".join([str(len(found)), *found[:5]]))
