"""What a run of the simulation is made of, and which faults it has."""
from __future__ import annotations

from dataclasses import dataclass

# Faults that keep every premise of docs/SERVICE.md. Each may be switched on by itself.
FAULTS = {
    "clocks": "clocks of hosts and stores differ, and drift, within the margin",
    "waits": "calls wait for certificates before they claim",
    "lost": "requests and answers of a store are lost, or the connection ends before they come",
    "late": "requests and answers of a store come late, some after the claim has ended",
    "partitions": "a service doesn't reach a store for some seconds",
    "hangs": "a store does nothing for some seconds, and then all that was asked",
    "restarts": "a service ends, loses its memory and comes back",
    "callers": "answers to callers are lost, and asked for again",
    "disk": "a store dies and comes back with all that it answered (appendfsync always)",
    "planned": "a replica takes over once it has all (FAILOVER)",
    "closed": "a replica takes over without the last writes, and is closed for the life of a ticket",
    "full": "a store has no room, and says so (noeviction)",
}

# Each breaks one premise, and what else is asked is kept.
BROKEN = {
    "failover": "a replica takes over at once, without the last writes",
    "empty": "a store comes back without what it had",
    "slow": "one host's clock is further behind than the margin",
    "leap": "a store's clock leaps ahead by more than the margin",
    "evicts": "a store drops tickets and says noeviction",
    "split": "two nodes of a shard take writes, each from a part of the services",
    "unasked": "one service keeps its tickets to itself",
    "lists": "one service has the shards in another order",
    "moments": "a call is judged again by the moment at which it came (--moments asked)",
    "keys": "the key of a request is made of what the caller chooses",
}


@dataclass(frozen=True)
class Settings:
    """One run."""

    seed: int = 1
    services: int = 8
    shards: int = 3
    replicas: int = 1
    calls: int = 1000
    # How long calls come, in seconds.
    seconds: int = 150
    # Which part of the calls is sent again by somebody who copied it.
    copied: float = 0.6
    past: int = 60
    future: int = 5
    # By so many seconds two clocks differ at most.
    margin: float = 10.0
    # So long a call waits for certificates and codes at most, in seconds: `--fetch-wait` may be ten, and codes take one.
    wait: float = 11.0
    faults: frozenset[str] = frozenset(FAULTS)
    broken: str | None = None

    def end(self) -> int:
        """The second at which all has come."""
        return self.seconds + (220 if self.broken == "moments" else self.past + self.future + 30)

    def has(self, fault: str) -> bool:
        return fault in self.faults
