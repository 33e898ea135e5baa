"""A client of `rococo` clusters for Python programs: calls procedures and views as a coordinator does, over the cluster's datagrams.

**This package is not proved.** The headline of the program speaks of its own coordinators; this one is written after the same rules
(docs/PROTOCOL.md) and tested against them: see the README beside it, which says how."""
from .client import Call, Client
from .errors import ClusterError, RefusedCall, RococoError, StateError, Unanswered, WorkloadError
from .workload import Workload

__all__ = ["Call", "Client", "ClusterError", "RefusedCall", "RococoError", "StateError", "Unanswered", "Workload", "WorkloadError"]
