"""Nodes, a hub and clients for the job scheduler Kemtrua.

A `Store` keeps one `qz_sched script` open. A `Hub` serves one to many nodes, each of which has a `Connection` to it. A `Node` runs jobs.
"""
__version__ = "0.4.0"

from .address import Address, Tls
from .commands import Command
from .connection import Connection
from .errors import (BadLine, BadSettings, HubRefused, KemtruaError, NotJoined, ProgramEnded, Refused, StoreClosed, StoreFault, StoreLocked,
                     Unanswered, Unreachable)
from .hub import Grant, Hub, HubSettings
from .jobs import Code, Context, Job, Retry
from .names import Key
from .node import Node, Work
from .store import Store

__all__ = ["Address", "BadLine", "BadSettings", "Code", "Command", "Connection", "Context", "Grant", "Hub", "HubRefused", "HubSettings", "Job", "KemtruaError", "Key",
           "Node", "NotJoined", "ProgramEnded", "Refused", "Retry", "Store", "StoreClosed", "StoreFault", "StoreLocked", "Tls", "Unanswered",
           "Unreachable", "Work"]
