"""A node: a site that many programs of a machine use, through a Unix socket.

The program `seat_cli` alone decides who is inside. The node carries lines to it, and leaves for callers whose connection has
ended. `NodeClient` is a connection to it, for programs in Python."""
from .client import NodeClient, NodeGone

__all__ = ["NodeClient", "NodeGone"]
