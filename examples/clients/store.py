"""What the recipes share: a client of a group, by pymemcache."""
import time

from pymemcache.client.base import Client
from pymemcache.exceptions import MemcacheServerError, MemcacheUnexpectedCloseError

# what a request that was told one of these may have done can be seen by looking again; one that was told `busy` has done nothing
UNKNOWN = (b"aborted", b"outcome unknown")


class Unclear(Exception):
    """An update of which it is not known whether it was made: look again before making another."""


class Store:
    """Asks the first of some nodes that answers, and asks again while a key is busy."""

    def __init__(self, nodes, patience=10.0):
        self.nodes = [(host, int(port)) for host, _, port in (node.rpartition(":") for node in nodes.split(","))]
        self.patience = patience
        self.client = None

    def connected(self):
        """A client of the first node that takes a connection. Each reply is waited for: what is refused must be seen."""
        for node in self.nodes:
            client = Client(node, default_noreply=False, connect_timeout=1, timeout=self.patience)
            try:
                client.version()
                return client
            except OSError:
                client.close()
        raise ConnectionError("no node answers")

    def once(self, command, *words):
        """Asks once. A connection that ends leaves open whether the request was taken."""
        if self.client is None:
            self.client = self.connected()
        try:
            return getattr(self.client, command)(*words)
        except (OSError, MemcacheUnexpectedCloseError) as lost:
            self.client.close()
            self.client = None
            # the node that was lost comes last from now on
            self.nodes = self.nodes[1:] + self.nodes[:1]
            raise Unclear(str(lost)) from lost

    def ask(self, command, *words):
        """Asks until the key is not busy; reads are asked again at another node too."""
        end = time.monotonic() + self.patience
        while True:
            try:
                return self.once(command, *words)
            except Unclear:
                if not command.startswith("get") or time.monotonic() > end:
                    raise
            except MemcacheServerError as told:
                if told.args[0] in UNKNOWN:
                    raise Unclear(told.args[0].decode()) from told
                if told.args[0] != b"busy" or time.monotonic() > end:
                    raise
            time.sleep(0.005)

    def change(self, command, *words):
        """Makes an update that the caller looks for afterwards, whatever it was told."""
        try:
            self.ask(command, *words)
        except Unclear:
            pass
