"""One process that holds the store and serves it to many nodes and clients.

A connection sends the lines of a script, and each is answered by one line, in order. So whoever can write a line and read one can be a
node. A connection needn't wait for an answer before it sends its next line. The hub hands a line on to the store and answers what the
store answered, never before. Beyond the lines of a script it knows these:

- `{"do":"hello","protocol":1}` is answered `hello 1 VERSION ID GENERATION`: the hub's version, and the team's id and generation;
- `{"do":"clock"}` is answered `clock N`, what the hub's clock shows; with `"accept":true` an operator has it believed;
- `{"do":"members"}` is answered `members` and the names of all members and of all nodes with a check-in;
- `{"do":"held","node":N}` is answered `held` and the entry numbers of what the node has acquired or executes;
- `{"do":"list"}` is answered `list N` and then N lines, those of `qz_sched list`;
- `{"do":"compact"}` has an operator's wish done that the stores be compacted, and is answered `compacted BEFORE AFTER MS`, with bytes before and after;
- `{"do":"team"}` is answered `rows N` and N objects where there are several hubs: the team's, with who leads, and one for each hub;
- `{"do":"where"}` is answered `where FOLDER`, the hub's folder on its machine, to operators;
- `{"do":"watch","ahead":MS}` is answered `ok`. From then on a line `wake N` comes, between two replies, when it is the turn of this connection, which
  speaks for a node, to acquire what is due at the moment N, so many ms before that; `wake N late` where that may be misfired. A `show_next` says that its
  node sleeps and has a free worker, and an `acquire` or `misfires` that it is awake. Who doesn't ask within 100 ms loses its turn to the next one;
- `{"do":"watch"}` is answered `ok`. From then on a line `wake` comes, between two replies, whenever something may be due sooner than
  the last `show_next` of this connection said. So nodes of before are woken, all of them.

A hub of several that stands by answers `hub standby ADDRESS` to all lines, the address of the one that leads or `none`.

Where the hub doesn't hand a line on, its answer begins with `hub`, a word, and says why: see `HubRefused`. New words may come at the end
of an answer of the hub's own; whoever reads one passes them over.
"""
from .rights import Grant
from .server import Hub, HubSettings

__all__ = ["Grant", "Hub", "HubSettings"]
