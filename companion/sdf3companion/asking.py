"""What most subcommands begin with: the analyser, and the graph of the file that is named."""
from __future__ import annotations

import argparse
from typing import Tuple

from sdf3companion import graphs, words
from sdf3companion.analyser import Analyser
from sdf3companion.graphs import Graph


def asked_graph(asked: argparse.Namespace) -> Tuple[Analyser, Graph]:
    """The analyser and the graph that words name. What the file says is taken where --use-file asks for it: its buffers, as if they were
    given, and as `asked.wanted` its throughput constraint. Buffers are spelled as the analyser reads them from here on."""
    analyser = Analyser(asked.program)
    graph = graphs.opened(analyser, asked.graph)
    asked.wanted = words.use_file(asked, graph)
    if getattr(asked, "buffers", None) is not None:
        asked.buffers = graphs.buffers_list(graph.buffers(asked.buffers))
    return analyser, graph
