"""Asks the proved analyser sdf3analysis about dataflow graphs, and arranges its answers: a library, and the subcommands over it. It isn't
proved itself."""
from sdf3companion.answers import Completion, NeedCycle, Schedule, Step, WorstRate
from sdf3companion.api import (Claimed, Fastest, Gain, Pareto, Throughput, TradeOff, adapted, check, check_again, claim, complete, fastest, graph, repetition,
                               scenario, throughput, tradeoff, what_if)
from sdf3companion.faults import Fault
from sdf3companion.graphs import Graph

__all__ = ["Claimed", "Completion", "Fastest", "Fault", "Gain", "Graph", "NeedCycle", "Pareto", "Schedule", "Step", "Throughput", "TradeOff",
           "WorstRate", "adapted", "check", "check_again", "claim", "complete", "fastest", "graph", "repetition", "scenario", "throughput", "tradeoff",
           "what_if"]
