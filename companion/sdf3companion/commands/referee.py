"""Judges somebody else's claim of a rate: confirmed with a certificate, or refuted with the true rate and what shows it.

The analyser gives the rate of the graph, with the buffers if there are any, and a certificate, which its `check` then has
to accept; `--certificate` keeps it, for whoever trusts nobody. Where the claim is too fast, the need cycle shows it: no
schedule can run its rounds in less time. Where it is too slow, the schedule does. A claim that was printed with so many
digits is written `~0.142857`: it is confirmed where the true rate, rounded to these digits, is what was printed.

Exit status 0 confirms a claim and 1 refutes it.

  sdf3companion referee examples/ring.xml --claim 1/5
  sdf3companion referee examples/chain.xml --no-overlap --buffers alpha=4,beta=2 --claim ~0.1429 --certificate chain.certificate
"""
from __future__ import annotations

import argparse
from typing import List

from sdf3companion import output, words
from sdf3companion.analyser import Rate
from sdf3companion.answers import shown
from sdf3companion.asking import asked_graph
from sdf3companion.claims import Claim
from sdf3companion.faults import NO, USAGE, Fault


def evidence(answer: Rate, verdict: str) -> List[str]:
    """What shows that a claim is wrong, in lines."""
    if verdict == "too slow":
        return ["the claim is too slow: this schedule is faster", *answer.schedule.lines()]
    cycle = answer.cycle
    rounds = "a round" if cycle.rounds == 1 else f"{cycle.rounds} rounds"
    return [f"the claim is too fast: by this need cycle no schedule runs {rounds} in less than {shown(cycle.time)} time units", *cycle.lines()]


def add_words(parser: argparse.ArgumentParser) -> None:
    words.add_graph(parser)
    parser.add_argument("--claim", type=Claim, metavar="RATE", help="1/7, 0.125, ~0.1429, 60/s@100MHz, by the file's times")
    parser.add_argument("--certificate", metavar="FILE", help="keep the certificate under this name")


def run(asked: argparse.Namespace) -> int:
    output.refuse_standard(asked.certificate, "the certificate's name")
    if asked.claim is None and not asked.use_file:
        raise Fault(USAGE, "the following arguments are required: --claim, or --use-file", more=["`referee --help` has the words"])
    analyser, graph = asked_graph(asked)
    if asked.claim is None and asked.wanted is None:
        raise Fault(USAGE, f"--use-file: {graph.label} has no throughput constraint to be judged; give --claim")
    claim = asked.claim if asked.claim is not None else Claim(words.fraction(asked.wanted))
    answer, accepted, certificate = analyser.certified(graph, words.passed_on(asked))
    verdict = claim.verdict(answer.rate)
    if asked.certificate is not None:
        output.put(asked.certificate, certificate)
        if graph.path is None:
            output.tell(f"{asked.certificate} is about the file that `adapt` makes of {graph.label}")
    if asked.json:
        words.as_json({"claim": claim.text, "verdict": verdict, "rate": answer.rate, "check": accepted,
                       "cycle": answer.cycle.document(), "schedule": vars(answer.schedule)})
    elif verdict == "confirmed":
        print(f"confirmed {words.fraction(answer.rate)}\n{accepted}")
    else:
        print(f"refuted {claim.text}\nrate {words.fraction(answer.rate)}\n{accepted}")
        print("\n".join(evidence(answer, verdict)))
    return 0 if verdict == "confirmed" else NO
