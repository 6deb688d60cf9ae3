"""Graphs as large as pages have to hold."""
from sdf3companion.writing import Row, graph_text


def hundred_actors() -> str:
    """A chain of 100 actors, of which a few are slow."""
    times = {f"stage {number}": {30: 10, 31: 7, 70: 10}.get(number, 1 + number % 3) for number in range(100)}
    names = list(times)
    return graph_text("sdf", times, [Row(f"link {number}", names[number], 1, names[number + 1], 1) for number in range(99)])


def thousand_points() -> str:
    """A reader that puts 1,000 samples at once and takes as long as a filter needs for all of them: each place more in the buffer lets the
    reader begin one sample earlier, so that there are 1,001 points."""
    return graph_text("sdf", {"reader": 1000, "filter": 1}, [Row("samples", "reader", 1000, "filter", 1)])
