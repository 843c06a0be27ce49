"""An answer in the form that `entry-lines` prints, made from the Rust's answers to the case."""

from told.judge import difference, given
from told.lines import Answer

from .messages import retold


def answer(case, oracle, watched):
    """The line. What is retold must give the Rust's object again, by told/ and by what `compare` looks at."""
    early = case.refused_before()
    if early:
        return f"no {early} 0"
    if not oracle.startswith("some "):
        end, reach, _ = watched.split()
        return f"no {end} {reach}"
    end, reach, marks, records = retold(case, given(oracle), watched)
    need = len(records) * 5
    if need > case.room:
        return f"no 7 {reach} {need}"
    line = f"ok {end} {reach} {marks} {len(records)}" + "".join(";%d,%d,%d,%d,%d" % record for record in records)
    fault = difference(case, oracle, Answer.of(line), watched)
    if fault:
        raise SystemExit(f"retold otherwise: {fault}\n{case}\n{oracle}\n{line}")
    return line
