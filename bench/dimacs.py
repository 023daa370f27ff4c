"""Clause lists of the companion as files for solvers."""
import contextlib
import tempfile


@contextlib.contextmanager
def written(clauses):
    """The name of a file that holds the clauses, in the format of DIMACS."""
    with tempfile.NamedTemporaryFile("w", suffix=".cnf") as file:
        file.write(f"p cnf {clauses.variables} {len(clauses)}\n")
        for number in range(1, len(clauses) + 1):
            signed = [-(literal >> 1) if literal & 1 else literal >> 1 for literal in clauses.clause(number)]
            file.write(" ".join(map(str, [*signed, 0])) + "\n")
        file.flush()
        yield file.name
