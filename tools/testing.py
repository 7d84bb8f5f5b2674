"""What the tests of the tools share: a list of tests, a comparison, and the count at the end."""
import sys

TESTS = []


def test(function):
    TESTS.append(function)
    return function


def same(found, expected):
    assert found == expected, f"{found!r} is not {expected!r}"


def main():
    """Runs the tests. The last line says how many passed; the status is 0 where all did, otherwise 1."""
    failed = 0
    for function in TESTS:
        try:
            function()
        except Exception as problem:  # Whatever goes wrong is the test's failure.
            failed += 1
            print(f"failed: {function.__name__}: {type(problem).__name__}: {problem}")
    print(f"{len(TESTS) - failed} passed, {failed} failed")
    sys.exit(1 if failed else 0)
