"""Counts checks; a failed one is shown at once."""

passed = 0
failed = 0


def check(good, what):
    global passed, failed
    if good:
        passed += 1
    else:
        failed += 1
        print(f"node: FAILED: {what}", flush=True)


def equal(found, expected, what):
    check(found == expected, f"{what}:\n  found    {found!r}\n  expected {expected!r}")


def end():
    """The exit status."""
    if failed or not passed:
        print(f"node: {failed} checks failed, {passed} passed")
        return 1
    print(f"node: {passed} checks passed")
    return 0
