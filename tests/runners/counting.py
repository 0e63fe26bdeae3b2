"""How each kind of tests tells what it read, and what passed."""
import sys


def told(kind, passed, failed, more="", least=1):
    """Prints the last line of a run, and returns its exit status: 1 if one failed, or fewer passed than the least."""
    print(f"{kind}: {passed} passed, {failed} failed{more}")
    return int(failed > 0 or passed < least)


def checked(kind, count, wrong):
    """Prints what is wrong, a line each, and how many were read; returns the exit status."""
    for it in wrong:
        print(it)
    print(f"{kind}: {count} read, {len(wrong)} wrong")
    return int(bool(wrong))


def refuse(kind, why):
    """Ends with a line that says why nothing can be run."""
    print(f"{kind}: {why}")
    sys.exit(1)


def chosen(kind, names, known):
    """Returns the names that are given, or all where none is; one that isn't known ends the run."""
    for it in names:
        if it not in known:
            refuse(kind, f"none is called {it}")
    return list(dict.fromkeys(names)) or list(known)
