"""Which program the scripts of this folder run: the one that RTLSYN_PROGRAM names, or else the one that was built here."""
import os
import resource

TOP = os.path.dirname(os.path.dirname(os.path.abspath(__file__)))
BUILT = os.path.join(TOP, 'crates/rtlsyn/out/rtlsyn')
PROGRAM = os.environ.get('RTLSYN_PROGRAM') or BUILT


def is_there() -> bool:
    """Whether there is a program that can be run."""
    return os.access(PROGRAM, os.X_OK)


def give_stack() -> None:
    """Lets programs that are started from now on have as much stack as the script `rtlsyn` gives them."""
    wanted = 4 << 30
    _, most = resource.getrlimit(resource.RLIMIT_STACK)
    if most != resource.RLIM_INFINITY:
        wanted = min(wanted, most)
    resource.setrlimit(resource.RLIMIT_STACK, (wanted, most))
