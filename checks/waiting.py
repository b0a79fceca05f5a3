"""How the checks wait for the program."""

import subprocess


def finished(child: "subprocess.Popen[bytes]", seconds: float) -> tuple[bytes, bytes]:
    """What a child has printed on both outputs, once it has ended.

    Raises TimeoutError if it does not end. A machine that is held still lets a wait pass in which
    the child could not run, so the child gets two.
    """
    for _ in range(2):
        try:
            return child.communicate(timeout=seconds)
        except subprocess.TimeoutExpired:
            pass
    child.kill()
    child.communicate()
    raise TimeoutError(f"it did not end within {2 * seconds} s")
