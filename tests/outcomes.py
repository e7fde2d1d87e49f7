"""What comes of a check: None where all is well, else what is wrong, or that it was skipped and why."""
import shutil
import subprocess
import tempfile


class Skipped(Exception):
    """A check can't be made here, since a program isn't there."""


def need(*programs):
    """Skips the check where one of the programs that it needs isn't on the path."""
    missing = [program for program in programs if not shutil.which(program)]
    if missing:
        raise Skipped(f"{' and '.join(missing)} not found")


def guarded(check, *given):
    """What comes of a check, where it may also raise an error."""
    try:
        return check(*given)
    except Skipped as skipped:
        return skipped
    except (OSError, ValueError, LookupError, subprocess.SubprocessError) as error:
        return f"{type(error).__name__}: {error}"


def outcome(check, program):
    """What comes of a check of a program in a new folder."""
    with tempfile.TemporaryDirectory(ignore_cleanup_errors=True) as folder:
        return guarded(check, program, folder)
