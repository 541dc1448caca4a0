"""What a command says, where that may fail."""

import subprocess


def quietly(command):
    """What a command says, or nothing where it is missing or fails."""
    try:
        done = subprocess.run(command, capture_output=True, text=True, stdin=subprocess.DEVNULL, check=False)
    except OSError:
        return None
    return done.stdout + done.stderr if done.returncode == 0 else None
