"""Which units of a station have failed, as systemd says it."""

import subprocess

SECONDS = 30  # that systemctl may take
JUDGES = ("gomtasil-watch", "gomtasil-failed@", "gomtasil-alarm")  # (units that tell of others)


class Unknown(Exception):
    """systemd can't be asked."""


def failed(patterns: list[str]) -> tuple[set[str], set[str]]:
    """Returns the units of these names that have failed, and those that are being restarted."""
    found: dict[str, set[str]] = {"failed": set(), "activating": set()}
    for line in asked(patterns):
        name, _, state, *_ = line.split(maxsplit=3)
        if not name.startswith(JUDGES) and state in found:
            found[state].add(name)
    return found["failed"], found["activating"]


def asked(patterns: list[str]) -> list[str]:
    command = ["systemctl", "list-units", "--all", "--plain", "--no-legend", "--no-pager", "--full", *patterns]
    try:
        done = subprocess.run(command, stdin=subprocess.DEVNULL, capture_output=True, text=True, timeout=SECONDS)
    except (OSError, subprocess.SubprocessError) as fault:
        raise Unknown(f"systemctl can't be run: {fault}") from None
    if done.returncode:
        raise Unknown(f"systemctl says: {' '.join(done.stderr.split())[:200]}")
    return [it for it in done.stdout.splitlines() if len(it.split()) >= 3]
