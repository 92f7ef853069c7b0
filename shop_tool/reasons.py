"""What is wrong with a record that a site refused as outside the grammar, as `rubis check` says it."""

import subprocess

from . import program
from .carrier.records import REFUSALS, bytes_of, fields_of
from .ends import Fault


def meaning_of(refusal: str, record: str, sites: int | None) -> str:
    """What a refusal of a record says; of one that is outside the grammar of a shop of `sites` sites, why."""
    meaning = REFUSALS.get(refusal, refusal)
    why = why_bad(record, sites) if refusal == "BadRecord" and sites else None
    return f"{meaning}: {why}" if why else meaning


def why_bad(record: str, sites: int) -> str | None:
    """What is wrong with a record, or None where the program doesn't say."""
    try:
        done = subprocess.run([program.path(), "check", "--sites", str(sites)], input=bytes_of(record) + b"\n", capture_output=True)
    except (OSError, Fault):
        return None
    fields = fields_of(done.stdout.decode("utf-8", "replace").partition("\n")[0])
    if fields[0] != "bad" or len(fields) != 5:
        return None
    return fields[4] if fields[3] == "0" else f"field {fields[3]}: {fields[4]}"
