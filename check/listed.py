"""What `shensteps --json` says of a trace, an object a line, as docs/LISTINGS.md has them."""
import json
import subprocess

from cases import program


def objects(trace, *words):
    """The exit number of a listing of a trace, and its objects."""
    text = trace if isinstance(trace, bytes) else trace.encode()
    ran = subprocess.run([program("shensteps"), "--json", *words], input=text, stdout=subprocess.PIPE, check=False)
    return ran.returncode, json.loads(f"[{','.join(it for it in ran.stdout.decode().splitlines() if it.startswith('{'))}]")


def machine(event):
    """The machine of an event: `thread 1`, `helper 1` or `control`."""
    return f"{event['role']} {event['index']}" if "index" in event else event["role"]
