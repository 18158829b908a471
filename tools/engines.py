"""What an engine of registry_run says of scripts, by a built program or by `rt try`."""
import pathlib
import re
import subprocess
import sys
import tempfile

ROOT = pathlib.Path(__file__).resolve().parent.parent
# After so many seconds a program that is run is taken to wait for ever. It is generous: a machine may be busy.
MOST_SECONDS = 3600
# After so many steps `rt try` leaves a script to the compiled program alone.
STEPS = "1000"


def ran(command, script=None, folder=ROOT, seconds=MOST_SECONDS):
    """The status of a command, and what it prints on both streams."""
    ended = subprocess.run(command, cwd=folder, input=script and script.encode(), stdout=subprocess.PIPE, stderr=subprocess.PIPE, timeout=seconds)
    return ended.returncode, ended.stdout.decode(), ended.stderr.decode()


def said_when_tried(words, scripts):
    """The same of the program by these words on each script, a name and bytes, where `rt try` compiles it: it prints a heading before each output, and a line
    after what it says on standard error."""
    with tempfile.TemporaryDirectory() as folder:
        for name, script in scripts.items():
            pathlib.Path(folder, name).write_bytes(script)
        command = ["rt", "try", "--steps", STEPS, "--cases", folder, "--", *words]
        # It compiles the program once, and then runs it for each script.
        seconds = MOST_SECONDS + 60 * len(scripts)
        _, printed, complained = ran(command, folder=ROOT / "crates/registry_run", seconds=seconds)
    printed = re.split(r"^== (\S+)\n", printed, flags=re.M)
    outputs = dict(zip(printed[1::2], printed[2::2]))
    ends = re.split(r"^case=(\S+) run=ended status=(\d+) .*\n", complained, flags=re.M)
    errors = {name: (int(status), text) for text, name, status in zip(ends[::3], ends[1::3], ends[2::3])}
    for name in scripts:
        if name not in outputs or name not in errors:
            sys.exit(f"{name}: rt try says nothing of it\n{complained}")
        status, error = errors[name]
        yield status, outputs[name], error
