"""Runs of the built program, or of the one that JULIENNE names in the environment."""
import os
import subprocess

TOP = os.path.dirname(os.path.dirname(os.path.abspath(__file__)))
PROGRAM = os.environ.get("JULIENNE") or os.path.join(TOP, "crates", "julienne", "out", "julienne")
STREAM_TRIALS = os.path.join(TOP, "crates", "jul_stream_trials", "out", "jul_stream_trials")
LONGEST = 120       # seconds that a run may take


def run(words, stdin, folder):
    """The exit code and the bytes of both outputs; a negative code is the signal that ended it."""
    done = subprocess.run([PROGRAM, *words], input=stdin, capture_output=True, cwd=folder, timeout=LONGEST)
    return done.returncode, done.stdout, done.stderr


def write(folder, name, text):
    """Writes a file."""
    with open(os.path.join(folder, name), "wb") as file:
        file.write(text)
