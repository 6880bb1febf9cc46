"""Takes a script as large as a script may be through each call: large_script.py TRIAL

The counts are those of a plain interpreter (bench/run)."""
import subprocess
import sys

LINES = (
    "Counts { script_bytes: 15787257, stepped: 118851, run: 118851, own_steps: 990877, changes_by_others: 1436548, "
    "history_bytes: 11673827, read: 118851, judged: 118851, migrated: 118851 }\nright\n"
)

ran = subprocess.run([sys.argv[1], "large"], capture_output=True, text=True)
if (ran.stdout, ran.stderr, ran.returncode) != (LINES, "", 0):
    sys.exit(f"the large script: {ran}")
print("a script of 640,000 calls went through each call")
