"""What a script says that was given wrong words."""
import re
import sys
from pathlib import Path

TOP = Path(__file__).resolve().parents[2]


def wrong_words(doc):
    """Ends the script with status 2, and the commands of its first comment in one line on standard error."""
    lines = (line.strip() for line in doc.splitlines())
    commands = (re.split(r" {3,}", line)[0] for line in lines if line.startswith("python3 "))
    print("usage: " + "; ".join(commands), file=sys.stderr)
    sys.exit(2)


def no_words(path):
    """Ends the script at this path with status 2 if it was given words."""
    if sys.argv[1:]:
        print(f"usage: python3 {Path(path).relative_to(TOP)}", file=sys.stderr)
        sys.exit(2)
