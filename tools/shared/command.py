"""How the tools are called: what --help prints, and the one line where a file, a program or a peer is missing."""

import os
import subprocess
import sys
from pathlib import Path


def command(main, doc):
    """Runs the tool; `--help` as the first word prints the doc. What the system refuses is a line on standard error, and status 1."""
    asks_help = sys.argv[1:2] in (["-h"], ["--help"])
    try:
        print(doc.strip()) if asks_help else main()
        sys.stdout.flush()
    except BrokenPipeError:
        # whoever read the output has gone: what is left of it goes nowhere
        os.dup2(os.open(os.devnull, os.O_WRONLY), sys.stdout.fileno())
        sys.exit(1)
    except OSError as error:
        told(f"{error.filename}: {error.strerror}" if error.filename else str(error))
    except subprocess.CalledProcessError as error:
        told(f"{' '.join(map(str, error.cmd))}: status {error.returncode}")
    except subprocess.TimeoutExpired as error:
        told(f"{' '.join(map(str, error.cmd))}: no end within {error.timeout:.0f} seconds")
    except UnicodeDecodeError as error:
        told(f"a file is not text: {error.reason}")
    except KeyboardInterrupt:
        sys.exit(130)


def option(words, name):
    """The word after this one; both are taken out of the words. `None` where it is not among them, or the last."""
    if name not in words[:-1]:
        return None
    at = words.index(name)
    _, found = words[at : at + 2]
    del words[at : at + 2]
    return found


def told(what):
    """Ends the tool with one line on standard error, and status 1."""
    sys.exit(f"{Path(sys.argv[0]).stem}: {what}")
