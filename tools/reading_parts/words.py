"""How the tools take their words and end."""
import signal
import sys

WRONG = 2


def begin(doc):
    """Prints what a tool does where that is asked for; and a reader that takes no more ends the tool without a word."""
    signal.signal(signal.SIGPIPE, signal.SIG_DFL)
    if any(word in ("--help", "-h") for word in sys.argv[1:]):
        print(doc.strip())
        sys.exit(0)
    return sys.argv[1:]


def wrong_words(doc, why=""):
    """Ends the tool for wrong words."""
    print((f"{why}\n\n" if why else "") + doc.strip(), file=sys.stderr)
    sys.exit(WRONG)
