"""One process of hunt/run: hunts, and writes what it found as one line."""

import json
import sys

from hunting import Hunter
from timed import TimedHunter


def main(path, seed, until, most, form):
    hunter = (TimedHunter if form == "timed" else Hunter)(path, seed)
    hunter.hunt(float(until), int(most) or None)
    hunter.program.close()
    print(
        json.dumps(
            {
                "scripts": hunter.done,
                "calls": hunter.calls,
                "events": hunter.events,
                "lawful": hunter.lawful,
                "counts": hunter.counts,
                "found": hunter.found,
            }
        )
    )


if __name__ == "__main__":
    main(*sys.argv[1:])
