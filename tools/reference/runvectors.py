"""Write the table of recordings and what is printed of them, or check it.

    python3 tools/reference/runvectors.py            writes both files anew
    python3 tools/reference/runvectors.py --check    only compares

Its rows are the worked examples of the documents, the figures of the manuals,
and few generated recordings that show all that the generator can show.
"""

import sys

sys.dont_write_bytecode = True  # leaves no cache folder in the repository

import edge_recordings
import figure_recordings
import tables
import worked_recordings
from chosen import chosen
from generator import recording
from runtable import answer, run_line


def recordings():
    return (worked_recordings.recordings() + figure_recordings.recordings()
            + edge_recordings.recordings() + [recording(seed) for seed in chosen()])


def operations():
    return tables.distinct([run_line(one) for one in recordings()])


TABLE = tables.Table("runvectors", operations, answer)

if __name__ == "__main__":
    sys.exit(tables.main(TABLE, sys.argv[1:]))
