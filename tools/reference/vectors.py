"""Write the codecs' table of operations and expected answers, or check it.

    python3 tools/reference/vectors.py            writes both files anew
    python3 tools/reference/vectors.py --check    only compares
"""

import sys

sys.dont_write_bytecode = True  # leaves no cache folder in the repository

import rows_make
import rows_random
import rows_read
import rows_text
import tables
from table import answer


def operations():
    return rows_text.rows() + rows_make.rows() + rows_read.rows() + rows_random.rows()


TABLE = tables.Table("vectors", operations, answer)

if __name__ == "__main__":
    sys.exit(tables.main(TABLE, sys.argv[1:]))
