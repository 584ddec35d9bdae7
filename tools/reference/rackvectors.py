"""Write the table of writes to a rack, with their expected answers, or check it.

    python3 tools/reference/rackvectors.py            writes both files anew
    python3 tools/reference/rackvectors.py --check    only compares
"""

import sys

sys.dont_write_bytecode = True  # leaves no cache folder in the repository

import rows_write
import rows_write_setpoint
import tables
from racktable import answer


def operations():
    return tables.distinct(rows_write.rows() + rows_write_setpoint.rows())


TABLE = tables.Table("rackvectors", operations, answer)

if __name__ == "__main__":
    sys.exit(tables.main(TABLE, sys.argv[1:]))
