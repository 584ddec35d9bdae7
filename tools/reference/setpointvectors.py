"""Write the table of operations on setpoints, with their expected answers,
or check it.

    python3 tools/reference/setpointvectors.py            writes both files anew
    python3 tools/reference/setpointvectors.py --check    only compares
"""

import sys

sys.dont_write_bytecode = True  # leaves no cache folder in the repository

import rows_setpoint
import rows_units
import tables
from racktable import answer


def operations():
    return tables.distinct(rows_setpoint.rows() + rows_units.rows())


TABLE = tables.Table("setpointvectors", operations, answer)

if __name__ == "__main__":
    sys.exit(tables.main(TABLE, sys.argv[1:]))
