"""Write the line's table of requests and expected answers, or check it.

    python3 tools/reference/linevectors.py            writes both files anew
    python3 tools/reference/linevectors.py --check    only compares
"""

import sys

sys.dont_write_bytecode = True  # leaves no cache folder in the repository

import rows_address
import rows_command
import rows_damage
import rows_grant
import rows_mixed
import rows_refused
import rows_request
import rows_series
import tables
from linetable import answer


def operations():
    lines = (rows_request.rows() + rows_command.rows() + rows_address.rows()
             + rows_damage.rows() + rows_grant.rows() + rows_refused.rows()
             + rows_series.rows() + rows_mixed.rows())
    # The edges of one list may stand in another too.
    return list(dict.fromkeys(lines))


TABLE = tables.Table("linevectors", operations, answer)

if __name__ == "__main__":
    sys.exit(tables.main(TABLE, sys.argv[1:]))
