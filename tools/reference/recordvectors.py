"""Write the table of records and record files, with their expected answers,
or check it.

    python3 tools/reference/recordvectors.py            writes both files anew
    python3 tools/reference/recordvectors.py --check    only compares
"""

import sys

sys.dont_write_bytecode = True  # leaves no cache folder in the repository

import rows_file
import rows_record
import tables
from racktable import answer


def operations():
    return tables.distinct(rows_record.rows() + rows_file.rows())


TABLE = tables.Table("recordvectors", operations, answer)

if __name__ == "__main__":
    sys.exit(tables.main(TABLE, sys.argv[1:]))
