"""Makes tests/vectors and examples/ again and compares with what is kept.

    python3 tests/check_vectors.py

Names every file that differs, is missing or is extra; exit status 1 then.
"""

import os
import sys
import tempfile

sys.dont_write_bytecode = True

import make_examples
import make_vectors
from folder import differences, files_under, write_files

HERE = os.path.dirname(os.path.abspath(__file__))


def compared(name, kept_folder, files):
    """Compares a kept folder with files made again; answers how many differ."""
    with tempfile.TemporaryDirectory() as folder:
        write_files(folder, files)
        lines = differences(files_under(kept_folder), files_under(folder))
    for line in lines:
        print("FAILED  %s: %s" % (name, line))
    if not lines:
        print("ok      %s: %d files made again equal" % (name, len(files)))
    return len(lines)


def main():
    failed = compared("tests/vectors", os.path.join(HERE, "vectors"), make_vectors.all_files()[0])
    failed += compared("examples", os.path.join(os.path.dirname(HERE), "examples"), make_examples.all_files())
    sys.exit(1 if failed else 0)


if __name__ == "__main__":
    main()
