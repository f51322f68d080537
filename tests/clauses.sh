#!/bin/bash
# Checks that each contract which a page names is there, that each wrong body has its edit, and that links lead to something: tests/clauses.py.
#
#   tests/clauses.sh
#
# It needs python3. The last line is 'N passed, M failed'.
exec python3 "$(dirname "$0")/clauses.py"
