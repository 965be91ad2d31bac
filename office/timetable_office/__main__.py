"""`python3 -m timetable_office`."""

import sys

from timetable_office.cli import main

sys.exit(main())
