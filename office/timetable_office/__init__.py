"""The office's companion of the proved timetable library: it stores, feeds, formats and explains.

Every answer and every byte of state and table comes from the library. The module `library` is a binding that
other programs can import by itself.
"""

__version__ = "0.6.0"
