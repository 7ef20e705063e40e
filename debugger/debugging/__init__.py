"""A debugger's view of a program in a box: `tracing` stops nc-run, `program` knows the box in it, `serving` tells gdb."""

from .program import Places, Program
from .serving import Line, serve
from .tracing import Gone, Tracee

__all__ = ["Gone", "Line", "Places", "Program", "Tracee", "serve"]
