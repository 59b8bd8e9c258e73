"""The targets, one a reader of the program."""

from targets.debug import Debug
from targets.elf import Executables
from targets.gdb import Gdb
from targets.image import Images
from targets.options import Options
from targets.schedule import Schedules
from targets.source import Sources

TARGETS = [Executables, Images, Sources, Schedules, Gdb, Debug, Options]
