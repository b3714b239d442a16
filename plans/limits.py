"""How large a machine may be, by plans/limits.json, which tools/limit-table.py makes from the constants of the proved crates; and what the formats fix.

It needs Python alone, 3.9 or later.
"""
import json
from pathlib import Path

TABLE = json.loads(Path(__file__).with_name("limits.json").read_text(encoding="utf-8"))
CPUS, THREADS, BUFFERS = TABLE["CPUS"], TABLE["THREADS"], TABLE["BUFFERS"]
CAPACITY, TRACE, ENTRIES = TABLE["CAPACITY"], TABLE["TRACE"], TABLE["ENTRIES"]
# Fixed by the formats of plans, schedules and trace texts, however large a machine may be: the lines of a program, the words of a message, of which each is
# less than WORD, and which are as many as registers; the steps of a schedule, and the CPU that it may name.
LINES, WORDS, WORD = 256, 8, 2**64
MOST_STEPS, MOST_CPU = 1048576, 255


def script():
    """The limits as the scripts of a page read them."""
    return f'"use strict";\nconst LIMITS = {json.dumps(TABLE, separators=(",", ":"))};\n'
