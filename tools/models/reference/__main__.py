"""The words `asm`, `dis` and `debug` of mos65 once more: plain and slow, and written from the rules
alone, without a look at the program. The replies on the pages of tests/ come from it.

    python3 tools/models/reference asm SOURCE TAPE [--listing FILE] [--port HHHH] [--profile C]
    python3 tools/models/reference dis TAPE LO HI [--profile C]
    python3 tools/models/reference debug FILE [--tape] [--history N] [--port HHHH] [--rom LO-HI] [--profile C]

Every state is a whole value that never changes, a session is a list of them, and a table has the
opcodes. `tools/check/examples --reference` compares the pages with what it writes."""

import sys

sys.dont_write_bytecode = True
from program import INOUT, program


def main():
    status = program(sys.argv[1:], sys.stdin.buffer, sys.stdout.buffer,
                     sys.stderr.buffer)
    try:
        sys.stdout.flush()
        sys.stderr.flush()
    except OSError:
        status = INOUT
    return status


if __name__ == "__main__":
    sys.exit(main())
