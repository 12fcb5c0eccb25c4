"""Serves the laboratory to browsers: `./byzlab serve` in the repository, and `byzlab-serve` of a release. The file `help`
lists the options.

BYZLAB_CALLED says by which name this is called. In the repository the programs are proved and built first, unless BYZLAB names
one that is built.

Exit status: 0 if it was ended by Ctrl-C, 1 if it cannot serve, 2 for other words, and in the repository 4 if a program could
not be built.
"""
import os
import sys

CALLED = os.environ.pop("BYZLAB_CALLED", "byzlab serve")
if sys.version_info < (3, 8):
    sys.exit("%s: it needs Python 3.8 or later, and python3 is %d.%d" % (CALLED, sys.version_info[0], sys.version_info[1]))
sys.dont_write_bytecode = True
sys.path.insert(0, os.path.dirname(os.path.dirname(os.path.realpath(__file__))))

from serve import words  # noqa: E402


def main():
    # (wrong words are refused before anything is built)
    chosen = words.parser(CALLED).parse_args()
    from serve import listening, settings

    try:
        settings.build()
        listening.serve(chosen)
    except settings.Unusable as error:
        print(f"{CALLED}: {error}", file=sys.stderr)
        return error.status
    except KeyboardInterrupt:
        pass
    return 0


sys.exit(main())
