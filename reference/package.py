"""The modules of the Python package in python/lagoon, for programs that use the reference too. Both are called lagoon, so here the
package goes by another name:

    from package import layout, sessiontext
"""

from pathlib import Path

__path__ = [str(Path(__file__).resolve().parent.parent / "python" / "lagoon")]
