"""Tests of the client library over the built program: $GAPTD, or gaptd.sh at the top of the repository."""
import faulthandler

# A program that hangs fails the tests and doesn't keep them waiting.
faulthandler.dump_traceback_later(240, exit=True)
