"""The two proved programs, as functions from input bytes to output bytes."""

import os
import subprocess
from collections import namedtuple

from command.fields import shown

ROOT = os.path.dirname(os.path.dirname(os.path.dirname(
    os.path.abspath(__file__))))
# quaymeter: from the bytes of a file to its sheet; replay: from a list of
# records to its answers.
Programs = namedtuple("Programs", "quaymeter replay")


class Unavailable(Exception):
    """A program cannot be run, and what to do."""


class Differs(Exception):
    """What the programs say and what is reckoned here are not the same."""


def place(name):
    """Where `rt ci` and `rt run` leave the built program of that name, from
    the root."""
    return os.path.join("crates", name, "out", name)


def built(name):
    """The built program of that name."""
    def run(data):
        path = os.path.join(ROOT, place(name))
        if not os.path.exists(path):
            raise Unavailable(
                "%s is not built yet: `rt ci` in %s proves and builds "
                "everything" % (place(name), ROOT))
        try:
            done = subprocess.run([path], input=data, stdout=subprocess.PIPE,
                                  stderr=subprocess.PIPE)
        except OSError as error:
            raise Unavailable("%s does not run: %s" % (path, error))
        if done.returncode or done.stderr:
            raise Unavailable("%s did not end well (status %d): %s" % (
                path, done.returncode,
                shown(done.stderr.decode("utf-8", "replace"))))
        return done.stdout
    return run


PROVED = Programs(built("quaymeter"), built("replay"))
