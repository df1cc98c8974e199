"""What the Python commands here share: how they end, how a generator keeps the files that it makes, and where our archive is."""
import os
import pathlib
import subprocess
import sys

ROOT = pathlib.Path(__file__).resolve().parent.parent


def from_root(path):
    """A path as it is named from the repository's folder."""
    return os.path.relpath(os.path.realpath(path), ROOT)


def run(main):
    """Runs a command's main on its arguments and ends with its status. A file that cannot be read, or output that cannot be written, as on a
    full disk or to a closed pipe, ends with one line and status 2."""
    try:
        if sys.stdout is None:
            raise OSError("standard output is closed")
        try:
            status = main(sys.argv[1:])
        except SystemExit as end:
            status = end.code
        sys.stdout.flush()
    except OSError as fault:
        # what is left in the buffer must not fail once more at the end
        if sys.stdout is not None:
            os.dup2(os.open(os.devnull, os.O_WRONLY), 1)
        what = fault.filename if fault.filename is not None else "the output could not be written"
        print("%s: %s: %s" % (from_root(sys.argv[0]), what, fault.strerror or fault), file=sys.stderr)
        status = 2
    sys.exit(status)


def keep(home, made, args, words):
    """Stores files by their names in a folder, and says in words what they hold; after --check it names those that are stored with other bytes,
    and writes nothing."""
    stale = [name for name in made if not (home / name).is_file() or (home / name).read_bytes() != made[name]]
    if args == ["--check"]:
        for name in stale:
            print("%s is not what %s makes; without --check it is written" % (from_root(home / name), from_root(sys.argv[0])))
        return 1 if stale else 0
    for name in stale:
        (home / name).write_bytes(made[name])
    print(words)
    return 0


def archive():
    """The whole path of our archive, the calls to link: of the one that ARCHIVE names, or else of what rt proves and builds."""
    if os.environ.get("ARCHIVE"):
        return os.path.abspath(os.environ["ARCHIVE"])
    linked = ROOT / "crates" / "linked"
    made = subprocess.run(["rt", "lib"], cwd=linked, stdout=subprocess.PIPE, stderr=subprocess.STDOUT, text=True)
    if made.returncode:
        sys.exit(made.stdout)
    return str(linked / "out" / "liblinked.a")
