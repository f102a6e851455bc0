"""Files that several calls make and read side by side."""
import os


def settle(draft, path):
    """Gives a draft its name, where nothing has that name yet: another call may be reading what has it."""
    try:
        os.link(draft, path)
    except FileExistsError:
        pass
    except OSError:  # (no links on this disk)
        os.replace(draft, path)
        return
    os.unlink(draft)
