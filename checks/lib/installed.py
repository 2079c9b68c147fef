"""Parts of the repository in the folders in which the package installs them."""

import os
import shutil

from checks import TOP


def install(box: str, name: str, *others: str) -> str:
    """Install the script weighbridge-NAME, and the parts that it imports, below `box`. Return the script's path."""
    for part in (name, *others):
        os.makedirs(os.path.join(box, "lib", part))
        for it in (f"weighbridge-{part}", f"weighbridge_{part}"):
            source, target = TOP / part / it, os.path.join(box, "lib", part, it)
            if source.is_dir():
                shutil.copytree(source, target)
            else:
                shutil.copy2(source, target)
    os.makedirs(os.path.join(box, "bin"))
    script = os.path.join(box, "bin", f"weighbridge-{name}")
    os.symlink(os.path.join(box, "lib", name, f"weighbridge-{name}"), script)
    return script
