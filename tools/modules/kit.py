"""A stand-in for the installed kit, in which some programs are ours.

`rt` takes the folder above its own for its kit. So a copy of `rt` among links to the kit's files works with whatever lies beside it.
"""
import pathlib
import shutil
import subprocess


def installed():
    """The folder of the installed kit."""
    return pathlib.Path(subprocess.run(["rt", "doc"], capture_output=True, text=True, check=True).stdout.strip()).parent


def link_all(source, folder, but):
    """Makes a folder of links to what another folder has, but for these names."""
    folder.mkdir()
    for file in source.iterdir():
        if file.name not in but:
            (folder / file.name).symlink_to(file.resolve())


def stand_in(folder, scripts):
    """Makes a kit in a folder that isn't there yet, with these shell scripts in the place of its programs, each by its path in the kit.
    It returns the `rt` of that kit."""
    kit = installed()
    link_all(kit, folder, ("bin", "toolchain"))
    link_all(kit / "bin", folder / "bin", ("rt", "rtlib.py"))
    link_all(kit / "toolchain", folder / "toolchain", ("bin",))
    link_all(kit / "toolchain/bin", folder / "toolchain/bin", ())
    for name in ("rt", "rtlib.py"):
        shutil.copy(kit / "bin" / name, folder / "bin" / name)
    for path, text in scripts.items():
        (folder / path).unlink()
        (folder / path).write_text(f"#!/bin/sh\n{text}\n")
        (folder / path).chmod(0o755)
    return folder / "bin/rt"
