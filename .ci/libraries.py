"""Makes the small libraries that are put before the C library's calls (LD_PRELOAD), by the kit's clang."""
import os
import subprocess

HERE = os.path.dirname(os.path.abspath(__file__))


def make(to, source="files.c"):
    """Makes a library. Whether the kit's compiler did."""
    kit = os.path.dirname(subprocess.run(["rt", "doc"], capture_output=True, text=True, check=True).stdout.strip())
    tools = f"{kit}/toolchain"
    words = [f"{tools}/bin/clang", f"-B{tools}/lib", f"-L{tools}/lib", "-fuse-ld=lld", "-O2", "-shared", "-fPIC", "-fno-builtin"]
    return subprocess.run([*words, "-o", to, os.path.join(HERE, source)], check=False).returncode == 0
