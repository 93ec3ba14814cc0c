"""A release: the same inputs give the same octets, and its image's root serves a service."""
import hashlib
import os
import pathlib
import subprocess
import sys
import tarfile

from small_cluster import TOP, Cluster, pool, service
from judging import Tally, until
from running import Bridge

DIGEST = "sha256:" + 64 * "d"


def released(file: pathlib.Path, programs: pathlib.Path, *words: str) -> bytes:
    subprocess.run([TOP / "deploy/release", "--programs", programs, *words, file],
                   capture_output=True, check=True)
    return file.read_bytes()


def try_release(tally: Tally, folder: pathlib.Path, programs: pathlib.Path) -> None:
    first = released(folder / "one.tar.gz", programs)
    tally.check("the same files make the same release",
                first == released(folder / "two.tar.gz", programs))
    named = released(folder / "named.tar", programs, "--image", "registry.example/x",
                     "--digest", DIGEST)
    tally.check("which names the image", named != first)
    with tarfile.open(folder / "named.tar") as tar:
        entries = tar.getmembers()
        tar.extractall(folder)
    names = [entry.name for entry in entries]
    tally.check("its names are sorted, once each, and of nobody's time and hands",
                names == sorted(set(names)) and len({entry.mtime for entry in entries}) == 1
                and {entry.uid for entry in entries} == {0})
    top = folder / "sutchebam"
    sums = {name: told for told, _, name in (
        line.partition("  ") for line in (top / "SHA256SUMS").read_text().splitlines())}
    files = {entry.name.partition("/")[2] for entry in entries if entry.isfile()}
    tally.check("SHA256SUMS has each of its files", files == set(sums) | {"SHA256SUMS"} and all(
        hashlib.sha256((top / name).read_bytes()).hexdigest() == told
        for name, told in sums.items()))
    kustomization = (top / "deploy/kustomization.yaml").read_text()
    tally.check("its manifests have the image's digest", DIGEST in kustomization)
    begun = subprocess.run([sys.executable, "-B", top / "bridge", "--help"], capture_output=True,
                           check=False)
    tally.check("its bridge begins", begun.returncode == 0, begun.stderr.decode())
    if os.geteuid():
        tally.skip("the small cluster of a release", "it needs root")
    else:
        small = subprocess.run([top / "tests/small"], capture_output=True, check=False)
        tally.check("two controllers and three speakers of it serve a small cluster",
                    small.returncode == 0, [small.stdout.decode()[-3000:]])
    bad = subprocess.run([TOP / "deploy/release", "--programs", folder, folder / "bad.tar"],
                         capture_output=True, check=False)
    tally.check("without a program there is none", bad.returncode == 1
                and b"mlb_admit isn't there" in bad.stderr, bad.stderr.decode())


def try_root(tally: Tally, folder: pathlib.Path, programs: pathlib.Path) -> None:
    """The image's root, in which a bridge and its programs have all that they need."""
    if os.geteuid():
        tally.skip("the image's root", "it needs root for chroot")
        return
    root = folder / "root"
    made = subprocess.run([TOP / "deploy/release", "--programs", programs, "--root", root],
                          capture_output=True, check=False)
    if made.returncode and b"Debian's packages" in made.stderr:
        tally.skip("the image's root", made.stderr.decode().strip())
        return
    tally.check("the image's root is made", made.returncode == 0, made.stderr.decode())
    size = sum(path.stat().st_size for path in root.rglob("*") if path.is_file())
    print(f"    {size / 2 ** 20:.0f} MiB")
    cluster = Cluster()
    cluster.put(pool("p", "192.0.2.0/30"))
    cluster.put(service("web"))
    one = Bridge(folder, "rooted", "controller", "--program", "/programs/mlb_controller",
                 "--admit", "/programs/mlb_admit", "--server", cluster.url, inside=root)
    tally.check("a service gets its address from a chroot",
                until(lambda: cluster.addresses()["web"]), cluster.addresses())
    tally.check("where it ends in order", one.stop() == 0, one.told())
    cluster.stop()
