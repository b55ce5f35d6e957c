"""The programs that are timed beside, where Debian's packages of them are installed: `serdi`, and Jena's ShEx validator."""

import os
import re
import shutil
import subprocess
import zipfile

from measuring import HERE, measured

JENA = "libapache-jena-java"


class Serdi:
    """The reader of Turtle of the package `serdi`."""

    def __init__(self):
        self.missing = None if shutil.which("serdi") else "serdi is not installed"

    def run(self, folder, limit):
        """Reads the Turtle; what it writes, N-Triples, goes nowhere."""
        return None if self.missing else measured(["serdi", "-q", "data.ttl"], folder, limit, out=os.devnull)


def asked(*words):
    """What `dpkg-query` answers."""
    return subprocess.run(["dpkg-query", *words], stdout=subprocess.PIPE, stderr=subprocess.DEVNULL, check=False).stdout.decode()


def packages(first):
    """A package of Java with all of them that it stands on."""
    found, left = [], [first]
    while left:
        package = left.pop(0)
        if package not in found:
            found.append(package)
            left += re.findall(r"lib[a-z0-9.+-]*-java\b", asked("-W", "-f=${Depends}", package))
    return found


def jars_of(package):
    """The jars of a package and of those that it stands on, each once. Of the loggers the one is taken that says nothing."""
    files = re.findall(r"^/usr/share/java/[^/\n]*\.jar$", "\n".join(asked("-L", each) for each in packages(package)), re.MULTILINE)
    jars = {os.path.realpath(file): file for file in files}
    return [jar for jar in jars.values() if not re.search(r"/slf4j-(?!api|nop)", jar)]


class Jena:
    """Jena's ShEx validator from the jars of its package, called by JenaValidate.java, which is compiled for it."""

    def __init__(self, folder):
        self.classes = os.path.join(folder, "classes")
        self.path = ":".join([self.classes, *jars_of(JENA)])
        self.missing = self.unfit()

    def unfit(self):
        """Compiles the class, and says what is missing if it cannot be."""
        core = re.search(r"[^:]*/jena-core[^:/]*\.jar", self.path)
        if not core:
            return f"{JENA} is not installed"
        if not (shutil.which("java") and shutil.which("javac")):
            return "java and javac are not both installed"
        words = ["javac", "-nowarn", "-cp", self.path, "-d", self.classes, os.path.join(HERE, "JenaValidate.java")]
        done = subprocess.run(words, stdout=subprocess.PIPE, stderr=subprocess.STDOUT, check=False)
        self.put_messages(core[0])
        return None if done.returncode == 0 else "Jena's ShEx validator does not compile: " + done.stdout.decode(errors="replace")[:300]

    def put_messages(self, core):
        """Puts the texts of Xerces where the classes of Debian's jar look for them, which has them under the name that they have in Jena's own."""
        front = "org/apache/jena/ext/"
        with zipfile.ZipFile(core) as jar:
            for name in jar.namelist():
                if name.startswith(f"{front}xerces/") and name.endswith(".properties"):
                    place = os.path.join(self.classes, name[len(front) :])
                    os.makedirs(os.path.dirname(place), exist_ok=True)
                    with open(place, "wb") as file:
                        file.write(jar.read(name))

    def run(self, folder, wanted, limit):
        """Validates in the folder, and says in a word what is not as it is wanted, if anything is not."""
        done = measured(["java", "-cp", self.path, "JenaValidate", "schema.shex", "data.ttl", "map"], folder, limit)
        with open(os.path.join(folder, "out"), encoding="utf-8", errors="replace") as file:
            counts = re.search(r"^conformant (\d+) nonconformant (\d+)$", file.read(), re.MULTILINE)
        if done.status != "late" and not counts:
            return done, "failed"
        if counts and (int(counts[1]), int(counts[2])) != wanted:
            return done, f"{counts[1]} conform, {counts[2]} do not"
        return done, None
