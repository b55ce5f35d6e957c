#!/usr/bin/env python3
"""Tests how programs are started, released and installed: the scripts of bin/, over a small repository whose programs are scripts.

    tests/starting.py

Its `rt` is a stand-in that proves nothing: `rt ci` makes programs of the sources as they stand. A program prints its name, a sum
of the sources that it was made of, the folder that it runs in and its words, and ends with 7. Its bin/library is another, and makes
files with such a sum. Nothing but Python's standard library is wanted.
"""

import os
import shutil
import subprocess
import tempfile
import unittest

ROOT = os.path.dirname(os.path.dirname(os.path.abspath(__file__)))
PROGRAMS = ("shex", "shextool", "typing_session", "shex_rows", "text_rows")
RELEASED = (*PROGRAMS, "libshex")
CRATES = ("shex_cli", "shextool_cli", "typing_session_cli", "shex_rows", "text_rows")
VALIDATE = ("validate", "a word", "", "*")

# What the scripts of bin/ call, and the stand-in.
TOOLS = "awk basename cat chmod cksum cmp cp cut dirname find grep mkdir mktemp mv nproc readlink rm sed sh sha256sum sort tail touch wc xargs".split()

RT = r"""#!/bin/sh
if [ "$1" = version ]; then
    echo 'a stand-in 1'
    exit
fi
echo "$*" >>"$RT_LOG"
[ ! -e "$RT_LOG.meanwhile" ] || sh "$RT_LOG.meanwhile"
[ ! -e "$RT_LOG.refuses" ] || { echo 'rt: low NOT PROVED'; echo '1 passed, 1 failed'; exit 1; }
sum=$(cat crates/low/src/* crates/low/specs/* | cksum | cut -d ' ' -f 1)
for name in $(sed -n 's/^\([a-z_]*_cli\|[a-z_]*_rows\):.*/\1/p' crates.txt); do
    mkdir -p "crates/$name/out"
    for made in "$name" "$name.by-rattle"; do
        printf '#!/bin/sh\necho "%s of %s in $PWD"\n[ $# = 0 ] || printf "<%%s>\\n" "$@"\nexit 7\n' "$made" "$sum" >"crates/$name/out/$made"
        chmod 755 "crates/$name/out/$made"
    done
    echo "rt: $name proved"
done
echo '6 passed, 0 failed'
"""

LIBRARY = r"""#!/bin/sh
cd "$1/crates" && mkdir -p shex_c/out || exit 1
for made in libshex.a libshex.so; do echo "$made of $(cat low/src/* low/specs/* | cksum)" >"shex_c/out/$made"; done
"""

FILES = {
    "crates.txt": "# The crates.\nlow:\nother:\nshex_c staticlib: low\n" + "".join(f"{name}: low\n" for name in CRATES),
    "HANDLES": "Handles allowed: none.\n",
    "crates/low/src/lib.rt": "a low thing\n",
    "crates/low/src/more.rt": "more of it\n",
    "crates/low/specs/Lib.antt": "what it promises\n",
    "crates/low/proofs/low/Proof.antt": "why it holds\n",
    "crates/other/src/lib.rt": "another thing\n",
    "crates/shex_c/src/lib.rt": "the library\n",
    **{f"crates/{name}/src/main.rt": f"the program {name}\n" for name in CRATES},
}


def write(folder, name, text, how="w"):
    """Writes a file of a folder, and makes the folders that it stands in."""
    path = os.path.join(folder, name)
    os.makedirs(os.path.dirname(path), exist_ok=True)
    with open(path, how, encoding="utf-8") as file:
        file.write(text)


class Case(unittest.TestCase):
    """A test over a clone of the small repository, whose released programs are those that its `rt ci` makes."""

    @classmethod
    def setUpClass(cls):
        cls.room = tempfile.mkdtemp()
        cls.first = os.path.join(cls.room, "first")
        for part in ("bin", "include", "man", "completions"):
            shutil.copytree(os.path.join(ROOT, part), os.path.join(cls.first, part))
        os.mkdir(os.path.join(cls.first, "docs"))
        for name in ("docs/USAGE.md", "VERSION"):
            shutil.copy(os.path.join(ROOT, name), os.path.join(cls.first, name))
        for name, text in FILES.items():
            write(cls.first, name, text)
        write(cls.first, "bin/library", LIBRARY)
        os.mkdir(os.path.join(cls.room, "tools"))
        for name in TOOLS:
            os.symlink(shutil.which(name), os.path.join(cls.room, "tools", name))
        write(cls.room, "kit/rt", RT)
        os.chmod(os.path.join(cls.room, "kit/rt"), 0o755)
        cls.kit = os.path.join(cls.room, "kit")
        for words in (["rt", "ci"], ["bin/release"]):
            made = cls.call(cls.first, words, cls.kit, os.path.join(cls.room, "log"))
            assert made.returncode == 0, made.stderr
        for name in os.listdir(os.path.join(cls.first, "crates")):
            shutil.rmtree(os.path.join(cls.first, "crates", name, "out"), ignore_errors=True)

    @classmethod
    def tearDownClass(cls):
        shutil.rmtree(cls.room)

    def setUp(self):
        self.folder = tempfile.mkdtemp(prefix="a clone ", dir=self.room)
        self.clone = os.path.join(self.folder, "clone")
        shutil.copytree(self.first, self.clone)

    @classmethod
    def call(cls, folder, words, kit, log):
        """Runs a command in a folder, with the tools and with the kit, if there is one, on the path."""
        path = ":".join([*filter(None, [kit]), os.path.join(cls.room, "tools")])
        how = {"PATH": path, "RT_LOG": log, "HOME": "/nonexistent"}
        words = [shutil.which(words[0], path=path) or words[0], *words[1:]]
        return subprocess.run(words, cwd=folder, env=how, capture_output=True, encoding="utf-8", stdin=subprocess.DEVNULL, check=False)

    def run_in(self, *words, kit=None, folder=None):
        """Runs a command at the top of the clone, with no toolchain where no kit is named."""
        return self.call(folder or self.clone, words, kit, os.path.join(self.folder, "log"))

    def calls(self):
        """How often the toolchain was called to prove."""
        path = os.path.join(self.folder, "log")
        if not os.path.exists(path):
            return 0
        with open(path, encoding="utf-8") as file:
            return len(file.readlines())

    def shex(self, *words, kit=None):
        """Starts shex with words."""
        return self.run_in("bin/shex", *(words or VALIDATE), kit=kit)

    def assert_released(self, done):
        """The released program was run."""
        self.assertEqual((done.returncode, done.stderr), (7, ""))
        self.assertEqual(done.stdout, self.shown())

    def shown(self):
        """What the program prints that is of the sources as they are released, at the top of the clone."""
        return self.run_in(os.path.join(self.first, "dist/shex"), *VALIDATE).stdout

    def assert_built(self, done):
        """A program was run that was made of the sources as they are."""
        self.assertEqual(done.returncode, 7)
        self.assertIn("shex_cli of ", done.stdout)
        self.assertNotEqual(done.stdout, self.shown())

    def assert_not_there(self, done):
        """There is no program of these sources, and no toolchain."""
        self.assertEqual((done.returncode, done.stdout), (8, ""))
        self.assertEqual(done.stderr.splitlines(), [
            "shex: the released program is not that of these sources",
            "shex: the command rt, which proves and builds the program, is not on the path",
            "shex: the program was not built",
        ])

    def change(self, name="crates/low/src/lib.rt"):
        """Adds a line to a file of the clone."""
        write(self.clone, name, "changed\n", "a")


class Starting(Case):
    """bin/shex, bin/shextool and bin/typing_session."""

    def test_a_fresh_clone_runs_the_released_program(self):
        self.assert_released(self.shex())
        self.assertTrue(os.path.exists(os.path.join(self.clone, "out/shex.found")))

    def test_each_program_is_started(self):
        for name, words in (("shextool", ("extents", "x")), ("typing_session", ("x", "y", "z"))):
            self.assertIn(f"{name}_cli of ", self.run_in(f"bin/{name}", *words).stdout)

    def test_a_later_call_takes_no_digest(self):
        self.shex()
        write(self.folder, "empty/sha256sum", "#!/bin/sh\necho called >>\"$RT_LOG\"\nexit 1\n")
        os.chmod(os.path.join(self.folder, "empty/sha256sum"), 0o755)
        self.assert_released(self.shex(kit=os.path.join(self.folder, "empty")))
        self.assertEqual(self.calls(), 0)

    def test_where_nothing_can_be_kept(self):
        write(self.clone, "out", "a file in the place of the folder")
        for _ in range(2):
            self.assert_released(self.shex())

    def test_it_runs_in_the_callers_folder(self):
        done = self.run_in(os.path.join(self.clone, "bin/shex"), *VALIDATE, folder=self.folder)
        self.assertTrue(done.stdout.splitlines()[0].endswith(f" in {self.folder}"), done)

    def test_it_is_found_on_the_path_and_by_a_shell(self):
        done = self.run_in("sh", "-c", 'PATH="$PWD/bin:$PATH"; shex validate "a word" "" "*"')
        self.assert_released(done)
        done = self.run_in("sh", "shex", *VALIDATE, folder=os.path.join(self.clone, "bin"))
        self.assertEqual(done.returncode, 7)

    def test_a_changed_source_is_built(self):
        for name in ("crates/low/src/lib.rt", "crates/low/specs/Lib.antt"):
            self.shex()
            self.change(name)
            before = self.calls()
            for _ in range(3):
                self.assert_built(self.shex(kit=self.kit))
                self.assertEqual(self.calls(), before + 1)

    def test_a_changed_source_and_no_toolchain(self):
        self.shex()
        self.change()
        for _ in range(2):
            self.assert_not_there(self.shex())

    def test_a_removed_source(self):
        self.shex()
        os.remove(os.path.join(self.clone, "crates/low/src/more.rt"))
        self.assert_not_there(self.shex())

    def test_a_source_that_is_added(self):
        self.shex()
        write(self.clone, "crates/low/src/deep/new.rt", "new\n")
        self.assert_not_there(self.shex())

    def test_a_source_whose_time_is_old(self):
        self.shex()
        self.change()
        os.utime(os.path.join(self.clone, "crates/low/src/lib.rt"), (1, 1))
        self.assert_not_there(self.shex())

    def test_a_source_whose_time_is_old_and_a_built_program(self):
        self.change()
        self.assert_built(self.shex(kit=self.kit))
        self.change()
        os.utime(os.path.join(self.clone, "crates/low/src/lib.rt"), (1, 1))
        self.assert_built(self.shex(kit=self.kit))
        self.assertEqual(self.calls(), 2)

    def test_links_and_folders_that_are_sought(self):
        os.symlink(os.path.join(self.clone, "bin/shex"), os.path.join(self.folder, "link"))
        os.mkdir(os.path.join(self.folder, "other"))
        os.symlink(os.path.join(self.clone, "bin"), os.path.join(self.folder, "other/bin"))
        os.makedirs(os.path.join(self.folder, "sought/bin"))
        for _ in range(2):
            self.assert_released(self.run_in(os.path.join(self.folder, "link"), *VALIDATE))
            self.assert_released(self.run_in(os.path.join(self.folder, "other/bin/shex"), *VALIDATE))
            self.assert_released(self.run_in("sh", "-c", 'CDPATH=../sought; export CDPATH; bin/shex validate "a word" "" "*"'))
        self.change()
        self.assert_not_there(self.run_in(os.path.join(self.folder, "other/bin/shex"), *VALIDATE))

    def test_a_folder_of_sources_that_is_removed(self):
        self.shex()
        shutil.rmtree(os.path.join(self.clone, "crates/low/specs"))
        self.assert_not_there(self.shex())

    def test_a_source_that_is_changed_back(self):
        self.shex()
        self.change()
        self.assert_not_there(self.shex())
        write(self.clone, "crates/low/src/lib.rt", FILES["crates/low/src/lib.rt"])
        for _ in range(2):
            self.assert_released(self.shex())

    def test_a_source_that_is_touched(self):
        self.shex()
        os.utime(os.path.join(self.clone, "crates/low/src/lib.rt"))
        for _ in range(2):
            self.assert_released(self.shex())

    def test_a_changed_source_of_another_crate(self):
        self.shex()
        self.change("crates/other/src/lib.rt")
        self.change("crates/shextool_cli/src/main.rt")
        self.assert_released(self.shex())

    def test_lines_of_crates_txt(self):
        self.shex()
        self.change("crates.txt")
        self.assert_released(self.shex())
        for line in ("shex_cli: low other", "shex_cli opt_level=1: low"):
            write(self.clone, "crates.txt", FILES["crates.txt"].replace("shex_cli: low", line))
            self.assert_not_there(self.shex())

    def test_a_source_that_is_changed_while_it_is_proved(self):
        self.change()
        write(self.folder, "log.meanwhile", f"echo more >>'{self.clone}/crates/low/src/lib.rt'\n")
        self.assert_built(self.shex(kit=self.kit))
        os.remove(os.path.join(self.folder, "log.meanwhile"))
        for _ in range(2):
            self.assert_built(self.shex(kit=self.kit))
            self.assertEqual(self.calls(), 2)

    def test_a_changed_proof_counts_where_nothing_is_kept(self):
        self.change("crates/low/proofs/low/Proof.antt")
        self.assert_not_there(self.shex())

    def test_a_changed_byte_of_the_released_program(self):
        self.shex()
        self.change("dist/shex")
        self.assert_not_there(self.shex())

    def test_a_released_program_that_is_not_there(self):
        os.remove(os.path.join(self.clone, "dist/shex"))
        self.assert_not_there(self.shex())

    def test_a_program_that_is_not_proved(self):
        self.change()
        write(self.folder, "log.refuses", "")
        done = self.shex(kit=self.kit)
        self.assertEqual((done.returncode, done.stdout), (8, ""))
        self.assertIn("rt: low NOT PROVED\n", done.stderr)
        self.assertTrue(done.stderr.endswith("shex: the program was not built\n"), done)
        self.assertEqual(os.listdir(os.path.join(self.clone, "out")), [])

    def test_prove_builds_anew(self):
        for calls in (1, 2):
            done = self.shex("--prove", *VALIDATE, kit=self.kit)
            self.assertEqual((done.returncode, done.stdout, self.calls()), (7, self.shown(), calls))
        self.assertEqual(self.shex("--prove", *VALIDATE).returncode, 8)

    def test_words_that_are_answered_without_building(self):
        self.change()
        for line in ("shex", "shex valdate --schema", "shex validate", "shextool", "shextool convrt x", "typing_session x"):
            name, *words = line.split()
            done = self.run_in(f"bin/{name}", *words, kit=self.kit)
            self.assertEqual((done.returncode, done.stdout, done.stderr), (2, "", f"{name}: words: Arguments\n"))
        self.assertEqual(self.calls(), 0)

    def test_help_and_version(self):
        self.change()
        with open(os.path.join(ROOT, "VERSION"), encoding="utf-8") as file:
            version = file.read()
        for name, commands in (("shex", 4), ("shextool", 7), ("typing_session", 1)):
            done = self.run_in(f"bin/{name}", "--version", kit=self.kit)
            self.assertEqual((done.returncode, done.stdout, done.stderr), (0, f"{name} {version}", ""))
            for word in ("--help", "-h"):
                done = self.run_in(f"bin/{name}", word, kit=self.kit)
                self.assertEqual((done.returncode, done.stderr), (0, ""))
                self.assertEqual([line.split()[0] for line in done.stdout.splitlines()], ["usage:", *[name] * commands, "What"])
        self.assertEqual(self.calls(), 0)


class Releasing(Case):
    """bin/release and bin/install."""

    def setUp(self):
        super().setUp()
        self.run_in("rt", "ci", kit=self.kit)
        self.run_in("bin/build", "shex_c", kit=self.kit)

    def check(self):
        """What bin/release --check says."""
        return self.run_in("bin/release", "--check", kit=self.kit)

    def assert_holds(self):
        """dist/ has what was built."""
        done = self.check()
        self.assertEqual((done.returncode, done.stdout.count("\n"), done.stderr), (0, len(PROGRAMS) + 1, ""))

    def assert_refused(self, *lines):
        """Lines of what bin/release --check says, and no others but those of what holds."""
        done = self.check()
        self.assertEqual(done.returncode, 1)
        holds = "built of these sources"
        self.assertEqual([line for line in done.stdout.splitlines() if holds not in line], list(lines))

    def assert_renewed(self):
        """bin/release renews dist/."""
        done = self.run_in("bin/release", kit=self.kit)
        self.assertEqual(done.returncode, 0, done)
        self.assert_holds()
        self.assertEqual(self.shex().returncode, 7)

    def test_what_rt_built_is_released(self):
        self.assert_holds()

    def test_a_changed_byte(self):
        self.change("dist/shextool")
        self.assert_refused("shextool: dist/shextool is not the program that was built, crates/shextool_cli/out/shextool_cli: bin/release renews it")
        self.assert_renewed()

    def test_a_changed_source(self):
        self.change()
        self.assert_refused(*[f"{name}: its sources are not those of which dist/RELEASE tells: bin/release renews it" for name in RELEASED])

    def test_a_changed_proof(self):
        self.change("crates/low/proofs/low/Proof.antt")
        self.assert_refused(*[f"{name}: its sources are not those of which dist/RELEASE tells: bin/release renews it" for name in RELEASED])

    def test_a_program_that_was_not_renewed(self):
        self.change()
        self.run_in("rt", "ci", kit=self.kit)
        self.assert_refused(*[f"{name}: its sources are not those of which dist/RELEASE tells: bin/release renews it" for name in RELEASED])
        calls = self.calls()
        self.assert_renewed()
        self.assertEqual(self.calls(), calls + 1, "what rt ci built is taken, and the library is built")

    def test_lines_that_were_renewed_without_the_program(self):
        self.change()
        self.run_in("rt", "ci", kit=self.kit)
        self.run_in("bin/release", kit=self.kit)
        shutil.copy(os.path.join(self.first, "dist/shex"), os.path.join(self.clone, "dist/shex"))
        self.assert_refused("shex: dist/shex is not the program that was built, crates/shex_cli/out/shex_cli: bin/release renews it")

    def test_a_program_that_was_not_built_here(self):
        os.remove(os.path.join(self.clone, "crates/shex_rows/out/shex_rows"))
        self.assert_refused("shex_rows: no program of these sources stands in crates/shex_rows/out/shex_rows: rt ci or bin/build shex_rows builds it")
        self.assert_renewed()

    def test_a_program_that_something_else_built(self):
        calls = self.calls()
        shutil.copy(os.path.join(self.clone, "crates/shex_cli/out/shex_cli.by-rattle"), os.path.join(self.clone, "crates/shex_cli/out/shex_cli"))
        os.utime(os.path.join(self.clone, "crates/shex_cli/out/shex_cli"))
        self.assert_refused("shex: dist/shex is not the program that was built, crates/shex_cli/out/shex_cli: bin/release renews it")
        self.assert_renewed()
        self.assertEqual(self.calls(), calls + 1)

    def test_a_library_that_was_not_built_here(self):
        shutil.rmtree(os.path.join(self.clone, "crates/shex_c/out"))
        calls = self.calls()
        done = self.check()
        self.assertEqual((done.returncode, self.calls()), (0, calls + 1))
        self.assertTrue(done.stderr.startswith("libshex: proving and building the library\n"), done)
        self.assert_holds()

    def test_a_changed_byte_of_the_library(self):
        for file, what in (("libshex.so", "crates/shex_c/out/libshex.so"), ("shex.h", "include/shex.h"), ("shex.pc", "include/shex.pc")):
            self.change(f"dist/{file}")
            self.assert_refused(f"libshex: dist/{file} is not the library that was built, {what}: bin/release renews it")
            self.assertEqual(self.run_in("bin/release", "--current", "libshex").returncode, 1)
            self.assert_renewed()

    def test_a_changed_header(self):
        self.change("include/shex.h")
        self.assertEqual(self.run_in("bin/release", "--current", "libshex").returncode, 1)
        self.assert_refused("libshex: dist/shex.h is not the library that was built, include/shex.h: bin/release renews it")
        self.assert_renewed()

    def test_a_library_that_is_not_there(self):
        os.remove(os.path.join(self.clone, "dist/libshex.a"))
        self.assert_refused("libshex: dist/libshex.a is not there: bin/release renews it")

    def test_another_toolchain(self):
        write(self.folder, "kit/rt", RT.replace("a stand-in 1", "a stand-in 2"))
        os.chmod(os.path.join(self.folder, "kit/rt"), 0o755)
        self.kit = os.path.join(self.folder, "kit")
        self.assert_refused("dist/RELEASE is of another toolchain than a stand-in 2: bin/release renews it")

    def test_no_toolchain(self):
        self.kit = None
        self.assert_refused("the command rt, which names the toolchain, is not on the path")

    def test_a_line_that_was_made_by_hand(self):
        with open(os.path.join(self.clone, "dist/RELEASE"), encoding="utf-8") as file:
            lines = file.read().splitlines()
        for at in (0, 1, len(PROGRAMS) + 1, len(lines) - 1):
            write(self.clone, "dist/RELEASE", "\n".join([*lines[:at], lines[at][:-1] + "x", *lines[at + 1:]]) + "\n")
            self.assertEqual(self.check().returncode, 1, lines[at])
        write(self.clone, "dist/RELEASE", "\n".join(lines) + "\n")
        self.assert_holds()

    def test_a_line_that_was_added(self):
        write(self.clone, "dist/RELEASE", "sources shex 0\n", "a")
        self.assert_refused("dist/RELEASE has other lines than those of these programs: bin/release renews it")

    def test_a_source_that_is_changed_while_programs_are_built(self):
        os.remove(os.path.join(self.clone, "crates/shextool_cli/out/shextool_cli"))
        write(self.folder, "log.meanwhile", f"echo more >>'{self.clone}/crates/low/src/lib.rt'\n")
        done = self.run_in("bin/release", kit=self.kit)
        self.assertEqual(done.returncode, 1)
        self.assertTrue(done.stderr.endswith("release: a source was changed while the programs were built: call bin/release again\n"), done)
        os.remove(os.path.join(self.folder, "log.meanwhile"))
        self.assertEqual(self.run_in("bin/release", "--current", "shex").returncode, 1)
        self.assert_renewed()

    def test_a_file_that_was_put_there(self):
        write(self.clone, "dist/other", "")
        self.assert_refused("dist/other is no program that is released: remove it")

    def test_texts_name_the_version(self):
        with open(os.path.join(ROOT, "VERSION"), encoding="utf-8") as file:
            version = file.read().strip()
        for name, line in {"CHANGELOG.md": f"\n## {version}\n", "include/shex.pc": f"\nVersion: {version}\n", "python/shex_proved/__init__.py": f'__version__ = "{version}"',
                           **{f"man/{name}.1": f' "shex {version}" ' for name in PROGRAMS[:3]}}.items():
            with open(os.path.join(ROOT, name), encoding="utf-8") as file:
                self.assertIn(line, file.read(), name)

    def test_installing(self):
        to = os.path.join(self.folder, "a prefix")
        done = self.run_in("bin/install", to)
        self.assertEqual((done.returncode, done.stderr), (0, ""))
        self.assertEqual(self.run_in(os.path.join(to, "bin/shex"), "x").returncode, 7)
        for name in PROGRAMS[:3]:
            for file in (f"bin/{name}", f"share/man/man1/{name}.1", f"share/bash-completion/completions/{name}", "share/zsh/site-functions/_shex"):
                self.assertTrue(os.path.isfile(os.path.join(to, file)), file)
        for file in ("lib/libshex.a", "lib/libshex.so", "include/shex.h", "lib/pkgconfig/shex.pc"):
            self.assertTrue(os.path.isfile(os.path.join(to, file)), file)
        with open(os.path.join(to, "lib/pkgconfig/shex.pc"), encoding="utf-8") as file:
            self.assertTrue(file.read().startswith("libdir=${pcfiledir}/..\nincludedir=${pcfiledir}/../../include\n"))

    def test_words_of_no_installation(self):
        for words in ((), ("",), ("--help",), ("a", "b")):
            done = self.run_in("bin/install", *words)
            self.assertEqual((done.returncode, done.stdout, done.stderr), (2, "", "usage: bin/install PREFIX\n"))

    def test_installing_a_program_that_is_not_released(self):
        self.change()
        done = self.run_in("bin/install", os.path.join(self.folder, "prefix"))
        self.assertEqual((done.returncode, done.stdout), (1, ""))
        self.assertEqual(done.stderr, "install: dist/shex is not of these sources: bin/release renews it\n")
        self.assertFalse(os.path.exists(os.path.join(self.folder, "prefix")))


if __name__ == "__main__":
    unittest.main()
