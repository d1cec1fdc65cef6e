"""`scripts/build` over a small tree, with a stand-in for the kit."""

import os
import pathlib
import shutil
import signal
import subprocess
import sys
import tempfile
import time

import pytest

BUILD = pathlib.Path(__file__).resolve().parent.parent / "scripts" / "build"
CRATES = {
    "costs": "",
    "dev_io": "",
    "comp_tree": "costs",
    "fits_card": "dev_io",
    "detect_top": "comp_tree fits_card",
    "measure_top": "comp_tree fits_card",
    "maxdetect": "detect_top measure_top",
    "survey_core": "fits_card",
    "survey_sqlite": "survey_core",
    "maxsurvey": "survey_sqlite",
}
# The prover tells each crate when it begins and when it is proved; each library that it is given has to be there.
RATTLE = """
import os, pathlib, sys, time

words = sys.argv[1:]
crate, made = words[words.index("--crate-name") + 1], pathlib.Path(words[words.index("-o") + 1])

def tell(text):
    with open(os.environ["LOG"], "a") as log:
        log.write(text + "\\n")

tell(f"begun {crate} {[word for word in words if word.startswith('--jobs')][0]}")
given = [words[place + 1].partition("=") for place, word in enumerate(words) if word == "--extern"]
for name, _, path in given:
    if not pathlib.Path(path).exists():
        sys.exit(f"{name} isn't built")
if (pathlib.Path.cwd().name, made.suffix == ".rlib") != (crate, "--statements" in words):
    sys.exit("a library's statements are wanted, in the crate's folder")
time.sleep(float(os.environ.get("TAKES", "0.05")))
if crate == os.environ.get("FAILS"):
    sys.exit(f"{crate} isn't proved")
tell(f"proved {crate}")
made.write_text("")
"""
LINK = """
import pathlib, sys

made = pathlib.Path(sys.argv[sys.argv.index("-o") + 1])
made.write_text("#!/bin/sh\\nexit 0\\n")
made.chmod(0o755)
"""
# What compiles the package's loops.
LOOPS = """
import pathlib, sys

(pathlib.Path(sys.argv[0]).parent.parent / "python" / "maxdetect" / "libloops.so").write_text("")
"""


class Tree:
    """A tree of sources with the script, and what was asked of its kit."""

    def __init__(self, top):
        self.top, self.log, self.said, self.kit = top / "tree", top / "log", top / "tmp", top / "kit"
        for name in CRATES:
            (self.top / "crates" / name / "src").mkdir(parents=True)
            (self.top / "crates" / name / "src" / "lib.rt").write_text("")
        (self.top / "crates.txt").write_text("".join(f"{name}: {below}\n" for name, below in CRATES.items()))
        (self.top / "scripts").mkdir()
        shutil.copy(BUILD, self.top / "scripts")
        self.library = self.top / "python" / "maxdetect" / "libloops.so"
        (self.top / "python" / "loops").mkdir(parents=True)
        self.library.parent.mkdir()
        (self.top / "scripts" / "loops").write_text(f"#!{sys.executable} -IS{LOOPS}")
        (self.top / "scripts" / "loops").chmod(0o755)
        for path in (self.kit / "bin", self.kit / "rlibs" / "std.rlib", self.said):
            path.mkdir(parents=True)
        (self.kit / "WHAT").write_text("a kit")
        for name, text in {"rt": "", "rattle": RATTLE, "rattle-link": LINK}.items():
            (self.kit / "bin" / name).write_text(f"#!{sys.executable} -IS{text}")
            (self.kit / "bin" / name).chmod(0o755)
        self.environment = {"PATH": str(self.kit / "bin"), "LOG": str(self.log), "TMPDIR": str(self.said)}

    def start(self, *programs, user=None, **environment):
        # Without its site's modules Python is there sooner.
        words = [sys.executable, "-IS", str(self.top / "scripts" / "build"), *programs]
        who = {} if user is None else {"user": user, "group": user, "extra_groups": []}
        # The tests may run where an interrupt is ignored.
        how = {"preexec_fn": lambda: signal.signal(signal.SIGINT, signal.SIG_DFL), **who}
        return subprocess.Popen(words, env=self.environment | environment, stderr=subprocess.PIPE, text=True, **how)

    def build(self, *programs, **environment):
        """The status and what was said."""
        running = self.start(*programs, **environment)
        said = running.communicate(timeout=60)[1]
        return running.returncode, said

    def told(self, verb):
        """The crates of which the prover told this, in order."""
        lines = self.log.read_text().splitlines() if self.log.exists() else []
        return [line.split()[1] for line in lines if line.split()[0] == verb]

    def is_built(self, program):
        return os.access(self.top / "crates" / program / "out" / program, os.X_OK)


@pytest.fixture
def tree(tmp_path):
    return Tree(tmp_path)


def test_each_crate_is_proved_once_and_behind_those_below_it(tree):
    status, said = tree.build()
    assert status == 0 and tree.is_built("maxdetect") and not tree.is_built("maxsurvey")
    assert said.startswith("build: maxdetect isn't built; proving and building maxdetect: 7 crates are left")
    proved = tree.told("proved")
    assert sorted(proved) == sorted(
        ["costs", "dev_io", "comp_tree", "fits_card", "detect_top", "measure_top", "maxdetect"]
    )
    assert all(proved.index(low) < proved.index(name) for name in proved for low in CRATES[name].split())
    assert os.listdir(tree.said) == []
    assert sorted(os.listdir(tree.top / "crates" / "maxdetect" / "out")) == ["maxdetect", "maxdetect.o"]


def test_both_programs_are_made_at_once(tree):
    assert tree.build("maxsurvey", "maxdetect")[0] == 0
    assert tree.is_built("maxdetect") and tree.is_built("maxsurvey")
    assert sorted(tree.told("proved")) == sorted(CRATES)


def test_the_longest_chain_goes_first_and_a_large_crate_has_more_jobs(tree):
    assert tree.build(RT_SLOTS="2")[0] == 0
    assert sorted(tree.told("begun")[:2]) == ["costs", "dev_io"]
    lines = tree.log.read_text().splitlines()
    assert "begun comp_tree --jobs=2" in lines or "begun comp_tree --jobs=1" in lines
    assert "begun fits_card --jobs=1" in lines


def test_what_rt_made_stays(tree):
    kept = tree.top / "crates" / "costs" / "out" / "incremental"
    kept.mkdir(parents=True)
    (kept / "work").write_text("work")
    assert tree.build()[0] == 0
    assert os.listdir(kept.parent) == ["incremental"] and (kept / "work").read_text() == "work"


def test_only_what_changed_and_the_crates_above_it_are_proved_anew(tree):
    tree.build()
    tree.log.unlink()
    assert tree.build("maxsurvey")[0] == 0
    assert sorted(tree.told("proved")) == ["maxsurvey", "survey_core", "survey_sqlite"]
    tree.log.unlink()
    (tree.top / "crates" / "fits_card" / "src" / "lib.rt").write_text("// changed")
    later = time.time() + 9
    os.utime(tree.top / "crates" / "fits_card" / "src" / "lib.rt", (later, later))
    assert tree.build()[0] == 0
    assert sorted(tree.told("proved")) == ["detect_top", "fits_card", "maxdetect", "measure_top"]


def test_a_library_that_was_made_anew_makes_those_above_it_anew(tree):
    tree.build()
    tree.log.unlink()
    (tree.top / "crates" / "maxdetect" / "out" / "maxdetect").unlink()
    (tree.top / "out" / "build" / "comp_tree.made").unlink()
    assert tree.build()[0] == 0
    assert sorted(tree.told("proved")) == ["comp_tree", "detect_top", "maxdetect", "measure_top"]


def test_what_is_newer_than_the_program_makes_it_anew(tree):
    tree.build()
    tree.log.unlink()
    assert tree.build() == (0, "")
    later = time.time() + 9
    (tree.top / "crates" / "costs" / "must-fail").mkdir()
    (tree.top / "crates" / "costs" / "must-fail" / "other.rt").write_text("")
    os.utime(tree.top / "crates" / "costs" / "must-fail" / "other.rt", (later, later))
    assert tree.build() == (0, "")
    os.utime(tree.top / "crates" / "survey_core" / "src" / "lib.rt", (later, later))
    assert tree.build() == (0, "") and not tree.log.exists()
    os.utime(tree.top / "crates" / "costs" / "src" / "lib.rt", (later, later))
    assert tree.build()[0] == 0 and not tree.log.exists()


def test_the_loops_are_compiled_with_a_program_and_where_a_source_is_newer(tree):
    assert tree.build()[0] == 0 and tree.library.exists()
    tree.library.unlink()
    assert tree.build() == (0, "") and not tree.library.exists()
    tree.library.write_text("old")
    (tree.top / "python" / "loops" / "sky.c").write_text("")
    os.utime(tree.library, (1, 1))
    assert tree.build() == (0, "") and tree.library.read_text() == ""


@pytest.mark.parametrize("crate", ["comp_tree", "fits_card", "measure_top", "survey_sqlite", "maxsurvey"])
def test_a_crate_that_fails_is_told(tree, crate):
    status, said = tree.build("maxdetect", "maxsurvey", FAILS=crate)
    assert status == 70
    assert f"{crate} isn't proved" in said and "has all that was said" in said
    assert not (tree.is_built("maxdetect") and tree.is_built("maxsurvey"))
    (kept,) = os.listdir(tree.said)
    assert f"{crate} isn't proved" in (tree.said / kept).read_text()


def test_it_ends_what_it_began(tree):
    running = tree.start("maxdetect", "maxsurvey", TAKES="1")
    while not tree.told("begun"):
        time.sleep(0.05)
    running.send_signal(signal.SIGTERM)
    assert running.wait(20) == 143
    proved = tree.told("proved")
    time.sleep(1.5)
    assert tree.told("proved") == proved
    assert not tree.is_built("maxdetect")


def test_a_second_build_waits_and_proves_nothing_again(tree):
    first = tree.start(TAKES="0.3")
    while not tree.told("begun"):
        time.sleep(0.05)
    assert tree.build() == (0, "build: waiting for another build\n")
    assert first.wait(20) == 0
    assert len(tree.told("proved")) == 7


def test_words_and_a_missing_rt(tree):
    assert tree.build("maxtree") == (64, "usage: scripts/build [maxdetect] [maxwide] [maxsurvey]\n")
    status, said = tree.build(PATH=str(tree.top))
    assert (
        status == 70
        and said == "build: maxdetect isn't built, and the kit's rt isn't on the PATH; README.md names the kit\n"
    )


@pytest.fixture
def locked():
    """A tree that all may read, and a user who may not write it."""
    with tempfile.TemporaryDirectory() as name:
        os.chmod(name, 0o755)
        made = Tree(pathlib.Path(name))
        assert made.build()[0] == 0
        os.chmod(made.said, 0o777)
        places = [made.top, *made.top.rglob("*")]
        for place in places:
            place.chmod(place.stat().st_mode & 0o555)
        yield made, (65534 if os.geteuid() == 0 else None)
        for place in places:
            place.chmod(place.stat().st_mode | 0o200)


def test_a_checkout_that_cannot_be_written(locked):
    tree, user = locked
    try:
        assert tree.build(user=user) == (0, "")
    except PermissionError:
        pytest.skip("the other user can't run this Python")
    source = tree.top / "crates" / "costs" / "src" / "lib.rt"
    os.utime(source, (time.time() + 9, time.time() + 9))
    status, said = tree.build(user=user)
    assert status == 70 and said.count("\n") == 1 and said.endswith("/out/build/lock: Permission denied\n")
    assert said.startswith("build: crates/costs/src/lib.rt is newer than crates/maxdetect/out/maxdetect, but ")
    status, said = tree.build("maxsurvey", user=user)
    assert status == 70 and said.count("\n") == 1 and said.startswith("build: maxsurvey isn't built, but ")


def test_an_interrupt_that_was_held_back_ends_it_in_silence(tree):
    signal.pthread_sigmask(signal.SIG_BLOCK, [signal.SIGINT])
    try:
        running = tree.start(TAKES="2")
    finally:
        signal.pthread_sigmask(signal.SIG_UNBLOCK, [signal.SIGINT])
    running.send_signal(signal.SIGINT)
    assert running.communicate(timeout=20)[1] == "" and running.returncode == 130
