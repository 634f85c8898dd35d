"""How `./tokc` comes to a program: compiled without a check of its proof, proved, tried, or installed, over a stand-in for the toolchain."""
import fcntl
import os
import re
import shutil
import subprocess
import sys
import unittest

from helpers import SECONDS, TOKC, TOP, Room, load_tool, read, run, tree, write

BUILD = load_tool("build-tokc")

# The toolchain: `rt doc` names its guide; `rt try` leaves a module where clang makes its object file beside it, and then waits to be ended, or,
# given no folder to leave it in, answers as a tried program; `rt lib` and `rt run` prove.
RT = """#!/bin/sh
kit=$(cd "${0%/*}" && pwd)
echo "$*" >>"$kit/calls"
case $1 in
doc) echo "$kit/START-HERE.md" ;;
try)
    case $5 in build | */site | show | '') way=$(cat "$kit/way") ;; esac
    case $way in
    module)
        mkdir -p "$TMPDIR/native" && head -c 1000000 /dev/zero >"$TMPDIR/native/module.bc" && : >"$TMPDIR/native/module-1.o.tmp"
        exec sleep 60
        ;;
    small) mkdir -p "$TMPDIR/native" && echo small >"$TMPDIR/native/module.bc" && : >"$TMPDIR/native/module.o" ;;
    esac
    cat
    printf 'interpreter: no-answer\\ntokc: its own line\\nchecked: ended status=1\\nrun=ended status=1 runners=1 proved=no\\n' >&2
    exit 1
    ;;
lib)
    [ ! -e fails ] || { echo "it is not proved"; exit 1; }
    mkdir -p out/rlib out/incremental
    ;;
run)
    made=out/${PWD##*/}
    cat >/dev/null && mkdir -p out && printf '#!/bin/sh\\necho proved "$@"\\n' >"$made" && chmod +x "$made"
    ;;
esac
"""
CLANG = '#!/bin/sh\nfor it; do last=$it; done\n[ ! -e "${0%/*}/fails" ] || { echo "clang: refused"; exit 1; }\necho object >"$last"\n'
LINK = '#!/bin/sh\nshift 5\nprintf \'#!/bin/sh\\necho compiled "$@"\\n\' >"$1" && chmod +x "$1"\n'

COMPILES = "tokc: compiles tokc, which takes about three minutes; this machine has not checked the proof, which ./tokc prove does in more than an hour\n"
COMPILED = "tokc: tokc is compiled, in N s\n"
TRIES = "tokc: runs tokc by `rt try`, which takes a minute each time; this machine has not checked its proof\n"
NO_RT = "tokc: the toolchain is needed: put the folder of `rt` (rattle-kit-13f) on the path; its guide is START-HERE.md in the toolchain's folder, as /opt/rattle\n"


class Made(Room):
    """A checkout of two crates with a toolchain of its own."""

    def setUp(self):
        super().setUp()
        shutil.copy(os.path.join(TOP, "tokc"), self.at("tokc"))
        shutil.copytree(os.path.join(TOP, "tools"), self.at("tools"), ignore=shutil.ignore_patterns("__pycache__", "tests"))
        for name, text in (("kit/rt", RT), ("kit/toolchain/bin/clang", CLANG), ("kit/bin/rattle-link", LINK)):
            write(self.at(name), text)
            os.chmod(self.at(name), 0o755)
        self.way("module")
        write(self.at("crates.txt"), "low:\ntokc: low\n")
        write(self.at("HANDLES"), "Handles allowed: none.\n")
        write(self.at("examples/first.script"), "tokc-script 1\n")
        for name in ("docs/MANUAL.md", "docs/FORMAT.md"):
            write(self.at(name), name)
        for name in ("low", "tokc"):
            write(self.at("crates", name, "src/main.rt"), "")

    def way(self, word):
        write(self.at("kit/way"), word)

    def tokc(self, *words, given=b"", path=True):
        """Runs ./tokc with the toolchain on the path, or without."""
        env = {**os.environ, "PATH": (self.at("kit") + os.pathsep if path else "") + "/usr/bin:/bin", "PYTHONDONTWRITEBYTECODE": "1"}
        env.pop("TOKC_QUIET", None)
        ran = subprocess.run([self.at("tokc"), *words], input=given, capture_output=True, cwd="/", env=env, timeout=SECONDS, check=False)
        return ran.returncode, ran.stdout.decode(), re.sub(r"in \d+ s", "in N s", ran.stderr.decode())


class Compiled(Made):
    """Without a check of the proof."""

    def test_it_is_compiled_once_and_said_so(self):
        self.assertEqual(self.tokc("build"), (0, "compiled build\n", COMPILES + COMPILED))
        self.assertEqual(self.tokc("gen", "1", "2"), (0, "compiled gen 1 2\n", ""))
        self.assertEqual(read(self.at("kit/calls")), b"doc\ntry --steps 1 -- build\ndoc\n")

    def test_new_sources_are_compiled_anew(self):
        self.tokc("build")
        write(self.at("crates/low/src/main.rt"), "// another\n")
        self.assertIn(COMPILES, self.tokc("build")[2])

    def test_a_quiet_run_says_nothing(self):
        self.tokc("build")
        ran = run(["env", "TOKC_QUIET=1", self.at("tokc"), "build"])
        self.assertEqual(ran, (0, "compiled build\n", ""))

    def test_what_cannot_be_compiled_is_tried(self):
        for way in ("none", "small"):
            with self.subTest(way=way):
                self.way(way)
                wanted = COMPILES + "tokc: `rt try` left no module of tokc\n" + TRIES + "tokc: its own line\n"
                self.assertEqual(self.tokc("build", given=b"a script\n"), (1, "a script\n", wanted))

    def test_a_compiler_that_refuses_the_module(self):
        write(self.at("kit/toolchain/bin/fails"), "")
        status, out, err = self.tokc("build", given=b"a script\n")
        log = self.at("crates/tokc/out/build.log")
        self.assertEqual((status, out), (1, "a script\n"))
        self.assertEqual(err, f"{COMPILES}tokc: clang did not take tokc; {log} ends with:\nclang: refused\n{TRIES}tokc: its own line\n")

    def test_a_toolchain_without_its_compiler(self):
        shutil.rmtree(self.at("kit/toolchain"))
        status, out, err = self.tokc("build", given=b"a script\n")
        self.assertEqual((status, out), (1, "a script\n"))
        self.assertEqual(err, f"{COMPILES}tokc: {self.at('kit/toolchain/bin/clang')}: No such file or directory\n{TRIES}tokc: its own line\n")

    def test_a_run_that_waits_takes_what_the_other_made(self):
        write(self.at("crates/tokc/out/unproved/lock"), "")
        with open(self.at("crates/tokc/out/unproved/lock"), encoding="utf-8") as held:
            fcntl.flock(held, fcntl.LOCK_EX)
            env = {**os.environ, "PATH": self.at("kit") + ":/usr/bin:/bin", "PYTHONDONTWRITEBYTECODE": "1"}
            waiting = subprocess.Popen([self.at("tokc"), "build"], stdin=subprocess.DEVNULL, stdout=subprocess.PIPE, stderr=subprocess.PIPE, text=True, env=env)
            self.addCleanup(waiting.kill)
            self.assertEqual(waiting.stderr.readline(), "tokc: waits while another run compiles the program\n")
            write(self.at("crates/tokc/out/unproved/tokc"), "#!/bin/sh\necho of the other\n", 0o755)
            fcntl.flock(held, fcntl.LOCK_UN)
            out, err = waiting.communicate(timeout=SECONDS)
        self.assertEqual((waiting.returncode, out, err), (0, "of the other\n", ""))

    def test_no_toolchain(self):
        for words in (["build"], ["prove"], ["install", self.at("prefix")]):
            with self.subTest(words=words):
                self.assertEqual(self.tokc(*words, path=False), (126, "", NO_RT))
        ran = run(["env", "PATH=/usr/bin:/bin", sys.executable, self.at("tools/prove-below"), "tokc", "true"], at="/")
        self.assertEqual((ran.status, ran.out, ran.err), (2, "", "prove-below" + NO_RT[4:]))


class Proved(Made):
    """By `./tokc prove`."""

    def test_it_is_proved_and_taken(self):
        self.tokc("build")
        status, out, err = self.tokc("prove")
        self.assertEqual((status, out), (0, ""))
        self.assertEqual(err.replace("0 s so far", "N s so far").replace("1 s so far", "N s so far"), (
            "tokc: proves 2 crates and builds tokc: more than an hour on four processors where nothing is kept\n"
            "tokc: 0 of 2 crates are proved; low under way; N s so far\n"
            "tokc: 1 of 2 crates are proved; tokc under way; N s so far\n"
            "tokc: all 2 crates are proved and the programs are built, in N s; ./tokc takes these programs\n"
        ))
        self.assertEqual(self.tokc("build"), (0, "proved build\n", ""))
        self.assertEqual(self.tokc("prove"), (0, "", "tokc: all is proved and built already\n"))
        self.assertEqual(re.sub(rb"\d+", b"N", read(self.at("crates/tokc/out/proof-times"))), b"low N\ntokc N\n")

    def test_new_sources_take_the_proved_program_away(self):
        self.tokc("prove")
        write(self.at("crates/low/src/main.rt"), "// another\n")
        self.assertEqual(self.tokc("build")[1], "compiled build\n")

    def test_a_proof_that_fails(self):
        write(self.at("crates/low/fails"), "")
        status, out, err = self.tokc("prove")
        log = self.at("crates/tokc/out/build.log")
        self.assertEqual((status, out), (1, ""))
        self.assertRegex(err, rf"tokc: a proof failed, or tokc could not be built; {re.escape(log)} ends with:\nprove-below: proves low\nit is not proved\nprove-below: low took .*\n\Z")


class Beside(Made):
    """With the other programs beside tokc."""

    def setUp(self):
        super().setUp()
        write(self.at("crates.txt"), "low:\nstore: low\ntokc: low\ntokc_store: store low\ntokc_check: low\ntokc_themes: low\ntokc_explain: low\n")
        for name in ("store", "tokc_store", "tokc_check", "tokc_themes", "tokc_explain"):
            write(self.at("crates", name, "src/main.rt"), "")

    def test_all_are_compiled_side_by_side(self):
        every = "tokc, tokc_store, tokc_check, tokc_themes and tokc_explain"
        compiles = COMPILES.replace("compiles tokc,", f"compiles {every},")
        self.assertEqual(self.tokc("store", "a b"), (0, "compiled a b\n", compiles + f"tokc: {every} are compiled, in N s\n"))
        self.assertEqual(self.tokc("build"), (0, "compiled build\n", ""))
        for word in ("check", "themes"):
            self.assertEqual(self.tokc(word), (0, "compiled\n", ""))
        self.assertEqual(self.tokc("explain", "show", "a b", "#/c"), (0, "compiled show a b #/c\n", ""))
        os.remove(self.at("crates/tokc/out/unproved/tokc"))
        self.assertEqual(self.tokc("store", "a b"), (0, "compiled a b\n", ""))
        self.assertEqual(self.tokc("build"), (0, "compiled build\n", COMPILES + COMPILED))

    def test_what_is_beside_is_not_tried(self):
        self.way("none")
        for words in (["store", "a"], ["check"], ["themes"], ["explain"]):
            with self.subTest(words=words):
                status, out, err = self.tokc(*words)
                self.assertEqual((status, out), (126, ""))
                self.assertRegex(err, "`rt try` left no module of tokc(_store|_check|_themes|_explain)?\n\\Z")

    def test_all_are_proved(self):
        self.tokc("build")
        status, out, err = self.tokc("prove")
        self.assertEqual((status, out), (0, ""))
        lines = [re.sub("[0-9]+ s so far", "N s so far", it) for it in err.splitlines()]
        self.assertEqual(lines[0], "tokc: proves 7 crates and builds tokc, tokc_store, tokc_check, tokc_themes and tokc_explain: more than an hour on four processors where nothing is kept")
        self.assertEqual(lines[-1], "tokc: all 7 crates are proved and the programs are built, in N s; ./tokc takes these programs")
        self.assertIn("tokc: 1 of 2 crates are proved; tokc_store under way; N s so far", lines)
        self.assertEqual(self.tokc("store", "a"), (0, "proved a\n", ""))
        for word in ("check", "themes"):
            self.assertEqual(self.tokc(word), (0, "proved\n", ""))
        self.assertEqual(self.tokc("prove"), (0, "", "tokc: all is proved and built already\n"))

    def test_all_are_installed(self):
        prefix = self.at("prefix")
        self.assertEqual(self.tokc("install", prefix)[0], 0)
        self.assertEqual(run([os.path.join(prefix, "bin", "tokc_store"), "x"]), (0, "compiled x\n", ""))
        for name in ("tokc_check", "tokc_themes", "tokc_explain"):
            self.assertEqual(run([os.path.join(prefix, "bin", name)]), (0, "compiled\n", ""))
        told = "".join(f"{name} is {BUILD.UNPROVED_WORD}\n" for name in ("tokc", "tokc_store", "tokc_check", "tokc_themes", "tokc_explain"))
        self.assertEqual(run([os.path.join(prefix, "bin", "tokc-dir"), "--version"]), (0, "tokc-dir\n" + told, ""))


class Left(unittest.TestCase):
    """What is left by the times of the last run, on two processors."""

    USES = {"low": [], "left": ["low"], "right": ["low"], "top": ["left", "right"]}
    TIMES = {"low": 60, "left": 120, "right": 300, "top": 30}

    def setUp(self):
        self.now = 1000.0

    def progress(self, times):
        return BUILD.Progress(self.USES, times, 2, lambda: self.now)

    def test_each_step(self):
        progress = self.progress(self.TIMES)
        self.assertEqual(progress.line(), "0 of 4 crates are proved; 0 s so far, about 6 min left")
        progress.begin("low")
        self.now += 60
        progress.end("low")
        for name in ("left", "right"):
            progress.begin(name)
        self.now += 100
        self.assertEqual(progress.line(), "1 of 4 crates are proved; left, right under way; 3 min so far, about 4 min left")
        self.assertEqual(progress.left(), 230)

    def test_one_processor_does_one_after_the_other(self):
        progress = BUILD.Progress(self.USES, self.TIMES, 1, lambda: self.now)
        self.assertEqual(progress.left(), 510)

    def test_an_unknown_time_is_no_guess(self):
        self.assertEqual(self.progress({"low": 60}).line(), "0 of 4 crates are proved; 0 s so far")


class Installed(Made):
    """Under a prefix, from where it runs when the checkout is gone."""

    def test_it_runs_without_the_checkout(self):
        for word, told in (("not proved", BUILD.UNPROVED_WORD), ("proved", BUILD.PROVED_WORD)):
            with self.subTest(word=word):
                prefix = self.at("prefix", word)
                if word == "proved":
                    self.tokc("prove")
                status, out, err = self.tokc("install", prefix)
                self.assertEqual((status, out), (0, ""))
                self.assertTrue(err.endswith(f"tokc: tokc and tokc-dir stand in {prefix}/bin, the manual in {prefix}/share/doc/tokc\ntokc: tokc is {told}\n"), err)
                os.rename(prefix, prefix + " moved")
                ran = run([os.path.join(prefix + " moved", "bin", "tokc"), "build"])
                self.assertEqual(ran, (0, "compiled build\n" if word == "not proved" else "proved build\n", ""))
                ran = run([os.path.join(prefix + " moved", "bin", "tokc-dir"), "pack", self.at("tokens")])
                self.assertEqual(ran, (0, "tokc-script 1\ncommit\n", ""))
                ran = run([os.path.join(prefix + " moved", "bin", "tokc-dir"), "--version"])
                self.assertEqual(ran, (0, f"tokc-dir\ntokc is {told}\n", ""))
                self.assertEqual({it for it in tree(prefix + " moved") if "tokcdir" not in it}, {
                    "bin/tokc", "bin/tokc-dir", "lib/tokc/PROOF", "lib/tokc/tokc", "lib/tokc/tokc-dir", "share/doc/tokc/FORMAT.md", "share/doc/tokc/MANUAL.md",
                })

    def test_a_prefix_that_is_a_file(self):
        write(self.at("file"), "")
        self.tokc("build")
        self.assertEqual(self.tokc("install", self.at("file")), (2, "", f"tokc: {self.at('file/lib')}: it can't be written: Not a directory\n"))


class Words(unittest.TestCase):
    """Wrong arguments are told what there is."""

    def test_each(self):
        usage = BUILD.__doc__.split("\n\n")[1] + "\n"
        for words in ([], ["bild"], ["compile", "x"], ["install", "x"]):
            with self.subTest(words=words):
                ran = run([sys.executable, os.path.join(TOP, "tools", "build-tokc"), *words])
                self.assertEqual(ran, (2, "", usage))
        self.assertEqual(run([TOKC, "install"]).status, 2)


if __name__ == "__main__":
    unittest.main()
