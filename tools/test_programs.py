"""How the programs are built and run, tried on a copy of the command with a stand-in for the kit: when it builds, with what lock, and what it says."""
import glob
import os
import shutil
import signal
import subprocess
import tempfile
import time
import unittest

HERE = os.path.dirname(os.path.abspath(__file__))
ROOT = os.path.dirname(HERE)
BOARD = "deadline 3\npart A fastest 1 power 0\n"
# Takes a moment, counts its runs, and builds programs that print the board they were given, one a call, in the folder where it is called.
KIT = """#!/bin/sh
program=$(basename "$PWD")
echo "run $program" >>"$(dirname "$0")/runs"
[ "$program" != boddivarn ] || sleep "${SLOWLY:-0}"
[ -z "$BROKEN" ] || { echo "rt: low NOT PROVED (exit 1, 0 s)"; exit 1; }
mkdir -p out
printf '#!/bin/sh\\nsleep 0.2\\ncat crate 2>/dev/null; od -An -tx1 board.dat\\n' >"out/$program"
chmod +x "out/$program"
[ "$program" != boddivarn ] || echo "logic=proved functions=1"
[ "$program" != boddivarn ] || echo "logic=proved functions=2"
"""


class Building(unittest.TestCase):
    def setUp(self):
        self.place = tempfile.mkdtemp()
        self.addCleanup(shutil.rmtree, self.place)
        os.chmod(self.place, 0o755)
        self.root, self.kit = os.path.join(self.place, "checkout"), os.path.join(self.place, "kit")
        os.makedirs(os.path.join(self.root, "tools"))
        for path in glob.glob(os.path.join(HERE, "*.py")):
            shutil.copy(path, os.path.join(self.root, "tools"))
        shutil.copy(os.path.join(ROOT, "boddivarn"), self.root)
        self.write(os.path.join(self.root, "tools", "run"), '#!/bin/sh\nexec "$(dirname "$0")/../target/bin/$1"\n', 0o755)
        self.write(os.path.join(self.root, "crates.txt"), "low:\nother:\nboddivarn: low\ncalls: low # asks\n")
        for crate in ("low", "boddivarn", "calls", "other"):
            self.write(os.path.join(self.root, "crates", crate, "src", "main.rt"), "fn main() {}\n")
        self.write(os.path.join(self.kit, "rt"), KIT, 0o755)
        self.board = os.path.join(self.place, "board.txt")
        self.write(self.board, BOARD)

    def write(self, path, text, mode=0o644):
        os.makedirs(os.path.dirname(path), exist_ok=True)
        with open(path, "w", encoding="utf-8") as file:
            file.write(text)
        os.chmod(path, mode)

    def start(self, *words, command=None, kit=True, **more):
        path = (self.kit + ":" if kit else "") + "/usr/bin:/bin"
        environment = {"PATH": path, "TMPDIR": self.place, **more.pop("env", {})}
        words = [command or os.path.join(self.root, "boddivarn"), "plan", *(words or [self.board])]
        place = more.pop("cwd", self.place)
        pipes = {"stdout": subprocess.PIPE, "stderr": subprocess.PIPE, "text": True}
        return subprocess.Popen([shutil.which("python3"), *words], env=environment, cwd=place, **pipes, **more)

    def run_plan(self, *words, **more):
        """Status, output and what was said."""
        running = self.start(*words, **more)
        out, said = running.communicate(timeout=60)
        return running.returncode, out, said

    def builds(self):
        path = os.path.join(self.kit, "runs")
        if not os.path.exists(path):
            return 0
        with open(path, encoding="ascii") as file:
            return file.read().count("run boddivarn")

    def test_builds_once_and_says_so(self):
        status, out, said = self.run_plan()
        self.assertEqual((status, out.split()), (0, "01 03 01 01 00 00 00".split()))
        self.assertIn("boddivarn: proving and building the programs, 3 crates", said)
        self.assertIn("boddivarn: 2 of 3 crates proved", said)
        self.assertEqual(self.run_plan(), (0, out, ""))
        self.assertEqual(self.builds(), 1)
        with open(os.path.join(self.kit, "runs"), encoding="ascii") as file:
            self.assertEqual(file.read(), "run boddivarn\nrun calls\n")

    def test_a_typo_shows_before_anything_is_built(self):
        self.write(self.board, BOARD + "lnk A B\n")
        status, out, said = self.run_plan()
        self.assertEqual((status, out, said), (1, "", f"{self.board}:3: 'lnk' is none of deadline, part, link, rule\n"))
        self.assertEqual(self.builds(), 0)

    def test_builds_again_when_a_source_has_changed(self):
        self.run_plan()
        for crate, builds in (("other", 1), ("low", 2), ("calls", 3)):
            self.write(os.path.join(self.root, "crates", crate, "src", "main.rt"), f"fn main() {{}} // {crate}\n")
            self.assertEqual(self.run_plan()[0], 0)
            self.assertEqual(self.builds(), builds, crate)

    def test_builds_again_when_a_program_is_another(self):
        self.run_plan()
        program = os.path.join(self.root, "target", "bin", "boddivarn")
        self.write(program, "#!/bin/sh\necho somebody else's\n", 0o755)
        self.assertNotIn("somebody", self.run_plan()[1])
        os.remove(program)
        self.assertEqual(self.run_plan()[0], 0)
        self.assertEqual(self.builds(), 3)

    def test_two_runs_at_once_build_once_and_are_both_right(self):
        other = os.path.join(self.place, "other.txt")
        self.write(other, BOARD.replace("3", "9"))
        runs = [self.start(path, env={"SLOWLY": "1"}) for path in (self.board, other) * 3]
        outs = [run.communicate(timeout=60) for run in runs]
        self.assertEqual([run.returncode for run in runs], [0] * 6)
        self.assertEqual([out.split()[1] for out, _ in outs], ["03", "09"] * 3)
        self.assertEqual(self.builds(), 1)
        self.assertEqual(sum("proving and building" in said for _, said in outs), 1)
        self.assertEqual(sum("waiting for it" in said for _, said in outs), 5)

    def test_a_build_waits_until_runs_have_ended(self):
        self.run_plan()
        running = self.start()
        time.sleep(0.15)
        self.write(os.path.join(self.root, "crates", "low", "src", "main.rt"), "fn main() {} // changed\n")
        self.assertEqual(self.run_plan()[0], 0)
        self.assertEqual((running.communicate(timeout=60)[0].split()[:2], running.returncode), (["01", "03"], 0))

    def test_a_killed_run_does_not_leave_two_builds_at_once(self):
        running = self.start(env={"SLOWLY": "2"})
        while self.builds() == 0:
            time.sleep(0.05)
        running.kill()
        running.communicate()
        began = time.monotonic()
        status, _, said = self.run_plan()
        self.assertEqual((status, self.builds()), (0, 2))
        self.assertIn("waiting for it", said)
        self.assertGreater(time.monotonic() - began, 1)

    def test_an_interrupted_run_ends_its_build(self):
        running = self.start(env={"SLOWLY": "30"})
        while self.builds() == 0:
            time.sleep(0.05)
        time.sleep(0.3)
        running.send_signal(signal.SIGINT)
        _, said = running.communicate(timeout=20)
        self.assertEqual(running.returncode, 130)
        self.assertNotIn("Traceback", said)

    def test_a_failed_proof_is_said_and_tried_again(self):
        status, out, said = self.run_plan(env={"BROKEN": "1"})
        self.assertEqual((status, out), (3, ""))
        self.assertIn("could not be proved and built:\n    rt: low NOT PROVED", said)
        self.assertEqual(self.run_plan()[0], 0)

    def test_without_the_kit(self):
        status, out, said = self.run_plan(kit=False)
        self.assertEqual((status, out), (3, ""))
        self.assertIn("no 'rt' is on PATH. Install rattle-kit-13f", said)
        self.run_plan()
        self.assertEqual(self.run_plan(kit=False)[0], 0)  # once built it is not needed

    def test_from_any_directory_and_through_a_symlink(self):
        out = self.run_plan()[1]
        link = os.path.join(self.place, "a link")
        os.symlink(os.path.join(self.root, "boddivarn"), link)
        by_steps = os.path.join("..", os.path.basename(self.place), "checkout", "boddivarn")
        for command, place in ((link, "/"), (link, self.root), (None, "/"), (by_steps, self.place)):
            self.assertEqual(self.run_plan(self.board, command=command, cwd=place), (0, out, ""))
        self.assertEqual(self.run_plan("board.txt", cwd=self.place), (0, out, ""))

    def run_as_another(self):
        """A run by somebody who cannot write to the checkout."""
        passing = os.path.join(self.place, "passing")
        os.makedirs(passing, exist_ok=True)
        os.chmod(passing, 0o777)
        root = os.geteuid() == 0
        if not root:
            subprocess.run(["chmod", "-R", "a-w", self.root], check=True)
        ran = subprocess.run(
            ["/usr/bin/python3" if root else shutil.which("python3"), os.path.join(self.root, "boddivarn"), "plan", self.board], cwd="/",
            capture_output=True, text=True, env={"PATH": f"{self.kit}:/usr/bin:/bin", "TMPDIR": passing},
            **({"user": 65534, "group": 65534, "extra_groups": []} if root else {})
        )
        if not root:
            subprocess.run(["chmod", "-R", "u+w", self.root], check=True)
        return ran.returncode, ran.stdout, ran.stderr

    @unittest.skipIf(os.geteuid() == 0 and not os.path.exists("/usr/bin/python3"), "no python that another user can run")
    def test_a_checkout_that_cannot_be_written(self):
        out = self.run_plan()[1]
        self.assertEqual(self.run_as_another(), (0, out, ""))
        self.write(os.path.join(self.root, "crates", "low", "src", "main.rt"), "fn main() {} // changed\n")
        status, out, said = self.run_as_another()
        self.assertEqual((status, out), (3, ""))
        self.assertIn("must be built anew, and ", said)
        self.assertIn("cannot be written: Permission denied", said)


if __name__ == "__main__":
    unittest.main()
