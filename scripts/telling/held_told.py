"""Holds what the program tells against told_model: counts it, and tells what differs."""

import collections
import os
import shutil
import subprocess


class Held:
    def __init__(self, program, folder):
        self.program, self.folder = program, folder
        self.count, self.differing = collections.Counter(), 0

    def answer(self, words, files):
        """The status, the output and the messages of the program over these files."""
        room = os.path.join(self.folder, "w")
        shutil.rmtree(room, ignore_errors=True)
        for path, data in files.items():
            at = os.path.join(os.fsencode(room), path)
            os.makedirs(os.path.dirname(at), exist_ok=True)
            with open(at, "wb") as file:
                file.write(data)
        run = subprocess.run([self.program, *words], cwd=room, capture_output=True, check=False)
        return run.returncode, run.stdout, run.stderr

    def hold(self, words, files, wanted):
        self.count["runs"] += 1
        self.count[f"status {wanted[0]}"] += 1
        got = self.answer(words, files)
        if got == wanted:
            return
        self.differing += 1
        kept = os.path.join(self.folder, f"differs{self.differing}")
        shutil.rmtree(kept, ignore_errors=True)
        os.makedirs(kept)
        for path, data in files.items():
            at = os.path.join(os.fsencode(kept), path)
            os.makedirs(os.path.dirname(at), exist_ok=True)
            with open(at, "wb") as file:
                file.write(data)
        print(f"differs: {kept} {words}: {wanted} wanted, {got} got", flush=True)

    def is_over(self):
        return self.differing > 5

    def end(self, *wanted):
        """Prints what was held; the status is 0 where nothing differs and each of these was there."""
        print(", ".join(f"{count} {what}" for what, count in sorted(self.count.items())) + f"; {self.differing} differ")
        if not self.differing:
            shutil.rmtree(self.folder)
        return 0 if not self.differing and all(self.count[it] for it in wanted) else 1
