"""Of which commit something is made, and the version of a package that follows from it."""
import subprocess
import time

from operator_script import Refused


class Origin:
    """The commit of a clone, and whether files that git knows differ from it."""

    def __init__(self, root):
        self.root = root
        if self.git("rev-parse", "--show-toplevel") != str(root):
            raise Refused(5, f"{root}: this is no clone, so that nothing says of which commit it is")
        self.commit, seconds, self.author, self.subject = self.git("log", "-1", "--format=%H%n%ct%n%an <%ae>%n%s").split("\n")
        self.seconds = int(seconds)
        self.is_changed = bool(self.git("status", "--porcelain", "--untracked-files=no"))

    def git(self, *words):
        try:
            done = subprocess.run(["git", "-C", self.root, *words], capture_output=True, text=True)
        except FileNotFoundError:
            raise Refused(5, "git is not installed, and says of which commit this is") from None
        if done.returncode:
            raise Refused(5, f"{self.root}: {done.stderr.strip()}")
        return done.stdout.rstrip("\n")

    def date(self, form="%Y-%m-%d"):
        return time.strftime(form, time.gmtime(self.seconds))

    def version(self):
        """Later commits have greater versions, in the order of dpkg; what is not committed has a greater one than its commit."""
        return self.date("0~git%Y%m%d.%H%M%S.") + self.commit[:8] + ("+changed" if self.is_changed else "")
