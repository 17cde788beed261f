"""The built program, and the folder that its files are written to."""
import os
import subprocess

from .laws import Broken, ends_so, ending, need, sections

# The seconds that a run may take.
LONGEST = 60


class Program:
    """Runs the program. The files of a case stay in the folder until the next one, so that they can be kept."""

    def __init__(self, path, folder):
        self.path = path
        self.folder = folder
        self.runs = {}
        self.last = []
        # A printed race that is judged in place of a new one.
        self.race = None
        run = self.run([])
        need(run == (2, b"", b"words: NoCommand\n"), "without words it ends with status %d and says %r" % (run[0], run[2][:200]))

    def begin(self):
        """A new case."""
        self.last = []
        for name in os.listdir(self.folder):
            os.remove(os.path.join(self.folder, name))

    def file(self, name, text):
        path = os.path.join(self.folder, name)
        with open(path, "wb") as file:
            file.write(text)
        return path

    def run(self, words, counted=None):
        """A run of these words, counted among those of their command or of this name."""
        command = counted or (words[0] if words else "none")
        self.runs[command] = self.runs.get(command, 0) + 1
        self.last = [os.fsdecode(word) for word in words]
        try:
            done = subprocess.run(
                [self.path] + words, stdin=subprocess.DEVNULL, capture_output=True, timeout=LONGEST, check=False
            )
        except subprocess.TimeoutExpired:
            raise Broken("%s took more than %d seconds" % (words, LONGEST)) from None
        return done.returncode, done.stdout, done.stderr

    def text(self, words):
        """What a run prints that has to end with status 0."""
        run = self.run(words)
        ending(run, {0})
        return run[1]

    def files(self, session, recording):
        return ["--session", self.file("session.toml", session), "--events", self.file("recording.txt", recording)]

    def replay(self, session, recording):
        return self.text(["replay"] + self.files(session, recording))

    def check(self, case, order):
        """The streams that an order gives, in sections, which `verify` accepts."""
        words = ["check"] + self.files(case.session, case.recording) + ["--order", self.file("order.txt", order)]
        out = self.text(words)
        self.verify(out)
        return sections(out)

    def verify(self, out):
        """`verify` accepts a printed text, and counts its channels and messages."""
        channels, _ = sections(out[out.find(b"channel ") :] if b"channel " in out else b"")
        wanted = "well formed %d %d\n" % (len(channels), sum(len(c[2]) for c in channels))
        said = self.text(["verify", "--stream", self.file("stream.txt", out)])
        need(said == wanted.encode(), "verify says %r and not %r" % (said, wanted))

    def refuses(self, out, line):
        """`verify` refuses a text with this line."""
        ends_so(self.run(["verify", "--stream", self.file("stream.txt", out)]), 1, line)

    def judge(self, out):
        return self.run(["judge", "--stream", self.file("stream.txt", out)])

    def compare(self, want, got, us, pixels, *options):
        files = ["--want", self.file("want.txt", want), "--got", self.file("got.txt", got)]
        return self.run(["compare"] + files + ["--us", str(us), "--pixels", str(pixels), *options])
