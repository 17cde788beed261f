"""A compositor that standard input drives, and clients of it that print what they are sent."""
import os
import subprocess


class Ended(Exception):
    """A program ended that was still needed."""


class Driven:
    """A program that answers a line on its standard input by lines, the last of which begins with `ok` or `error`."""

    def __init__(self, words, env, errors):
        self.name = os.path.basename(words[0])
        self.process = subprocess.Popen(words, env=env, stdin=subprocess.PIPE, stdout=subprocess.PIPE, stderr=errors, text=True, bufsize=1)
        self.printed = []

    def line(self):
        line = self.process.stdout.readline()
        if not line:
            raise Ended("%s ended with status %s" % (self.name, self.process.wait()))
        return line.rstrip("\n")

    def answer(self):
        """The last line of an answer, and the lines before it, which are kept."""
        lines = []
        while True:
            line = self.line()
            if line.split(" ")[0].rstrip(":") in ("ok", "error"):
                self.printed += lines
                return line, lines
            lines.append(line)

    def ask(self, text):
        try:
            self.process.stdin.write(text + "\n")
            self.process.stdin.flush()
        except BrokenPipeError:
            raise Ended("%s ended with status %s" % (self.name, self.process.wait())) from None
        return self.answer()

    def kill(self):
        self.process.kill()
        self.process.wait()


class World:
    """A compositor with clients, by name. `folder` is for the socket and the journal."""

    def __init__(self, folder, compositor, client, limit_ms="5000"):
        self.folder, self.client, self.clients, self.killed = folder, client, {}, {}
        self.env = dict(os.environ, XDG_RUNTIME_DIR=folder, INPUTFLINGER_JOURNAL=folder, WLR_RENDERER="pixman", WLR_LIBINPUT_NO_DEVICES="1")
        self.env.pop("WAYLAND_DISPLAY", None)
        with open(os.path.join(folder, "errors.txt"), "w", encoding="utf-8") as errors:
            self.compositor = Driven([compositor, limit_ms], self.env, errors)
        self.env["WAYLAND_DISPLAY"] = self.compositor.line().removeprefix("socket ")

    def client_of(self, name):
        if name not in self.clients:
            self.clients[name] = Driven([self.client, name], self.env, subprocess.DEVNULL)
        return self.clients[name]

    def kill(self, name):
        """Kills a client, and waits until the compositor knows."""
        client = self.clients.pop(name)
        self.killed[name] = client, self.last()
        client.kill()
        while not self.ask_compositor("clients").endswith(" %d" % len(self.clients)):
            pass

    def ask_client(self, name, text):
        """Asks a client, which the compositor may disconnect for it."""
        client = self.client_of(name)
        try:
            asked, printed = client.ask(text)
            return asked, ["%s: %s" % (name, line) for line in printed]
        except Ended:
            self.kill(name)
            return "ok", ["%s: disconnected" % name]

    def ask_compositor(self, text):
        return self.compositor.ask(text)[0]

    def do(self, text):
        """Does a command: `kill NAME`, `A ..` of a client, whose name is a letter, or one of the compositor. What was printed, as lines."""
        word, _, rest = text.partition(" ")
        if word == "kill":
            self.kill(rest)
            asked, printed = "ok", []
        elif len(word) == 1 and rest:
            asked, printed = self.ask_client(word, rest)
        else:
            asked, printed = self.compositor.ask(text)
        if asked.startswith("error"):
            raise Ended("%s: %s" % (text, asked))
        return printed + self.sync()

    def sync(self):
        """Each client receives all that it was sent, and answers pings: what they print."""
        printed = []
        for name in sorted(self.clients):
            printed += ["%s: %s" % (name, line) for line in self.clients[name].ask("sync")[1]]
        return printed

    def last(self):
        """The moment of what was handed in last."""
        return int(self.ask_compositor("last").split(" ")[1])

    def end(self):
        """Ends all. The status of the compositor; and of each client what it printed, and the last moment before it ended or was killed."""
        last = self.last()
        self.compositor.process.stdin.close()
        self.compositor.process.stdout.read()
        status = self.compositor.process.wait()
        for client in self.clients.values():
            client.kill()
        ended = {**self.killed, **{name: (client, last) for name, client in self.clients.items()}}
        return status, {name: client.printed for name, (client, _) in ended.items()}, {name: moment for name, (_, moment) in ended.items()}

    def abandon(self):
        for driven in [*self.clients.values(), self.compositor]:
            driven.kill()
