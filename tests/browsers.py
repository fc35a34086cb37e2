"""Drives headless Chromium, by Debian's chromedriver, and headless Firefox, by Marionette, its own protocol, with
one interface."""
import json
import re
import shutil
import socket
import subprocess
import time
import urllib.error
import urllib.request

# The key under which a reference to an element stands (WebDriver, 12.3).
ELEMENT = "element-6066-11e4-a52e-4f735466cecf"
KEYS = {"Tab": "\ue004", "Shift": "\ue008", "Enter": "\ue007", "Space": " "}
# No command takes longer, in seconds.
LIMIT = 60
# Opens addresses of this machine, without a proxy.
DIRECT = urllib.request.build_opener(urllib.request.ProxyHandler({}))


class Browser:
    """A browser with a fresh profile in a folder. `wasm` says whether it has WebAssembly, `touch` whether it is
    touched, as a phone is, and has no mouse."""

    def __init__(self, folder, wasm=True, touch=False):
        folder.mkdir(parents=True)
        self.process = None
        try:
            self.start(folder, wasm, touch)
        except BaseException:
            self.close()
            raise

    def __enter__(self):
        return self

    def __exit__(self, *_):
        self.close()

    def start(self, folder, wasm, touch):
        raise NotImplementedError

    def command(self, name, **parameters):
        """The answer to a command of WebDriver."""
        raise NotImplementedError

    def go(self, url):
        self.command("Navigate", url=url)

    def run(self, script, *arguments):
        """What the body of an async function returns, on the page. It may wait by `until`."""
        done, value = self.command("ExecuteAsyncScript", args=list(arguments), script=f"""
            const done = arguments[arguments.length - 1];
            const pause = () => new Promise((resolve) => setTimeout(resolve, 20));
            const until = async (found) => found() || (await pause(), until(found));
            (async (...args) => {{ {script} }})(...Array.from(arguments).slice(0, -1))
              .then((value) => done([true, value]), (error) => done([false, String(error)]));""")
        if not done:
            raise RuntimeError(value)
        return value

    def choose(self, selector, *files):
        """Chooses files at an input."""
        found = self.command("FindElement", using="css selector", value=selector)[ELEMENT]
        self.command("ElementSendKeys", id=found, text="\n".join(str(file) for file in files))

    def labels(self, selector):
        """The accessible names of elements."""
        return [self.command("GetComputedLabel", id=found[ELEMENT])
                for found in self.command("FindElements", using="css selector", value=selector)]

    def press(self, *keys):
        """Presses keys, named as in KEYS, one after another: "Shift+Tab" is two at once."""
        actions = []
        for key in keys:
            parts = [KEYS.get(part, part) for part in key.split("+")]
            actions += [{"type": "keyDown", "value": part} for part in parts]
            actions += [{"type": "keyUp", "value": part} for part in reversed(parts)]
        self.command("PerformActions", actions=[{"type": "key", "id": "keyboard", "actions": actions}])

    def close(self):
        if self.process:
            self.process.terminate()
            self.process.wait()


class Chromium(Browser):
    """Chromium, by chromedriver, over HTTP."""
    NEEDS = ("chromedriver", "chromium-driver")
    PATHS = {"NewSession": "", "Navigate": "/url", "ExecuteAsyncScript": "/execute/async", "FindElement": "/element",
             "FindElements": "/elements", "ElementSendKeys": "/element/{id}/value", "PerformActions": "/actions",
             "GetComputedLabel": "/element/{id}/computedlabel", "Cdp": "/goog/cdp/execute"}

    def start(self, folder, wasm, touch):
        self.address = None
        self.process = subprocess.Popen(["chromedriver", "--port=0"], stdin=subprocess.DEVNULL,
                                        stdout=subprocess.PIPE, stderr=subprocess.DEVNULL, text=True)
        for line in self.process.stdout:
            if found := re.search("successfully on port ([0-9]+)", line):
                self.address = f"http://127.0.0.1:{found[1]}/session"
                break
        pointers = f"availablePointerTypes={2 if touch else 4},availableHoverTypes={1 if touch else 2}"
        options = ["--headless=new", "--no-sandbox", "--disable-dev-shm-usage", f"--user-data-dir={folder}/profile",
                   f"--blink-settings={pointers}"]
        # Without its compilers V8 has no WebAssembly.
        capabilities = {"goog:chromeOptions": {"args": options + ([] if wasm else ["--js-flags=--jitless"])},
                        "timeouts": {"script": LIMIT * 1000}}
        self.address += "/" + self.command("NewSession", capabilities={"alwaysMatch": capabilities})["sessionId"]

    def command(self, name, **parameters):
        path = self.address + self.PATHS[name].format(**parameters)
        data = None if name == "GetComputedLabel" else json.dumps(parameters).encode()
        request = urllib.request.Request(path, data, {"Content-Type": "application/json"})
        try:
            with DIRECT.open(request, timeout=LIMIT + 5) as answer:
                return json.load(answer)["value"]
        except urllib.error.HTTPError as error:
            raise RuntimeError(error.read().decode()) from error

    def close(self):
        if self.process and self.address:
            DIRECT.open(urllib.request.Request(self.address, method="DELETE"), timeout=LIMIT).close()
        super().close()


class Firefox(Browser):
    """Firefox, by Marionette: messages over TCP, each after its length and a colon."""
    NEEDS = ("firefox-esr", "firefox-esr")
    PREFERENCES = {"marionette.port": 0, "network.proxy.type": 0, "browser.shell.checkDefaultBrowser": False,
                   "datareporting.policy.dataSubmissionEnabled": False, "app.update.enabled": False,
                   "network.captive-portal-service.enabled": False, "network.connectivity-service.enabled": False}

    def start(self, folder, wasm, touch):
        self.socket, self.count = None, 0
        preferences = {**self.PREFERENCES, "javascript.options.wasm": wasm, "ui.allPointerCapabilities": 1 if touch else 6}
        (folder / "user.js").write_text("".join(f'user_pref("{name}", {json.dumps(value)});\n'
                                                for name, value in preferences.items()))
        command = ["firefox-esr", "--headless", "--marionette", "--no-remote", "--profile", folder]
        self.process = subprocess.Popen(command, stdin=subprocess.DEVNULL, stdout=subprocess.DEVNULL,
                                        stderr=subprocess.DEVNULL)
        port, end = folder / "MarionetteActivePort", time.monotonic() + LIMIT
        while not (port.exists() and port.read_text()):
            if self.process.poll() is not None or time.monotonic() > end:
                raise RuntimeError("firefox-esr does not start")
            time.sleep(0.05)
        self.socket = socket.create_connection(("127.0.0.1", int(port.read_text())), LIMIT + 5)
        self.stream = self.socket.makefile("rb")
        self.receive()
        self.command("NewSession", capabilities={"alwaysMatch": {"timeouts": {"script": LIMIT * 1000}}})

    def receive(self):
        size = b""
        while not size.endswith(b":"):
            size += self.stream.read(1) or b"0:"
        return json.loads(self.stream.read(int(size[:-1])))

    def command(self, name, **parameters):
        self.count += 1
        message = json.dumps([0, self.count, f"WebDriver:{name}", parameters]).encode()
        self.socket.sendall(b"%d:%s" % (len(message), message))
        _, _, error, result = self.receive()
        if error:
            raise RuntimeError(f"{error['error']}: {error['message']}")
        return result["value"] if list(result) == ["value"] else result

    def close(self):
        if self.socket:
            self.stream.close()
            self.socket.close()
        super().close()


BROWSERS = {"chromium": Chromium, "firefox": Firefox}


def lacks(name):
    """What the machine lacks for a browser, or None."""
    tool, package = BROWSERS[name].NEEDS
    return None if shutil.which(tool) else f"there is no {tool} (Debian's {package})"
