"""Tries the page that hashes files and checks lists, and the package on a page of its own, in the browsers that the machine
has. The page is served from a folder; each request is recorded, and each violation of the page's policy."""
import contextlib
import functools
import http.server
import json
import os
import random
import re
import shutil
import threading
import time

import pytest
from browsers import BROWSERS, lacks
from conftest import ABC, ROOT, need, run, version
from test_rmdsum import (BY_HAND, BY_LENGTH, BYTES, RIPEMD, STOCK, Rooms, draw_files, draw_list, ended, escaped, joined,
                         listed, tagged, untagged)

VARIANTS = (128, 160, 256, 320)
# The file `big`: 300 MiB whose pieces of 1 MiB begin with their number and are otherwise zeros, and "end". Its
# digests are those of mhash 0.9.9.9 and of LibTomCrypt 1.18.2, as Debian 12 packages them; RIPEMD-160 is OpenSSL's,
# too.
MEBIBYTES = 300
BIG = ["39adc82d71ce33e94c8448fccd9e9a1e", "776730696fe49628875a1afc68058386b66eaeab",
       "ebf3859b2bf7302e243eebd4009157c543da2148392393ccae7ac9b795c04122",
       "a6be7f789fb71e8b6d4b52153b813c1572540538613c0f05a49ae65790072a174710e282f6319873"]
# Of no bytes, and of one byte that is zero.
EMPTY, ONE = ([BY_LENGTH[str(bits)][length] for bits in VARIANTS] for length in (0, 1))


@pytest.fixture(name="page", scope="session")
def fixture_page(javascript, once):
    """A folder with the page."""
    def copy(folder):
        folder.mkdir()
        shutil.copy(javascript / f"nattizhu-{version()}.html", folder / "index.html")

    return once("page", copy)


class Handler(http.server.SimpleHTTPRequestHandler):
    """Serves a folder. The policy of the page is sent a second time as a header, with a place for reports."""
    extensions_map = {".html": "text/html", ".css": "text/css", ".js": "text/javascript", ".wasm": "application/wasm"}

    def log_message(self, *_):
        pass

    def do_GET(self):
        self.server.requests.append(self.path)
        super().do_GET()

    def do_POST(self):
        self.server.reports.append(json.loads(self.rfile.read(int(self.headers["Content-Length"]))))
        self.send_response(204)
        self.end_headers()

    def end_headers(self):
        if self.path.endswith(("/", ".html")):
            self.send_header("Content-Security-Policy-Report-Only", f"{self.server.policy}; report-uri /reports")
        super().end_headers()


class Site(http.server.ThreadingHTTPServer):
    """A server of the page's folder, with what it was asked for."""

    def __init__(self, folder):
        super().__init__(("127.0.0.1", 0), functools.partial(Handler, directory=folder))
        self.address = f"http://127.0.0.1:{self.server_port}/"
        self.requests, self.reports = [], []
        self.policy = re.search('http-equiv="Content-Security-Policy" content="(.*?)"',
                                (folder / "index.html").read_text("utf-8"))[1]
        threading.Thread(target=self.serve_forever, args=(0.05,)).start()

    def stop(self, *_):
        self.shutdown()
        self.server_close()

    __exit__ = stop


@pytest.fixture(name="site")
def fixture_site(page):
    with Site(page) as site:
        yield site


def start(name, folder, **options):
    """A browser, or a skip that says what lacks."""
    if lack := lacks(name):
        pytest.skip(lack)
    return BROWSERS[name](folder, **options)


@pytest.fixture(name="browser", scope="module", params=BROWSERS)
def fixture_browser(request, tmp_path_factory):
    with start(request.param, tmp_path_factory.mktemp("browser") / "profile") as browser:
        yield browser


class Page:
    """The page at an address as a browser shows it, and what a user does with it."""

    def __init__(self, browser, address):
        self.browser, self.run, self.press = browser, browser.run, browser.press
        self.choose = functools.partial(browser.choose, "#files")
        browser.go(address)

    def drop(self, *files):
        """Drops files, each a name and its bytes."""
        self.run("""const dataTransfer = new DataTransfer(), bytes = (text) => Uint8Array.from(text, (c) => c.charCodeAt(0));
            for (const [name, text] of args[0]) dataTransfer.items.add(new File([bytes(text)], name));
            for (const kind of ['dragover', 'drop']) {
              document.body.dispatchEvent(new DragEvent(kind, { dataTransfer, bubbles: true, cancelable: true }));
            }""", [[name, data.decode("latin-1")] for name, data in files])

    def rows(self):
        """Waits until the files of a list are summed up. Returns the name, the function and the verdict of each, and the
        sum."""
        return self.run("""const sum = await until(() => document.getElementById('sum').textContent);
            const rows = [...document.querySelectorAll('#list tbody tr')];
            return [rows.map((row) => Array.from(row.cells, (cell) => cell.textContent)), sum];""")

    def expect(self, text):
        """Writes the expected digests, and returns what the page says of them."""
        return self.run("""const place = document.getElementById('expected');
            place.value = args[0];
            place.dispatchEvent(new Event('input'));
            return document.getElementById('reading').textContent;""", text)

    def ended(self, number):
        """Waits until so many files are through. Returns for each its name, what is said, and the digests."""
        return self.run("""const cards = () => [...document.querySelectorAll('article')];
            const texts = (card, what) => Array.from(card.querySelectorAll(what), (found) => found.textContent);
            await until(() => cards().length === args[0]
              && cards().every((card) => card.querySelector('.work').hidden));
            return cards().map((card) => [...texts(card, 'h3'), texts(card, '.outcome p'), texts(card, 'code')]);""",
                        number)

    def verdicts(self, number):
        return [said[1:] for _, said, _ in self.ended(number)]

    def problem(self):
        """Waits until the page says why it does not work."""
        return self.run("""const place = document.getElementById('problem');
            return until(() => !place.hidden && place.textContent);""")

    def begun(self):
        """Waits until a file is being read, and returns its place on the bar."""
        return self.run("return until(() => document.querySelector('.work:not([hidden]) progress')?.value)")


@pytest.fixture(name="shown")
def fixture_shown(browser, site, page):
    """The page, which asks for its own files alone and keeps to its policy."""
    yield Page(browser, site.address)
    assert set(site.requests) <= {"/", *(f"/{path.relative_to(page)}" for path in page.rglob("*"))}
    assert site.reports == []


@pytest.fixture(name="files", scope="session")
def fixture_files(once):
    """A folder of files."""

    def write(folder):
        folder.mkdir()
        (folder / "empty").touch()
        (folder / "one").write_bytes(b"\0")
        (folder / "abc").write_text("abc")
        with (folder / "big").open("wb") as file:
            for number in range(MEBIBYTES):
                file.seek(number << 20)
                file.write(number.to_bytes(2, "big"))
            file.seek(MEBIBYTES << 20)
            file.write(b"end")

    return once("files", write)


def test_small_files(shown, files):
    shown.choose(files / "one", files / "empty")
    assert shown.ended(2) == [["one", ["read"], ONE], ["empty", ["read"], EMPTY]]
    shown.choose(files / "one")
    assert shown.ended(3)[2] == ["one", ["read"], ONE]


def test_big_file(shown, files):
    """The bar moves on, the browser's memory does not hold the file, and the digests are those of other
    implementations."""
    psutil = pytest.importorskip("psutil", reason="there is no psutil (Debian's python3-psutil)")
    browser = psutil.Process(shown.browser.process.pid)

    def memory():
        held = 0
        for process in [browser, *browser.children(recursive=True)]:
            with contextlib.suppress(psutil.NoSuchProcess):
                held += process.memory_full_info().pss
        return held

    shown.choose(files / "one")
    shown.ended(1)
    before, most, places = memory(), 0, []
    shown.choose(files / "big")
    while not places or places[-1] < MEBIBYTES << 19:
        places.append(shown.begun())
        most = max(most, memory())
        time.sleep(0.1)
    [name, said, digests] = shown.ended(2)[1]
    assert (name, digests) == ("big", BIG)
    assert re.fullmatch("read in [0-9.]+ s, [0-9]+ MB/s", said[0])
    assert places == sorted(places) and len(set(places)) > 3
    assert most - before < MEBIBYTES << 19


WRONG = ABC.replace("8", "9")
EXPECTED = [
    # What is pasted, what is said of it, and of the files abc and one.
    (f"  {ABC.upper()}\n", "1 digest: RIPEMD-160", ["✓ matches RIPEMD-160"], ["✗ does not match RIPEMD-160"]),
    (WRONG, "1 digest: RIPEMD-160", ["✗ does not match RIPEMD-160"], ["✗ does not match RIPEMD-160"]),
    (f"{WRONG}  folder/abc\n{ONE[1]} *folder\\one", "2 listed files: RIPEMD-160",
     ["✗ does not match RIPEMD-160"], ["✓ matches RIPEMD-160"]),
    (f"RIPEMD160 (abc) = {ABC}\r\nRMD160 (one) = {ONE[1]}", "2 listed files: RIPEMD-160",
     ["✓ matches RIPEMD-160"], ["✓ matches RIPEMD-160"]),
    (f"RIPEMD-160(other)= {ABC}", "1 listed file: RIPEMD-160",
     ["not in the list", "its digest is that of other"], ["not in the list"]),
    (f"{ABC}  v1/abc\n{WRONG}  v2/abc", "2 listed files: RIPEMD-160",
     ["✓ matches RIPEMD-160 of v1/abc"], ["not in the list"]),
    (f"{ONE[1]}  v1/abc\n{WRONG}  v2/abc", "2 listed files: RIPEMD-160",
     ["✗ does not match any of 2 digests by RIPEMD-160"], ["not in the list", "its digest is that of v1/abc"]),
    (f"{WRONG}\n{ONE[1]}  abc\n{ABC}  one", "2 listed files: RIPEMD-160; line 1 is a digest without a name",
     ["✗ does not match RIPEMD-160", "its digest is that of one"],
     ["✗ does not match RIPEMD-160", "its digest is that of abc"]),
    ("\n".join([ABC, *ONE]), "5 digests: RIPEMD-160, RIPEMD-128, RIPEMD-256, RIPEMD-320",
     ["✗ does not match RIPEMD-128", "✓ matches RIPEMD-160", "✗ does not match RIPEMD-256",
      "✗ does not match RIPEMD-320"],
     [f"✓ matches RIPEMD-{bits}" for bits in VARIANTS]),
    (f"{ABC[1:]}\nhello", "line 1 is no digest: it has 39 digits, not 32, 40, 64 or 80; line 2 is no digest", [], []),
    (f"SHA1 (abc) = {ABC}", "line 1 is no digest by RIPEMD but by SHA1", [], []),
    (f"RIPEMD128 (abc) = {ABC}", "line 1 is no digest by RIPEMD128: it has 40 digits", [], []),
    ("", "", [], []),
]


def test_expected_after_and_before(shown, files):
    shown.choose(files / "abc", files / "one")
    shown.ended(2)
    for text, said, abc, one in EXPECTED:
        assert (shown.expect(text), shown.verdicts(2)) == (said, [abc, one])
    shown.expect(f"{ABC}  abc")
    shown.choose(files / "abc")
    assert shown.verdicts(3)[2] == ["✓ matches RIPEMD-160"]


def checked(program, room):
    """What rmdsum says of the lines of a list: the names with their verdicts, and the numbers of lines that are none."""
    done = ended(program, ["-c", "-w", "list"], room)
    said = [line.rpartition(": ") for line in done.out.decode(errors="replace").split("\n")[:-1]]
    return ([(name, verdict) for name, _, verdict in said],
            [*map(int, re.findall(rb"^rmdsum: list: ([0-9]+): improperly", done.error, re.MULTILINE))])


def as_printed(name):
    """A name as rmdsum prints it with a verdict."""
    return "\\" + escaped(name.encode()).decode() if "\n" in name else name


# Lists for any hash: those of rmdsum's own tests, each tag as OpenSSL writes it and as BSD does, and names in folders.
LISTS = [*BY_HAND,
         listed(*(joined(lambda hash_, at=at: hash_.tags[at].encode(), name, lambda hash_: hash_.digests[3].encode())
                  for at in range(3) for name in (b"(b)= ", b" (b) = ", b" (a) = "))),
         listed(b"# a comment", untagged(b"./a", 0), untagged(b"one/folder/b", 3, b" *"), b"", tagged(b"gone/c ", 64),
                b"#", untagged(b"gone/d", 1))]


def test_lists_as_by_rmdsum(shown, rmdsum, tmp_path):
    """Each line of a list has the verdict of the program, where a file that is not chosen is missing; and a text of which it
    takes no line is no list."""
    (tmp_path / "folder").mkdir()
    for place, names in [(".", STOCK), ("one/folder", ["b"])]:
        (tmp_path / place).mkdir(parents=True, exist_ok=True)
        for name in names:
            (tmp_path / place / name).write_bytes(BYTES[:STOCK[name]])
    shown.drop(*((name, BYTES[:length]) for name, length in STOCK.items()))
    for at, text in enumerate(LISTS):
        held = text(RIPEMD[str(VARIANTS[at % 4])])
        (tmp_path / "list").write_bytes(held)
        wanted, misformatted = checked(rmdsum, tmp_path)
        shown.expect("")
        shown.drop(("list", held))
        said = shown.ended(len(STOCK) + 1 + at)[-1][1]
        if not wanted:
            assert said == ["read"] and shown.run("return document.getElementById('list').hidden"), held
            continue
        found = [(as_printed(name), "FAILED open or read" if verdict == "not yet chosen" else verdict)
                 for name, _, verdict in shown.rows()[0]]
        faults = shown.run("return document.getElementById('reading').textContent").partition("; ")[2]
        numbers = [*map(int, re.findall("line ([0-9]+) is", faults))]
        more = sum(map(int, re.findall("([0-9]+) more lines are no digests", faults)))
        assert (found, numbers, len(numbers) + more) == (wanted, misformatted[:3], len(misformatted)), held


def verdict_of(line, room):
    """The verdict on the file that a line names, whose bytes are the first of BYTES."""
    path = os.path.join(room, line["name"])
    if line["name"] != "-" and not os.path.isfile(path):
        return "FAILED open or read"
    length = 0 if line["name"] == "-" else os.path.getsize(path)
    return "OK" if line["hex"] == BY_LENGTH[str(line["bits"])][length] else "FAILED"


def test_drawn_lists(rmdsum, tmp_path):
    """The page finds in lists of all kinds, good and damaged, what rmdsum finds."""
    need("node", "nodejs")
    rng, rooms, texts = random.Random(1), [], []
    for number in range(400):
        rooms.append(Rooms(tmp_path / str(number), rmdsum, str(rng.choice(VARIANTS))))
        files = draw_files(rng, rooms[-1])
        rooms[-1].list("list", draw_list(rng, files))
        texts.append((rooms[-1].room / "list").read_bytes())
    program = f"""import {{ read }} from {json.dumps(str(ROOT / 'js/page/list.js'))};
        const texts = JSON.parse((await import('fs')).readFileSync(0, 'utf8'));
        console.log(JSON.stringify(texts.map((text) => read(new TextDecoder('utf-8', {{ ignoreBOM: true }}).decode(
          Uint8Array.from(text, (c) => c.charCodeAt(0)))))));"""
    found = json.loads(run("node", "--input-type=module", "-e", program,
                           input=json.dumps([text.decode("latin-1") for text in texts])).stdout)
    for room, text, said in zip(rooms, texts, found):
        wanted, misformatted = checked(rmdsum, room.room)
        assert said["isList"] == bool(wanted), text
        if wanted:
            verdicts = [(as_printed(line["name"]), verdict_of(line, room.room)) for line in said["lines"]]
            numbers = [int(re.match("line ([0-9]+) is", fault)[1]) for fault in said["faults"]]
            assert (verdicts, numbers) == (wanted, misformatted), text


def test_list_among_the_files(shown, files, tmp_path):
    """It is known by its lines, and does not fail; each listed file has a row, and what is chosen later counts."""
    (tmp_path / "LIST").write_text(
        f"# made by hand\n{ABC}  abc\n{ONE[1]} *folder/one\n\\{EMPTY[1]}  back\\\\slash\n")
    shown.choose(tmp_path / "LIST", files / "abc", files / "empty")
    assert shown.verdicts(3) == [["this is the list"], ["✓ matches RIPEMD-160"],
                                 ["not in the list", "its digest is that of back\\slash"]]
    rows = [[name, "RIPEMD-160", verdict] for name, verdict in
            [("abc", "OK"), ("folder/one", "not yet chosen"), ("back\\slash", "not yet chosen")]]
    assert shown.rows() == [rows, "1 of 3 listed files matches; 2 were not chosen"]
    shown.drop(("one", b"1"), ("back\\slash", b""))
    shown.ended(5)
    rows[1][2], rows[2][2] = "FAILED", "OK"
    assert shown.rows() == [rows, "2 of 3 listed files match; 1 does not"]
    shown.choose(files / "one")
    shown.ended(6)
    rows[1][2] = "OK"
    assert shown.rows() == [rows, "3 of 3 listed files match"]
    assert shown.expect(f"{WRONG}  abc") == "1 listed file: RIPEMD-160"
    assert shown.rows() == [[["abc", "RIPEMD-160", "FAILED"]], "0 of 1 listed file matches; 1 does not"]
    assert shown.verdicts(6)[0] == ["not in the list"]


def test_same_name_in_folders(shown):
    """Of lines for several files of one name, those count that a file matches; one that matches none fails the others."""
    shown.expect(f"{ABC}  v1/abc\n{ONE[1]}  v2/abc\n{EMPTY[0]}  v2/abc")
    for data, verdicts in [(b"abc", ["OK", "not yet chosen", "FAILED"]), (b"\0", ["OK", "OK", "FAILED"]),
                           (b"", ["OK", "OK", "OK"]), (b"x", ["OK", "OK", "OK"])]:
        shown.drop(("abc", data))
        assert [verdict for _, _, verdict in shown.rows()[0]] == verdicts


def test_a_file_brings_no_list_of_its_own(shown):
    """One that has lines of a list is compared with what is expected, until the user chooses it as the list."""
    own = [("abc", f"{ONE[1]}  one\n".encode()), ("one", b"\0")]
    shown.expect(f"{ABC}  abc")
    shown.drop(*own)
    assert shown.verdicts(2) == [["✗ does not match RIPEMD-160"], ["not in the list"]]
    assert shown.rows() == [[["abc", "RIPEMD-160", "FAILED"]], "0 of 1 listed file matches; 1 does not"]
    shown.expect("")
    shown.drop(("LIST", f"{ABC}  abc\n".encode()), *own)
    assert shown.verdicts(5) == [[]] * 5
    shown.run("document.querySelectorAll('article')[2].querySelector('.outcome button').click()")
    assert shown.rows() == [[["abc", "RIPEMD-160", "FAILED"]], "0 of 1 listed file matches; 1 does not"]
    assert shown.run("return document.activeElement.textContent") == "Listed files"


def test_long_lists(shown):
    """Of 20,000 lines."""
    begun = time.monotonic()
    shown.drop(("LIST", f"{ABC}  abc\n".encode() * 20000), ("abc", b"abc"))
    assert shown.rows()[1] == "20000 of 20000 listed files match"
    assert time.monotonic() - begun < 20


def test_long_lines(shown):
    """The page reads them at once, at each press of a key."""
    for text in ("(" * 100000, " (" * 50000 + "x", "( " * 50000 + "x", "RMD160 (" + ") = " * 50000,
                 f"\\{ABC}  " + "\\" * 99999):
        begun = time.monotonic()
        assert shown.expect(text) == "line 1 is no digest"
        assert time.monotonic() - begun < 1


def test_cancelled(shown, files):
    """It is cancelled in the middle, and so is a file that waits; another one works."""
    shown.choose(files / "big", files / "abc")
    shown.begun()
    shown.run("for (const button of document.querySelectorAll('article button')) button.click()")
    assert shown.ended(2) == [["big", ["cancelled"], []], ["abc", ["cancelled"], []]]
    begun = time.monotonic()
    shown.choose(files / "one")
    assert shown.ended(3)[2] == ["one", ["read"], ONE]
    assert time.monotonic() - begun < 2


def test_file_that_is_removed(shown, tmp_path, files):
    """It is removed before its turn comes."""
    (tmp_path / "gone").write_text("abc")
    shown.choose(files / "big", tmp_path / "gone", files / "one")
    shown.begun()
    (tmp_path / "gone").unlink()
    shown.run("document.querySelector('article button').click()")
    _, gone, one = shown.ended(3)
    assert gone == ["gone", ["✗ could not be read: it is no longer there"], []]
    assert one[2] == ONE


def test_file_that_is_cut(shown, tmp_path, files):
    """It is made shorter while it is read."""
    shutil.copy(files / "big", tmp_path / "cut")
    shown.choose(tmp_path / "cut", files / "one")
    shown.begun()
    os.truncate(tmp_path / "cut", 2)
    cut, one = shown.ended(2)
    assert cut[1][0].startswith("✗ could not be read: it has changed since it was chosen") and cut[2] == []
    assert one[2] == ONE


def test_folder_dropped(shown, files):
    """Chromium lets a driver drop what lies on the disk."""
    if not isinstance(shown.browser, BROWSERS["chromium"]):
        pytest.skip("Marionette cannot drop a folder")
    data = {"items": [], "files": [str(files), str(files / "one")], "dragOperationsMask": 1}
    for kind in ("dragEnter", "dragOver", "drop"):
        event = {"type": kind, "x": 9, "y": 9, "data": data}
        shown.browser.command("Cdp", cmd="Input.dispatchDragEvent", params=event)
    folder, one = shown.ended(2)
    assert folder == [files.name, ["✗ is a folder: choose the files in it"], []]
    assert one[2] == ONE


def test_from_disk(browser, page, files, tmp_path):
    """The one file works where no server is."""
    (tmp_path / "LIST").write_text(f"{ABC}  abc\n{ONE[1]}  one\n")
    shown = Page(browser, (page / "index.html").as_uri())
    shown.choose(tmp_path / "LIST", files / "abc")
    assert shown.rows()[1] == "1 of 2 listed files matches; 1 was not chosen"
    assert shown.verdicts(2) == [["this is the list"], ["✓ matches RIPEMD-160"]]


def test_accessible_names(shown, files):
    shown.choose(files / "abc", files / "one")
    shown.ended(2)
    assert shown.browser.labels("article") == ["abc", "one"]


@pytest.mark.parametrize("name", BROWSERS)
def test_touched(site, tmp_path, name):
    """Where nothing can be dropped, the page does not speak of it."""
    for touch in True, False:
        with start(name, tmp_path / str(touch), touch=touch) as browser:
            text = Page(browser, site.address).run("return document.body.innerText")
        assert "Choose files" in text and ("drop them" in text) != touch


def test_without_network(shown, site, files):
    shown.choose(files / "one")
    shown.ended(1)
    site.stop()
    shown.choose(files / "abc")
    assert shown.ended(2)[1][2][1] == ABC


def test_policy(browser, site, page):
    """Neither the page reaches another server nor a worker that it starts."""
    with Site(page) as other:
        reach = f"fetch('{other.address}', {{ mode: 'no-cors' }}).then(() => 'reached', () => 'refused')"
        shown = Page(browser, site.address)
        assert shown.run(f"return await {reach}") == "refused"
        assert shown.run("""const worker = new Worker(URL.createObjectURL(new Blob([args[0]])));
            return new Promise((resolve) => { worker.onmessage = ({ data }) => resolve(data); });""",
                         f"{reach}.then(postMessage)") == "refused"
        assert other.requests == []
    end = time.monotonic() + 10
    while len(site.reports) < 2 and time.monotonic() < end:
        time.sleep(0.05)
    assert [report["csp-report"]["blocked-uri"] for report in site.reports] == [other.address] * 2


def test_keyboard(shown, files):
    """Each control is reached by the tabulator, in order, and is seen to be."""
    shown.choose(files / "abc", files / "big")
    shown.begun()
    focused = """const at = document.activeElement, outlined = at.id === 'files' ? at.nextElementSibling : at;
        const { outlineStyle, outlineWidth } = getComputedStyle(outlined);
        const name = at.id || at.ariaLabel || at.innerText.replace(/\\s+/g, ' ');
        return [name, outlineStyle !== 'none' && outlineWidth !== '0px'];"""
    names = ["files", "expected", *(f"Copy RIPEMD-{bits} of abc" for bits in VARIANTS), "Cancel big"]
    shown.run("document.activeElement.blur()")
    for name in names:
        shown.press("Tab")
        assert shown.run(focused) == [name, True]
    shown.press("Enter")
    assert shown.ended(2)[1] == ["big", ["cancelled"], []]
    assert shown.run("return document.activeElement.textContent") == "big"
    shown.press("Shift+Tab", "Space")
    assert shown.run("""const word = () => document.activeElement.firstChild.textContent;
        await until(() => word() !== 'Copy');
        return word();""") in ("Copied", "Selected")


def test_narrow(browser, page, tmp_path):
    """On 320 pixels nothing is cut off."""
    shutil.copy(page / "index.html", tmp_path)
    (tmp_path / "frame.html").write_text('<iframe src="/" width="320" height="600"></iframe>')
    with Site(tmp_path) as site:
        site.policy = "default-src 'self'"
        browser.go(site.address + "frame.html")
        assert browser.run("""const { contentWindow } = document.querySelector('iframe');
            const { document: page } = contentWindow, data = new contentWindow.DataTransfer();
            data.items.add(new contentWindow.File(['abc'], 'a'.repeat(200)));
            page.body.dispatchEvent(new contentWindow.DragEvent('drop', { dataTransfer: data, bubbles: true }));
            await until(() => page.querySelector('code')?.textContent);
            return page.documentElement.scrollWidth;""") <= 320


def test_package(browser, javascript, tmp_path):
    """A page of another's, whose policy allows what docs/JAVASCRIPT.md says, imports the package, and loads it by URL."""
    shutil.unpack_archive(javascript / f"nattizhu-{version()}.tgz", tmp_path)
    (tmp_path / "own.js").write_text("""import { ripemd160 } from './package/index.js';
        import { load } from './package/load.js';
        const loaded = await load(new URL('package/nattizhu.wasm', import.meta.url));
        const hex = (bytes) => Array.from(bytes, (byte) => byte.toString(16).padStart(2, '0')).join('');
        document.title = [ripemd160, loaded.ripemd160].map((hash) => hex(hash('abc')));""")
    (tmp_path / "index.html").write_text(
        '<!doctype html><meta http-equiv="Content-Security-Policy" content="default-src \'none\'; '
        'script-src \'self\' \'wasm-unsafe-eval\'; connect-src \'self\'; img-src data:">'
        '<link rel="icon" href="data:,"><script type="module" src="own.js"></script>')
    with Site(tmp_path) as own:
        browser.go(own.address)
        assert browser.run("return until(() => document.title)") == f"{ABC},{ABC}"
    assert own.reports == []


@pytest.mark.parametrize("name", BROWSERS)
def test_without_webassembly(site, tmp_path, name):
    with start(name, tmp_path / "profile", wasm=False) as browser:
        said = Page(browser, site.address).problem()
    assert said == "This page needs WebAssembly, which this browser lacks or has switched off."
