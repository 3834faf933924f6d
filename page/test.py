"""test.py [--page PAGE] [--program PROGRAM] [--shots FOLDER] [NAME..]: opens the page in headless Chromium, and tries what it does beside a program, each try by its name
(none: all). Run it by page/test."""
import argparse
import base64
import contextlib
import datetime
import glob
import json
import os
import re
import subprocess
import sys
import tempfile
import time

from selenium import webdriver
from selenium.webdriver import ActionChains
from selenium.webdriver.chrome.options import Options
from selenium.webdriver.chrome.service import Service
from selenium.webdriver.common.by import By
from selenium.webdriver.common.keys import Keys

TOP = os.path.dirname(os.path.dirname(os.path.abspath(__file__)))
EXAMPLES = f"{TOP}/examples"
WIDE, NARROW = (1280, 900), (390, 844)
# A run of the module from the page's script: words, files in letters, and perhaps a limit of memory.
RUN = """const [words, files, limit] = arguments, done = arguments[arguments.length - 1];
const bytes = text => Uint8Array.from(atob(text), it => it.charCodeAt(0));
runs.start(words, files.map(bytes), limit).answer.then(it => done({status: it.status, milliseconds: it.milliseconds, memory: it.memory,
  text: btoa(Array.from(it.text, byte => String.fromCharCode(byte)).join('')), told: new TextDecoder().decode(it.told)}), error => done({error: error.message}));"""


def read(name):
    with open(name, "rb") as file:
        return file.read()


def example(name):
    return f"{EXAMPLES}/{name}"


def native(*words):
    """The status and the bytes of the program."""
    ran = subprocess.run([native.program, *words], capture_output=True, check=False)
    return ran.returncode, ran.stdout


class Browser:
    def __init__(self, page, shots):
        self.page, self.shots = page, shots
        self.folder = tempfile.mkdtemp(prefix="robin-page-")
        options = Options()
        for word in ("--headless=new", "--no-sandbox", "--disable-gpu", "--disable-dev-shm-usage", "--hide-scrollbars"):
            options.add_argument(word)
        options.binary_location = "/usr/bin/chromium"
        options.add_experimental_option("prefs", {"download.default_directory": self.folder, "download.prompt_for_download": False})
        options.set_capability("goog:loggingPrefs", {"browser": "ALL"})
        self.driver = webdriver.Chrome(service=Service("/usr/bin/chromedriver"), options=options)
        self.driver.set_script_timeout(900)

    def size(self, width, height):
        metrics = {"width": width, "height": height, "deviceScaleFactor": 1, "mobile": width < 600}
        self.driver.execute_cdp_cmd("Emulation.setDeviceMetricsOverride", metrics)

    def open(self, page=None):
        self.driver.get("file://" + (page or self.page))
        self.driver.execute_async_script("begun.then(arguments[0])")

    def run(self, words, *files, limit=None):
        """The answer of a run of the module, its text as bytes."""
        answer = self.driver.execute_async_script(RUN, list(words), [base64.b64encode(it).decode() for it in files], limit)
        if "text" in answer:
            answer["text"] = base64.b64decode(answer["text"])
        return answer

    def find(self, name):
        return self.driver.find_element(By.ID, name)

    def text(self, name):
        return self.driver.execute_script("return document.getElementById(arguments[0]).textContent", name)

    def js(self, text, *words):
        return self.driver.execute_script(text, *words)

    def wait(self, test, seconds=300):
        end = time.time() + seconds
        while time.time() < end:
            with contextlib.suppress(Exception):
                if test():
                    return
            time.sleep(0.05)
        raise AssertionError(f"waited {seconds} s for {test.__doc__ or 'a change'}: verdict {self.text('verdict')!r}, progress {self.text('progress')!r}")

    def give(self, league=None, season=None):
        """Puts files into the page's two fields, and waits for the verdict."""
        if league:
            self.find("league-file").send_keys(league)
            self.wait(lambda: self.text("verdict"))
        if season:
            before = self.text("verdict")
            self.find("season-file").send_keys(season)
            self.wait(lambda: self.text("verdict") != before)

    def done(self):
        self.wait(lambda: self.js("return !state.search"))

    def shot(self, name):
        if self.shots:
            os.makedirs(self.shots, exist_ok=True)
            self.driver.save_screenshot(f"{self.shots}/{name}.png")

    def saved_text(self, name):
        """What is saved of the text below, under this name."""
        self.js("document.getElementById('text-box').open = true")
        return self.saved("save-text", name)

    def saved(self, button, name):
        """What a button saves under this name."""
        target = f"{self.folder}/{name}"
        with contextlib.suppress(FileNotFoundError):
            os.remove(target)
        self.find(button).click()
        self.wait(lambda: os.path.exists(target) and not glob.glob(f"{self.folder}/*.crdownload"), 20)
        return read(target)


def same(ours, theirs, what):
    if ours != theirs:
        raise AssertionError(f"{what}: {ours!r:.400} and not {theirs!r:.400}")


def judged(command, league, data, *words):
    """The status of the program over a league and these bytes."""
    with tempfile.NamedTemporaryFile() as file:
        file.write(data)
        file.flush()
        return native(command, league, *words, file.name)[0]


# ---- the tries

def try_opening(it):
    """The first verdict comes in good time."""
    began = time.time()
    it.open()
    opened = time.time()
    it.give(example("northern-league.xml"), example("northern-season.xml"))
    it.wait(lambda: it.text("verdict").startswith("Accepted"))
    return f"opened after {opened - began:.2f} s, both files judged after {time.time() - began:.2f} s"


def try_reports(it):
    """The report of each example, byte for byte, as the page shows it and as the run writes it."""
    for league, season, report in (("four-teams", "four-teams-season", "four-teams-season"), ("nine-classes", "accepted-season", "accepted-season"),
                                   ("nine-classes", "refused-season", "refused-season"), ("competition", "competition-season", "competition-season")):
        it.open()
        it.give(example(f"{league}.xml"), example(f"{season}.xml"))
        want = read(example(f"{report}.txt"))
        it.wait(lambda: it.text("text") == want.decode())
        answer = it.run(["validate", "1", "2"], read(example(f"{league}.xml")), read(example(f"{season}.xml")))
        same(answer["text"], want, report)
    answer = it.run(["check", "1", "2"], read(example("no-home-game.xml")), read(example("no-home-game.log")))
    same(answer["text"], read(example("no-home-game.txt")), "no-home-game.txt")


GRID = """return Array.from(document.querySelectorAll('#grid tbody tr'), row => Array.from(row.querySelectorAll('td'),
  cell => [cell.textContent, cell.title, cell.classList.contains('break')]));"""


def grid_shown(text):
    """The cells of the grid that `show` writes, each a sign with its marks, by team and slot."""
    head, *rows = text.split("\n\n", maxsplit=1)[0].splitlines()
    start = re.search(" 0( |$)", head).start()
    return [[row[at:at + 3].strip() for at in range(start, len(head), 3)] for row in rows]


def season_that_is_none(room):
    """A season of four teams without one of its games, and with another in a slot that is taken."""
    season = read(example("four-teams-season.xml")).replace(b'home="2" away="3" slot="5"', b'home="2" away="3" slot="0"')
    with open(f"{room}/none.xml", "wb") as file:
        file.write(b"\n".join(line for line in season.splitlines() if b'home="3" away="0"' not in line))
    return f"{room}/none.xml"


def try_grid(it):
    """The grid has the games, sides and breaks of the one that `show` writes, also of a season that is none."""
    room = tempfile.mkdtemp()
    cases = [("northern-league", example("northern-season.xml")), ("competition", example("competition-season.xml")), ("nine-classes", example("refused-season.xml")),
             ("four-teams", season_that_is_none(room))]
    for league, season in cases:
        league = example(f"{league}.xml")
        want = grid_shown(native("show", league, season)[1].decode())
        it.open()
        it.give(league, season)
        it.wait(lambda: len(it.js(GRID)) == len(want))
        labels = it.js("return state.view.labels")
        for team, row in enumerate(it.js(GRID)):
            for slot, (text, title, is_break) in enumerate(row):
                wanted, where = want[team][slot], f"team {team} in slot {slot} of {league}"
                if wanted[0] in "#-":
                    same(text.replace("–", "-"), re.match(r"-|#.", wanted)[0], where)
                    continue
                sign, other = re.match(r"(@?)(\d+)", wanted).groups()
                same(title.split(", slot")[0].startswith(f"{labels[team]} {'away at' if sign else 'at home to'} {labels[int(other)]}"), True, f"{where}, {title!r} and {wanted}")
                same((is_break, text.endswith("*")), (wanted[-1] in "*%",) * 2, f"a break of {where}")
    assert it.text("verdict").startswith("Not accepted: it is no double round robin, and 1 hard demand is missed"), it.text("verdict")


def try_commands(it):
    """Each command writes the program's bytes, and ends with its status."""
    it.open()
    same(it.text("version"), native("--version")[1].decode().strip(), "the version")
    room = tempfile.mkdtemp()
    runs = [("circle", "8"), ("make", "16", "7"), ("trial", "8", "7"), ("--help",), ("--version",), ("solve", "--help")]
    for words in runs:
        answer = it.run(words)
        same((answer["status"], answer["text"]), native(*words), words)
    for number, seed in ((4, 1), (8, 3), (16, 7), (20, 2), (40, 1)):
        name = f"{room}/made-{number}.xml"
        with open(name, "wb") as file:
            file.write(native("make", str(number), str(seed))[1])
        answer = it.run(["solve", "1"], read(name))
        same((answer["status"], answer["text"]), native("solve", name), f"solve of a made league of {number} teams")
    files = [example(name) for name in ("home-games-last.xml", "four-teams-season.xml", "resumed.log")]
    for words in (["resume", 0, 1, "2"], ["resume", 0, 1, "2", "--near"], ["resume", 0, 1, "3"], ["audit", 0, 1, "3", 2], ["patterns", 0], ["prove", 0, 1], ["rows", 0], ["validate", 1, 0], ["bound", 0, 2]):
        answer = it.run([str(word + 1) if isinstance(word, int) else word for word in words], *map(read, files))
        same((answer["status"], answer["text"]), native(*[files[word] if isinstance(word, int) else word for word in words]), words)
    for name in ("no-home-game.xml", "one-home-game.xml", "northern-pinned.xml"):
        answer = it.run(["explain", "1"], read(example(name)))
        same((answer["status"], answer["text"]), native("explain", example(name)), f"explain {name}")


def try_refusals(it):
    """A file with a slip is refused with its line, in the words of the program."""
    slip = read(example("northern-league.xml")).replace(b'teams="3" max="0"', b'teams="3,4" max="0"')
    with tempfile.NamedTemporaryFile(suffix=".xml") as file:
        file.write(slip)
        file.flush()
        it.open()
        it.give(file.name)
        same(it.run(["validate", "1", "2"], slip, b"")["text"], native("validate", file.name, "/dev/null")[1], "a slip")
        line = slip[: slip.index(b'teams="3,4"')].count(b"\n") + 1
        assert f"line {line}" in it.text("advice") and "not a number" not in it.text("advice"), it.text("advice")
        assert it.text("verdict").startswith("Not read"), it.text("verdict")
    it.open()
    it.give(example("northern-season.xml"))
    assert "Not read" in it.text("verdict") and "league" in it.text("advice").lower(), it.text("advice")
    for data in (b"", b"\xff\xfe\x00", b"<Instance>", b"<Instance></Instance>", b"no xml"):
        answer = it.run(["validate", "1", "2"], data, b"")
        assert answer["status"] == 3 and answer["text"].startswith(b"refused instance"), answer
    same(it.run(["validate", "1"])["status"], 2, "words that are no command")


def try_large(it):
    """A file of 16 MiB is read, and one byte more is refused."""
    league, season = read(example("northern-league.xml")), read(example("northern-season.xml"))
    it.open()
    for more, status in ((0, 0), (1, 3)):
        large = league + b"<!--" + b"x" * ((16 << 20) + more - len(league) - 7) + b"-->"
        with tempfile.NamedTemporaryFile(suffix=".xml") as file:
            file.write(large)
            file.flush()
            it.open()
            it.give(file.name, example("northern-season.xml") if not status else None)
            it.wait(lambda: it.text("verdict").startswith("Not read" if status else "Accepted"))
            want = native("validate", file.name, example("northern-season.xml"))
            same(want[0], status, "the program's status")
            if status:
                same(it.text("text"), want[1].decode(), "a file that is too long")
            else:
                same(it.text("text"), want[1].decode(), "a large file")


def try_markup(it):
    """Markup in a name is shown as it stands, and isn't read."""
    bad = '&lt;img src=x onerror=&quot;document.title=1&quot;&gt;&lt;script&gt;document.title=2&lt;/script&gt;'
    league = read(example("northern-league.xml")).replace(b'name="Dunmore"', f'name="{bad}"'.encode()).replace(b"5 September", b"&lt;b&gt;x &amp; y")
    with tempfile.NamedTemporaryFile(suffix=".xml") as file:
        file.write(league)
        file.flush()
        it.open()
        it.give(file.name, example("northern-season.xml"))
        it.wait(lambda: it.js("return document.querySelectorAll('#grid tbody tr').length === 8"))
        assert it.js("return document.querySelectorAll('img, main script, #grid b').length") == 0
        assert it.js("return document.title").startswith("robin")
        assert "<img src=x" in it.text("grid") and "<b>x & y" in it.text("grid"), it.text("grid")[:400]


def try_memory(it):
    """Where memory runs out the run says so, and the next one begins anew."""
    it.open()
    files = [read(example("northern-league.xml")), read(example("northern-season.xml"))]
    want = it.run(["validate", "1", "2"], *files)
    same(want["status"], 0, "status")
    # The worker is new, and the heap may not grow far past the room for the texts: the run itself finds too little.
    it.open()
    rows = ["rows", "1"]
    made = native("make", "40", "1")[1]
    seen = set()
    for limit in (60, 76, 80, 88, 96, 128):
        answer = it.run(rows, made, limit=limit << 20)
        assert answer.get("status") in (0, 7, 8) or "memory" in answer.get("error", ""), answer
        seen.add(answer.get("status", answer.get("error")))
        if "error" not in answer and answer["status"] == 8:
            same(answer["text"], b"", "a text where memory ran out")
    # A run that finds no memory for its files ends with an error, and takes its worker with it.
    said = it.driver.execute_async_script("runs.start(['validate', '1', '2'], [{length: 2 ** 40}]).answer.then(() => arguments[0]('answered'), error => arguments[0](error.message))")
    assert "memory" in said, said
    for _ in range(3):
        same(it.run(["validate", "1", "2"], *files)["text"], want["text"], "the run behind it")
    assert 8 in seen or 7 in seen, seen
    return f"rows with little memory end with {seen}"


def try_two_runs(it):
    """A season is judged while another run searches, and a run that is stopped leaves the other alone."""
    it.open()
    made = native("make", "16", "7")[1]
    files = [read(example("northern-league.xml")), read(example("northern-season.xml"))]
    it.js("window.long = runs.start(['solve', '1', '--tries', '50'], [Uint8Array.from(atob(arguments[0]), it => it.charCodeAt(0))]); long.answer.catch(error => { window.ended = error.message; });",
          base64.b64encode(made).decode())
    time.sleep(0.5)
    for _ in range(3):
        same(it.run(["validate", "1", "2"], *files)["text"], native("validate", example("northern-league.xml"), example("northern-season.xml"))[1], "beside a search")
    assert it.js("return window.ended") is None
    it.js("long.stop()")
    it.wait(lambda: it.js("return window.ended") == "stopped")
    two = """const done = arguments[1], file = Uint8Array.from(atob(arguments[0]), it => it.charCodeAt(0)), all = [0, 1].map(() => runs.start(['solve', '1'], [file]).answer);
      Promise.all(all).then(both => done(both.map(one => new TextDecoder().decode(one.text))));"""
    both = it.driver.execute_async_script(two, base64.b64encode(made).decode())
    same(both[0], both[1], "two runs at once")


def try_dropping(it):
    """Files that are dropped, in either order, are judged."""
    drop = """const [files] = arguments, all = new DataTransfer();
      for (const [name, text] of files) all.items.add(new File([text], name));
      for (const kind of ['dragover', 'drop']) document.body.dispatchEvent(new DragEvent(kind, {dataTransfer: all, bubbles: true, cancelable: true}));"""
    both = [[name, read(example(name)).decode()] for name in ("northern-season.xml", "northern-league.xml")]
    for files in (both, both[::-1], [both[1]], ):
        it.open()
        it.js(drop, files)
        it.wait(lambda: it.text("verdict").startswith("Accepted" if len(files) == 2 else "A league of 8"))
    it.js(drop, [both[0]])
    it.wait(lambda: it.text("verdict").startswith("Accepted"))


def focused(it):
    return it.js("return document.activeElement.id || document.activeElement.textContent")


def press(it, key):
    # (keys sent to a file's field are taken for a file's name)
    ActionChains(it.driver).send_keys(key).perform()


def tab_to(it, test, most=60):
    for _ in range(most):
        press(it, Keys.TAB)
        if test():
            return
    raise AssertionError(f"no tab leads there: {focused(it)}")


def try_keyboard(it):
    """A league is made, a season found, a demand lit and slots resumed by keys alone."""
    it.size(*WIDE)
    it.open()
    tab_to(it, lambda: focused(it) == "made")
    press(it, Keys.ENTER)
    it.wait(lambda: it.text("verdict").startswith("A league of 8"))
    tab_to(it, lambda: focused(it) == "solve")
    press(it, Keys.ENTER)
    it.wait(lambda: it.js("return !!state.games"))
    tab_to(it, lambda: focused(it) == "stop")
    press(it, Keys.ENTER)
    it.done()
    tab_to(it, lambda: it.js("return document.activeElement.closest('#grid') !== null"))
    for _ in range(3):
        press(it, Keys.TAB)
    press(it, Keys.SPACE)
    same(it.js("return state.played"), 3, "the slot that was picked")
    tab_to(it, lambda: it.js("return document.activeElement.closest('#demands') !== null"))
    press(it, Keys.ENTER)
    it.wait(lambda: it.js("return document.querySelectorAll('td.lit').length") > 0, 5)
    press(it, Keys.ESCAPE)
    same(it.js("return document.querySelectorAll('td.lit').length"), 0, "lit cells behind Escape")


def try_searches(it):
    """What the buttons say: found, stopped, none, explained."""
    it.open()
    it.give(example("northern-league.xml"))
    it.js("document.getElementById('tries').value = 100")
    it.find("solve").click()
    it.wait(lambda: it.text("verdict").startswith("Found. Accepted"))
    it.wait(lambda: "best so far" in it.text("progress"), 60)
    it.find("stop").click()
    it.done()
    assert it.text("progress").startswith("Stopped"), it.text("progress")
    found = it.js("return new TextDecoder().decode(state.season)").encode()
    assert b"<Solution>" in found
    same(it.saved("save-xml", "season.xml"), found, "the saved season")
    league = example("no-home-game.xml")
    it.open()
    it.give(league)
    it.find("solve").click()
    it.wait(lambda: it.text("verdict").startswith("There is no season"))
    it.done()
    same(judged("check", league, it.saved_text("refutation.log")), 0, "the log that is saved")
    it.find("explain").click()
    it.wait(lambda: it.text("verdict") == "No season meets this demand:")
    same(it.saved_text("conflict.txt"), native("explain", league)[1], "why there is none, saved")


def try_least(it):
    """A season is bettered until none is cheaper, with a certificate that `bound` accepts."""
    room = tempfile.mkdtemp()
    league, season = f"{room}/league.xml", f"{room}/season.xml"
    for name, words in ((league, ("make", "4", "1")), (season, ("circle", "4"))):
        with open(name, "wb") as file:
            file.write(native(*words)[1])
    it.open()
    it.give(league, season)
    it.wait(lambda: it.text("verdict") == "Accepted. It costs 72.")
    times = 0
    while times == 0 or it.text("verdict").startswith("A cheaper season. Accepted."):
        it.find("prove").click()
        it.done()
        times += 1
    same(it.text("verdict"), "No accepted season costs less than 52.", "the last verdict")
    same(judged("bound", league, it.saved_text("least.log")), 0, "the certificate that is saved")
    same(judged("validate", league, it.saved("save-xml", "season.xml")), 0, "the season that is saved")
    it.open()
    it.give(example("nine-classes.xml"), example("refused-season.xml"))
    it.find("prove").click()
    it.wait(lambda: it.text("verdict").startswith("The season is not accepted"))
    return f"{times} times"


def try_resume(it):
    """A click on a slot says which were played; the others are planned again, near the old plan if that is asked for, or a log says that they can't be."""
    league, season = example("home-games-last.xml"), example("four-teams-season.xml")
    cases = [
        (2, [], "Slots 0 to 1 stay as they were played. Accepted."),
        (2, ["--near"], "Slots 0 to 1 stay as they were played. 2 of 8 games to come change. Accepted."),
        (3, [], "No season keeps the games of slots 0 to 2."),
        (3, ["--near"], "No season keeps the games of slots 0 to 2."),
    ]
    for slot, near, word in cases:
        it.open()
        it.give(league, season)
        it.wait(lambda: it.js("return document.querySelectorAll('#grid thead button').length") == 6)
        it.wait(lambda: it.js("return !document.getElementById('demands').hidden"))
        pick = lambda: it.driver.find_elements(By.CSS_SELECTOR, "#grid thead button")[slot].click()
        assert not it.find("resume").is_enabled()
        for is_played in (True, False, True):
            pick()
            same(it.find("resume").is_enabled(), is_played, "whether slots can be planned again")
            same(len(it.driver.find_elements(By.CSS_SELECTOR, "#grid td.played")), 4 * slot * is_played, "cells of slots that were played")
        same(it.text("resume"), f"Plan slots {slot} to 5 again", "the button")
        assert not it.find("near").is_selected()
        if near:
            it.find("near").click()
        it.find("resume").click()
        it.wait(lambda: it.text("verdict").startswith(word))
        it.done()
        if slot == 2:
            same(it.saved("save-xml", "season.xml"), native("resume", league, season, "2", *near)[1], "the season")
        else:
            log = it.saved_text("resume.log")
            same(judged("audit", league, log, season, "3"), 0, "the log that is saved")


def try_made(it):
    """A league that the page makes is that of `make` with the seed that stands there, and is saved as it is."""
    it.open()
    it.find("made").click()
    it.wait(lambda: it.text("verdict").startswith("A league of 8 teams"))
    seed = re.search(r"seed (\d+)", it.text("files-said"))[1]
    same(it.saved("save-league", "league.xml"), native("make", "8", seed)[1], f"the league of seed {seed}")


def items(it, where):
    """The lines of a list of demands: what stands before the sentence, and the sentence."""
    return it.js("return Array.from(document.querySelectorAll(arguments[0] + ' .demand'), it => [it.querySelector('b').textContent, it.querySelector('.asks')?.textContent])", where)


def sentences(*words):
    """The same by the program."""
    found = [re.fullmatch(r"(hard|soft) (\d+) ([A-Z0-9]+): (.*)", line) for line in native("show", *words)[1].decode().splitlines()]
    return [[f"{one[2]} {one[3]} {one[1]}", one[4]] for one in found]


def try_members(it):
    """The answer of `explain` names each member in the words of `show`, and a league alone all its demands."""
    league = example("northern-closed.xml")
    it.size(*WIDE)
    it.open()
    it.give(league)
    all_demands, members = sentences(league, "--demands"), sentences(league, "--demands", "1;10")
    it.wait(lambda: it.js("return !document.getElementById('demands').hidden"))
    same(items(it, "#missed"), all_demands, "the demands of a league alone")
    same(len(members), 2, "members")
    it.find("explain").click()
    it.wait(lambda: it.text("verdict") == "No season meets these demands together:")
    it.wait(lambda: items(it, "#members"))
    same(items(it, "#members"), members, "the members")
    assert "Without any one of them" in it.text("advice"), it.text("advice")
    it.shot("members")
    # With a season drawn, a click on a member lights the cells that it speaks of.
    it.give(None, example("northern-season.xml"))
    it.wait(lambda: it.js("return !!state.light"))
    same(items(it, "#members"), [], "members behind another verdict")
    it.find("explain").click()
    it.wait(lambda: items(it, "#members"))
    it.driver.find_elements(By.CSS_SELECTOR, "#members button")[1].click()
    assert it.js("return document.querySelectorAll('td.lit').length"), "a member lights nothing"
    it.shot("members-lit")
    it.size(*NARROW)
    it.shot("members-390")
    width = it.js("return document.documentElement.scrollWidth")
    it.size(*WIDE)
    assert width <= NARROW[0], f"the members are {width} wide at {NARROW[0]}"


def try_season_at_hand(it):
    """A season that is found takes the place of a dearer one alone; one that is put away does no more harm."""
    replaced = set()
    for league, season, cost in (("northern-league", "northern-season", 6), ("nine-classes", "accepted-season", 25)):
        league = example(f"{league}.xml")
        it.open()
        it.give(league, example(f"{season}.xml"))
        it.wait(lambda: it.text("verdict") == f"Accepted. It costs {cost}.")
        it.js("document.getElementById('tries').value = 1")
        it.find("solve").click()
        it.wait(lambda: it.text("progress").startswith("Done"))
        found = native("solve", league)[1]
        least = int(re.search(rb'objective="(\d+)"', found)[1])
        assert f"costs {least}" in it.text("progress"), it.text("progress")
        same(it.saved("save-xml", "season.xml"), found if least < cost else read(example(f"{season}.xml")), f"the season, where {least} was found")
        same(it.text("verdict"), f"Found. Accepted. It costs {least}." if least < cost else f"Accepted. It costs {cost}.", "the verdict")
        replaced.add(least < cost)
    same(len(replaced), 2, "seasons that stay and seasons that don't")
    # A season of another league is refused, and put away.
    it.open()
    it.give(example("northern-league.xml"), example("northern-season.xml"))
    it.give(example("four-teams.xml"))
    it.wait(lambda: it.text("verdict").startswith("Not read"))
    it.find("put-away").click()
    it.wait(lambda: it.text("verdict").startswith("A league of 4"))
    assert not it.find("put-away").is_displayed() and "Season" not in it.text("files-said")


LIT = """return Array.from(document.querySelectorAll('#grid tbody tr'), row => Array.from(row.querySelectorAll('td'), cell => cell.classList.contains('lit')))
  .flatMap((row, team) => row.map((lit, slot) => lit ? [team, slot] : null)).filter(cell => cell);"""


def cells_told(text):
    """By the number of each missed demand, the cells that a text of `show` names, of a league without names."""
    cells, number = {}, None
    for line in text.splitlines():
        head = re.match(r"(?:hard|soft) (\d+) ", line)
        number = int(head[1]) if head else number if line.startswith("  ") else None
        if head:
            cells[number] = set()
        elif number is not None:
            games = re.findall(r"team (\d+) - team (\d+) \((\d+)\)", line)
            cells[number] |= {(int(team), int(slot)) for home, away, slot in games for team in (home, away)}
            for team, slots in re.findall(r"team (\d+) in ([\d, and]+)$", line):
                cells[number] |= {(int(team), int(slot)) for slot in re.findall(r"\d+", slots)}
    return cells


def try_reasons(it):
    """A click on a missed demand lights the games that `show` names for it, and no other."""
    league, season = example("nine-classes.xml"), example("refused-season.xml")
    told = cells_told(native("show", league, season)[1].decode())
    it.open()
    it.give(league, season)
    it.wait(lambda: it.js("return !document.getElementById('demands').hidden"))
    seen = {}
    for button in it.driver.find_elements(By.CSS_SELECTOR, "#missed button"):
        number = int(re.search(r"(\d+) [A-Z]{2}\d (?:hard|soft)", button.text)[1])
        it.js("arguments[0].click()", button)
        seen[number] = {tuple(cell) for cell in it.js(LIT)}
        it.js("arguments[0].click()", button)
        same(it.js(LIT), [], "lit cells behind a second click")
    same(sorted(seen), sorted(told), "the demands that are missed")
    for number, cells in told.items():
        if cells:
            same(sorted(seen[number]), sorted(cells), f"the lit cells of demand {number}")
        else:
            assert seen[number], f"demand {number} lights nothing"
    return f"{len(told)} demands, {sum(map(len, told.values()))} cells"


def try_saving(it):
    """Saved as a table and as a calendar."""
    it.open()
    it.give(example("northern-league.xml"), example("northern-season.xml"))
    it.wait(lambda: it.js("return !!state.games"))
    table = it.saved("save-csv", "season.csv").decode()
    lines = table.split("\r\n")
    same(table.encode(), native("show", example("northern-league.xml"), example("northern-season.xml"), "--form", "csv")[1], "the table")
    same(len(lines), 58, "lines of the table")
    same(lines[0], "slot,slot_name,home,home_name,away,away_name", "the table's head")
    wanted = re.findall(r'home="(\d+)" away="(\d+)" slot="(\d+)"', read(example("northern-season.xml")).decode())
    same(sorted((int(s), int(h), int(a)) for h, a, s in wanted), [tuple(int(line.split(",")[i]) for i in (0, 2, 4)) for line in lines[1:57]], "the table's games")
    it.js("document.getElementById('calendar-first').value = '2026-09-05'")
    calendar = it.saved("save-calendar", "season.ics")
    same(calendar.count(b"BEGIN:VEVENT"), 56, "games of the calendar")
    assert all(len(line) <= 75 for line in calendar.split(b"\r\n")) and b"\n" not in calendar.replace(b"\r\n", b"")
    same(sorted(set(re.findall(rb"DTSTART;VALUE=DATE:(\d+)", calendar)))[:3], [b"20260905", b"20260912", b"20260919"], "days")
    it.js("document.getElementById('calendar-team').value = '3'")
    same(it.saved("save-calendar", "season.ics").count(b"BEGIN:VEVENT"), 14, "games of one team")
    # Without a first day nothing is saved.
    os.remove(f"{it.folder}/season.ics")
    it.js("document.getElementById('calendar-first').value = ''")
    it.find("save-calendar").click()
    time.sleep(0.5)
    assert not os.path.exists(f"{it.folder}/season.ics"), "a calendar without a first day"


def try_calendar(it):
    """Names that a calendar writes in another way, lines that it folds, and days between slots across the end of a year."""
    name = "Ó" * 20 + ", a; b\\c " + "é" * 9
    league = read(example("northern-league.xml")).replace(b'name="Dunmore"', f'name="{name}"'.encode())
    with tempfile.NamedTemporaryFile(suffix=".xml") as file:
        file.write(league)
        file.flush()
        it.open()
        it.give(file.name, example("northern-season.xml"))
        it.wait(lambda: it.js("return !!state.games"))
        it.js("document.getElementById('calendar-first').value = '2026-12-28'; document.getElementById('calendar-step').value = 3; document.getElementById('calendar-team').value = '4'")
        calendar = it.saved("save-calendar", "season.ics")
    lines = calendar.split(b"\r\n")
    assert all(len(line) <= 75 for line in lines) and b"\n" not in calendar.replace(b"\r\n", b"") and any(line.startswith(b" ") for line in lines), lines[:12]
    whole = calendar.replace(b"\r\n ", b"").decode().split("\r\n")
    told = name.replace("\\", "\\\\").replace(",", "\\,").replace(";", "\\;")
    assert whole[:3] == ["BEGIN:VCALENDAR", "VERSION:2.0", "PRODID:-//robin//season//EN"] and whole[-2:] == ["END:VCALENDAR", ""], whole
    games = re.findall(r'home="(\d+)" away="(\d+)" slot="(\d+)"', read(example("northern-season.xml")).decode())
    labels = it.js("return state.view.labels")
    wanted = []
    for home, away, slot in sorted((tuple(map(int, game)) for game in games if "4" in game[:2]), key=lambda game: game[2]):
        day = datetime.date(2026, 12, 28) + datetime.timedelta(days=3 * slot)
        pair = " - ".join(told if team == 4 else labels[team] for team in (home, away))
        wanted.append([f"DTSTART;VALUE=DATE:{day:%Y%m%d}", f"DTEND;VALUE=DATE:{day + datetime.timedelta(days=1):%Y%m%d}", f"SUMMARY:{pair}"])
    found = [line for line in whole if line.startswith(("DTSTART", "DTEND", "SUMMARY"))]
    same([found[at:at + 3] for at in range(0, len(found), 3)], wanted, "the games of a team")
    same(len({line for line in whole if line.startswith("UID:")}), len(wanted), "their names")


def pages_of(it):
    pdf = base64.b64decode(it.driver.execute_cdp_cmd("Page.printToPDF", {"preferCSSPageSize": True, "printBackground": True})["data"])
    if it.shots:
        os.makedirs(it.shots, exist_ok=True)
    return len(re.findall(rb"/Type\s*/Page\b", pdf)), pdf


@contextlib.contextmanager
def on_paper(it):
    """The page as it is printed, in a window of the size of an A4 sheet within its margins."""
    it.size(1062, 729)
    it.driver.execute_cdp_cmd("Emulation.setEmulatedMedia", {"media": "print"})
    yield
    it.driver.execute_cdp_cmd("Emulation.setEmulatedMedia", {"media": ""})
    it.size(*WIDE)


def try_printing(it):
    """A season is printed on one sheet, of eight teams and of forty, with its whole grid."""
    it.size(*WIDE)
    it.open()
    it.give(example("northern-league.xml"), example("northern-season.xml"))
    it.wait(lambda: it.js("return !document.getElementById('demands').hidden"))
    same(pages_of(it)[0], 1, "sheets of eight teams")
    with on_paper(it):
        it.shot("printed")
        same(it.js("return document.querySelector('#missed').innerText").splitlines()[0], "7 GA1 soft costs 6", "the first printed demand")
        cut = it.js("return Array.from(document.querySelectorAll('#grid th'), it => it.scrollWidth - it.clientWidth).filter(it => it > 1).length")
        same(cut, 0, "names that are cut off")
    room = tempfile.mkdtemp()
    for name, words in (("league", ("make", "40", "1")), ("season", ("circle", "40"))):
        with open(f"{room}/{name}.xml", "wb") as file:
            file.write(re.sub(rb'<team id="(.)(.)"/>', rb'<team id="\1\2" name="N\1 WWW W\2"/>', native(*words)[1]))
    it.open()
    it.give(f"{room}/league.xml", f"{room}/season.xml")
    it.wait(lambda: it.js("return !document.getElementById('demands').hidden"))
    with on_paper(it):
        right = it.js("return document.getElementById('grid').getBoundingClientRect().right")
        assert right <= 1062, f"the printed grid is {right} wide"
    count, pdf = pages_of(it)
    if it.shots:
        with open(f"{it.shots}/forty.pdf", "wb") as file:
            file.write(pdf)
    same(count, 1, "sheets of forty teams")


def try_no_network(it):
    """The page can't reach a network, and a part of it that isn't its own doesn't run."""
    it.open()
    said = it.driver.execute_async_script("""const done = arguments[0]; let blocked = '';
      document.addEventListener('securitypolicyviolation', event => { blocked += event.effectiveDirective + ' '; });
      const script = document.createElement('script'); script.textContent = 'window.broken = 1'; document.body.append(script);
      const image = new Image(); image.src = 'https://example.com/x.png';
      fetch('https://example.com/').then(() => 'fetched', error => 'refused').then(it => setTimeout(() => done([it, blocked, window.broken === undefined]), 300));""")
    same(said[0], "refused", "a fetch")
    assert all(word in said[1] for word in ("connect-src", "img-src", "script-src")) and said[2], said
    # What the browser says of these is wanted.
    it.driver.get_log("browser")


def try_lacking(it):
    """A browser without a memory of 64-bit addresses is told so in a sentence."""
    added = it.driver.execute_cdp_cmd("Page.addScriptToEvaluateOnNewDocument", {"source": "WebAssembly.validate = () => false;"})
    try:
        it.open()
        assert it.find("lacking").is_displayed() and "64-bit" in it.text("lacking"), it.text("lacking")
        assert not it.find("made").is_enabled() and not it.find("league-file").is_enabled()
        it.shot("lacking")
    finally:
        it.driver.execute_cdp_cmd("Page.removeScriptToEvaluateOnNewDocument", added)


def try_given(it):
    """`robin page` writes a page with the files in it, also a file that tries to break out."""
    room = tempfile.mkdtemp()
    bad = read(example("northern-league.xml")).replace(b"<Resources>", b"<!-- </script><script>document.title = 'broken'</script><img src=x> --><Resources>", 1)
    with open(f"{room}/a 'league' & <b>.xml", "wb") as file:
        file.write(bad)
    for words in ([f"{room}/a 'league' & <b>.xml", example("northern-season.xml")], [f"{room}/a 'league' & <b>.xml"]):
        ran = subprocess.run([f"{TOP}/robin", "page", *words], capture_output=True, check=True)
        with open(f"{room}/given.html", "wb") as file:
            file.write(ran.stdout)
        it.open(f"{room}/given.html")
        it.wait(lambda: it.text("verdict").startswith("Accepted" if len(words) == 2 else "A league of 8"))
        assert it.js("return document.title").startswith("robin") and it.js("return document.querySelectorAll('img').length") == 0
        assert "a 'league' & <b>.xml" in it.text("files-said"), it.text("files-said")
        same(bytes(it.js("return Array.from(state.league)")), bad, "the league in the page")
    ran = subprocess.run([f"{TOP}/robin", "page", f"{room}/none.xml"], capture_output=True, check=False)
    same((ran.returncode, ran.stdout), (6, b""), "a file that isn't there")


def try_looks(it):
    """Screenshots, at two widths, and nothing wider than the window."""
    room = tempfile.mkdtemp()
    for name, words in (("league-40", ("make", "40", "1")), ("season-40", ("circle", "40"))):
        with open(f"{room}/{name}.xml", "wb") as file:
            file.write(native(*words)[1])
    cases = [("northern", example("northern-league.xml"), example("northern-season.xml")), ("refused", example("nine-classes.xml"), example("refused-season.xml")),
             ("competition", example("competition.xml"), example("competition-season.xml")), ("forty", f"{room}/league-40.xml", f"{room}/season-40.xml")]
    for size, tag in ((WIDE, "1280"), (NARROW, "390")):
        it.size(*size)
        it.open()
        it.shot(f"empty-{tag}")
        for name, league, season in cases:
            it.open()
            it.give(league, season)
            it.wait(lambda: it.js("return !document.getElementById('demands').hidden"))
            it.shot(f"{name}-{tag}")
            buttons = it.driver.find_elements(By.CSS_SELECTOR, "#missed button")
            if buttons:
                it.js("arguments[0].click()", buttons[0])
                it.js("document.getElementById('picture').scrollIntoView()")
                it.shot(f"{name}-lit-{tag}")
            width = it.js("return document.documentElement.scrollWidth")
            assert width <= size[0], f"{name} is {width} wide at {size[0]}"
    it.size(*WIDE)


def main():
    words = argparse.ArgumentParser()
    words.add_argument("--page", default=f"{TOP}/release/robin.html")
    words.add_argument("--program", default=f"{TOP}/release/robin")
    words.add_argument("--shots")
    words.add_argument("names", nargs="*")
    words = words.parse_args()
    tries = {name[4:]: call for name, call in globals().items() if name.startswith("try_")}
    native.program = words.program
    browser = Browser(os.path.abspath(words.page), words.shots)
    failed = 0
    try:
        for name in words.names or tries:
            began = time.time()
            try:
                note = tries[name](browser)
                print(f"{name}: passed in {time.time() - began:.1f} s{': ' + note if note else ''}", flush=True)
            except Exception as error:
                failed += 1
                print(f"{name}: FAILED: {type(error).__name__}: {str(error)[:900]}", flush=True)
                browser.shot(f"failed-{name}")
        odd = [it["message"] for it in browser.driver.get_log("browser") if it["level"] == "SEVERE"]
        if odd:
            print("said by the browser:", *odd[:10], sep="\n  ")
    finally:
        browser.driver.quit()
    print(f"{len(words.names or tries) - failed} passed, {failed} failed")
    sys.exit(1 if failed else 0)


main()
