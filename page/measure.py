"""measure.py [PAGE [PROGRAM]]: milliseconds of the page's module in Chromium and of the program (release/robin), in turns, and the sizes of the page's parts. Processor
time of both: the worker's thread from /proc, the program's from the system."""
import base64
import glob
import gzip
import os
import re
import resource
import subprocess
import sys
import tempfile
import time

from selenium import webdriver
from selenium.webdriver.chrome.options import Options
from selenium.webdriver.chrome.service import Service
from selenium.webdriver.common.by import By

TOP = os.path.dirname(os.path.dirname(os.path.abspath(__file__)))
RUN = """const [words, files, rounds] = arguments, done = arguments[3], bytes = text => Uint8Array.from(atob(text), it => it.charCodeAt(0));
(async () => { const times = []; for (let i = 0; i < rounds; i++) times.push((await runs.start(words, files.map(bytes)).answer).milliseconds); done(times); })();"""


def read(name):
    with open(name, "rb") as file:
        return file.read()


def threads_below(top):
    """The threads of a process and of all that it started."""
    parents = {}
    for name in glob.glob("/proc/[0-9]*/stat"):
        try:
            words = open(name, encoding="utf-8").read().rpartition(")")[2].split()
        except OSError:
            continue
        parents.setdefault(int(words[1]), []).append(int(name.split("/")[2]))
    left = [top]
    while left:
        at = left.pop()
        left += parents.get(at, [])
        yield from glob.glob(f"/proc/{at}/task/*/stat")


def worker_time(top):
    ticks = 0
    for name in threads_below(top):
        try:
            text = open(name, encoding="utf-8").read()
        except OSError:
            continue
        words = text.rpartition(")")[2].split()
        if "DedicatedWorker" in text.replace(" ", ""):
            ticks += int(words[11]) + int(words[12])
    return ticks * 1000 / os.sysconf("SC_CLK_TCK")


def native_time(program, words, rounds):
    before = resource.getrusage(resource.RUSAGE_CHILDREN)
    for _ in range(rounds):
        subprocess.run([program, *words], stdout=subprocess.DEVNULL, check=False)
    after = resource.getrusage(resource.RUSAGE_CHILDREN)
    return (after.ru_utime + after.ru_stime - before.ru_utime - before.ru_stime) * 1000 / rounds


def sizes(page):
    text = read(page)
    packed = base64.b64decode(re.search(rb'const MODULE = "([^"]*)"', text)[1])
    print(f"module {len(gzip.decompress(packed))} bytes, packed {len(packed)}, page {len(text)}")


def main(page=f"{TOP}/release/robin.html", program=f"{TOP}/release/robin"):
    sizes(page)
    options = Options()
    for word in ("--headless=new", "--no-sandbox", "--disable-gpu"):
        options.add_argument(word)
    options.binary_location = "/usr/bin/chromium"
    driver = webdriver.Chrome(service=Service("/usr/bin/chromedriver"), options=options)
    driver.set_script_timeout(600)
    room = tempfile.mkdtemp()
    for name, words in (("made.xml", ("make", "16", "7")), ("circle.xml", ("circle", "40"))):
        with open(f"{room}/{name}", "wb") as file:
            subprocess.run([program, *words], stdout=file, check=True)
    mixed = f"{TOP}/bench/validate-mixed-1000.xml"
    try:
        began = time.time()
        driver.get(f"file://{os.path.abspath(page)}")
        driver.find_element(By.ID, "league-file").send_keys(f"{TOP}/examples/northern-league.xml")
        driver.find_element(By.ID, "season-file").send_keys(f"{TOP}/examples/northern-season.xml")
        while not driver.find_element(By.ID, "verdict").text.startswith("Accepted"):
            time.sleep(0.01)
        print(f"from opening to the first verdict {time.time() - began:.2f} s")
        for what, words, files, rounds in (("validate mixed-1000 (circle 40)", ("validate", 0, 1), (mixed, f"{room}/circle.xml"), 10), ("solve made-16-7", ("solve", 0), (f"{room}/made.xml",), 10)):
            for _ in range(3):
                before = worker_time(driver.service.process.pid)
                own = [str(word + 1) if isinstance(word, int) else word for word in words]
                times = driver.execute_async_script(RUN, own, [base64.b64encode(read(name)).decode() for name in files], rounds)
                cpu = (worker_time(driver.service.process.pid) - before) / rounds
                native = native_time(program, [files[word] if isinstance(word, int) else word for word in words], rounds)
                print(f"{what}: Chromium {cpu:.1f} ms of processor time a run, least {min(times):.1f} ms; program {native:.1f} ms; {cpu / native:.1f} times", flush=True)
    finally:
        driver.quit()


main(*sys.argv[1:])
