"""Two pages in headless Chromium: each sees the other's edits, an undo, an old version while the other edits."""

from __future__ import annotations

import asyncio
import base64
import contextlib
import shutil
from pathlib import Path
from typing import Any, Callable, Optional

import aiohttp
from selenium import webdriver
from selenium.common.exceptions import WebDriverException
from selenium.webdriver.chrome.options import Options
from selenium.webdriver.chrome.service import Service
from selenium.webdriver.common.by import By
from selenium.webdriver.common.keys import Keys

from trial.people import Person, until_ok
from trial.scene import village
from trial.started import MODELS, Editor, patience, told, until

# A busy machine may take long over a picture: nothing in the browser is ended for that.
FLAGS = ("--headless=new", "--no-sandbox", "--use-angle=swiftshader", "--enable-unsafe-swiftshader", "--disable-dev-shm-usage", "--hide-scrollbars",
         "--window-size=1280,860", "--force-device-scale-factor=1", "--disable-gpu-watchdog", "--disable-hang-monitor", "--no-first-run",
         "--disable-background-timer-throttling", "--disable-renderer-backgrounding", "--disable-backgrounding-occluded-windows")
STARTS = 5
TINT = 97
# How many points of the picture are brighter than all but cells and boxes.
POINTS = """
const canvas = document.getElementById("world"), gl = canvas.getContext("webgl2");
const bytes = new Uint8Array(4 * canvas.width * canvas.height);
gl.readPixels(0, 0, canvas.width, canvas.height, gl.RGBA, gl.UNSIGNED_BYTE, bytes);
let count = 0;
for (let n = 0; n < bytes.length; n += 4) count += Math.max(bytes[n], bytes[n + 1], bytes[n + 2]) > 90;
return count;
"""


# How many points of the picture have a colour, its three parts from 0 to 255.
COLOURED = """
const canvas = document.getElementById("world"), gl = canvas.getContext("webgl2");
const bytes = new Uint8Array(4 * canvas.width * canvas.height);
gl.readPixels(0, 0, canvas.width, canvas.height, gl.RGBA, gl.UNSIGNED_BYTE, bytes);
let count = 0;
for (let n = 0; n < bytes.length; n += 4) count += [0, 1, 2].every((part) => Math.abs(bytes[n + part] - arguments[part]) < 2);
return count;
"""
# The colour of a button.
COLOUR = "return getComputedStyle(arguments[0]).backgroundColor.match(/\\d+/g).map(Number)"
# Takes the picture's memory away, as a browser does where the graphics processor failed; it has `give` to give it back.
LOSE = """
const canvas = document.getElementById("world"), memory = canvas.getContext("webgl2").getExtension("WEBGL_lose_context");
canvas.addEventListener("webglcontextlost", () => (window.give = () => memory.restoreContext()), { once: true });
memory.loseContext();
"""
# The picture as it is now was handed on to be shown.
FRAMES = "const done = arguments[0]; requestAnimationFrame(() => requestAnimationFrame(() => requestAnimationFrame(done)));"


def browser() -> webdriver.Chrome:
    """Chromium. It is started again where its start takes longer than its driver waits."""
    options = Options()
    options.binary_location = shutil.which("chromium") or ""
    for flag in FLAGS:
        options.add_argument(flag)
    options.set_capability("goog:loggingPrefs", {"browser": "ALL"})
    for turn in range(STARTS):
        try:
            return webdriver.Chrome(service=Service(shutil.which("chromedriver")), options=options)
        except WebDriverException:
            if turn == STARTS - 1:
                raise


class Page:
    """A browser with the editor open."""

    def __init__(self, driver: webdriver.Chrome, server: Editor, name: str) -> None:
        self.driver = driver
        driver.set_page_load_timeout(patience())
        driver.set_script_timeout(patience())
        driver.get(server.url + "/")
        if not self.wait(lambda now: now.get("shown") is not None):
            raise RuntimeError(f"the page has no world: {self.driver.get_log('browser')}")
        self.driver.find_element(By.ID, "name").send_keys(name, Keys.TAB)

    def told(self) -> dict[str, Any]:
        return self.driver.execute_script("return window.editor ? window.editor.told() : {}")

    def at(self, x: int, y: int, z: int) -> int:
        """The tint that the page shows there."""
        return self.driver.execute_script("return window.editor.at(...arguments)", x, y, z)

    def has_chosen(self, group: str, words: str) -> bool:
        """Whether the button that is chosen of a group begins with these words."""
        script = "return document.querySelector(`#${arguments[0]} [aria-checked=true]`)?.textContent ?? ''"
        return self.driver.execute_script(script, group).startswith(words)

    def points(self) -> int:
        return self.driver.execute_script(POINTS)

    def wait(self, is_so: Callable[[dict[str, Any]], bool]) -> bool:
        """Waits until it is so of what the page tells."""
        return until(lambda: is_so(self.told()))

    def rests(self, is_so: Callable[[dict[str, Any]], bool] = lambda now: True) -> bool:
        """Waits until it is so, no answer is awaited, and all of it is drawn."""
        return self.wait(lambda now: is_so(now) and now["asks"] == 0 and now["isDrawn"])

    def element(self, name: str) -> Any:
        return self.driver.find_element(By.ID, name)

    def keys(self, *keys: str) -> None:
        """Keys in the world, one after the other."""
        self.element("world").send_keys(*keys)

    def chord(self, key: str) -> None:
        webdriver.ActionChains(self.driver).key_down(Keys.CONTROL).send_keys(key).key_up(Keys.CONTROL).perform()

    def click(self, name: str) -> None:
        self.element(name).click()

    def slide(self, version: int) -> None:
        self.driver.execute_script("const s = document.getElementById('version'); s.value = arguments[0]; s.dispatchEvent(new Event('input'));", version)

    def look(self, angle: float, tilt: float, far: float, place: list[float]) -> None:
        self.driver.execute_script("window.editor.look(...arguments)", angle, tilt, far, place)
        self.rests()

    def picture(self, file: Path) -> int:
        """Writes the page as a JPEG, and gives how many bytes it has."""
        self.driver.execute_async_script(FRAMES)
        data = self.driver.execute_cdp_cmd("Page.captureScreenshot", {"format": "jpeg", "quality": 82})["data"]
        file.write_bytes(base64.b64decode(data))
        return file.stat().st_size

    def faults(self) -> list[str]:
        """What the browser complained of."""
        return [entry["message"] for entry in self.driver.get_log("browser") if entry["level"] == "SEVERE"]


def edits_and_undo(ann: Page, bo: Page) -> None:
    """A cube that Ann builds with keys is seen by Bo; Bo takes it back; Ann brings it again."""
    def has(version: int, count: int) -> Callable[[dict[str, Any]], bool]:
        return lambda now: now["shown"] == version and now["count"] == count

    ann.keys("b", Keys.ARROW_RIGHT, Keys.ENTER, *[Keys.ARROW_RIGHT] * 4, *[Keys.ARROW_UP] * 4, *[Keys.PAGE_UP] * 4, Keys.ENTER)
    seen = [page.wait(has(1, 98)) for page in (bo, ann)]
    told("what Ann builds is seen by Bo", all(seen), [ann.told(), bo.told()])
    told("Bo sees who is here and where Ann points", bo.wait(sees_ann_point), bo.told()["people"])
    bo.keys("c", Keys.ARROW_LEFT, Keys.ENTER, Keys.ENTER)
    told("what Bo builds is seen by Ann", ann.wait(lambda now: now["shown"] == 2), ann.told())
    bo.chord("z")
    bo.wait(lambda now: now["shown"] == 3)
    bo.click("undo")
    told("two undos of Bo are seen by Ann", ann.wait(has(4, 0)), ann.told())
    ann.click("redo")
    told("Ann's redo is seen by Bo", bo.wait(has(5, 98)), bo.told())


def sees_ann_point(now: dict[str, Any]) -> bool:
    """Whether Ann and Bo alone are there, and Ann points at a cell."""
    names = {person["name"] for person in now["people"]}
    points = [person["at"] for person in now["people"] if person["name"] == "Ann"]
    return names == {"Ann", "Bo"} and points[0] is not None and len(points[0]) == 3


def old_version(ann: Page, bo: Page, folder: Path) -> None:
    """Bo looks at version 0 while Ann edits, and comes back to the newest."""
    for page in (ann, bo):
        page.look(0.75, 0.5, 150, [64, 64, 10])
    both = [page.points() for page in (ann, bo)]
    bo.slide(0)
    gone = bo.rests(lambda now: now["shown"] == 0 and now["count"] == 0)
    ann.keys("c", "t", Keys.ARROW_UP, Keys.ENTER, *[Keys.PAGE_UP] * 6, Keys.ENTER)
    made = ann.rests(lambda now: now["shown"] == 6)
    news = bo.rests(lambda now: now["newest"] == 6)
    stays = bo.told()
    told("Bo stays at version 0 while Ann edits", gone and news and stays["shown"] == 0 and stays["count"] == 0 and not stays["isLive"], stays)
    drawn = [ann.points(), bo.points()]
    sizes = [page.picture(folder / f"{name}.jpg") for name, page in (("ann", ann), ("bo-at-version-0", bo))]
    right = made and min(both) > 500 and drawn[0] > both[0] and drawn[1] < both[1] / 2 and min(sizes) > 5000
    told(f"both are pictures: {both[0]} and {both[1]} bright points, then {drawn[0]} and {drawn[1]}", right, [both, drawn, sizes])
    sees = ann.wait(lambda now: any(person["name"] == "Bo" and person["version"] == 0 for person in now["people"]))
    told("Ann sees at which version Bo looks", sees, ann.told()["people"])
    bo.click("newest")
    count = ann.told()["count"]
    told("the newest version again", bo.wait(lambda now: now["shown"] == 6 and now["count"] == count), bo.told())


def files(server: Editor, ann: Page) -> None:
    """A VOX file is loaded as a model and stamped; saves and downloads are what the server has."""
    ann.element("file").send_keys(str(MODELS.parent / "letter.vox"))
    loaded = until(lambda: len(ann.driver.find_elements(By.CSS_SELECTOR, "#models button")) == 5 and ann.has_chosen("models", "4:"))
    loaded = loaded and until(lambda: ann.has_chosen("brushes", "Stamp"))
    ann.keys(*[Keys.ARROW_LEFT] * 20, *[Keys.PAGE_DOWN] * 20, Keys.ENTER)
    stamped = ann.wait(lambda now: now["shown"] == 7)
    told("a VOX file is loaded and stamped", loaded and stamped and server.get("/journal.txt")[1].splitlines()[-2].startswith(b"7 0 7 stamp 4 "), ann.told())
    status, file = server.get("/world.dag")
    if status == 404:
        print("passed over: the file of versions, since neither the library nor a program here writes it", flush=True)
    else:
        told(f"the file of versions has {len(file)} bytes and all 8 versions", status == 200 and file[:4] == b"VDAG" and file[12] == 8, [status, file[:20]])
    address = ann.element("save").get_attribute("href")
    status, saved = server.get(address[len(server.url):])
    told("the version that is shown is saved as a VOX file", status == 200 and saved[:4] == b"VOX " and b"version=7" in address.encode(), [status, address])


def tools(server: Editor, ann: Page) -> None:
    """A box is selected and copied by keys; the mouse puts a voxel where it points, and turns the world."""
    newest = ann.told()["newest"]
    ann.keys(Keys.ESCAPE, "m", Keys.ARROW_RIGHT, Keys.ENTER, Keys.ARROW_RIGHT, Keys.PAGE_UP, Keys.ENTER)
    ann.chord("c")
    ann.keys(*[Keys.ARROW_UP] * 20, Keys.ENTER)
    copied = ann.wait(lambda now: now["shown"] == newest + 1)
    told("a box is selected and copied", copied and b" copy " in server.get("/journal.txt")[1].splitlines()[-2], server.get("/journal.txt")[1][-80:])
    ann.keys(Keys.ESCAPE, "v")
    canvas = ann.element("world")
    webdriver.ActionChains(ann.driver).move_to_element_with_offset(canvas, 150, 60).click().perform()
    placed = ann.wait(lambda now: now["shown"] == newest + 2)
    words = server.get("/journal.txt")[1].splitlines()[-2].split()
    told("a click puts a voxel", placed and words[3] == b"fill" and words[7:10] == [b"1"] * 3, words)
    before = ann.told()["angle"]
    drag = webdriver.ActionChains(ann.driver).move_to_element(canvas)
    mouse = drag.w3c_actions.pointer_action
    mouse.pointer_down(button=2)
    mouse.move_by(80, 10)
    mouse.pointer_up(button=2)
    drag.perform()
    told("the right button turns the world", ann.wait(lambda now: abs(now["angle"] - before) > 0.2), [before, ann.told()["angle"]])


def tints(server: Editor, ann: Page, bo: Page) -> None:
    """A tint that is chosen from the palette is that of what is built: at both pages, in the picture and in a save."""
    buttons = ann.driver.find_elements(By.CSS_SELECTOR, "#palette button")
    if not ann.told()["tints"]:
        told("a world without tints has no palette", not buttons, len(buttons))
        return
    newest = ann.told()["newest"]
    buttons[TINT - 1].click()
    ann.keys(Keys.ESCAPE, "b", "t", *[Keys.PAGE_UP] * 30, Keys.ENTER, *[Keys.ARROW_RIGHT] * 6, *[Keys.ARROW_UP] * 6, Keys.ENTER)
    cell = ann.told()["cursor"]
    built = all([page.rests(lambda now: now["shown"] == newest + 1) for page in (ann, bo)])
    seen = [page.at(*cell) for page in (ann, bo)]
    saved = server.get(f"/save.vox?version={newest + 1}&box={','.join(map(str, cell))},1,1,1")[1][-1]
    told(f"both pages and a save have tint {TINT}, of {len(buttons)} that the palette has", built and seen == [TINT, TINT] and saved == TINT
         and len(buttons) == 255, [seen, saved, len(buttons)])
    colour = ann.driver.execute_script(COLOUR, buttons[TINT - 1])
    ann.look(0.75, 1.4, 24, cell)
    ann.keys(Keys.ESCAPE, "v")
    ann.rests()
    points = ann.driver.execute_script(COLOURED, *colour)
    told(f"the picture has the palette's colour {colour} in {points} points", points > 1000, points)
    buttons[0].click()
    before = ann.told()["tint"]
    canvas = ann.element("world")
    webdriver.ActionChains(ann.driver).key_down(Keys.ALT).move_to_element(canvas).click().key_up(Keys.ALT).perform()
    told("Alt and a click take the tint", before == 1 and ann.wait(lambda now: now["tint"] == TINT), [before, ann.told()["tint"]])


def lost_picture(page: Page) -> None:
    """A picture whose memory the browser took away is drawn again once it is given back."""
    page.rests()
    before = page.points()
    page.driver.execute_script(LOSE)
    is_lost = until(lambda: page.driver.execute_script("return window.give !== undefined")) and page.points() == 0
    page.driver.execute_script("window.give()")
    told("a picture that is lost is drawn again", is_lost and until(lambda: page.points() > before * 0.9), [before, is_lost, page.points()])


def after_a_kill(server: Editor, ann: Page) -> None:
    """What is edited while the server is gone is made once it is back."""
    newest = ann.told()["newest"]
    server.kill()
    ann.keys("v", Keys.ESCAPE, *[Keys.ARROW_RIGHT] * 9, *[Keys.PAGE_UP] * 9, Keys.ENTER)
    waits = ann.wait(lambda now: now["asks"] == 1)
    server.begin()
    back = waits and ann.wait(lambda now: now["shown"] == newest + 1)
    told("an edit that is made while the server is gone is made once it is back", back and server.health()["version"] == newest + 1, [newest, ann.told()])


async def build(server: Editor) -> Optional[str]:
    """Two people build the village, one edit each in turn."""
    async with aiohttp.ClientSession() as session:
        people = [await Person(session, server.url, name).enter() for name in ("Cleo", "Dan")]
        for person in people:
            await person.ask({"do": "hello", "name": person.name})
        for n, edit in enumerate(village()):
            answer = await until_ok(people[n % 2], {**edit, "key": f"village-{n}"})
            if "ok" not in answer:
                return f"{edit}: {answer}"
        for person in people:
            await person.leave()
    return None


async def pointed(server: Editor, page: Page, file: Path) -> None:
    """Takes the picture while two people point at the village."""
    async with aiohttp.ClientSession() as session:
        people = [await Person(session, server.url, name).enter() for name in ("Cleo", "Dan")]
        points = [[66, 61, 14], [96, 40, 17]]
        for person, at in zip(people, points):
            await person.ask({"do": "hello", "name": person.name})
            await person.tell({"do": "point", "at": at})
        loop = asyncio.get_running_loop()
        await loop.run_in_executor(None, page.rests, lambda now: [one["at"] for one in now["people"]] == [None, *points])
        page.driver.execute_script("document.activeElement.blur()")
        await loop.run_in_executor(None, page.picture, file)
        for person in people:
            await person.leave()


def readme(server: Editor, page: Page, file: Path) -> None:
    """The picture for README: the village, with two people in it."""
    fault = asyncio.run(build(server))
    newest = server.health()["version"]
    page.rests(lambda now: now["shown"] == newest)
    page.look(0.62, 0.5, 158, [66, 58, 2])
    asyncio.run(pointed(server, page, file))
    size = file.stat().st_size if file.is_file() else 0
    ground = page.points()
    told(f"a picture of a village of {newest} versions, {size} bytes", fault is None and 20_000 < size <= 200_000 and ground > 50_000, fault or [size, ground])


def in_browser(work: Path, options: list[str], pictures: Path) -> None:
    pictures.mkdir(parents=True, exist_ok=True)
    with contextlib.ExitStack() as ends:
        server, lake = [Editor(work, name, "--world", str(work / f"{name}.world"), *options) for name in ("browser", "village")]
        drivers = []
        for each in (server, lake):
            ends.callback(each.end)
            each.begin()
            drivers.append(browser())
            ends.callback(drivers[-1].quit)
        ann, bo = [Page(driver, server, name) for driver, name in zip(drivers, ("Ann", "Bo"))]
        edits_and_undo(ann, bo)
        old_version(ann, bo, pictures)
        files(server, ann)
        tools(server, ann)
        tints(server, ann, bo)
        lost_picture(ann)
        complaints = ann.faults() + bo.faults()
        told("no page complained", not complaints, complaints)
        after_a_kill(server, ann)
        readme(lake, Page(bo.driver, lake, "Eve"), pictures / "village.jpg")
