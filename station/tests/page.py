"""The station's page in a headless chromium, as a hand and an eye: pointer, keys, files, and what is shown."""
import glob
import importlib.machinery
import importlib.util
import os
import shutil
import sys
import tempfile
import threading
import time

from selenium import webdriver
from selenium.webdriver import ActionChains
from selenium.webdriver.chrome.service import Service
from selenium.webdriver.common.by import By
from selenium.webdriver.common.keys import Keys

ROOT = os.path.dirname(os.path.dirname(os.path.dirname(os.path.abspath(__file__))))
sys.path.insert(0, os.path.join(ROOT, "tools"))


def script(name):
    """A program of tools/ as a module."""
    loader = importlib.machinery.SourceFileLoader(name, os.path.join(ROOT, "tools", name))
    module = importlib.util.module_from_spec(importlib.util.spec_from_loader(name, loader))
    loader.exec_module(module)
    return module


serving = script("station")

# Goes through all places and reads what stands in the tables: of each place its title, values and comparisons; then totals, counts and ratings.
READ = """
const { editor } = station, kept = [editor.selected, editor.time], cells = (table, column) =>
    Array.from(document.querySelectorAll(`#${table} tbody tr`), (row) => row.cells[column + 1].textContent);
const places = [];
for (let k = 0; k < editor.objects.length; k++) {
    editor.select(k);
    places.push([document.getElementById('place-title').textContent, ...cells('values', arguments[0])]);
}
const found = { places, totals: cells('totals', arguments[0]), counts: cells('counts', arguments[0]), ratings: cells('ratings', arguments[0]) };
editor.select(kept[0]);
editor.seek(kept[1]);
return found;
"""


class Page:
    def __init__(self, width=1280, height=720, dark=False):
        self.server = serving.server()
        threading.Thread(target=self.server.serve_forever, daemon=True).start()
        self.url = f"http://127.0.0.1:{self.server.server_address[1]}/station/"
        self.folder = tempfile.TemporaryDirectory()
        options = webdriver.ChromeOptions()
        for word in ("--headless=new", "--no-sandbox", "--disable-dev-shm-usage", f"--window-size={width},{height}", "--hide-scrollbars"):
            options.add_argument(word)
        options.set_capability("goog:loggingPrefs", {"browser": "ALL"})
        self.driver = webdriver.Chrome(service=Service(shutil.which("chromedriver")), options=options)
        self.cdp("Emulation.setDeviceMetricsOverride", width=width, height=height, deviceScaleFactor=1, mobile=False)
        self.cdp("Emulation.setEmulatedMedia", features=[{"name": "prefers-color-scheme", "value": "dark" if dark else "light"}])
        self.cdp("Browser.setDownloadBehavior", behavior="allow", downloadPath=self.folder.name)
        self.load()

    def __enter__(self):
        return self

    def __exit__(self, *_):
        self.driver.quit()
        self.server.shutdown()
        self.server.server_close()
        self.folder.cleanup()

    def cdp(self, name, **words):
        return self.driver.execute_cdp_cmd(name, words)

    def load(self):
        self.driver.get(self.url)
        self.wait("return document.documentElement.dataset.ready", "the page is ready")

    def reload(self):
        self.driver.refresh()
        self.wait("return document.documentElement.dataset.ready", "the page is ready again")

    def run(self, code, *given):
        return self.driver.execute_script(code, *given)

    def wait(self, code, what, *given):
        """Until code answers something true."""
        for _ in range(150):
            found = self.run(code, *given)
            if found:
                return found
            time.sleep(0.1)
        raise AssertionError(f"waited in vain until {what}; the console says {self.driver.get_log('browser')}")

    def by(self, name):
        return self.driver.find_element(By.ID, name)

    def text(self, name):
        return self.by(name).text

    def click(self, name):
        self.by(name).click()

    # ------------------------------------------------------------ hand

    def keys(self, *words):
        ActionChains(self.driver).send_keys(*words).perform()

    def control(self, key, shift=False):
        held = [Keys.CONTROL] + ([Keys.SHIFT] if shift else [])
        chain = ActionChains(self.driver)
        for k in held:
            chain.key_down(k)
        chain.send_keys(key)
        for k in held:
            chain.key_up(k)
        chain.perform()

    def shifted(self, key):
        ActionChains(self.driver).key_down(Keys.SHIFT).send_keys(key).key_up(Keys.SHIFT).perform()

    def drag(self, begin, steps):
        """Presses at a point of the window, moves on by steps, and lets go."""
        chain = ActionChains(self.driver, duration=15)
        pointer = chain.w3c_actions.pointer_action
        x, y = begin
        pointer.move_to_location(round(x), round(y))
        pointer.pointer_down()
        for dx, dy in steps:
            x, y = x + dx, y + dy
            pointer.move_to_location(round(x), round(y))
        pointer.pointer_up()
        chain.w3c_actions.perform()
        time.sleep(0.15)

    def hold(self, begin, steps):
        """The same, but does not let go; release() does."""
        chain = ActionChains(self.driver, duration=15)
        pointer = chain.w3c_actions.pointer_action
        x, y = begin
        pointer.move_to_location(round(x), round(y))
        pointer.pointer_down()
        for dx, dy in steps:
            x, y = x + dx, y + dy
            pointer.move_to_location(round(x), round(y))
        chain.w3c_actions.perform()
        time.sleep(0.15)

    def release(self):
        chain = ActionChains(self.driver, duration=15)
        chain.w3c_actions.pointer_action.pointer_up()
        chain.w3c_actions.perform()
        time.sleep(0.1)

    def note(self, place, lane=False):
        """Where a note is in the window, on the playfield or on the timeline."""
        return self.run("""
            const o = station.editor.objects[arguments[0]], part = arguments[1] ? station.timeline : station.playfield;
            const box = part.surface.canvas.getBoundingClientRect();
            const [x, y] = arguments[1] ? [part.x(o.start), (part.ruler + box.height) / 2] : part.head(o);
            return [box.left + x, box.top + y];""", place, lane)

    def go_to(self, place):
        self.run("station.editor.goTo(arguments[0])", place)

    def enter(self, name, words):
        """Types into a field and leaves it."""
        field = self.by(name)
        self.run("arguments[0].select()", field)
        field.send_keys(words or Keys.DELETE, Keys.TAB)

    # ------------------------------------------------------------ files

    def saved(self, button="save"):
        """The bytes of the file that a button saves."""
        for name in filter(os.path.isfile, glob.glob(os.path.join(self.folder.name, "*"))):
            os.remove(name)
        self.click(button)
        last = 0
        for _ in range(200):  # until its size is above 0 and stays
            found = [name for name in glob.glob(os.path.join(self.folder.name, "*")) if os.path.isfile(name) and not name.endswith(".crdownload")]
            size = os.path.getsize(found[0]) if found else 0
            if size and size == last:
                with open(found[0], "rb") as file:
                    return os.path.basename(found[0]), file.read()
            last = size
            time.sleep(0.05)
        raise AssertionError("no file was saved")

    def give(self, name, data):
        """Opens a file through the page's own dialog."""
        path = os.path.join(self.folder.name, "given." + name)
        os.makedirs(path, exist_ok=True)
        path = os.path.join(path, name)
        with open(path, "wb") as file:
            file.write(data)
        self.by("file").send_keys(path)
        time.sleep(0.2)

    def drop(self, name, data):
        """Drops a file on the page."""
        self.run("""
            const files = new DataTransfer();
            files.items.add(new File([Uint8Array.from(arguments[1])], arguments[0]));
            document.body.dispatchEvent(new DragEvent('drop', { dataTransfer: files, bubbles: true, cancelable: true }));""", name, list(data))
        time.sleep(0.3)

    def example(self, name):
        self.run("const menu = document.getElementById('examples'); menu.value = arguments[0]; menu.dispatchEvent(new Event('change'))", name)
        self.wait("return station.editor.name === arguments[0]", f"the example {name} is open", name)

    # ------------------------------------------------------------ eye

    def bits(self):
        """Numbers as bits from here on."""
        self.run("const s = document.getElementById('digits'); s.value = 'bits'; s.dispatchEvent(new Event('change'))")

    def shown(self, player=0):
        return self.run(READ, player)

    def bytes(self):
        return bytes(self.run("return Array.from(station.editor.bytes)"))

    def faults(self):
        """What the console says that is an error."""
        return [entry["message"] for entry in self.driver.get_log("browser") if entry["level"] == "SEVERE"]
