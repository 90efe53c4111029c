"""What a screen reader has of a page: Chromium's tree of accessibility, asked over its pipe for developers.

Rules that are looked at of each page: whatever takes the keys has a role and a name; so has each step, which a live
region tells; pictures, regions and columns are named; parts come in the order in which one needs them, headings too;
and no colour is too near its ground, in the light and in the dark.
"""
from __future__ import annotations

import contextlib
import json
import os
import re
import select
import subprocess
import time
from typing import Any, Dict, Iterator, List, Optional

PARTS = ["The lanes", "Steps", "This step", "Active", "Commits", "The store"]
LEAST = 4.5  # the contrast of text that anybody can read
TAKES_KEYS = {"button", "slider", "searchbox", "textbox", "link"}
NAMED = {*TAKES_KEYS, "region", "toolbar", "image", "img", "columnheader", "heading", "canvas"}
SECONDS = 60.0


class Browser:
    """Chromium without a window, with one page."""

    def __init__(self, words: List[str]) -> None:
        mine, its = os.pipe(), os.pipe()
        self.into, self.out = its[1], mine[0]
        # (it reads at 3 and writes at 4)
        front = ["sh", "-c", f"exec 3<&{its[0]} 4>&{mine[1]}; exec \"$@\"", "sh"]
        self.child = subprocess.Popen(
            [*front, *words, "--remote-debugging-pipe", "about:blank"], pass_fds=(its[0], mine[1]),
            stdout=subprocess.DEVNULL, stderr=subprocess.DEVNULL,
        )  # fmt: skip
        os.close(its[0])
        os.close(mine[1])
        self.left, self.last, self.events = b"", 0, list[Any]()
        self.session: Optional[str] = None
        target = self.ask("Target.createTarget", url="about:blank")["targetId"]
        self.session = self.ask("Target.attachToTarget", targetId=target, flatten=True)["sessionId"]
        for it in ("Page", "Accessibility", "Runtime"):
            self.ask(f"{it}.enable")

    def ask(self, method: str, **words: Any) -> Any:
        """The answer of a call."""
        self.last += 1
        message = {"id": self.last, "method": method, "params": words}
        if self.session is not None:
            message["sessionId"] = self.session
        os.write(self.into, json.dumps(message).encode() + b"\0")
        for it in self._messages():
            if it.get("id") == self.last:
                if "error" in it:
                    raise AssertionError(f"{method}: {it['error']}")
                return it["result"]
            self.events.append(it)
        raise AssertionError(f"{method}: no answer")

    def _messages(self) -> Iterator[Any]:
        """What it says."""
        until = time.monotonic() + SECONDS
        while True:
            whole, sep, rest = self.left.partition(b"\0")
            if sep:
                self.left = rest
                yield json.loads(whole)
                continue
            if not select.select([self.out], [], [], max(0.0, until - time.monotonic()))[0]:
                return
            data = os.read(self.out, 1 << 20)
            if not data:
                return
            self.left += data

    def open(self, url: str) -> None:
        """Opens a page, and waits until it is there."""
        self.events = []
        self.ask("Page.navigate", url=url)
        until = time.monotonic() + SECONDS
        while not any(it.get("method") == "Page.loadEventFired" for it in self.events):
            if time.monotonic() > until:
                raise AssertionError(f"{url} isn't there")
            self.ask("Runtime.evaluate", expression="0")

    def run(self, script: str) -> Any:
        """The value of some script in the page."""
        found = self.ask("Runtime.evaluate", expression=script, returnByValue=True)
        return found["result"].get("value")

    def key(self, key: str) -> None:
        """A key is pressed."""
        for kind in ("rawKeyDown", "keyUp"):
            self.ask("Input.dispatchKeyEvent", type=kind, key=key)

    def tree(self) -> List[Dict[str, Any]]:
        """The tree of accessibility, in the order of reading, without what a reader leaves out."""
        nodes = {it["nodeId"]: it for it in self.ask("Accessibility.getFullAXTree")["nodes"]}
        found: List[Dict[str, Any]] = []

        def walk(node: Dict[str, Any], inside: str) -> None:
            """A node, and those in it."""
            name = str(node.get("name", {}).get("value", "")).strip()
            role = str(node.get("role", {}).get("value", ""))
            more = {it["name"]: it["value"].get("value") for it in node.get("properties", ())}
            text = str(node.get("value", {}).get("value", ""))
            if not node.get("ignored"):
                found.append({"role": role, "name": name, "in": inside, "value": text, **more})
                inside = name if role in ("region", "toolbar") else inside
            for it in node.get("childIds", ()):
                if it in nodes:
                    walk(nodes[it], inside)

        walk(next(it for it in nodes.values() if "parentId" not in it), "")
        return found

    def close(self) -> None:
        """Ends it."""
        with contextlib.suppress(Exception):
            self.session = None
            self.ask("Browser.close")
        os.close(self.into)
        os.close(self.out)
        with contextlib.suppress(subprocess.TimeoutExpired):
            self.child.wait(10)
        self.child.kill()
        self.child.wait()


def text_in(tree: List[Dict[str, Any]], part: str) -> str:
    """The text that a reader has of a part of the page."""
    return " ".join(it["name"] for it in tree if it["in"] == part and it["role"] == "StaticText")


def of_tree(tree: List[Dict[str, Any]]) -> Iterator[str]:
    """What is wrong in a page as it is."""
    for it in tree:
        if it["role"] in NAMED and not it["name"]:
            yield f"a {it['role']} has no name"
        if it.get("focusable") and it["role"] not in {*TAKES_KEYS, "region", "RootWebArea"}:
            yield f"{it['name']!r} takes the keys, and is a {it['role']}"
    parts = [it["name"] for it in tree if it["role"] in ("region", "toolbar")]
    places = [next((at for at, part in enumerate(PARTS) if it.startswith(part)), -1) for it in parts]
    if places != sorted(places) or -1 in places or not {0, 1, 2, 3, 4} <= {*places}:
        yield f"the parts come as {parts}"
    levels = [int(it["level"]) for it in tree if it["role"] == "heading"]
    if levels[:1] != [1] or levels.count(1) != 1 or {*levels} - {1, 2}:
        yield f"the headings are of {levels}"
    if not any(it.get("live") == "polite" and it["name"] == "This step" for it in tree):
        yield "no live region tells the step"


def of_step(
    tree: List[Dict[str, Any]], slider: str, step: int, steps: int, texts: List[str]
) -> Iterator[str]:
    """What is wrong in what is told of a step, and in the text of the slider at it."""
    told = text_in(tree, "This step")
    for it in texts:
        if it not in told:
            yield f"step {step}: {it!r} isn't told"
    if not slider.startswith(f"step {step} of {steps}: {texts[0]}"):
        yield f"step {step}: the slider tells {slider!r}"
    if f"{step} of {steps}" not in told:
        yield f"step {step}: which one it is isn't told"


def page(browser: Browser, url: str) -> Iterator[str]:
    """What is wrong in a page, over its first steps and its last."""
    browser.open(url)
    yield from of_tree(browser.tree())
    steps = int(browser.run("R.steps.length"))
    for step in [*range(1, min(steps, 30) + 1), steps]:
        if step == steps:
            browser.key("End")
        texts = [*map(str, browser.run(f"[...R.steps[{step - 1}].text, ...R.steps[{step - 1}].said]"))]
        # (the tree for developers has a slider's number and not its text)
        slider = str(browser.run("document.getElementById('range').getAttribute('aria-valuetext')"))
        yield from of_step(browser.tree(), slider, step, steps, [it for it in texts if it])
        if step < steps:
            browser.key("ArrowRight")
    yield from of_tree(browser.tree())
    tabs = []
    for _ in range(40):
        browser.key("Tab")
        tabs.append(browser.run("document.activeElement.id || document.activeElement.dataset.key || ''"))
    missing = {"lanes", "play", "range", "search", "Home", "End", "w", "c", "m", "k"} - {*tabs}
    if missing:
        yield f"the key Tab doesn't come to {sorted(missing)}"


def luminance(colour: str) -> float:
    """The light of a colour, #rrggbb or #rgb, from 0 to 1."""
    digits = colour.lstrip("#")
    digits = "".join(it + it for it in digits) if len(digits) == 3 else digits
    parts = [int(digits[at : at + 2], 16) / 255 for at in (0, 2, 4)]
    red, green, blue = (it / 12.92 if it <= 0.03928 else float(((it + 0.055) / 1.055) ** 2.4) for it in parts)
    return 0.2126 * red + 0.7152 * green + 0.0722 * blue


def contrasts(html: str) -> Iterator[str]:
    """Colours of a page that are too near their ground, in the light and in the dark: as grey, so that it says as much
    to who sees no colours."""
    for which, block in zip(("light", "dark"), re.findall(r":root \{([^}]*)\}", html)):
        colours = dict(re.findall(r"--(\w+):(#[0-9a-f]+)", block))
        for ground in ("paper", "page"):
            for name in ("ink", "soft", "blue", "green", "red", "orange"):
                one, other = sorted((luminance(colours[name]), luminance(colours[ground])))
                ratio = (other + 0.05) / (one + 0.05)
                if ratio < LEAST:
                    yield f"in the {which} {name} on {ground} has a contrast of {ratio:.2f}"
