"""A picture as PNG, by a program of others that draws SVG: so it is the same picture, letters and all. docs/DECISIONS.md says why none is drawn here."""
import os
import re
import shutil
import subprocess
import tempfile

from .slips import Unfit

BROWSERS = ("chromium", "chromium-browser", "google-chrome", "chrome")
SHARP = 2  # dots of the PNG for each of the picture's
MOST_SECONDS = 120


def size(svg: str) -> "tuple[int, int]":
    found = re.search(r'width="(\d+)" height="(\d+)"', svg)
    return (int(found.group(1)), int(found.group(2))) if found else (960, 800)


def ran(words: "list[str]", given: bytes) -> bytes:
    try:
        ended = subprocess.run(words, input=given, stdout=subprocess.PIPE, stderr=subprocess.PIPE, check=False, timeout=MOST_SECONDS)
    except (OSError, subprocess.TimeoutExpired) as fault:
        raise Unfit(f"{words[0]} does not draw the picture: {fault}; report --svg writes it as SVG") from fault
    if ended.returncode != 0:
        raise Unfit(f"{words[0]} does not draw the picture: {ended.stderr.decode(errors='replace').strip()[-300:]}; report --svg writes it as SVG")
    return ended.stdout


def by_browser(browser: str, svg: str) -> bytes:
    """A browser without a window, in a folder of its own, takes a picture of the file."""
    width, height = size(svg)
    with tempfile.TemporaryDirectory() as room:
        drawn, picture = os.path.join(room, "picture.svg"), os.path.join(room, "picture.png")
        with open(drawn, "w", encoding="utf-8") as file:
            file.write(svg)
        alone = ["--no-sandbox"] if os.geteuid() == 0 else []  # a browser refuses to shut root in, and what it shows is our own file
        ran([browser, "--headless", *alone, "--disable-gpu", "--hide-scrollbars", f"--user-data-dir={room}/profile", f"--force-device-scale-factor={SHARP}",
             f"--window-size={width},{height}", f"--screenshot={picture}", "file://" + drawn], b"")
        try:
            with open(picture, "rb") as made:
                return made.read()
        except OSError as fault:
            raise Unfit(f"{browser} wrote no picture; report --svg writes it as SVG") from fault


def png(svg: str) -> bytes:
    """The picture as PNG, by rsvg-convert or by a browser, whichever there is."""
    if shutil.which("rsvg-convert"):
        return ran(["rsvg-convert", "--format=png", f"--zoom={SHARP}"], svg.encode())
    for browser in BROWSERS:
        if shutil.which(browser):
            return by_browser(browser, svg)
    raise Unfit("a PNG takes rsvg-convert or chromium, and neither is there: install librsvg2-bin or chromium (apt-get install librsvg2-bin), "
                "or take report --svg")
