"""`python -m gatebench view`: its words, and the server that it runs."""
import argparse
import logging
import secrets
import webbrowser

from ..errors import GatebenchError
from ..script import Opening, Script, read_script
from .view import View

HOST = "127.0.0.1"

# The library of the server, and the one that it stands on.
LIBRARIES = ("flask", "werkzeug")


class FlaskMissing(GatebenchError):
    """The library of the server is not there."""

    def __init__(self) -> None:
        super().__init__("the library flask is missing: `pip install './python[view]'`, or on Debian `apt install python3-flask`")


def add_words(to: argparse.ArgumentParser) -> None:
    to.description = "Shows the waves of a design on a page of this machine, where edges and delays can be dragged."
    to.add_argument("design", metavar="DESIGN", help="the design text")
    to.add_argument("commands", nargs="?", metavar="COMMANDS", help="a file of commands, carried out before")
    to.add_argument("--port", type=int, default=0, metavar="P", help="the port (default: a free one)")
    to.add_argument("--open", action="store_true", help="open the page in a browser")


def run(options: argparse.Namespace) -> int:
    """Serves until it is interrupted, which is its usual end."""
    script = read_script(options.commands) if options.commands else Script(None, [])
    given = script.opening or Opening(options.design)
    horizon = given.horizon if options.horizon is None else options.horizon
    opening = Opening(options.design, horizon, given.delay if options.delay is None else options.delay)
    try:
        from werkzeug.serving import make_server

        from .app import app_of
    except ModuleNotFoundError as missing:
        if missing.name not in LIBRARIES:
            raise
        raise FlaskMissing() from None
    token = secrets.token_urlsafe(16)
    app = app_of(View(opening, script.steps, options.program, options.timeout), token)
    logging.getLogger("werkzeug").setLevel(logging.ERROR)
    server = make_server(HOST, options.port, app, threaded=True)
    address = f"http://{HOST}:{server.server_port}/{token}/"
    print(f"{address}\nctrl-C ends it", flush=True)
    if options.open:
        webbrowser.open(address)
    try:
        server.serve_forever()
    except KeyboardInterrupt:
        print()
    finally:
        server.server_close()
    return 0
