"""The server behind a page: it serves one design, on the loopback address, to those who know its token."""
import os
import threading
from typing import Any, Callable, Dict, List, Tuple

from flask import Flask, Response, abort, jsonify, request, send_from_directory

from ..errors import BatchRefused, Closed, DesignRefused, GatebenchError, NoReply, Refused
from ..session import HARMLESS
from . import answers
from .answers import Said, Window
from .view import View

PAGE = os.path.join(os.path.dirname(os.path.abspath(__file__)), "page")

# Nothing of the page comes from another server, and its address, which has the token, goes to none.
HEADERS = {
    "Content-Security-Policy": "default-src 'self'; style-src 'self' 'unsafe-inline'; img-src 'self' data: blob:; frame-ancestors 'none'",
    "Referrer-Policy": "no-referrer",
    "X-Content-Type-Options": "nosniff",
    "Cache-Control": "no-store",
}

# Statuses of HTTP: a refusal, and a program that ended.
REFUSED, ENDED = 409, 503

Body = Dict[str, Any]


def app_of(view: View, token: str) -> Flask:
    """The server of a view. Every address begins with the token."""
    app = Flask("gatebench", static_folder=None)
    # The session is for one thread at a time.
    lock = threading.Lock()

    @app.before_request
    def see_host() -> None:
        # Another site whose name leads here is none of ours.
        if request.host.rpartition(":")[0] not in ("127.0.0.1", "localhost"):
            abort(403)

    @app.after_request
    def add_headers(response: Response) -> Response:
        response.headers.update(HEADERS)
        return response

    @app.get(f"/{token}/")
    def index() -> Response:
        return send_from_directory(PAGE, "index.html")

    @app.get(f"/{token}/page/<path:name>")
    def page(name: str) -> Response:
        return send_from_directory(PAGE, name)

    @app.post(f"/{token}/ask/<name>")
    def ask(name: str) -> Tuple[Response, int]:
        if name not in QUESTIONS:
            abort(404)
        with lock:
            said, status = answered(QUESTIONS[name], view, request.get_json() or {})
        return jsonify(said), status

    return app


def answered(question: Callable[[View, Body], Said], view: View, body: Body) -> Tuple[Said, int]:
    """The answer to a question with its status; what went wrong is an answer too."""
    try:
        return question(view, body), 200
    except (NoReply, Closed) as ended:
        return {"message": str(ended)}, ENDED
    except (GatebenchError, OSError, ValueError) as error:
        return refusal(error), REFUSED


def refusal(error: Exception) -> Said:
    """What was refused: the line at fault, where it is known, and what is wrong with it and helps."""
    said: Said = {"message": str(error)}
    if isinstance(error, Refused):
        said.update(code=error.code, name=error.name, command=error.command)
    if isinstance(error, BatchRefused):
        said["place"] = error.place
    if isinstance(error, DesignRefused):
        said.update(code=error.code, name=error.name, line=error.line, word=error.word, column=error.column)
    return said


def design(view: View, body: Body) -> Said:
    return {**answers.design(view), "state": answers.state(view)}


def status(view: View, body: Body) -> Said:
    """Whether the program still answers and the file is as it was, and which version is present: another page may have changed it."""
    view.current.session.ask([HARMLESS])
    return {"stale": view.is_stale(), "version": answers.version(view)}


def windows(view: View, body: Body) -> Said:
    window = Window(body["start"], body["end"], body["parts"])
    return answers.windows(view, body["rows"], window, body["other"])


def edit(view: View, body: Body) -> Said:
    view.current.edit(body["edits"], body.get("drag"))
    return answers.state(view)


def command(view: View, body: Body) -> Said:
    return {"lines": answers.command(view, body["line"]), "state": answers.state(view)}


def undo(view: View, body: Body) -> Said:
    view.current.undo()
    return answers.state(view)


def redo(view: View, body: Body) -> Said:
    view.current.redo()
    return answers.state(view)


def rule(view: View, body: Body) -> Said:
    view.add_rule(body["kind"], body["bits"], body["words"])
    return answers.state(view)


def drop_rule(view: View, body: Body) -> Said:
    """Drops a rule, by its place and what it says: another page may have dropped one before it."""
    place = body["place"]
    if view.rules[place:] and view.rules[place].said == body["said"]:
        view.rules = [*view.rules[:place], *view.rules[place + 1 :]]
    return answers.state(view)


def changes(view: View, body: Body) -> Said:
    return answers.changes(view)


def movable(view: View, body: Body) -> Said:
    return view.current.model.movable(body["bits"], body["time"])._asdict()


def net(view: View, body: Body) -> Said:
    return answers.net(view, body["net"])


def origins(view: View, body: Body) -> Said:
    return answers.origins(view, body["bits"], body["time"])


def edge(view: View, body: Body) -> Said:
    return answers.edge(view, body["bits"], body["time"], body["step"])


def reload(view: View, body: Body) -> Said:
    return {"refused": view.reload(), **design(view, body)}


def save(view: View, body: Body) -> Said:
    nets: List[str] = body["nets"]
    return {"text": answers.SAVED[body["form"]](view, nets, os.getcwd())}


QUESTIONS: Dict[str, Callable[[View, Body], Said]] = {
    it.__name__: it
    for it in (design, status, windows, edit, command, undo, redo, rule, drop_rule)
    + (changes, movable, net, origins, edge, reload, save)
}
