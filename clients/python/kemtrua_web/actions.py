"""The four actions of an operator: each is asked for once more, and done once."""
from __future__ import annotations

from typing import Any
from urllib.parse import urlencode

from kemtrua import errors
from kemtrua.errors import BadReply, HubRefused, KemtruaError
from kemtrua.names import Key

from .queries import usual_of
from .rows import Store, key_of
from .safety import Action, Refused
from .site import Looked, Site, Viewer

ACTIONS = ("fire", "pause", "resume", "reset")
STATES = {"pause": ("WAITING", "ACQUIRED", "BLOCKED", "COMPLETE"), "resume": ("PAUSED", "PAUSED_BLOCKED"), "reset": ("ERROR",)}
NO_RIGHT = ("You may only look",
            "Firing, pausing, resuming and resetting are for operators: those whose certificate kemtrua-web was given by --operator.",
            "On the hub's machine an operator has the commands: kemtrua now, pause, resume and reset.")


def may_operate(viewer: Viewer) -> None:
    if not viewer.operates:
        raise Refused(403, *NO_RIGHT)


def triggers_of(store: Store, job: str, do: str) -> list[Key]:
    """The triggers of a job that an action is for."""
    if do == "fire":
        return []
    return [Key.of_word(row["key"]) for row in store.triggers_of(job) if row["state"] in STATES[do]]


def ask_page(looked: Looked) -> tuple[str, dict[str, Any]]:
    """Asks once more, with a button that works once."""
    may_operate(looked.viewer)
    do, group, name = looked.get("do"), looked.query.get("group", ""), looked.query.get("name", "")
    if do not in ACTIONS:
        raise Refused(404, "There is no such action")
    key = key_of(group, name)
    row = looked.store.job(key)
    if row is None:
        raise Refused(404, "There is no such job", f"{group}/{name}")
    token = looked.site.tokens.make(Action(looked.viewer.name, do, group, name))
    usual = usual_of(looked.history.recent(key))
    return "ask", {"tab": "jobs", "do": do, "group": group, "name": name, "key": key, "token": token, "row": row, "usual": usual,
                   "triggers": triggers_of(looked.store, key, do)}


def do(site: Site, viewer: Viewer, what: str, form: dict[str, str]) -> str:
    """Does what a button asks for, and gives the address that shows it."""
    may_operate(viewer)
    group, name = form.get("group", ""), form.get("name", "")
    site.tokens.use(form.get("token", ""), Action(viewer.name, what, group, name))
    key = Key(group, name)
    try:
        with Store(site.rows) as store:
            triggers = triggers_of(store, str(key), what)
        done = site.hub.fire(viewer.name, key) if what == "fire" else {"pause": site.hub.pause, "resume": site.hub.resume,
                                                                       "reset": site.hub.reset}[what](viewer.name, triggers)
    except (errors.Refused, HubRefused, BadReply) as error:
        raise Refused(409, "It wasn't done", str(error)) from None
    except KemtruaError as error:
        raise Refused(503, "The hub isn't reached", str(error),
                      "Whether it was done isn't known: look at the job before you ask again.") from None
    site.rows.forget_age()
    if not done.is_done:
        raise Refused(409, "It wasn't done", done.text)
    return f"/job?{urlencode({'group': group, 'name': name, 'was': what})}"


def words_after(was: str) -> str:
    """What a job's page says after an action."""
    return {"fire": "It was fired. Its execution stands here once a node has begun it.", "pause": "Its triggers are paused.",
            "resume": "Its triggers wait again.", "reset": "Its triggers were reset."}.get(was, "")
