"""Hubs that break a rule on purpose, and by which checks each has to be found."""
import random
from collections.abc import Callable

from hubs import plan

# (a hub with another history than etcd's may end so often that the run doesn't come to its end)
FOUND_BY = {
    "answers_first": ("replies_are_in_etcd", "terms_follow"),
    "no_term": ("folders_are_etcds", "replies_are_in_etcd", "shown_state_is_in_etcd", "terms_follow", "came_to_its_end"),
    "own_tail": ("folders_are_etcds", "replies_are_in_etcd", "came_to_its_end"),
    "shows_first": ("shown_state_is_in_etcd", "terms_follow"),
}
RULES = list(FOUND_BY)


def troubles_of(rule: str) -> Callable[[plan.Size, random.Random], list[plan.Trouble]]:
    """What shows a broken rule: the leader is cut off from etcd, or stopped, with work on its hands, again and again."""

    def planned(size: plan.Size, chance: random.Random) -> list[plan.Trouble]:
        whats = ["cut", "stop", "swallow-answers", "cut", "cut"]
        return [plan.Trouble(3.0 + 13.0 * number, what, plan.LEADER, 8.0) for number, what in enumerate(whats)]

    return planned
