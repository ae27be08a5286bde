"""Who may do what in a browser: origins, tokens, how often somebody asks, and what the command is told."""
from __future__ import annotations

import unittest
from argparse import Namespace

from kemtrua.errors import BadSettings
from kemtrua_web import command
from kemtrua_web.safety import MOST_ADDRESSES, MOST_TOKENS, POLICY, Action, Origins, Pace, Refused, Tokens
from kemtrua_web.settings import Listening

HERE = Origins.of(["https://jobs.example.org"])


class OriginsOf(unittest.TestCase):
    def refused(self, headers: dict[str, str]) -> bool:
        try:
            HERE.look_at_action(headers)
        except Refused as error:
            self.assertEqual(error.status, 403)
            return True
        return False

    def test_actions_come_from_these_pages_alone(self) -> None:
        for headers, is_refused in (({"Origin": "https://jobs.example.org"}, False), ({"Origin": "https://jobs.example.org", "Sec-Fetch-Site": "same-origin"}, False),
                                    ({"Sec-Fetch-Site": "same-origin"}, False), ({"Origin": "null", "Sec-Fetch-Site": "same-origin"}, False),
                                    ({}, True), ({"Origin": "null"}, True), ({"Origin": "https://evil.example", "Sec-Fetch-Site": "same-origin"}, True), ({"Origin": "http://jobs.example.org"}, True),
                                    ({"Origin": "https://jobs.example.org.evil.example"}, True), ({"Origin": "https://jobs.example.org", "Sec-Fetch-Site": "cross-site"}, True),
                                    ({"Sec-Fetch-Site": "same-site"}, True), ({"Sec-Fetch-Site": "none"}, True)):
            self.assertEqual(self.refused(headers), is_refused, headers)

    def test_hosts_are_those_of_the_origins(self) -> None:
        HERE.look_at_host("Jobs.Example.org")
        for host in (None, "", "evil.example", "jobs.example.org:443", "jobs.example.org.evil.example"):
            with self.assertRaises(Refused) as caught:
                HERE.look_at_host(host)
            self.assertEqual(caught.exception.status, 421)

    def test_what_is_no_origin(self) -> None:
        for text in ("jobs.example.org", "https://", "ftp://jobs.example.org", "https://jobs.example.org/path", "https://jobs.example.org/?q"):
            with self.assertRaises(BadSettings):
                Origins.of([text])

    def test_the_policy_lets_nothing_inline_or_from_elsewhere(self) -> None:
        self.assertIn("default-src 'none'", POLICY)
        for word in ("unsafe", "data:", "http", "*"):
            self.assertNotIn(word, POLICY)


class TokensOf(unittest.TestCase):
    ACTION = Action("admin", "fire", "g", "n")

    def refused(self, tokens: Tokens, token: str, action: Action) -> bool:
        try:
            tokens.use(token, action)
        except Refused:
            return True
        return False

    def test_a_token_works_once(self) -> None:
        tokens = Tokens()
        token = tokens.make(self.ACTION)
        self.assertFalse(self.refused(tokens, token, self.ACTION))
        self.assertTrue(self.refused(tokens, token, self.ACTION))

    def test_a_token_is_for_one_action_of_one_viewer(self) -> None:
        for other in (Action("other", "fire", "g", "n"), Action("admin", "pause", "g", "n"), Action("admin", "fire", "h", "n"), Action("admin", "fire", "g", "m")):
            tokens = Tokens()
            token = tokens.make(self.ACTION)
            self.assertTrue(self.refused(tokens, token, other))
            self.assertTrue(self.refused(tokens, token, self.ACTION))  # (a wrong use uses it up)

    def test_tokens_are_bounded(self) -> None:
        tokens = Tokens()
        first = tokens.make(self.ACTION)
        last = [tokens.make(self.ACTION) for _ in range(MOST_TOKENS)][-1]
        self.assertTrue(self.refused(tokens, first, self.ACTION))
        self.assertFalse(self.refused(tokens, last, self.ACTION))


class PaceOf(unittest.TestCase):
    def test_who_asks_too_often_waits(self) -> None:
        pace = Pace(2.0, 3.0)
        self.assertEqual([pace.may("a", 0.0) for _ in range(4)], [True, True, True, False])
        self.assertTrue(pace.may("b", 0.0))
        self.assertEqual([pace.may("a", 0.5), pace.may("a", 0.5)], [True, False])
        self.assertEqual([pace.may("a", 100.0) for _ in range(4)], [True, True, True, False])

    def test_addresses_are_bounded(self) -> None:
        pace = Pace(0.001, 1.0)
        for number in range(MOST_ADDRESSES + 10):
            pace.may(str(number), 0.0)
        self.assertLessEqual(len(pace._left), MOST_ADDRESSES)


class Words(unittest.TestCase):
    def words(self, **more: object) -> Namespace:
        given: dict[str, object] = {"folder": "/f", "listen": None, "origin": [], "operator": [], "zone": "UTC", "team": "", "program": "p", "hub": "unix:/h",
                                    "hub_certificate": None, "hub_key": None, "hub_authority": None, "certificate": None, "key": None, "authority": None, "revoked": None}
        return Namespace(**{**given, **more})

    def test_without_tls_it_is_for_this_machine_alone(self) -> None:
        for text in ("0.0.0.0:7412", "example.org:80", "10.0.0.1:1"):
            with self.assertRaises(BadSettings):
                Listening.parse(text)
        self.assertEqual(str(Listening.parse("[::1]:7412")), "::1:7412")
        self.assertTrue(Listening.parse("tls:0.0.0.0:443").over_tls)

    def test_a_socket_behind_a_proxy_wants_to_know_its_name(self) -> None:
        with self.assertRaises(BadSettings):
            command.settings_of(self.words(listen=["unix:/run/page.sock"]))
        found = command.settings_of(self.words(listen=["unix:/run/page.sock"], origin=["https://jobs.example.org"]))
        self.assertEqual(found.origins.hosts, {"jobs.example.org"})

    def test_operators_are_certificates(self) -> None:
        with self.assertRaises(BadSettings):
            command.settings_of(self.words(operator=["admin"]))
        found = command.settings_of(self.words(operator=["admin"], listen=["tls:jobs.example.org:443"], certificate="c", key="k", authority="a"))
        self.assertEqual((found.operators, found.origins.known), ({"admin"}, {"https://jobs.example.org:443"}))

    def test_what_it_answers_to_where_nothing_is_said(self) -> None:
        self.assertEqual(command.settings_of(self.words()).origins.known, {"http://127.0.0.1:7412", "http://localhost:7412"})

    def test_a_zone_that_is_not_there(self) -> None:
        with self.assertRaises(BadSettings):
            command.settings_of(self.words(zone="Mars/Base"))


if __name__ == "__main__":
    unittest.main()
