"""What the page in the browser asks of a hub: for whom it speaks, and what the hub counts of itself."""
from __future__ import annotations

from kemtrua.errors import BadLine, HubRefused
from kemtrua.names import Key
from kemtrua_web.asking import Hub

from .helpers import WithFolder, job, once, wait_until


class Hubs(WithFolder):
    def test_an_operator_speaks_for_a_viewer(self) -> None:
        hub = self.hub()
        with hub.connect() as asked:
            asked.add_job(job("j", durable=True))
            asked.add_trigger(once("t", "j", 2**52))
            page = Hub(hub.address)
            self.addCleanup(page.close_connection)
            self.assertTrue(page.pause("admin", [Key("DEFAULT", "t")]).is_done)
            page.resume("admin", [Key("DEFAULT", "t")])
            page.fire("admin", Key("DEFAULT", "j"))
            wait_until(lambda: len(asked.rows("audit", by="admin")) == 3)
            found = asked.rows("audit", by="admin")
            self.assertTrue(all(str(one["who"]).startswith("certificate admin, through user ") for one in found), found)
            self.assertEqual(asked.rows("audit", by="adm"), [])
            self.assertEqual(len(asked.rows("audit")), 5)

    def test_nobody_speaks_for_a_name_that_is_none(self) -> None:
        with self.hub().connect() as asked:
            for name in ("", "x" * 201):
                with self.assertRaises((BadLine, HubRefused)):
                    asked.speak_for(name)

    def test_at_the_nodes_socket_nobody_speaks_for_another(self) -> None:
        hub = self.hub("--listen-nodes", f"unix:{self.folder}/nodes.sock")
        hub.connect().close()
        with hub.connect_at(f"unix:{self.folder}/nodes.sock") as node:
            for ask in (lambda: node.speak_for("admin"), lambda: node.rows("figures")):
                with self.assertRaises(HubRefused) as caught:
                    ask()
                self.assertEqual(caught.exception.word, "no-right")

    def test_a_hub_counts_its_answers(self) -> None:
        hub = self.hub()
        with hub.connect() as asked:
            (before,) = asked.rows("figures")
            for _ in range(10):
                asked.show_next()
            (after,) = asked.rows("figures")
            self.assertEqual(sum(after["within"]) - sum(before["within"]), 10)  # type: ignore[call-overload]
            self.assertGreater(after["seconds"], before["seconds"])  # type: ignore[operator]
            self.assertEqual((after["connections"], len(after["within"])), (1, len(after["bounds"]) + 1))  # type: ignore[arg-type]


if __name__ == "__main__":
    import unittest
    unittest.main()
