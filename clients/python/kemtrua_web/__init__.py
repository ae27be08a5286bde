"""A page in the browser, and metrics: a process of its own, which reads a hub's history and asks the hub as a client.

It wants aiohttp, jinja2 and prometheus_client (Debian's packages); `kemtrua` itself wants none of them.
"""
