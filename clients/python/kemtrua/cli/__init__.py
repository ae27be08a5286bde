"""The commands `kemtrua-hub`, `kemtrua-node` and `kemtrua`."""
