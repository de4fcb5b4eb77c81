"""Collects holdings lists from vendors, checks them, and publishes them in a folder that nodes fetch from.

    configuration -> download -> visit -> folder -> table
    sources.toml     bytes       a list   its name   a mail

`visit` has a list converted by `kbfeed_convert`, checked by `kbfeed check` and compared by `kbfeed diff`. `keys` says
to which host a key goes. `interfaces.toml` has the addresses of knowledge bases and of standards."""
