"""Where the gate works: HERE, the checkout; CACHE, where it keeps what passed; PACKED, a cache to begin from; RT, by
which rt is run; and KIT, what rt says of itself.

They are names of `check`, which hands its names over. So whoever loads `check` as a module and sets HERE, CACHE or
KIT there sets them for every part of the gate."""

OF_CHECK = {}


def follow(names):
    """Takes the values from these names from now on, as they are when one is asked for."""
    global OF_CHECK
    OF_CHECK = names


def __getattr__(name):
    if name in ("HERE", "CACHE", "PACKED", "RT", "KIT") and name in OF_CHECK:
        return OF_CHECK[name]
    raise AttributeError(f"the gate has no {name}")
