"""Routing keys, and the binding keys that take them."""

from ._arguments import instance


def key_matches(binding: str, key: str) -> bool:
    """Whether a topic exchange with this binding key takes this routing key: `*` stands for one word, `#` for any number of them.

    >>> from feksroum import key_matches
    >>> key_matches("orders.*", "orders.created"), key_matches("orders.*", "orders"), key_matches("orders.#", "orders")
    (True, False, True)
    """
    instance("binding", binding, str)
    instance("key", key, str)
    words = key.split(".") if key else []
    ends = {0}
    for word in binding.split(".") if binding else []:
        if word == "#":
            ends = set(range(min(ends), len(words) + 1)) if ends else ends
        else:
            ends = {end + 1 for end in ends if end < len(words) and word in ("*", words[end])}
    return len(words) in ends
