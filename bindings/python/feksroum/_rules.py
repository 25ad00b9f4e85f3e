"""Rules: which frames are kept."""

from typing import Any, Tuple

from ._arguments import instance
from ._errors import UnknownStatus
from ._frames import Frame
from ._library import SMALL, FrameRule, Head

#: As many rules as the program takes.
MOST_RULES = 64
_BAD_ARGUMENT = 41
_decide = SMALL.feksroum_decide


class BadRule(ValueError):
    """A word that is no rule."""

    def __init__(self, word: str) -> None:
        super().__init__(word)
        #: The word.
        self.word = word

    def __str__(self) -> str:
        return f"{self.word!r} is no rule"


class Rules:
    """1 to 64 rules, from words as the commands `select` and `filter` of the program have them (docs/FORMAT.md).

    >>> rules = Rules("drop,channel=1-5,class=60,method=40", "keep")
    >>> Rules("keep,class=060")
    Traceback (most recent call last):
    feksroum._rules.BadRule: 'keep,class=060' is no rule

    A frame is kept where there is a first rule that matches it, and it says keep.
    """

    def __init__(self, *words: str) -> None:
        if not 1 <= len(words) <= MOST_RULES:
            raise ValueError(f"1 to {MOST_RULES} rules are wanted, and {len(words)} were given")
        #: The words.
        self.words: Tuple[str, ...] = words
        self._rules = (FrameRule * len(words))(*map(_rule, words))

    def decide(self, frame: Frame) -> bool:
        """Whether the frame is kept."""
        return self.decide_head(instance("a frame", frame, Frame)._head)

    def decide_head(self, head: Head) -> bool:
        """The same of a frame by its head."""
        found = _decide(self._rules, len(self.words), head.type, head.channel, head.class_id, head.method_id)
        if found > 1:
            raise UnknownStatus(0, found)
        return bool(found)

    def __reduce__(self) -> Tuple[Any, ...]:
        return type(self), self.words

    def __eq__(self, other: object) -> bool:
        return isinstance(other, Rules) and self.words == other.words

    def __hash__(self) -> int:
        return hash(self.words)

    def __repr__(self) -> str:
        return f"Rules({', '.join(map(repr, self.words))})"


def _rule(word: str) -> FrameRule:
    """The numbers of a rule."""
    if not isinstance(word, str):
        raise TypeError(f"a rule is a str, and not {type(word).__name__}")
    octets = word.encode("utf-8", "surrogatepass")
    rule: FrameRule = SMALL.feksroum_rule(octets, len(octets))
    if rule.status == _BAD_ARGUMENT:
        raise BadRule(word)
    if rule.status:
        raise UnknownStatus(0, rule.status)
    return rule
