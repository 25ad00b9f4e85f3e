"""Bodies."""

from typing import Any


class ContentBody:
    """The payload of a body frame."""

    name = "ContentBody"

    def __init__(self, value: Any) -> None:
        self.value = value

    def __len__(self) -> int:
        return len(self.value) if self.value else 0

    def marshal(self) -> Any:
        """The payload."""
        return self.value

    def unmarshal(self, data: Any) -> None:
        """Takes the payload."""
        self.value = data
