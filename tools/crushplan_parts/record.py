"""Classes whose members are fields by name. Python's dataclasses would do too, but import much of
its library first, which takes longer than reading a small cluster."""


class Record:
    """Is equal to another of its class whose fields are equal."""

    def __eq__(self, other):
        return vars(self) == vars(other) if type(self) is type(other) else NotImplemented

    __hash__ = None

    def __repr__(self):
        return f"{type(self).__name__}({', '.join(f'{name}={value!r}' for name, value in vars(self).items())})"

    def replaced(self, **changed):
        """Returns the same with some fields changed."""
        found = type(self).__new__(type(self))
        vars(found).update(vars(self))
        vars(found).update(changed)
        return found
