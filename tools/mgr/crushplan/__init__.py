"""The module crushplan of Ceph's manager."""
from .module import Module  # noqa: F401
