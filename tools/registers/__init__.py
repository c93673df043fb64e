"""What a register has and what its next start needs, read by SQL while nobody has it open.

    content = read(path)                  # or NotRead
    content.deposits[0].rows, content.bytes
    memory.needed(content)                # the memory that the next start needs, in bytes"""
from .content import Content, Deposit, NotRead, read  # noqa: F401
from . import memory  # noqa: F401
